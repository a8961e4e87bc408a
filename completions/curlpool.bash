# bash completion of curlpool: source this file. Made by tools/options.
_curlpool() {
    local word=${COMP_WORDS[COMP_CWORD]} command=${COMP_WORDS[1]}
    local options
    if [ "$COMP_CWORD" -eq 1 ]; then
        options="get load script audit help --help --version"
    else
        case $command in
            get)
                options="--head --max-age --timeout --file --parallel --host-limit --total --max-life --resolve"
                options="$options --fresh --skip-bad --fail --json -P --help"
                ;;
            load)
                options="--sites --jobs --workers --host-limit --total --connects --trace --picture --url --resolve"
                options="$options --connections --seconds --warmup --rate --timeout --fail-above --head --forbid-reuse"
                options="$options --fail --json --quiet --no-progress -n -t -c -d -R --help"
                ;;
            script)
                options="--trace --picture --help"
                ;;
            audit)
                options="--all --json --state --help"
                ;;
            help) options="get load script audit" ;;
        esac
    fi
    case "$command ${COMP_WORDS[COMP_CWORD - 1]}" in
        "get --file" | "load --trace" | "load --picture" | "script --picture")
            compopt -o filenames 2>/dev/null
            mapfile -t COMPREPLY < <(compgen -f -- "$word")
            return
            ;;
        "get --max-age" | "get --timeout" | "get --parallel" | "get -P" | "get --host-limit" | "get --total" \
            | "get --max-life" | "get --resolve" | "load --sites" | "load --jobs" | "load -n" | "load --workers" \
            | "load -t" | "load --host-limit" | "load --total" | "load --connects" | "load --url" | \
            "load --resolve" | "load --connections" | "load -c" | "load --seconds" | "load -d" | "load --warmup" \
            | "load --rate" | "load -R" | "load --timeout" | "load --fail-above")
            COMPREPLY=()
            return
            ;;
    esac
    case $command in
        script | audit)
            if [ "$COMP_CWORD" -gt 1 ] && [ "${word#-}" = "$word" ]; then
                compopt -o filenames 2>/dev/null
                mapfile -t COMPREPLY < <(compgen -f -- "$word")
                return
            fi
            ;;
    esac
    mapfile -t COMPREPLY < <(compgen -W "$options" -- "$word")
}
complete -F _curlpool curlpool ./curlpool
