# Starts a program curlpool: launch PROGRAM WORD.. For ./curlpool and for an installed bin/curlpool, which source this.

# Runs a load. The program's descriptor 3, as CURLPOOL_INTERRUPT says, is a pipe whose other end the first Ctrl-C
# closes, so that the load ends with all its output. A second Ctrl-C ends the program at once, and so does the first if
# there is no room for the pipe.
load() {
    room=$(mktemp -d 2>/dev/null) && mkfifo "$room/pipe" 2>/dev/null || exec "$program" "$@"
    if (exec 6<&0) 2>/dev/null; then exec 6<&0; else exec 6</dev/null; fi
    exec 4<>"$room/pipe" 3<"$room/pipe" 5>"$room/pipe"
    exec 4>&-
    rm -r "$room"
    (trap '' INT && CURLPOOL_INTERRUPT=3 exec "$program" "$@" <&6 5>&- 6<&-) &
    child=$!
    exec 3<&-
    trap 'exec 5>&-; trap "kill $child" INT' INT
    status=0
    wait "$child" || status=$?
    while kill -0 "$child" 2>&-; do
        status=0
        wait "$child" || status=$?
    done
    return "$status"
}
# Runs the program with these words, in place of this shell unless it is a load.
launch() {
    program=$1
    shift
    if [ "${1-}" = load ]; then
        load "$@"
    else
        exec "$program" "$@"
    fi
}
