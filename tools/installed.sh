#!/bin/sh
# Runs the installed program: bin/curlpool below any prefix, which may be moved, and may be called by a symbolic link.
set -eu
lib=$(dirname "$(dirname "$(readlink -f "$0")")")/lib/curlpool
. "$lib/launch.sh"
launch "$lib/curlpool" "$@"
