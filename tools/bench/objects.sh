#!/bin/sh
# Measures how many commands on objects are executed per second, with prepared buffers. Needs python3, GNU time,
# and rt if tpmsim is not built yet. Not part of the gate.
set -eu

top=$(CDPATH='' cd "$(dirname "$0")/../.." && pwd -P)
program=$(cd "$top" && . tools/lib/program.sh) || exit 1
folder=$(mktemp -d)
trap 'rm -rf "$folder"' EXIT

# Prints the minimum time of five runs of a script, in seconds.
least() {
    for _ in 1 2 3 4 5; do
        /usr/bin/time -f '%e' -o "$folder/time" "$program" run "$1" >"$folder/answers"
        cat "$folder/time"
    done | sort -n | head -n 1
}

for measured in CreatePrimary:20000 Create:2000 Load:2000 Unseal:100000 HMAC:10000; do
    command=${measured%:*}
    count=${measured#*:}
    "$top/tools/python.sh" "$top/tools/bench/commands.py" object "$command" 0 >"$folder/before"
    "$top/tools/python.sh" "$top/tools/bench/commands.py" object "$command" "$count" >"$folder/script"
    before=$(least "$folder/before")
    time=$(least "$folder/script")
    if grep '^80010000000a' "$folder/answers" | grep -qv '^80010000000a00000000$'; then
        echo "$0: the program refused a command" >&2
        exit 1
    fi
    echo "$command $count $before $time" | awk '{ s = $4 - $3; printf \
        "%d %s: %.2f s, %d commands per second\n", $2, $1, s, $2 / s }'
done
