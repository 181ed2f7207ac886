#!/bin/sh
# Measures `tpmsim run` with a short and a long script: commands per second, and the maximum resident memory.
# Needs GNU time, and rt if tpmsim is not built yet. Not part of the gate.
set -eu

top=$(CDPATH='' cd "$(dirname "$0")/../.." && pwd -P)
program=$(cd "$top" && . tools/lib/program.sh) || exit 1
folder=$(mktemp -d)
trap 'rm -rf "$folder"' EXIT

# runs: runs the script ten times, and prints for each run a line with the seconds and the resident kilobytes.
runs() {
    for _ in 1 2 3 4 5 6 7 8 9 10; do
        /usr/bin/time -f '%e %M' -o "$folder/figures" "$program" run "$folder/script" \
            >"$folder/answers"
        cat "$folder/figures"
    done
}

# measure LINES: measures a script of LINES lines. Prints the time of the fastest run and the maximum memory
# of all runs.
measure() {
    "$top/tools/bench/script.sh" "$1" >"$folder/script"
    runs >"$folder/runs"
    if [ "$(wc -l <"$folder/answers")" -ne $(($1 + 1)) ]; then
        echo "$0: the program did not answer each line" >&2
        exit 1
    fi
    awk -v lines="$1" '
        NR == 1 || $1 < least { least = $1 }
        $2 > most { most = $2 }
        END {
            printf "%d GetRandom lines: %.2f s, %d commands per second, %d kB resident\n",
                lines, least, lines / least, most
        }' "$folder/runs"
}

measure 200000
measure 1000000
