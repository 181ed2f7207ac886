#!/bin/sh
# Measures script lines with GetRandom commands in words, and with the same commands in hex: the time for a
# million lines of each kind, as the fastest of ten alternating runs; the instructions per line; and the number
# of allocations, which must not grow with the script. Needs GNU time, valgrind, and rt if tpmsim is not built
# yet. Not part of the gate.
set -eu

top=$(CDPATH='' cd "$(dirname "$0")/../.." && pwd -P)
program=$(cd "$top" && . tools/lib/program.sh) || exit 1
folder=$(mktemp -d)
trap 'rm -rf "$folder"' EXIT

# seconds KIND: prints the time of one run of the script with lines of this kind.
seconds() {
    /usr/bin/time -f '%e' -o "$folder/figure" "$program" run "$folder/$1" >"$folder/answers.$1"
    cat "$folder/figure"
}

# instructions KIND LINES: prints the number of instructions that the program executes for a script of LINES
# lines.
instructions() {
    "$top/tools/bench/script.sh" "$2" "$1" >"$folder/script"
    valgrind --tool=callgrind --callgrind-out-file=/dev/null \
        "$program" run "$folder/script" 2>&1 >/dev/null | sed -n 's/.*Collected : \([0-9]*\).*/\1/p'
}

# allocations KIND LINES: prints the number of allocations that the program makes for a script of LINES lines.
allocations() {
    "$top/tools/bench/script.sh" "$2" "$1" >"$folder/script"
    valgrind "$program" run "$folder/script" 2>&1 >/dev/null |
        sed -n 's/.*total heap usage: \([0-9,]*\) allocs.*/\1/p'
}

for kind in cmd 'do'; do
    "$top/tools/bench/script.sh" 1000000 "$kind" >"$folder/$kind"
    : >"$folder/seconds.$kind"
done
for _ in 1 2 3 4 5 6 7 8 9 10; do
    for kind in cmd 'do'; do
        seconds "$kind" >>"$folder/seconds.$kind"
    done
done
cmp "$folder/answers.cmd" "$folder/answers.do"

for kind in cmd 'do'; do
    least=$(sort -n "$folder/seconds.$kind" | head -n 1)
    each=$((($(instructions "$kind" 3000) - $(instructions "$kind" 1000)) / 2000))
    echo "$kind: $least s for 1,000,000 GetRandom lines, $each instructions a line," \
        "$(allocations "$kind" 10) allocations of 10 lines, $(allocations "$kind" 1000) of 1,000"
done
