#!/bin/sh
# Prints the number of instructions that `tpmsim run` executes for a command, and the shares of the device and
# of the script's text. The text's share is for reading lines, decoding hex and printing. The commands are
# GetRandom lines. Runs a short and a long script under callgrind and subtracts the counts, so that the start
# and the end of the program are not counted. Needs valgrind, and rt if tpmsim is not built yet. Not part of the
# gate.
#
# The device's instructions are those of `Machine::execute_into` and of everything that it calls. All other
# instructions are for the text.
set -eu

top=$(CDPATH='' cd "$(dirname "$0")/../.." && pwd -P)
program=$(cd "$top" && . tools/lib/program.sh) || exit 1
folder=$(mktemp -d)
trap 'rm -rf "$folder"' EXIT

# Makes the C library clear and copy large blocks with vector instructions, like small blocks. By default it
# uses one repeated instruction, which callgrind counts once for each byte.
limits=glibc.cpu.x86_rep_stosb_threshold=1000000:glibc.cpu.x86_rep_movsb_threshold=1000000

# counts LINES: runs a script of LINES lines, and prints three instruction counts: the total; that of the
# device, which is `Machine::execute_into` with everything that it calls; and that of the device's clearing and
# copying of memory.
counts() {
    "$top/tools/bench/script.sh" "$1" >"$folder/script"
    GLIBC_TUNABLES=$limits valgrind --tool=callgrind --callgrind-out-file="$folder/calls" \
        "$program" run "$folder/script" >"$folder/answers" 2>"$folder/log" || {
        cat "$folder/log" >&2
        exit 1
    }
    callgrind_annotate --threshold=100 --inclusive=yes "$folder/calls" >"$folder/inclusive"
    callgrind_annotate --threshold=100 --tree=calling "$folder/calls" >"$folder/tree"
    cat "$folder/inclusive" "$folder/tree" | awk '
        { gsub(",", "", $1) }
        / PROGRAM TOTALS/ { all = $1 }
        /:tpm_machine::machine::Machine::execute_into[ :]/ && !/ > / && !device { device = $1 }
        / \* / { caller = $0 }
        / > / && /:[a-z_]*mem(set|cpy|move)_/ && caller ~ /Machine::execute_into[ :]/ { moved += $1 }
        END { print all + 0, device + 0, moved + 0 }'
}

short=$(counts 2000)
long=$(counts 6000)
echo "$short $long" | awk -v name="$0" '
    function say(part, count) {
        printf "%-31s %5d instructions, %3d %%\n", part, count + 0.5, 100 * count / all + 0.5
    }
    {
        all = ($4 - $1) / 4000
        device = ($5 - $2) / 4000
        moved = ($6 - $3) / 4000
        if (device == 0) {
            print name ": no call of Machine::execute_into" > "/dev/stderr"
            exit 1
        }
        say("each GetRandom line", all)
        say("Machine::execute_into", device)
        say("of it clearing and copying", moved)
        say("the text, which is the rest", all - device)
    }'
