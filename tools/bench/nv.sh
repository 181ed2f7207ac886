#!/bin/sh
# Counts the instructions that TPM2_NV_Read, TPM2_NV_Write and TPM2_NV_Increment execute with 1, 32 and 64 NV
# indices. It runs a short and a long script under callgrind and subtracts the counts, so that the start and
# the end of the program are not counted. Needs valgrind, python3, and rt if tpmsim is not built yet. Not part
# of the gate.
#
# The device's instructions are those of `Machine::execute_into` and of everything that it calls. The other
# instructions read the script and print the responses.
set -eu

top=$(CDPATH='' cd "$(dirname "$0")/../.." && pwd -P)
program=$(cd "$top" && . tools/lib/program.sh) || exit 1
folder=$(mktemp -d)
trap 'rm -rf "$folder"' EXIT

# Makes the C library clear and copy large blocks with vector instructions, like small blocks. By default it
# uses one repeated instruction, which callgrind counts once for each byte.
limits=glibc.cpu.x86_rep_stosb_threshold=1000000:glibc.cpu.x86_rep_movsb_threshold=1000000

# counts COMMAND SIZE INDICES LINES: runs a script with LINES commands of this kind, and prints two counts of
# instructions: all, and those of `Machine::execute_into` with everything that it calls.
counts() {
    "$top/tools/python.sh" "$top/tools/bench/commands.py" nv "$@" >"$folder/script"
    GLIBC_TUNABLES=$limits valgrind --tool=callgrind --callgrind-out-file="$folder/calls" \
        "$program" run "$folder/script" >"$folder/answers" 2>"$folder/log" || {
        cat "$folder/log" >&2
        exit 1
    }
    if grep -qv '^........[0-9a-f]*00000000' "$folder/answers"; then
        echo "$0: the program did not accept each command" >&2
        exit 1
    fi
    callgrind_annotate --threshold=100 --inclusive=yes "$folder/calls" | awk '
        { gsub(",", "", $1) }
        / PROGRAM TOTALS/ { all = $1 }
        /:tpm_machine::machine::Machine::execute_into[ :]/ && !/ > / && !device { device = $1 }
        END { print all + 0, device + 0 }'
}

# measure COMMAND SIZE INDICES NAME: prints the number of instructions that one command executes.
measure() {
    short=$(counts "$1" "$2" "$3" 500)
    long=$(counts "$1" "$2" "$3" 1500)
    echo "$short $long" | awk -v name="$4" -v indices="$3" '{
        printf "%-26s of %2d: %6d instructions, %5d of them the device'"'"'s\n",
            name, indices, ($3 - $1) / 1000 + 0.5, ($4 - $2) / 1000 + 0.5
    }'
}

for indices in 1 32 64; do
    measure read 64 "$indices" "NV_Read of 64 bytes"
    measure read 1024 "$indices" "NV_Read of 1,024 bytes"
    measure write 64 "$indices" "NV_Write of 64 bytes"
    measure write 1024 "$indices" "NV_Write of 1,024 bytes"
    measure increment 8 "$indices" "NV_Increment"
done
