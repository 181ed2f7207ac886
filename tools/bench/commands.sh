#!/bin/sh
# Counts the instructions that a command spends on each part of its work, for twelve commands. It runs a short
# and a long script under callgrind and subtracts the counts, so that the start and the end of the program are
# not counted. Needs valgrind, python3, and rt if tpmsim is not built yet. Not part of the gate.
#
# The device's instructions are those of `Machine::execute_into` and of everything that it calls. The other
# instructions read the script and print the responses. Of the device's instructions, those in the hash crates,
# tpm_mac and tpm_aes count as hashing and ciphers. Those in the C library count as clearing and copying.
# Inlined code counts as part of the function into which it is inlined.
set -eu

top=$(CDPATH='' cd "$(dirname "$0")/../.." && pwd -P)
program=$(cd "$top" && . tools/lib/program.sh) || exit 1
folder=$(mktemp -d)
trap 'rm -rf "$folder"' EXIT

# Makes the C library clear and copy large blocks with vector instructions, like small blocks. By default it
# uses one repeated instruction, which callgrind counts once for each byte.
limits=glibc.cpu.x86_rep_stosb_threshold=1000000:glibc.cpu.x86_rep_movsb_threshold=1000000

# script COMMAND COUNT: prints a script that executes the command COUNT times.
script() {
    case $1 in
    PCR_Reset) "$top/tools/python.sh" "$top/tools/bench/commands.py" session reset owner "$2" ;;
    Create | Load | Unseal | HMAC) "$top/tools/python.sh" "$top/tools/bench/commands.py" object "$1" "$2" ;;
    *) "$top/tools/python.sh" "$top/tools/bench/commands.py" plain "$1" "$2" ;;
    esac
}

# run_under OPTION..: runs the script under callgrind, and prints the number of instructions that each
# function itself executed.
run_under() {
    GLIBC_TUNABLES=$limits valgrind --tool=callgrind --callgrind-out-file="$folder/calls" "$@" \
        "$program" run "$folder/script" >"$folder/answers" 2>"$folder/log" || {
        cat "$folder/log" >&2
        exit 1
    }
    callgrind_annotate --threshold=100 "$folder/calls"
}

# counts COMMAND COUNT: prints four counts of instructions: all instructions; those of the device; and, among
# the device's instructions, those for hashing and ciphers and those for clearing and copying.
counts() {
    script "$1" "$2" >"$folder/script"
    run_under >"$folder/all"
    if grep -qv '^........[0-9a-f]*00000000' "$folder/answers"; then
        echo "$0: the program did not accept each $1" >&2
        exit 1
    fi
    run_under --toggle-collect='*Machine::execute_into*' >"$folder/device"
    awk '
        { gsub(",", "", $1) }
        / PROGRAM TOTALS/ { total[FILENAME] = $1 }
        FILENAME == ARGV[2] && /mem(set|cpy|move)_/ { moved += $1; next }
        FILENAME == ARGV[2] && /[:<](sha1|sha2|tpm_mac|tpm_aes)::/ { hashes += $1 }
        END { print total[ARGV[1]] + 0, total[ARGV[2]] + 0, hashes + 0, moved + 0 }
    ' "$folder/all" "$folder/device"
}

echo 'command: all = text + hashing and ciphers + clearing and copying + what is left'
for command in GetRandom PCR_Read PCR_Extend NV_Read NV_Write PCR_Reset StartAuthSession PolicyPCR \
    Create Load Unseal HMAC; do
    short=$(counts "$command" 200)
    long=$(counts "$command" 600)
    echo "$short $long" | awk -v name="$command" '{
        all = ($5 - $1) / 400; device = ($6 - $2) / 400
        hashes = ($7 - $3) / 400; moved = ($8 - $4) / 400
        printf "%s: %d = %d + %d + %d + %d\n", name, all + 0.5, all - device + 0.5, hashes + 0.5,
            moved + 0.5, device - hashes - moved + 0.5
    }'
done
