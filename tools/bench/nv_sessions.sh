#!/bin/sh
# Counts the device's instructions for TPM2_NV_Write, TPM2_NV_Read and TPM2_PCR_Extend, and how many of these
# instructions compute hashes. An HMAC session authorizes the commands. The session is unbound, or bound to the
# owner or to the index. Like commands.sh, it runs a short and a long script under callgrind, and subtracts the
# counts. Needs valgrind, python3, and rt if tpmsim is not built yet. Not part of the gate.
set -eu

top=$(CDPATH='' cd "$(dirname "$0")/../.." && pwd -P)
program=$(cd "$top" && . tools/lib/program.sh) || exit 1
folder=$(mktemp -d)
trap 'rm -rf "$folder"' EXIT

# Makes the C library clear and copy large blocks with vector instructions, like small blocks. By default it
# uses one repeated instruction, which callgrind counts once for each byte.
limits=glibc.cpu.x86_rep_stosb_threshold=1000000:glibc.cpu.x86_rep_movsb_threshold=1000000

# counts COMMAND BINDING COUNT: prints two counts of instructions: those of the device and, among these, those
# for hashing.
counts() {
    "$top/tools/python.sh" "$top/tools/bench/commands.py" session "$@" >"$folder/script"
    GLIBC_TUNABLES=$limits valgrind --tool=callgrind --callgrind-out-file="$folder/calls" \
        --toggle-collect='*Machine::execute_into*' \
        "$program" run "$folder/script" >"$folder/answers" 2>"$folder/log" || {
        cat "$folder/log" >&2
        exit 1
    }
    if grep -qv '^........[0-9a-f]*00000000' "$folder/answers"; then
        echo "$0: the program did not accept each command" >&2
        exit 1
    fi
    callgrind_annotate --threshold=100 "$folder/calls" | awk '
        { gsub(",", "", $1) }
        / PROGRAM TOTALS/ { device = $1 }
        /[:<](sha1|sha2|tpm_mac|tpm_aes)::/ { hashes += $1 }
        END { print device + 0, hashes + 0 }'
}

# measure COMMAND BINDING: prints both numbers of instructions for one command.
measure() {
    short=$(counts "$1" "$2" 100)
    long=$(counts "$1" "$2" 300)
    echo "$short $long" | awk -v name="$1, bound to $2" '{
        printf "%-24s %6d instructions of the device, %6d of them hashing\n",
            name ":", ($3 - $1) / 200 + 0.5, ($4 - $2) / 200 + 0.5
    }'
}

for binding in none owner index; do
    measure write "$binding"
    measure read "$binding"
done
measure extend none
measure extend owner
