#!/bin/sh
# Measures how many TPM2_PCR_Reset commands with an HMAC session are executed per second, with prepared buffers.
# Needs python3, GNU time, and rt if tpmsim is not built yet. Not part of the gate.
set -eu

top=$(CDPATH='' cd "$(dirname "$0")/../.." && pwd -P)
program=$(cd "$top" && . tools/lib/program.sh) || exit 1
folder=$(mktemp -d)
trap 'rm -rf "$folder"' EXIT

"$top/tools/python.sh" "$top/tools/bench/commands.py" session reset owner 100000 >"$folder/script"
for _ in 1 2 3 4 5 6 7 8 9 10; do
    /usr/bin/time -f '%e' -o "$folder/time" "$program" run "$folder/script" >"$folder/answers"
    cat "$folder/time"
done | sort -n | head -n 1 >"$folder/least"
if [ "$(grep -c '^80020000' "$folder/answers")" -ne 100000 ]; then
    echo "$0: the program did not accept each command" >&2
    exit 1
fi
awk '{ printf "100000 TPM2_PCR_Reset by an HMAC session: %.2f s, %d commands per second\n",
    $1, 100000 / $1 }' "$folder/least"
