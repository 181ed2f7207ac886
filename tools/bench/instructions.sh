#!/bin/sh
# Counts the instructions for the eleven measurements of in_process.sh, with the library and with libtpms.
# Prints each count with and without the instructions for digests and ciphers. Needs valgrind, python3, a C
# compiler, Debian's libtpms-dev and libssl-dev, and the library in dist/. in_process.c contains the devices,
# and instructions.py evaluates the counts. Not part of the gate.
set -eu

top=$(CDPATH='' cd "$(dirname "$0")/../.." && pwd -P)
dist=${DIST:-$top/dist}
folder=$(mktemp -d)
trap 'rm -rf "$folder"' EXIT

# Makes the C library clear and copy large blocks with vector instructions, like small blocks. By default it
# uses one repeated instruction, which callgrind counts once for each byte.
export GLIBC_TUNABLES=glibc.cpu.x86_rep_stosb_threshold=1000000:glibc.cpu.x86_rep_movsb_threshold=1000000

# -fno-inline ensures that callgrind sees the calls of `execute`.
cc -std=c11 -O2 -fno-inline -Wall -Wextra -Werror -I"$dist" -o "$folder/in_process" "$top/tools/bench/in_process.c" \
    "$dist/libtpmsim.a" -ltpms -lcrypto
"$top/tools/python.sh" "$top/tools/bench/instructions.py" "$folder/in_process" "$folder"
