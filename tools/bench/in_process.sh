#!/bin/sh
# Compares the library with libtpms, both in one process: eleven measurements of commands, with their ratios; the
# time to save and open an image, to make a device and to cycle its power; and the stack and memory that the
# calls use. Needs python3, a C compiler, Debian's libtpms-dev and libssl-dev, and the library in dist/.
# in_process.c contains the devices, and in_process.py takes the measurements. Not part of the gate.
#
#   tools/bench/in_process.sh [ROUNDS]
set -eu

top=$(CDPATH='' cd "$(dirname "$0")/../.." && pwd -P)
dist=${DIST:-$top/dist}
folder=$(mktemp -d)
trap 'rm -rf "$folder"' EXIT

# compile CALLER SOURCE WORDS..: compiles a program and links it with the static library.
compile() {
    caller=$folder/$1
    source=$2
    shift 2
    cc -std=c11 -O2 -Wall -Wextra -Werror -I"$dist" -o "$caller" "$source" "$dist/libtpmsim.a" "$@"
}

compile in_process "$top/tools/bench/in_process.c" -ltpms -lcrypto
compile stack "$top/tests/library/stack.c"
compile devices "$top/tests/library/devices.c"

"$top/tools/python.sh" "$top/tools/bench/in_process.py" "$folder/in_process" "$@"
"$top/tools/python.sh" "$top/tests/library/scripts.py" --figures "$folder/stack"
"$folder/devices" 1000 figures
wc -c "$dist/libtpmsim.a" "$dist/libtpmsim.so.0"
