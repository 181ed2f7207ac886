#!/bin/sh
# Measures a device in a folder in the way in which tpm2-tools use it, and prints a table: the cost of one tool
# that uses the module for libtss2, of a command in a long-running process, and of opening the device after few
# and after many commands. If other programs run on the machine, processor time and instructions vary less than
# elapsed time. Needs python3, valgrind, a C compiler, Debian's tpm2-tools and libtss2-dev, and what
# hosts/build.sh needs. DISK is a folder on a disk, /var/tmp by default. Not part of the gate.
#
#   tools/bench/kept.sh [ROUNDS]
set -eu

top=$(CDPATH='' cd "$(dirname "$0")/../.." && pwd -P)
folder=$(mktemp -d)
trap 'rm -rf "$folder"' EXIT
"$top/hosts/build.sh" tcti "$folder"
cc -std=c11 -O2 -Wall -Wextra -Werror -o "$folder/client" "$top/tools/bench/attached.c" -ltss2-tctildr
"$top/tools/python.sh" "$top/tools/bench/kept.py" "$folder/libtss2-tcti-tpmsim.so.0" \
    "$folder/client" "${DISK:-/var/tmp}" "$@"
