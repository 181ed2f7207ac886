#!/bin/sh
# Compares a device in a folder, used through the module for libtss2, with swtpm on a socket: whole runs of
# tpm2-tools, and commands in one long-running process, both with each value of the device's option `force`.
# Also measures the time to open a long journal. Needs python3, a C compiler, Debian's tpm2-tools, libtss2-dev,
# swtpm and swtpm-tools, and the requirements of hosts/build.sh. DISK is a folder on a disk, /var/tmp by
# default. Not part of the gate.
#
#   tools/bench/attached.sh [ROUNDS]
set -eu

top=$(CDPATH='' cd "$(dirname "$0")/../.." && pwd -P)
folder=$(mktemp -d)
trap 'rm -rf "$folder"' EXIT
"$top/hosts/build.sh" tcti "$folder"
cc -std=c11 -O2 -Wall -Wextra -Werror -o "$folder/client" "$top/tools/bench/attached.c" -ltss2-tctildr
"$top/tools/python.sh" "$top/tools/bench/attached.py" "$folder/libtss2-tcti-tpmsim.so.0" \
    "$folder/client" "${DISK:-/var/tmp}" "$@"
