#!/bin/sh
# Stress-tests devices in folders with the C host in hosts/kept: processes are killed before a system call,
# system calls fail, and processes fork. Now and then the host crashes: the disk then contains the synced data,
# and a random part of the other data. With force=always no answered command may be lost. With force=power no
# power cycle may be lost. It is not part of the gate, but tests/attached/attached_crashes.sh, a shorter
# version, is. Needs cc and python3.
#
#   tools/soak/attached.sh             ten minutes, with seed 1
#   tools/soak/attached.sh 60 7        one minute, with seed 7
#
# At the end it prints the counts of the trials. If anything was lost, it prints a description, and the status
# is 1.
set -u

tests=$(CDPATH='' cd "$(dirname "$0")/../../tests" && pwd -P) || exit 1
seconds=${1:-600}
seed=${2:-1}
set -- "${TPMSIM_ARCHIVE:-$tests/../dist/libtpmsim.a}"
. "$tests/../tools/lib/memory.sh"
if [ -z "${TMPDIR:-}" ] && TMPDIR=$(folder_in_memory 1 2>&1); then
    export TMPDIR
    in_memory=$TMPDIR
fi
. "$tests/common/cases.sh"
trap 'rm -rf "$room" ${in_memory:+"$in_memory"}' EXIT
. "$tests/common/library.sh"
. "$tests/common/attached.sh"
needs cc python3

# shellcheck disable=SC2086 # word splitting is intended
attach crashes crashes $wrapped_calls
extended 4000 >"$room/values"
"$room/crashes" "$room/values" "$seconds" "$seed" 2>&1
