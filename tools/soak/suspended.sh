#!/bin/sh
# Plays random commands on devices of libtpms.so.0 that are suspended and resumed, and on devices that are never
# suspended. There is one script for each seed, by default with 1,000 commands. Needs python3, cc and libtpms-dev.
# Not part of the gate.
#
#   tools/soak/suspended.sh            the seeds 1 to 50
#   tools/soak/suspended.sh 7          the seed 7
#   tools/soak/suspended.sh 1 100 500  the seeds 1 to 100, 500 commands each
set -eu

top=$(CDPATH='' cd "$(dirname "$0")/../.." && pwd -P)
. "$top/tools/lib/memory.sh"
folder=$(folder_in_memory 1) || folder=$(mktemp -d)
trap 'rm -rf "$folder"' EXIT
"$top/hosts/build.sh" libtpms "$folder/swtpm"
cc -std=c11 -D_GNU_SOURCE -O1 -o "$folder/caller" "$top"/tests/swtpm/*.c
cc -O1 -shared -fPIC -o "$folder/host.so" "$top/tests/common/host.c"
TMPDIR=$folder "$top/tools/python.sh" "$top/tests/swtpm/suspended.py" "$folder/caller" \
    "$folder/swtpm/libtpms.so.0" "$folder/host.so" "${1:-1}" "${2:-${1:-50}}" "${3:-1000}"
