#!/bin/sh
# rt_ci.sh [WORDS..]: runs `rt ci` in the current folder, with one proof on each processor at a time. By
# default, `rt ci` lets a proof also use the processors that no other proof needs, but then the proof takes up
# to 50 % more processor time. That default is used if there are less than 3 GB of memory for each proof. A
# proof does not return memory to the system, because returning and allocating it again costs a twentieth of the
# time. `rt ci` writes thousands of files. They are in memory if there is enough for them too, or in TMPDIR if
# that is set.
set -u
. "$(dirname "$0")/memory.sh"
number=$(nproc)
if [ "$(gigabytes_free)" -ge $((3 * number)) ]; then
    export RT_JOBS="${RT_JOBS:-$number}" MIMALLOC_PURGE_DELAY="${MIMALLOC_PURGE_DELAY:--1}"
fi
files=
[ -n "${TMPDIR:-}" ] || files=$(folder_for_proofs "$number" 2>&1) || files=
if [ -n "$files" ]; then
    trap 'rm -rf "$files"' EXIT
    trap 'exit 1' HUP INT TERM
    export TMPDIR="$files"
fi
rt ci "$@"
