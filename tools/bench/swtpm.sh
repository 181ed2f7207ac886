#!/bin/sh
# Measures commands over the socket of swtpm, which runs in turn with its own libtpms and with tpmsim. Needs
# python3 and what hosts/build.sh needs. Not part of the gate.
#
#   tools/bench/swtpm.sh [STATES]    STATES is the folder of the states, /dev/shm by default
#
# All processes run on one processor. If other programs run on the machine, `chrt -f 10 tools/bench/swtpm.sh` gives
# the script priority.
#
# $ATTACHED is the folder of `hosts/build.sh libtpms`; if it is not set, the script makes one. $OTHERS may name
# folders of other versions of the library. The script measures these versions in the same run.
set -eu

top=$(CDPATH='' cd "$(dirname "$0")/../.." && pwd -P)
work=$(mktemp -d -p "${1:-/dev/shm}")
trap 'rm -rf "$work"' EXIT
attached=${ATTACHED:-$work/attached}
[ -n "${ATTACHED:-}" ] || "$top/hosts/build.sh" libtpms "$attached"
cd "$work"
# shellcheck disable=SC2086 # word splitting is intended
PYTHONDONTWRITEBYTECODE=1 python3 "$top/tools/bench/swtpm.py" "$attached" ${OTHERS:-}
