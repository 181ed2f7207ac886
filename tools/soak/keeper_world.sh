#!/bin/sh
# Runs the compiled keeper with the folder and the crashes that the theorem on devices in folders defines, like
# tests/library/library_keeper_world.sh, but for more events. It is not part of the gate. Needs cc.
#
#   tools/soak/keeper_world.sh               a million events, with seed 1
#   tools/soak/keeper_world.sh 5000000 7     five million events, with seed 7
#
# It prints whether all responses and journals agreed with the history, the first response or journal that did
# not agree, and the number of events of each kind.
set -u

tests=$(CDPATH='' cd "$(dirname "$0")/../../tests" && pwd -P) || exit 1
events=${1:-1000000}
seed=${2:-1}
set -- "${TPMSIM_ARCHIVE:-$tests/../dist/libtpmsim.a}"
. "$tests/common/cases.sh"
. "$tests/common/library.sh"
needs cc

compile world keeper_world "$archive" -Wl,--wrap=malloc -Wl,--wrap=realloc -O2
"$room/world" "$events" "$seed" 2>&1
