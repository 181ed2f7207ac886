#!/bin/sh
# Stress-tests all programs and modules that keep a device in a folder (hosts). First each call of each host fails
# in turn, in some 13,000 runs; tests/keeping/library_each_call.sh makes every tenth of these runs. Then the system
# crashes after each change to a folder. Finally hosts of each kind use one device at the same time, while they are
# killed and interrupted, and fork. It is not part of the gate. Needs cc, libtss2-dev and python3.
#
#   tools/soak/kept_hosts.sh             all calls, and ten minutes of processes
#   tools/soak/kept_hosts.sh 60 7        all calls, and one minute of processes, with seed 7
#   tools/soak/kept_hosts.sh 60 7 1      the same; with 10 instead of 1, only every tenth call
#
# At the end it prints the counts of the trials. If something was wrong, it prints a description, and the status
# is 1.
set -u

tests=$(CDPATH='' cd "$(dirname "$0")/../../tests" && pwd -P) || exit 1
seconds=${1:-600}
seed=${2:-1}
share=${3:-1}
set -- "${TPMSIM_ARCHIVE:-$tests/../dist/libtpmsim.a}"
. "$tests/common/cases.sh"
. "$tests/common/library.sh"
. "$tests/common/keeping_hosts.sh"

status=0
against failing each_call "$share" 2>&1 || status=1
against failing damage_each "$share" 2>&1 || status=1
against disk crash_each 1 2>&1 || status=1
for processes in 6 40; do
    for more in 0 1; do
        against failing all_at_once "$((seconds / 4))" "$processes" "$((seed + more))" 2>&1 || status=1
    done
done
exit "$status"
