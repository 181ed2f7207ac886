#!/bin/sh
# Plays random events on the Python model. After each event, compares the model's state with what the history of
# accepted events alone determines: each PCR, counter, authorization value, session and policy. Needs python3,
# and no program.
#
#   tools/soak/histories.sh 100000     100,000 events, from seed 1 on: half a minute
#   tools/soak/histories.sh 5000 7     5,000 events, from seed 7 on
#
# The last line counts the events. The status is 1 if anything differs.
set -u

is_number() {
    case $1 in
    '' | *[!0-9]*) return 1 ;;
    esac
}

if [ $# -lt 1 ] || [ $# -gt 2 ] || ! is_number "$1" || ! is_number "${2:-1}"; then
    sed -n '2,/^set/s/^# \{0,1\}//p' "$0" >&2
    exit 2
fi
top=$(CDPATH='' cd "$(dirname "$0")/../.." && pwd -P) || exit 1
exec "$top/tools/python.sh" "$top/tests/at_random/histories.py" "$@"
