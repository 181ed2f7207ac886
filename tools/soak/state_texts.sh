#!/bin/sh
# Plays random events on devices of the library and on the Python device. After some of the events both
# continue from the same state text. It compares their responses and state texts, byte for byte, with those of
# a device that is never restored. Needs python3, and the library in dist/, or the one that TPMSIM_LIBRARY
# names.
#
#   tools/soak/state_texts.sh 100000   100,000 events, from seed 1 on: a minute or two
#   tools/soak/state_texts.sh 5000 7   5,000 events, from seed 7 on
#
# The last line counts the events. The status is 1 if anything differs.
set -u

is_number() {
    case $1 in
    '' | *[!0-9]*) return 1 ;;
    esac
}

if [ $# -lt 1 ] || [ $# -gt 2 ] || ! is_number "$1" || ! is_number "${2:-1}"; then
    sed -n '2,/^set/s/^# \{0,1\}//p' "$0" >&2
    exit 2
fi
top=$(CDPATH='' cd "$(dirname "$0")/../.." && pwd -P) || exit 1
exec "$top/tools/python.sh" "$top/tests/at_random/state_texts.py" "$@"
