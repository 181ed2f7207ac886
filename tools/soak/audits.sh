#!/bin/sh
# Checks logs with tools/audit.py. A log is the program's output for a script of tests/ or examples/, or for a
# random script of 400 commands. The log of each random script is checked twice more: from a power cycle on,
# with the device's image; and with altered lines. Needs python3.
#
#   tools/soak/audits.sh 1000     1,000 random scripts, from seed 1 on: about six minutes
#   tools/soak/audits.sh 50 7     50 random scripts, from seed 7 on
#   tools/soak/audits.sh 0        only the scripts of tests/ and examples/
#
# It runs PROGRAM, or the one that tools/lib/program.sh names. If the audit finds a fault in the log of a random
# script, the script is kept, and its path is printed. The last line counts logs and events. The status is 1 if
# a fault is found.
set -u

is_number() {
    case $1 in
    '' | *[!0-9]*) return 1 ;;
    esac
}

if [ $# -lt 1 ] || [ $# -gt 2 ] || ! is_number "$1" || ! is_number "${2:-1}"; then
    sed -n '2,/^set/s/^# \{0,1\}//p' "$0" >&2
    exit 2
fi
top=$(CDPATH='' cd "$(dirname "$0")/../.." && pwd -P) || exit 1
program=${PROGRAM:-$(cd "$top" && . tools/lib/program.sh)} || exit 1
program=$(cd "$(dirname "$program")" && pwd -P)/$(basename "$program") || exit 1
exec "$top/tools/python.sh" "$top/tests/python/sweep.py" "$program" "$@"
