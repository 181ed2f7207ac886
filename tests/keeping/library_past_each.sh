# Repeats a power cycle that keeps finished journals, and makes a different call fail each time. See
# past_each.py.
tests=$(cd "$(dirname "$0")/.." && pwd -P)
. "$tests/common/cases.sh"
. "$tests/common/library.sh"
. "$tests/common/keeping_hosts.sh"

against failing past_each 2>"$room/said" || cat "$room/said"
