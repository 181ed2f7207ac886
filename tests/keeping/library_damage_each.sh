# Repeats a power cycle with --cut on a device with a damaged journal, and makes a different call fail each
# time. damage_each.py executes every fifth of these runs.
tests=$(cd "$(dirname "$0")/.." && pwd -P)
. "$tests/common/cases.sh"
. "$tests/common/library.sh"
. "$tests/common/keeping_hosts.sh"

against failing damage_each 5 2>"$room/said" || cat "$room/said"
