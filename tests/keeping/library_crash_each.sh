# Simulates a crash of the system after each change that a host (a program or module that keeps a device) makes to
# the device's folder. See crash_each.py.
tests=$(cd "$(dirname "$0")/.." && pwd -P)
. "$tests/common/cases.sh"
. "$tests/common/library.sh"
. "$tests/common/keeping_hosts.sh"

against disk crash_each 1 2>"$room/said" || cat "$room/said"
