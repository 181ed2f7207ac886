# Kills a process that uses a device with force=always, before each of its system calls in turn. Then the host
# crashes, and its disk contains only what was synced. See attached/crashes.c.
tests=$(cd "$(dirname "$0")/.." && pwd -P)
. "$tests/common/cases.sh"
. "$tests/common/library.sh"
. "$tests/common/attached.sh"
needs python3

# shellcheck disable=SC2086 # word splitting is intended
attach crashes crashes $wrapped_calls
extended 8 >"$room/values"
"$room/crashes" "$room/values"
echo "status $?"
