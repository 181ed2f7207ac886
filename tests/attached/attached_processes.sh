# Uses one device in several processes at once. See attached/processes.c.
tests=$(cd "$(dirname "$0")/.." && pwd -P)
. "$tests/common/cases.sh"
. "$tests/common/library.sh"
. "$tests/common/attached.sh"
needs python3

attach_both processes
extended 9000 >"$room/values"
both processes "$room/values"
