# Checks that a device's journal is restarted after it has grown, with and without the option keep=N. See
# attached/grown.c.
tests=$(cd "$(dirname "$0")/.." && pwd -P)
. "$tests/common/cases.sh"
. "$tests/common/library.sh"
. "$tests/common/attached.sh"
needs python3

attach_both grown
extended 4000 >"$room/values"
both grown "$room/values"
