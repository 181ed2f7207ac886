# Tests damaged journals: bytes are changed or cut off; records are removed, duplicated and swapped. See
# attached/damage.c.
tests=$(cd "$(dirname "$0")/.." && pwd -P)
. "$tests/common/cases.sh"
. "$tests/common/library.sh"
. "$tests/common/attached.sh"
needs python3

attach_both damage
extended 16 >"$room/values"
both damage "$room/values"
