# Tests a device that is kept in a folder: on a full disk, and in a process without free file descriptors. See
# attached/limits.c.
tests=$(cd "$(dirname "$0")/.." && pwd -P)
. "$tests/common/cases.sh"
. "$tests/common/library.sh"
. "$tests/common/attached.sh"
needs python3

attach_both limits
extended 16 >"$room/values"
both limits "$room/values"
