# Checks which part of a damaged journal is cut off, and what is reported about it. See attached/cut.c.
tests=$(cd "$(dirname "$0")/.." && pwd -P)
. "$tests/common/cases.sh"
. "$tests/common/library.sh"
. "$tests/common/attached.sh"
needs python3

attach_both cut
extended 3002 >"$room/values"
both cut "$room/values"
