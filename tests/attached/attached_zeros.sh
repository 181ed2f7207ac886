# Tests journals with zeros at the end, which a crash of the host can leave. See attached/zeros.c.
tests=$(cd "$(dirname "$0")/.." && pwd -P)
. "$tests/common/cases.sh"
. "$tests/common/library.sh"
. "$tests/common/attached.sh"
needs python3

attach_both zeros
extended 4 >"$room/values"
both zeros "$room/values"
