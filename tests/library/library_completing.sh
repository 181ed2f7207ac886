# Tests the completing layer of a device that has a journal, with and without sanitizers. See completing.c.
tests=$(cd "$(dirname "$0")/.." && pwd -P)
. "$tests/common/cases.sh"
. "$tests/common/library.sh"
needs cc

compile plain completing "$archive"
"$room/plain"
# shellcheck disable=SC2086 # word splitting is intended
compile checked completing "$archive" $sanitizers
"$room/checked" >"$room/told"
"$room/plain" | cmp - "$room/told"
