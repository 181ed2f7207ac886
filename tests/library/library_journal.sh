# Tests the calls on a device's journal. The test program, journal.c, runs twice: with sanitizers, to check
# memory accesses, and without them, to measure the stack.
tests=$(cd "$(dirname "$0")/.." && pwd -P)
. "$tests/common/cases.sh"
. "$tests/common/library.sh"
needs cc

compile plain journal "$archive"
"$room/plain"
# shellcheck disable=SC2086 # word splitting is intended
compile checked journal "$archive" $sanitizers
"$room/checked" | sed 's/, [^,]*STACK$//i' >"$room/told"
"$room/plain" | sed 's/, [^,]*STACK$//i' | cmp - "$room/told"
