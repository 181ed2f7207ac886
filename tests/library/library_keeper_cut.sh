# Tests what a keeper reports about a command, and what it does with a damaged journal. The test program,
# keeper_cut.c, runs without sanitizers and with them.
tests=$(cd "$(dirname "$0")/.." && pwd -P)
. "$tests/common/cases.sh"
. "$tests/common/library.sh"
needs cc

compile plain keeper_cut "$archive"
# shellcheck disable=SC2086 # word splitting is intended
compile checked keeper_cut "$archive" $sanitizers
for caller in plain checked; do
    "$room/$caller" >"$room/$caller.told" || exit 1
done
cat "$room/plain.told"
cmp "$room/plain.told" "$room/checked.told" && echo 'the same beside sanitizers'
