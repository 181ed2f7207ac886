# Tests the calls on a device's keeper, with a folder in memory and with one in the file system. The test
# program, keeper.c, runs without sanitizers and with them.
tests=$(cd "$(dirname "$0")/.." && pwd -P)
. "$tests/common/cases.sh"
. "$tests/common/library.sh"
needs cc

compile plain keeper "$archive"
# shellcheck disable=SC2086 # word splitting is intended
compile checked keeper "$archive" $sanitizers
for caller in plain checked; do
    mkdir "$room/$caller.files"
    "$room/$caller" "$room/$caller.files" >"$room/$caller.told" || exit 1
done
cat "$room/plain.told"
cmp "$room/plain.told" "$room/checked.told" && echo 'the same beside sanitizers'
