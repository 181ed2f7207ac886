# Plays all scripts that have no faults with the library. The test program is linked with the archive, with
# the archive and sanitizers, and with the shared object. library/scripts.py describes what is compared, and
# how much stack the calls may use.
tests=$(cd "$(dirname "$0")/.." && pwd -P)
. "$tests/common/cases.sh"
. "$tests/common/library.sh"
needs cc python3

compile static play "$archive"
# shellcheck disable=SC2086 # word splitting is intended
compile sanitized play $sanitizers "$archive"
compile shared play "$shared" -Wl,-rpath,"$dist"
compile stack stack "$archive"

python3 "$sources/scripts.py" "$room/stack" "$room/static" "$room/sanitized" "$room/shared"
