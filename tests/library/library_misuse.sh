# Tests each misuse of the library that has a defined result, with and without sanitizers. The test program,
# library/misuse.c, needs an image with a correct digest and an invalid body, which this script makes.
tests=$(cd "$(dirname "$0")/.." && pwd -P)
. "$tests/common/cases.sh"
. "$tests/common/library.sh"
needs cc python3

wrap='-Wl,--wrap=malloc -Wl,--wrap=realloc'
# shellcheck disable=SC2086 # word splitting is intended
{
    compile misuse misuse $wrap "$archive"
    compile sanitized misuse $sanitizers $wrap "$archive"
}
python3 -c '
import sys
from tpmsim.model import image, machine
sys.stdout.buffer.write(image.image(machine.Model()))
' >image
python3 "$tests/common/damage.py" image body >wrong_body

for caller in misuse sanitized; do
    "$room/$caller" wrong_body >"$caller" 2>&1
    echo "status $?" >>"$caller"
done
cat misuse
cmp misuse sanitized && echo 'the same beside sanitizers'
