# Makes each system call that accesses a device in a folder fail in turn. See attached/calls.c.
tests=$(cd "$(dirname "$0")/.." && pwd -P)
. "$tests/common/cases.sh"
. "$tests/common/library.sh"
. "$tests/common/attached.sh"
needs python3

# shellcheck disable=SC2086 # word splitting is intended
attach_both calls $wrapped_calls
extended 16 >"$room/values"
python3 -c '
import sys
from tpmsim.model import image, machine
sys.stdout.buffer.write(image.image(machine.Model()))
' >"$room/image"
both calls "$room/values" "$room/image"
