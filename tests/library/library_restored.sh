# Interrupts the calls of devices that save their state after each event. See library/restored.py.
tests=$(cd "$(dirname "$0")/.." && pwd -P)
. "$tests/common/cases.sh"
. "$tests/common/library.sh"
needs python3

python3 "$sources/restored.py" "$shared"
