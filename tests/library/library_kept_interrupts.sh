# Interrupts the calls of a device that Python keeps in a folder. See library/kept_interrupts.py.
tests=$(cd "$(dirname "$0")/.." && pwd -P)
. "$tests/common/cases.sh"
. "$tests/common/library.sh"
needs python3

python3 "$sources/kept_interrupts.py" "$shared"
