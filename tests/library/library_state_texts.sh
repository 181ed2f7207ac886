# Restores devices of the library from state texts at random moments. Compares them with a device that is
# never restored and with the device in Python.
tests=$(cd "$(dirname "$0")/.." && pwd -P)
. "$tests/common/cases.sh"
. "$tests/common/library.sh"
needs python3

TPMSIM_LIBRARY=$shared python3 "$tests/at_random/state_texts.py" 3000
