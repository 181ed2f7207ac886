# Tests the contexts of objects and sessions: contexts of twelve children, of sixteen sessions, after
# TPM2_Clear, in another hierarchy, after power cycles, with each byte changed, and on a device without a free
# slot. library/contexts.py compares each response with that of the device in Python.
tests=$(cd "$(dirname "$0")/.." && pwd -P)
. "$tests/common/cases.sh"
. "$tests/common/library.sh"
needs python3

python3 "$sources/contexts.py" "$shared"
