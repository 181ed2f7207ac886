# Tests the contexts of hash, HMAC and event sequences: a sequence continues after it was saved, flushed and loaded,
# even if more sequences are saved than there are slots. Also tests changed contexts, full slots and power cycles.
# library/saved_sequences.py compares each response with that of the device in Python, and each digest with that
# of hashlib.
tests=$(cd "$(dirname "$0")/.." && pwd -P)
. "$tests/common/cases.sh"
. "$tests/common/library.sh"
needs python3

python3 "$sources/saved_sequences.py" "$shared"
