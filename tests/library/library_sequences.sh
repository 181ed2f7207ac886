# Tests hash, HMAC and event sequences: digests, HMACs and tickets, PCRs, passwords, slots, malformed commands,
# power cycles, and state texts in the middle of a sequence. library/sequences.py compares each response with
# that of the device in Python, and each digest with that of hashlib.
tests=$(cd "$(dirname "$0")/.." && pwd -P)
. "$tests/common/cases.sh"
. "$tests/common/library.sh"
needs python3

python3 "$sources/sequences.py" "$shared"
