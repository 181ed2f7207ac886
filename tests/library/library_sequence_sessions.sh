# Tests HMAC sessions that authorize commands on sequences: unbound and bound sessions, empty, wrong and repeated
# HMACs, ended and missing sessions, attributes, lockout, PCRs, nonces, and the order of refusals.
# library/sequence_sessions.py compares each response with that of the device in Python. The HMACs of all sessions
# are computed with hashlib and hmac alone.
tests=$(cd "$(dirname "$0")/.." && pwd -P)
. "$tests/common/cases.sh"
. "$tests/common/library.sh"
needs python3

python3 "$sources/sequence_sessions.py" "$shared"
