# Tests the state texts of the device in Python. After each command, a script continues on the device that the
# state text decodes to. One hand-made text checks the order of the fields. Bytes that are not a state text are
# refused.
tests=$(cd "$(dirname "$0")/.." && pwd -P)
. "$tests/common/cases.sh"
needs python3

python3 "$tests/images/state_texts.py"
