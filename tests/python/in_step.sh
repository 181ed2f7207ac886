# Interrupts commands that Python sends to devices over a connection. See
# python/in_step.py.
tests=$(cd "$(dirname "$0")/.." && pwd -P)
. "$tests/common/cases.sh"
needs python3

python3 "$tests/python/in_step.py" "$program"
