# Compares the list of all refusals with the program: the program gives each of them, and no script meets
# another one.
tests=$(cd "$(dirname "$0")/.." && pwd -P)
. "$tests/common/cases.sh"
needs python3
python3 "$tests/python/refusals.py" "$program"
