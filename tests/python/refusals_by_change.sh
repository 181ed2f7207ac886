# Changes the state before commands that the device accepts, so that it refuses them. See
# python/refusals_by_change.py.
tests=$(cd "$(dirname "$0")/.." && pwd -P)
. "$tests/common/cases.sh"
needs python3
python3 "$tests/python/refusals_by_change.py" "$program"
