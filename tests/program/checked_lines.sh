# Checks the valid and invalid lines of bent_lines.sh as one script. Compares the report of `tpmsim check` on
# each invalid line with that of the Python model (clients/python/tpmsim/standard/lines.py), and with the form of the
# line's command.
tests=$(cd "$(dirname "$0")/.." && pwd -P)
. "$tests/common/cases.sh"
needs python3

python3 "$tests/common/checked_lines.py" "$program"
