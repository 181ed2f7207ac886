# Makes each allocation of the program fail: in one run only that allocation, and in another run also all later
# ones. This is done for valid and invalid command lines, and for a served device. common/starved.py describes
# how the run must end.
tests=$(cd "$(dirname "$0")/.." && pwd -P)
. "$tests/common/cases.sh"
needs cc nm python3
python3 "$tests/common/starved.py" "$program"
