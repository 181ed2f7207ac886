# Several processes use one device in a folder at once, and some are killed. common/state_processes.py checks
# that no answered command is lost.
tests=$(cd "$(dirname "$0")/.." && pwd -P)
. "$tests/common/cases.sh"
needs python3

python3 "$tests/common/state_processes.py" "$program"
