# Runs a script with --image, and makes each system call on files fail in turn. common/torn_scripts.py describes
# how the run must end, and what the image must contain.
tests=$(cd "$(dirname "$0")/.." && pwd -P)
. "$tests/common/cases.sh"
needs cc nm python3
python3 "$tests/common/torn_scripts.py" "$program"
