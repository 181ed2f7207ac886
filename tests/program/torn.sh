# Makes each system call of the program on its files, its socket and the clock fail in turn. common/torn.py
# describes how the run and each connection must end, and what the image must contain.
tests=$(cd "$(dirname "$0")/.." && pwd -P)
. "$tests/common/cases.sh"
needs cc nm python3
python3 "$tests/common/torn.py" "$program"
