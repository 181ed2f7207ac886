# Alters a line of each command: each of its tokens is removed, doubled, emptied, altered in other ways, and
# replaced with tokens of each kind. The output of `tpmsim asm`, including the fault and its column, is compared
# with the device in Python (clients/python/tpmsim/standard/lines.py). Then the same lines are played in scripts, and
# lines of scripts get another byte at each offset. The first line of the output counts the commands and their
# tokens. Each of the other lines is about one kind of change.
tests=$(cd "$(dirname "$0")/.." && pwd -P)
. "$tests/common/cases.sh"
needs cc python3

python3 "$tests/common/bent_lines.py" "$program"
