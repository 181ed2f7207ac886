# Collects the messages of the hosts in C, of the program in Rattle and of the Python package. Each must be in the
# expected output, the list of the messages that were read: a message says what happened, to which path or value, and
# what to do. Read a new message with docs/STYLE.md at hand before you add it to the list. The words of each message
# must also be in a test, or in uncaused.txt, which says why no test causes them.
tests=$(cd "$(dirname "$0")/.." && pwd -P)
. "$tests/common/cases.sh"
needs python3
python3 "$tests/python/messages.py" "${tests%/*}"
