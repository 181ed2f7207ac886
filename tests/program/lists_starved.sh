# Makes allocations fail in the device that stores its state in lists: when a list grows, when an image is
# opened, when a line is parsed, and in each command that allocates memory. common/lists_starved.py describes
# what the device must do then.
tests=$(cd "$(dirname "$0")/.." && pwd -P)
. "$tests/common/cases.sh"
needs cc nm python3
python3 "$tests/common/lists_starved.py" "$program"
