# Opens damaged images. For each of them, the program must report the same fault as the device in Python.
tests=$(cd "$(dirname "$0")/.." && pwd -P)
. "$tests/common/cases.sh"
needs cc python3

python3 "$tests/common/damaged_images.py" "$program"
