# Opens images of version 1, which are stored as hex in tests/images/version_1. The program must return the
# same responses as the device in Python, and save the same device.
tests=$(cd "$(dirname "$0")/.." && pwd -P)
. "$tests/common/cases.sh"
needs python3

python3 "$tests/images/version_1_images.py" "$program"
