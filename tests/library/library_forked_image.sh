# Forks a process that has opened a device from an image. See library/forked_image.py.
tests=$(cd "$(dirname "$0")/.." && pwd -P)
. "$tests/common/cases.sh"
. "$tests/common/library.sh"
needs python3

python3 "$sources/forked_image.py" "$shared"
