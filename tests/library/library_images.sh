# Opens damaged images. For each image, the library must return the same result as the device in Python. The
# images are all prefixes of an image, and copies of that image in which a single byte is changed. images.sh
# tests the program with some of them.
tests=$(cd "$(dirname "$0")/.." && pwd -P)
. "$tests/common/cases.sh"
. "$tests/common/library.sh"
needs python3

python3 "$sources/library_images.py" "$shared"
