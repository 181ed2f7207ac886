# Tests a device that Python keeps in a folder, with invalid files, in threads, and in forked processes. See
# library/kept_files.py.
tests=$(cd "$(dirname "$0")/.." && pwd -P)
. "$tests/common/cases.sh"
. "$tests/common/library.sh"
needs python3

python3 "$sources/kept_files.py" "$shared"
