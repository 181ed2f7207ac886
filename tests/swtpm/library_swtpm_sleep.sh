# Tests contexts of objects over power cycles of a device in swtpm, as when a guest sleeps and wakes (S3).
tests=$(cd "$(dirname "$0")/.." && pwd -P)
. "$tests/common/cases.sh"
. "$tests/common/swtpm.sh"

mkdir plain sanitized
(cd plain && python3 "$tests/swtpm/sleeping.py" "$room/caller" "$room/swtpm/libtpms.so.0") >given
cat given
(cd sanitized && python3 "$tests/swtpm/sleeping.py" "$room/caller.sanitized" "$room/sanitized/libtpms.so.0") |
    diff given - && echo 'with sanitizers the same'

label 'the journals'
cc -I"$(dirname "$TPMSIM_ARCHIVE")" -o "$room/opened" "$tests/common/opened.c" "$TPMSIM_ARCHIVE" || exit 1
(cd plain/one && "$room/opened" boot-*)
