# Runs the unit tests of the package in clients/python/ that need pytest or cryptography, with the Python that pytest-3
# uses. None of them may be skipped. python.sh runs the other unit tests.
tests=$(cd "$(dirname "$0")/.." && pwd -P)
. "$tests/common/cases.sh"
needs pytest-3 cryptography openssl

cd "${tests%/*}/clients/python" || exit 1
TPMSIM=$program PYTHONDONTWRITEBYTECODE=1 pytest-3 -q -rfEs -p no:cacheprovider tests/test_plugin.py tests/test_aes.py \
    >"$room/said" 2>&1
status=$?
if [ "$status" -eq 0 ] && tail -n 1 "$room/said" | grep -q '^[0-9]* passed in '; then
    echo 'all pass, and none is skipped'
else
    grep -E '^(FAILED|ERROR|SKIPPED) ' "$room/said"
    cat "$room/said" >&2
fi
exit "$status"
