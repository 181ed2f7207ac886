# Runs the unit tests of the package in clients/python/. Tests that need a program run the program under test.
# python_tools.sh runs those that need pytest or cryptography, which Python does not find without its site
# packages. tools/python_types.sh checks the package's types: that needs mypy, and is not part of this test.
tests=$(cd "$(dirname "$0")/.." && pwd -P)
. "$tests/common/cases.sh"
needs python3

# The server for Microsoft's simulator protocol is written in C. Its tests are skipped if there is no compiler.
if is_there cc && is_there nm; then
    TPMSIM_SIMULATOR=$room/simulator/tpmsim-simulator
    "${tests%/*}/hosts/build.sh" simulator "$room/simulator" || exit 1
    export TPMSIM_SIMULATOR
fi

# unit_tests PATTERN FILE: runs the unit tests in the files that match PATTERN, and writes their output to
# FILE.
unit_tests() {
    TPMSIM=$program python3 -W error::ResourceWarning -m unittest discover --verbose \
        -s "${tests%/*}/clients/python/tests" -t "${tests%/*}/clients/python/tests" -p "$1" 2>"$2"
}

# report FILE STATUS: prints each unit test that failed in a line of standard output, and the tracebacks on standard
# error, which tools/scripts.sh shows as a whole. If a run ended without a report, prints the end of its output.
report() {
    sed -nE '/^={70}$/,$p' "$1" >"$room/report"
    if [ -s "$room/report" ]; then
        grep -E '^(FAIL|ERROR|UNEXPECTED SUCCESS): ' "$room/report"
        cat "$room/report" >&2
    else
        echo "the unit tests ended with status $2, without a report"
        tail -n 40 "$1" >&2
    fi
}

# The tests run in two processes at the same time; one process alone would take three minutes.
unit_tests 'test_e*.py' "$room/error_first" &
first=$!
rest_status=0 first_status=0
unit_tests 'test_[!e]*.py' "$room/error" || rest_status=$?
wait "$first" || first_status=$?
[ "$rest_status" -eq 0 ] || report "$room/error" "$rest_status"
[ "$first_status" -eq 0 ] || report "$room/error_first" "$first_status"
[ "$rest_status$first_status" = 00 ] || exit 1
# If a tool is missing, the unit tests that use it are skipped. Then this whole test counts as skipped.
needs cc nm openssl swtpm tpm2_getrandom
cat "$room/error" "$room/error_first" | sed -n "s/.*[.][.][.] skipped 'there is no/missing:/p" |
    grep -v -e " pytest'$" -e " cryptography'$" | sort -u
echo 'all unit tests pass'
