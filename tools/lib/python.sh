# A function that checks the installed Python. The tests and tools/scripts.sh source this file.
# shellcheck shell=sh

# python_is_whole: succeeds if python3 has all modules of the standard library of Python 3.11 that the tests
# use. Debian's python3-minimal lacks most of them. tools/scripts.sh checks this once for all tests, and then
# sets TPMSIM_PYTHON to `whole`.
python_is_whole() {
    [ "${TPMSIM_PYTHON:-}" = whole ] || command python3 -S -c '
import concurrent.futures, ctypes, dataclasses, json, secrets, shutil, tomllib, unittest
' 2>/dev/null
}
