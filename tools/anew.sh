#!/bin/sh
# Makes all scripts of tests/ and examples/ again, with the responses and traces of the Python device, and
# compares them with what is stored: the responses NAME.out to scripts that are written by hand, and the SHA-256
# of each made file in tests/made.sums. Needs python3. JOBS is the number of scripts that are made at the same
# time.
#
#   tools/anew.sh                    compares
#   tools/anew.sh waits nv_access    compares what belongs to these scripts
#   tools/anew.sh --write [NAME..]   also writes what differs
#
# It prints the path of each file that differs or is missing. The last line is `N files as they are, M
# others`. The status is 1 if a file differs or is missing, or if a script cannot be made.
set -u

top=$(CDPATH='' cd "$(dirname "$0")/.." && pwd -P) || exit 1
case ${1:-} in
--write | [!-]* | '') exec "$top/tools/python.sh" "$top/tests/anew.py" "$@" ;;
esac
sed -n '2,/^set/s/^# \{0,1\}//p' "$0" >&2
exit 2
