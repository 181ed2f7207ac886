# Tests what tpmsim-simulator does if a device of several fails. See attached/simulator_failed.py.
tests=$(cd "$(dirname "$0")/.." && pwd -P)
. "$tests/common/cases.sh"
. "$tests/common/library.sh"
. "$tests/common/simulator.sh"
needs python3

python3 "$tests/attached/simulator_failed.py" "$simulator" 2>errors
echo 'on standard error:'
cat errors
CFLAGS=$sanitizers TPMSIM_ARCHIVE=$archive "$tests/../hosts/build.sh" simulator "$room/sanitized" || exit 1
rm -rf several two one
python3 "$tests/attached/simulator_failed.py" "$room/sanitized/tpmsim-simulator" 2>sanitized_errors >/dev/null
diff errors sanitized_errors && echo 'with sanitizers the same'
