# Tests tpmsim-simulator: its saved states, its records, its reproducible runs, its devices and its clients.
# See attached/simulator.py.
tests=$(cd "$(dirname "$0")/.." && pwd -P)
. "$tests/common/cases.sh"
. "$tests/common/library.sh"
. "$tests/common/simulator.sh"
needs python3

python3 "$tests/attached/simulator.py" "$simulator" >plain
cat plain
CFLAGS=$sanitizers TPMSIM_ARCHIVE=$archive "$tests/../hosts/build.sh" simulator "$room/sanitized" || exit 1
python3 "$tests/attached/simulator.py" "$room/sanitized/tpmsim-simulator" >sanitized
cmp plain sanitized && echo 'with sanitizers the same'
