# Tests contexts of objects over power cycles of tpmsim-simulator. See attached/simulator_contexts.py.
tests=$(cd "$(dirname "$0")/.." && pwd -P)
. "$tests/common/cases.sh"
. "$tests/common/library.sh"
. "$tests/common/simulator.sh"
needs python3

python3 "$tests/attached/simulator_contexts.py" "$simulator"
