# Runs the examples in Python.
tests=$(cd "$(dirname "$0")/.." && pwd -P)
. "$tests/common/cases.sh"
. "$tests/common/library.sh"
needs python3

for example in "$tests"/../examples/python/*.py; do
    name=${example##*/}
    echo "== ${name%.py}"
    TPMSIM_LIBRARY=$shared python3 "$example"
done
