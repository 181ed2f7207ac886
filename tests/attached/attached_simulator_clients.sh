# Connects more clients to tpmsim-simulator than it has file descriptors for. See
# attached/simulator_clients.py.
tests=$(cd "$(dirname "$0")/.." && pwd -P)
. "$tests/common/cases.sh"
. "$tests/common/library.sh"
. "$tests/common/simulator.sh"
needs python3

python3 "$tests/attached/simulator_clients.py" "$simulator"
