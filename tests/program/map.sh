# Checks docs/ARCHITECTURE.md. Its list of crates is generated from the first clause of each crate's root file.
# generated.sh checks its picture of the layers.
tests=$(cd "$(dirname "$0")/.." && pwd -P)
. "$tests/common/cases.sh"
needs python3

echo '== docs/ARCHITECTURE.md'
python3 "${tests%/*}/tools/map.py"
echo "status $?"
