# Executes the shell blocks of docs/EXPLAIN.md that its reader is meant to copy. Each must print the output
# that the page shows below it.
tests=$(cd "$(dirname "$0")/.." && pwd -P)
. "$tests/common/cases.sh"
. "$tests/common/typed.sh"
needs python3
ln -s "$program" tpmsim
ln -s "${tests%/*}/tools" tools
type_blocks "${tests%/*}/docs/EXPLAIN.md"
