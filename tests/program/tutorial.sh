# Executes the shell blocks of examples/README.md that its reader is meant to copy, and the first command of
# README.md. Each must print the output that the page shows below it.
tests=$(cd "$(dirname "$0")/.." && pwd -P)
. "$tests/common/cases.sh"
. "$tests/common/typed.sh"
needs python3
ln -s "$program" tpmsim
ln -s "${tests%/*}/tools" tools
ln -s "${tests%/*}/clients" clients
type_blocks "${tests%/*}/examples/README.md"

echo '== the first command of README.md'
readme=${tests%/*}/README.md
sed -n 's/^\$ \(printf .*\)/\1/p' "$readme" >first.sh
awk '/^\$ printf/ { shown = 1; next } /^\.\.\.$/ { exit } shown' "$readme" >wanted
sh first.sh 2>&1 | head -n "$(wc -l <wanted)" | diff wanted - && echo "$(wc -l <wanted) lines, as README.md shows them"
