# Compares the lists of commands in README.md, docs and docs/table, and their counts, with the description of
# the commands, clients/python/tpmsim/standard/commands.py. described_commands.sh compares that description with the
# program. Prints the number of entries of each list. Then changes one entry in each document, which the
# comparison must detect.
tests=$(cd "$(dirname "$0")/.." && pwd -P)
. "$tests/common/cases.sh"
needs python3

python3 "$tests/common/command_lists.py"
