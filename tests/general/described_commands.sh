# Checks each statement in the description of the commands, clients/python/tpmsim/standard/commands.py. The program's
# results for TPM2_GetCapability, `tpmsim asm` and `tpmsim line`, and its responses to commands, must agree with
# the description. For each kind of statement, prints the number of comparisons. Then makes mistakes in the
# description, each of which the comparison must detect.
tests=$(cd "$(dirname "$0")/.." && pwd -P)
. "$tests/common/cases.sh"
needs python3

python3 "$tests/common/described_commands.py" "$program"
