# Checks that the proved list of the refusals by the commands' own checks has the same refusals as the list that the
# Python package derives from the table. Then checks lists with three mistakes, which must be reported.
tests=$(cd "$(dirname "$0")/.." && pwd -P)
. "$tests/common/cases.sh"
needs python3
top=${tests%/*}
compare() {
    python3 "$tests/common/own_refusals.py" "$@"
    echo "status $?"
}

echo '== OwnRefusals.antt'
compare "$top/crates"

list=tpm_step/specs/rows/OwnRefusals.antt
mkdir -p crates/tpm_step/specs/rows crates/tpm_commands/src
cp "$top/crates/tpm_commands/src/command_code.rt" crates/tpm_commands/src/
sed -e 's/^\(own_refusals command.ClearControl = .*\)AuthFail/\1Value/' \
    -e '/^own_refusals command.PolicyOr = /d' \
    -e 's/^\(own_refusals command.NvChangeAuth = .*\)1 code/\12 code/' \
    "$top/crates/$list" >"crates/$list"
echo '== another code, a missing command, another parameter'
compare crates
