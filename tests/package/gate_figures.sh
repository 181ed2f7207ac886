# Checks docs/gate.json, which `.ci/run --figures` writes: it has the figures of each crate of crates.txt and of no
# other crate, and its commit is at most 200 commits old. The check must find a file that breaks either rule.
tests=$(cd "$(dirname "$0")/.." && pwd -P)
. "$tests/common/cases.sh"
needs git python3
top=${tests%/*}
git -C "$top" rev-parse -q --verify HEAD >revision 2>&1 || skip 'there is no clone of the repository'
[ "$(git -C "$top" rev-parse --is-shallow-repository)" = false ] || skip 'there is no history in this clone'

# figures FILE: checks figures, and prints what is wrong.
figures() {
    python3 "$tests/common/gate_figures.py" "$top" "$1"
    echo "status $?"
}

echo '== docs/gate.json'
figures "$top/docs/gate.json"

echo '== a crate that was not measured, and one that there is not'
sed 's/"tpm_pcr": {/"tpm_no_pcr": {/' "$top/docs/gate.json" >other.json
figures other.json

echo '== figures of an old commit'
old=$(git -C "$top" rev-list --first-parent --skip=201 -n 1 HEAD)
sed "0,/\"commit\": \"[0-9a-f]*\"/s//\"commit\": \"$old\"/" "$top/docs/gate.json" >other.json
figures other.json | sed 's/[0-9]\{3,\} commits/more than 200 commits/'

echo '== figures of no commit'
sed '0,/"commit": "[0-9a-f]*"/s//"commit": "0000000000000000000000000000000000000000"/' "$top/docs/gate.json" >other.json
figures other.json
