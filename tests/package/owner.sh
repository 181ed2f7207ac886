# Sets what only the owner knows, with tools/owner.sh in a copy of the repository. After each command, no file has the
# old value, the named files have the new one, and the Go module still compiles.
tests=$(cd "$(dirname "$0")/.." && pwd -P)
. "$tests/common/cases.sh"
needs git
top=${tests%/*}

mkdir copy && cd "$top" && git ls-files -z --cached --others --exclude-standard -- . ':!crates' ':!dist/tpmsim.html' |
    tar --null --no-recursion -T - -cf - 2>"$room/said" | tar xf - -C "$room/folder/copy"
cd "$room/folder/copy" && git init -q . && git add . || exit 1

# set_fact FACT VALUE FILE..: sets a fact, and prints which of these files have it.
set_fact() {
    old=$(tools/owner.sh | sed -n "s/^$1: //p")
    tools/owner.sh "$1" "$2" | sed 's/in [0-9]* files/in some files/'
    echo "files with the old value: $(git grep -lF "$old" | wc -l)"
    fact=$2
    shift 2
    grep -lF "$fact" "$@"
}

echo '== it is not set'
grep -c 'contact-not-set@tpmsim.invalid' SECURITY.md
echo '== it is set'
set_fact contact security@tpm.example SECURITY.md clients/python/pyproject.toml clients/js/package.json
set_fact repository https://tpm.example/tpmsim clients/js/package.json tools/packaging/tpmsim.control
set_fact go tpm.example/go/tpmsim clients/go/go.mod clients/go/README.md INSTALL.md examples/go_module/go.mod
tools/owner.sh
echo '== what is no value'
for words in 'contact nobody' 'go tpmsim' 'repository git@host:x' 'licence MIT' contact; do
    # shellcheck disable=SC2086 # word splitting is intended
    tools/owner.sh $words 2>&1 | sed "s|^.*tools/owner.sh: ||"
done
git diff --quiet -- clients/go/go.mod || echo 'the Go module has another path'
