# Runs tools/before_commit.sh in a small repository. Checks what it finds, what it skips, and that it formats
# the changed crates, with a stand-in for `rt`.
tests=$(cd "$(dirname "$0")/.." && pwd -P)
. "$tests/common/cases.sh"
needs git python3 shellcheck
top=${tests%/*}

# Makes a folder with links to the tools that the script needs, and other folders with the optional tools.
mkdir tools_there rt_there linters_there
for tool in cat cut getconf git grep mv sed sh sort xargs; do
    ln -s "$(command -v "$tool")" "tools_there/$tool"
done
ln -s "$(python3 -c 'import sys; print(sys.executable)')" tools_there/python3
ln -s "$(command -v shellcheck)" linters_there/shellcheck
cat >rt_there/rt <<'END'
#!/bin/sh
[ "$*" = fmt ] && for file in src/*.rt; do
    sed 's/ *$//' "$file" >laid_out && mv laid_out "$file"
done
END
cat >linters_there/ruff <<'END'
#!/bin/sh
! grep -n 'unused' $(printf '%s\n' "$@" | grep 'py$')
END
chmod +x rt_there/rt linters_there/ruff

mkdir repository
cd repository || exit 1
mkdir -p crates/tpm_one/src crates/tpm_two/src tests/common tools/packaging docs
cp "$tests/common/links.py" tests/common/
cp "$top/tools/words.py" tools/
cp "$top/docs/STYLE.md" docs/
cp "$top/tools/packaging/tpmsim.bash" tools/packaging/
printf '# Head\n[itself](#head)\n' >README.md
echo '# Words' >docs/ARCHITECTURE.md
printf '#!/bin/sh\necho good\n' >good
printf 'import sys\nprint(sys.path)\n' >good.py
echo 'fn one() {}' | tee crates/tpm_one/src/lib.rt >crates/tpm_two/src/lib.rt
git init -q . && git add . && git -c user.name=t -c user.email=t@localhost commit -q -m 'Begin'

# before FOLDER..: runs the script with the tools in these folders.
before() {
    path=$room/folder/tools_there
    for folder do path=$path:$room/folder/$folder; done
    PATH=$path sh "$top/tools/before_commit.sh" 2>&1
    echo "status $?"
}

echo '== nothing is wrong'
before rt_there linters_there
echo '== no tool is there'
before
echo '== all is wrong'
echo 'fn one() {}  ' >crates/tpm_one/src/lib.rt
printf '%s\n' '[nobody](none.md)' 'It stands here.' >>README.md
# shellcheck disable=SC2016 # the generated script expands it
echo 'echo $word' >>good
echo 'import unused' >>good.py
before rt_there linters_there | grep -e '^[a-zA-Z.]*:' -e '^tpm_' -e '^In ' -e passed -e status
git status --short
