# Checks that all files with a version have the same version. Then changes the version in each file of a copy in
# turn. tools/version.sh must report each change.
tests=$(cd "$(dirname "$0")/.." && pwd -P)
. "$tests/common/cases.sh"
top=${tests%/*}

echo '== this repository'
"$top/tools/version.sh" "$program" | sed "s/^$("$program" --version | sed 's/.* //') /the same: /"
"$top/tools/version.sh" "$program" >told
echo "status $?"

# turn FILE FROM TO: replaces FROM with TO in this file of a copy of the repository, and checks the copy.
turn() {
    rm -rf copy
    mkdir -p copy/tools copy/clients
    cp "$top/tools/version.sh" copy/tools/
    (cd "$top" && tar cf - CHANGELOG.md clients/c dist/tpmsim.h dist/tpmsim.pc clients/python/pyproject.toml \
        crates/tpm_journal_text/src/head.rt clients/python/tpmsim/__init__.py clients/js/package.json \
        clients/rust/Cargo.toml) | tar xf - -C copy
    sed "s/$2/$3/" "copy/$1" >turned
    cmp -s turned "copy/$1" && echo "$1 is as it was"
    cp turned "copy/$1"
    copy/tools/version.sh "$program" >told
    echo "$1: status $?, $(grep -c -v "^$version " told) otherwise"
}

echo '== one of them turned'
version=$("$program" --version | sed 's/.* //')
turn CHANGELOG.md "$version" 9.9.9
turn clients/c/tpmsim.h 'NUMBER 0x00' 'NUMBER 0x09'
turn clients/c/tpmsim.pc '^Version: .*' 'Version: 1'
turn clients/c/tpmsim-kept.pc '^Version: .*' 'Version: 1'
turn dist/tpmsim.h 'NUMBER 0x' 'NUMBER '
turn dist/tpmsim.pc '^Version: .*' ''
turn crates/tpm_journal_text/src/head.rt 'VERSION: u32 = 0x00' 'VERSION: u32 = 0x09'
turn clients/python/pyproject.toml '^version = ".*"' 'version = "9.9.9"'
turn clients/js/package.json '"version": ".*"' '"version": "9.9.9"'
turn clients/python/tpmsim/__init__.py '"[0-9.]*"$' '"9.9.9"'
turn clients/rust/Cargo.toml '^version = ".*"' 'version = "9.9.9"'
