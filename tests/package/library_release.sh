# Runs tools/release.sh in a copy of the repository whose dist/ appears to be built from its sources. Checks
# what prevents a release, and which files a release consists of. The copy contains only the two crates from
# which dist/ is built, and the file that contains the version in the heads of journals.
tests=$(cd "$(dirname "$0")/.." && pwd -P)
. "$tests/common/cases.sh"
needs git dpkg-deb python3
top=${tests%/*}

mkdir copy none
printf '#!/bin/sh\nexit 1\n' >none/cc
chmod +x none/cc
(cd "$top" && tar cf - --exclude=out --exclude=must-fail --exclude=__pycache__ CHANGELOG.md Makefile \
    README.md HANDLES crates/tpmsim crates/tpmsim_library crates.txt hosts dist \
    crates/tpm_journal_text/src/head.rt tests/__init__.py tests/made.sums tests/common \
    docs examples clients/c clients/python/README.md clients/python/packing clients/python/pyproject.toml \
    clients/python/tpmsim \
    clients/js/package.json clients/rust/Cargo.toml tools tpmsim .gitignore) |
    tar xf - -C copy
cd copy || exit 1
version=$(dist/tpmsim --version | sed 's/.* //')
for of in '' tpmsim_library; do
    # shellcheck disable=SC2086 # word splitting is intended
    sum=$(. tools/lib/proved.sh && sources_checksum $of)
    sed -i "s/^${of:+library }sources: .*/${of:+library }sources: $sum/" dist/PROVED
done
printf '# Changelog\n\n## %s, 2026-11-27\n\n- All is new.\n\n## 0.0.1, 2025-01-01\n\n- Old.\n' "$version" >CHANGELOG.md
export GIT_AUTHOR_NAME=Somebody GIT_AUTHOR_EMAIL=somebody@localhost
export GIT_COMMITTER_NAME=Somebody GIT_COMMITTER_EMAIL=somebody@localhost TPMSIM_PACKING=none
PATH=$room/folder/none:$PATH
git init -q . && git add . && git commit -q -m 'Begin'

# release LABEL: tries a release, and prints the output without the version, checksums and times.
release() {
    echo "== $1"
    tools/release.sh "$room/made" 2>&1 | sed -e 's/[0-9a-f]\{64\}/SUM/' -e "s/$version/VERSION/g" \
        -e 's/is at [0-9a-f]*;/is at COMMIT;/' -e 's/after [0-9]* ms/after some ms/' -e "s|$room|ROOM|"
    [ -d "$room/made" ] || git tag
}

sed -i 's/^## .*, 2026-11-27/## Unreleased/' CHANGELOG.md
echo '-- a comment' >>"crates/tpmsim_library/src/lib.rt"
release 'something stands in the way'
git checkout -q .
sed -i "s/^## $version, 2026-11-27/## Unreleased ($version)/" CHANGELOG.md && git commit -q -a -m 'Not released'
release 'a release'
git log -2 --format=%s | sed "s/$version/VERSION/"
(cd "$room/made" && sha256sum -c --quiet SHA256SUMS && cmp PROVED "$room/folder/copy/dist/PROVED" &&
    { for it in ./*.deb; do dpkg-deb -f "$it" Package; done; } &&
    tar tzf "tpmsim-$version.tar.gz" "tpmsim-$version/dist/tpmsim" | sed "s/$version/VERSION/g")
git cat-file tag "v$version" |
    sed -e '1,/^$/d' -e "s/$version/VERSION/" -e 's/, 20[0-9][0-9]-[0-9][0-9]-[0-9][0-9]$/, DATE/'
release 'it is there'
