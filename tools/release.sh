#!/bin/sh
# Makes a release of the last commit, and prints a list of its parts. A release consists of the tag vVERSION
# and a folder with these files: the package for Debian, the sources, dist/PROVED, the version's section of
# CHANGELOG.md, and SHA256SUMS with the checksums of the other files. It uploads nothing.
#
#   tools/release.sh [FOLDER]   in FOLDER; by default in out/vVERSION
#
# CHANGELOG.md must begin with the version's section, `## Unreleased (VERSION)`, which the script dates and commits,
# or `## VERSION, DATE`; the working tree must be the same as
# the last commit; and dist/ must be built from its sources. Needs git, dpkg-deb, tar, gzip and python3.
set -u
told_folder=${1:+$(realpath -m "$1")}
cd "$(dirname "$0")/.." || exit 1
. tools/lib/proved.sh

# fail REASON: ends the script with a message.
fail() {
    echo "$0: $1" >&2
    exit 1
}

# Prints the reasons that prevent a release, one per line.
faults() {
    [ -z "$(git status --porcelain)" ] || echo 'something differs from the last commit'
    tools/version.sh >"$work/versions" || cat "$work/versions"
    head -n 5 CHANGELOG.md | grep -q -e "^## $version, [0-9]\{4\}-[0-9][0-9]-[0-9][0-9]\$" \
        -e "^## Unreleased ($version)\$" ||
        echo "CHANGELOG.md does not begin with the section \"## $version, DATE\" or \"## Unreleased ($version)\""
    ! git rev-parse -q --verify "refs/tags/v$version" >"$work/found" ||
        echo "the tag v$version is there"
    is_proved sources "$(sources_checksum)" || echo "$shipped was proved of other sources than these"
    is_proved 'library sources' "$(sources_checksum tpmsim_library)" ||
        echo "$archive was proved of other sources than these"
    [ ! -e "$folder" ] || echo "$folder is there"
}

# Gives an unreleased section of CHANGELOG.md the heading of a release of today, and commits this.
date_section() {
    head -n 5 CHANGELOG.md | grep -q "^## Unreleased ($version)\$" || return 0
    sed -i "1,5s/^## Unreleased ($version)\$/## $version, $(date -u +%F)/" CHANGELOG.md &&
        git commit -q -m "Release $version" CHANGELOG.md
}

# Prints the section of CHANGELOG.md about the version.
notes() {
    awk -v section="## $version," 'index($0, "## ") == 1 { told = index($0, section) == 1 } told' \
        CHANGELOG.md
}

# Clones the tag, and prints the number of milliseconds until the program in the clone has answered a command.
answering() {
    git -c advice.detachedHead=false clone -q --branch "v$version" . "$work/clone" || return 1
    start=$(date +%s%3N)
    echo 'do Startup 0' | "$work/clone/tpmsim" run - >"$work/answer" || return 1
    [ "$(cat "$work/answer")" = 80010000000a00000000 ] && echo $(($(date +%s%3N) - start))
}

work=$(mktemp -d) || exit 1
trap 'rm -rf "$work"' EXIT
version=$(dist/tpmsim --version) || fail 'dist/tpmsim does not run here'
version=${version##* }
folder=${told_folder:-out/v$version}
faults=$(faults)
[ -z "$faults" ] || fail "there is no release: $faults"

date_section || fail 'CHANGELOG.md is not dated and committed'
name=tpmsim-$version
if ! { mkdir -p "$folder" && notes >"$folder/NOTES.md" && cp dist/PROVED "$folder/"; }; then
    fail "$folder is not written"
fi
packages=$(tools/deb.sh "$folder") || exit 1
git archive --format=tar --prefix="$name/" HEAD | gzip -9n >"$folder/$name.tar.gz" ||
    fail 'the sources are not packed'
# shellcheck disable=SC2046 # the names are words
(cd "$folder" && sha256sum NOTES.md PROVED "$name.tar.gz" $(echo "$packages" | sed 's|.*/||') >SHA256SUMS) ||
    fail 'there are no checksums'
git tag -a -F "$folder/NOTES.md" --cleanup=verbatim "v$version" || fail 'the tag is not made'
if ! milliseconds=$(answering); then
    git tag -d "v$version" >"$work/said"
    fail 'a clone of the tag does not answer; the tag is taken back'
fi

echo "the tag v$version is at $(git rev-parse --short HEAD); its clone answered after $milliseconds ms"
echo "$folder has:"
cat "$folder/SHA256SUMS"
