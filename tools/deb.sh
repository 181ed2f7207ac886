#!/bin/sh
# Builds the packages for Debian and its derivatives, and prints their paths: libtpmsim0 with the library, libtpmsim-dev
# with what compiles programs for it, and tpmsim with everything else. With the same tools, the same commit always
# results in the same bytes.
#
#   tools/deb.sh [--machine aarch64] [FOLDER]   NAME_VERSION_amd64.deb in FOLDER; by default in out/
#
# With --machine aarch64 it builds NAME_VERSION_arm64.deb from dist/aarch64, and needs Debian's
# gcc-aarch64-linux-gnu. The packages' maintainer is the contact that tools/owner.sh sets, or TPMSIM_MAINTAINER.
# TPMSIM_PACKING is the compression of dpkg-deb, by default xz. tools/install.sh lists their
# contents, and tools/packaging/symbols the calls of the library, each with the version that added it. Needs dpkg-deb and python3; nothing is proved.
set -u
umask 022
unset TPMSIM_MACHINE
if [ "$#" -ge 2 ] && [ "$1" = --machine ]; then
    TPMSIM_MACHINE=$2
    export TPMSIM_MACHINE
    shift 2
fi
folder=$(realpath -m "${1:-$(dirname "$0")/../out}") && cd "$(dirname "$0")/.." || exit 1
. tools/lib/proved.sh

# fail REASON: ends the script with a message.
fail() {
    echo "$0: $1" >&2
    exit 1
}

# Prints the total size of a package's files in KiB. Each file's size is rounded up, so that the total does
# not depend on the file system.
size() {
    find "$work/$1/usr" -type f -printf '%s\n' | awk '{ sum += int(($1 + 1023) / 1024) } END { print sum }'
}

# control NAME: prints tools/packaging/NAME.control with its placeholders replaced with the data of this package.
control() {
    sed -e "s|@VERSION@|$version|" -e "s|@MAINTAINER@|$maintainer|" -e "s|@SIZE@|$(size "$1")|" \
        -e "s|@PURPOSE@|$purpose|" -e "s|@ARCHITECTURE@|$architecture|" \
        -e "s|@HOMEPAGE@|$(sed -n 's/^Homepage: //p' tools/packaging/tpmsim.control)|" "tools/packaging/$1.control"
}

# describe NAME: adds the files that Debian requires in every package.
describe() {
    documents=$work/$1/usr/share/doc/$1
    mkdir -p "$work/$1/DEBIAN" || return 1
    install -D -m 644 tools/packaging/copyright "$documents/copyright"
    printf '%s (%s) unstable; urgency=low\n\n  * As CHANGELOG.md says.\n\n -- %s  %s\n' \
        "$1" "$version" "$maintainer" "$(LC_ALL=C date -u -R -d "@$SOURCE_DATE_EPOCH")" |
        gzip -9n >"$documents/changelog.gz"
    control "$1" >"$work/$1/DEBIAN/control" || return 1
    grep "$1:" tools/packaging/lintian >"$work/lintian" &&
        install -D -m 644 "$work/lintian" "$work/$1/usr/share/lintian/overrides/$1"
    (cd "$work/$1" && find usr -type f -print0 | LC_ALL=C sort -z | xargs -0 md5sum) \
        >"$work/$1/DEBIAN/md5sums"
}

# moved PACKAGE PATH..: moves installed files, whose paths are relative to usr/, into another package.
moved() {
    to=$work/$1/usr
    shift
    (cd "$root/usr" && printf '%s\0' "$@" | xargs -0 tar cf -) | (mkdir -p "$to" && cd "$to" && tar xf -) || return 1
    (cd "$root/usr" && rm -r "$@" && find . -depth -type d -empty -delete)
}

# Splits what is installed into the three packages.
divide() {
    headers=$(cd "$root/usr" && echo include/*) && pages=$(cd "$root/usr" && echo share/man/man3/*) || return 1
    # shellcheck disable=SC2086 # the lists are words
    moved libtpmsim-dev $headers $pages "lib/$multiarch/libtpmsim.a" "lib/$multiarch/libtpmsim.so" \
        "lib/$multiarch/libtpmsim-kept.so" "lib/$multiarch/pkgconfig" "lib/$multiarch/cmake" || return 1
    moved libtpmsim0 "lib/$multiarch/libtpmsim.so.0" "lib/$multiarch/libtpmsim-kept.so.0" || return 1
    for name in libtpmsim0 libtpmsim-dev tpmsim; do
        describe "$name" || return 1
    done
    install -m 755 tools/packaging/postinst tools/packaging/prerm "$root/DEBIAN/" || return 1
    install -m 644 tools/packaging/symbols "$work/libtpmsim0/DEBIAN/symbols" || return 1
    printf 'libtpmsim 0 libtpmsim0 (>= %s)\nlibtpmsim-kept 0 libtpmsim0 (>= %s)\n' "$version" "$version" \
        >"$work/libtpmsim0/DEBIAN/shlibs"
    echo 'activate-noawait ldconfig' >"$work/libtpmsim0/DEBIAN/triggers"
    [ ! -e "$root/usr/lib/$multiarch/libtss2-tcti-tpmsim.so.0" ] || {
        cp "$work/libtpmsim0/DEBIAN/triggers" "$root/DEBIAN/" &&
            echo "libtss2-tcti-tpmsim 0 tpmsim (>= $version)" >"$root/DEBIAN/shlibs"
    }
}

# for_aarch64: selects the tools for ARM64. Their compiler does not search the folder with Debian's headers
# for all machines.
for_aarch64() {
    architecture=arm64
    multiarch=aarch64-linux-gnu
    CC=$multiarch-gcc AR=$multiarch-ar NM=$multiarch-nm STRIP=$multiarch-strip
    CPATH=$work/headers
    export CC AR NM STRIP CPATH
    mkdir "$CPATH" || return 1
    for headers in tss2 libtpms; do
        [ ! -d "/usr/include/$headers" ] || ln -s "/usr/include/$headers" "$CPATH/" || return 1
    done
}

for tool in dpkg-deb python3; do
    command -v "$tool" >/dev/null || fail "there is no $tool"
done
work=$(mktemp -d) || exit 1
trap 'rm -rf "$work"' EXIT
root=$work/tpmsim
architecture=amd64
multiarch=x86_64-linux-gnu
case ${1:-} in
-*) machine= ;;
esac
case $machine in
aarch64) for_aarch64 || fail 'there is no folder for the headers' ;;
x86_64) ;;
*) fail 'usage: tools/deb.sh [--machine aarch64] [FOLDER]' ;;
esac
SOURCE_DATE_EPOCH=${SOURCE_DATE_EPOCH:-$(git log -1 --format=%ct 2>/dev/null || echo 0)}
export SOURCE_DATE_EPOCH
maintainer=${TPMSIM_MAINTAINER:-tpmsim <$(sed -n 's/^contact: //p' tools/packaging/owner)>}
[ -f "$shipped" ] || fail "there is no $shipped: tools/aarch64.sh makes what is for ARM64"
is_proved sources "$(sources_checksum tpmsim)" || fail "$shipped was proved of other sources than these"
running=dist/tpmsim
[ "$system" != 'Linux aarch64' ] || running=dist/aarch64/tpmsim
version=$("$running" --version) || fail "$running does not run here"
version=${version##* }
purpose=$("$running" --help | sed -n '1s/^A //p')
DESTDIR=$root PREFIX=/usr LIBRARIES=lib/$multiarch PACKAGES=lib/python3/dist-packages \
    FUNCTIONS=share/zsh/vendor-completions tools/install.sh || exit 1
divide || fail 'the files are not divided among the packages'
mkdir -p "$folder" || fail "$folder is no folder"
for name in libtpmsim0 libtpmsim-dev tpmsim; do
    package=$folder/${name}_${version}_$architecture.deb
    dpkg-deb --root-owner-group -Z"${TPMSIM_PACKING:-xz}" -b "$work/$name" "$package" >"$work/said" ||
        fail "$package is not made"
    echo "$package"
done
