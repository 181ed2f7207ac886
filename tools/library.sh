#!/bin/sh
# Builds the library in dist/: libtpmsim.a, libtpmsim.so.0, tpmsim.h, tpmsim.hpp and tpmsim.pc. Also writes
# its lines in dist/PROVED, with the version of the kit, and the checksums of the sources and of the first two
# files.
#
# The crate of the exported functions is proved and compiled with the crates that it uses, which `rt ci` built
# here. If a source is newer, those crates are first proved in a copy. Needs `rt`, git, a C compiler and
# Debian's binutils.
#
#   tools/library.sh                    the files for x86-64
#   tools/library.sh --target aarch64   the contents of dist/aarch64, with the program (tools/aarch64.sh)
set -u
cd "$(dirname "$0")/.." && top=$(pwd -P) || exit 1
case $* in
'') ;;
'--target aarch64') exec tools/aarch64.sh ;;
*) echo "usage: $0 [--target aarch64]" >&2 && exit 2 ;;
esac
. tools/lib/proved.sh
. tools/lib/proving.sh
. tools/lib/compiling.sh
ship x86_64
exports=tpmsim_library
below=$(crates_below "$exports") || exit 1
work=$(mktemp -d) || exit 1
trap 'rm -rf "$work"' EXIT
log=$work/log

# fail REASON: ends the script with a message, and prints the end of the log.
fail() {
    [ ! -s "$log" ] || tail -n 20 "$log" >&2
    echo "$0: $1" >&2
    exit 1
}

# Proves the crate of the exported functions, and all crates that it uses, in a copy.
prove() {
    echo "tpmsim: proving what the library stands on; from nothing this takes half an hour to an hour" >&2
    crates="$below $exports"
    total=$(echo "$crates" | wc -w)
    (copy_crates "$work/copy" && cd "$work/copy" && prove_all)
    tail -n 1 "$log" | grep -q ' 0 failed' || fail 'not everything is proved'
}

# Makes the archive from the compiled crate and the kit's interface to the C library's allocator, and links the
# shared object from the same files.
link() (
    mkdir "$work/objects" && cd "$work/objects" && ar x "$work/exports.a" &&
        ar x "$kit/c/liblibc_c.a" heap.pic.o && ar rcsD "$work/libtpmsim.a" ./*.o &&
        cc -shared -nostartfiles -Wl,-soname,libtpmsim.so.0 -Wl,--build-id=none -Wl,-z,defs \
            -Wl,-z,relro -Wl,-z,now "-Wl,--version-script=$top/clients/c/tpmsim.map" \
            -o "$work/libtpmsim.so.0" ./*.o && strip --strip-unneeded "$work/libtpmsim.so.0" &&
        chmod 644 "$work"/libtpmsim.*
) >>"$log" 2>&1

# Appends the library's lines to dist/PROVED, after those of the program.
tell_proved() {
    version=$(rt version) || return 1
    {
        [ ! -f "$proved" ] || sed '/^library /d' "$proved"
        echo "library kit: $version"
        echo "library sources: $made_of"
        echo "library archive: $(checksum <"$archive")"
        echo "library shared object: $(checksum <"$shared")"
    } >"$proved.new" && mv "$proved.new" "$proved"
}

# Moves all files to dist/.
deliver() {
    mkdir -p dist && mv "$work/libtpmsim.a" "$archive" && mv "$work/libtpmsim.so.0" "$shared" &&
        cp clients/c/tpmsim.h clients/c/tpmsim.hpp clients/c/tpmsim.pc dist/ && tell_proved
}

for tool in rt rattle git cc ar strip; do
    command -v "$tool" >/dev/null || fail "$tool is missing"
done
kit=$(kit_folder) || exit 1
made_of=$(sources_checksum "$exports") || exit 1
repository=$top
# shellcheck disable=SC2086 # crate names have no spaces
are_built $below || { repository=$work/copy && prove; }
compile "$repository" "$exports" "$work/exports.a" >>"$log" 2>&1 ||
    fail 'the exports are not compiled'
link || fail 'the library is not put together'
[ "$made_of" = "$(sources_checksum "$exports")" ] || fail 'a source changed meanwhile'
deliver || fail 'dist/ is not written'
