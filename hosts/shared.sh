#!/bin/sh
# Builds dist/libtpmsim-kept.so.0, which keeps devices in folders for programs in any language. Updates its
# entries in dist/PROVED: the checksums of its sources and of itself, and the compiler. The object is written in
# C and tested, not proved. It exports only the names tpmsim_kept_*. If the process has not loaded a
# libtpmsim.so.0, the object loads the one next to itself.
#
#   hosts/shared.sh           builds it
#   hosts/shared.sh --check   builds it again, and compares it with dist/libtpmsim-kept.so.0: the bytes, if
#                             the compiler is the one that PROVED names, and otherwise only the checksums
#   hosts/shared.sh --target aarch64 [--check]   the same for dist/aarch64
#
# Needs gcc and Debian's binutils, or gcc-aarch64-linux-gnu. Set CC to choose the compiler; the default is
# gcc, or aarch64-linux-gnu-gcc for ARM64.
set -u
LC_ALL=C
export LC_ALL
cd "$(dirname "$0")/.." || exit 1
. tools/lib/proved.sh

# fail REASON: ends the script with a message.
fail() {
    echo "$0: $1" >&2
    exit 1
}

# Compiles and links the object in the folder of the sources, so that no absolute path gets into the result.
compile() (
    beside=$PWD/$distribution
    cd hosts/kept && "$compiler" -std=c11 -O2 -fPIC -Wall -Wextra -Werror -Wconversion -I../../clients/c \
        -shared -Wl,-soname,libtpmsim-kept.so.0 -Wl,--version-script=tpmsim_kept.map \
        -Wl,--build-id=none -Wl,-z,defs -Wl,-z,relro -Wl,-z,now "-Wl,-rpath,\$ORIGIN" -o "$made" ./*.c \
        "$beside/libtpmsim.so.0" && "$strip" --strip-unneeded "$made" && chmod 644 "$made"
)

# Appends the object's lines to PROVED.
tell_proved() {
    {
        sed '/^kept /d' "$proved"
        echo "kept sources: $made_of"
        echo "kept compiler, which proves nothing: $version"
        echo "kept shared object: $(checksum <"$kept_shared")"
    } >"$proved.new" && mv "$proved.new" "$proved"
}

# Moves the object to dist/. Programs that have the old file open continue to use it.
deliver() {
    cp "$made" "$kept_shared.new" && mv "$kept_shared.new" "$kept_shared" && tell_proved
}

# Prints the faults of the object in dist/, one per line.
faults() {
    faults_of_kept
    if ! is_proved 'kept compiler, which proves nothing' "$version"; then
        echo "the compiler here is another than that of $kept_shared: the bytes are not compared" >&2
    elif ! { compile && cmp -s "$made" "$kept_shared"; }; then
        echo "$kept_shared has other bytes than those that are made here"
    fi
}

target=x86_64
compiler=${CC:-gcc}
strip='strip'
if [ "${1:-}" = --target ] && [ "${2:-}" = aarch64 ]; then
    target=aarch64
    compiler=${CC:-aarch64-linux-gnu-gcc}
    strip=aarch64-linux-gnu-strip
    shift 2
fi
ship "$target"
version=$("$compiler" --version 2>/dev/null | head -n 1)
work=$(mktemp -d) || exit 1
trap 'rm -rf "$work"' EXIT
made=$work/libtpmsim-kept.so.0
case $* in
--check)
    faults=$(faults)
    [ -z "$faults" ] || { printf '%s\n' "$faults" && exit 1; }
    ;;
'')
    [ -n "$version" ] || fail "there is no $compiler"
    made_of=$(kept_sources_checksum) || exit 1
    compile || fail "$kept_shared is not made"
    deliver || fail "$distribution is not written"
    ;;
*)
    echo "usage: $0 [--target aarch64] [--check]" >&2
    exit 2
    ;;
esac
