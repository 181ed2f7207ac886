#!/bin/sh
# Builds the contents of dist/aarch64, for Linux on ARM64: the program, libtpmsim.a, libtpmsim.so.0 and PROVED,
# which contains the version of the kit and the checksums of the sources and of these three files. Then builds
# the files of hosts/shared.sh. The crates of the program and of the library are proved for ARM64, which the
# prover's verdict confirms. The crates that they use were proved for x86-64.
#
# All crates that these two use must have been built here by `rt ci`, and no source may be newer. tools/build.sh
# and tools/library.sh build them, for x86-64. Needs `rt`, and Debian's gcc-aarch64-linux-gnu.
set -u
cd "$(dirname "$0")/.." && top=$(pwd -P) || exit 1
. tools/lib/proved.sh
. tools/lib/compiling.sh
target=aarch64-unknown-linux-gnu
prefix=aarch64-linux-gnu-
folder=dist/aarch64
flags='-O2 -fPIC -std=c11 -Wall -Wextra -Werror -Wconversion'
work=$(mktemp -d) || exit 1
trap 'rm -rf "$work"' EXIT
log=$work/log

# fail REASON: ends the script with a message, and prints the end of the log.
fail() {
    [ ! -s "$log" ] || tail -n 20 "$log" >&2
    echo "$0: $1" >&2
    exit 1
}

# compile_here CRATE FILE: compiles a crate for ARM64, and prints the prover's verdict. Each crate has a
# separate log, because two crates are compiled at the same time.
compile_here() {
    log=$log.$1
    compile "$top" "$1" "$work/$2" --target "$target" --cpu generic >"$log" 2>&1 &&
        verdict=$(grep -x "logic=proved .* target=$target .*" "$log") && echo "$1: $verdict"
}

# Compiles the nine functions of tools/glue/, which the kit contains only for x86-64.
compile_glue() {
    for source in tools/glue/*.c; do
        # shellcheck disable=SC2086 # word splitting is intended
        "${prefix}gcc" $flags -c "$source" -o "$work/$(basename "$source" .c).o" >>"$log" 2>&1 ||
            return 1
    done
}

link_program() (
    cd "$work" && "${prefix}gcc" -pie -Wl,--build-id=none -Wl,-z,relro -Wl,-z,now -o tpmsim \
        program.o heap.o arguments.o errors.o environment.o descriptors.o && "${prefix}strip" --strip-unneeded tpmsim
) >>"$log" 2>&1

# Makes the archive and the shared object in the same way as tools/library.sh.
link_library() (
    mkdir "$work/objects" && cd "$work/objects" && "${prefix}ar" x ../exports.a && cp ../heap.o . &&
        "${prefix}ar" rcsD ../libtpmsim.a ./*.o &&
        "${prefix}gcc" -shared -nostartfiles -Wl,-soname,libtpmsim.so.0 -Wl,--build-id=none \
            -Wl,-z,defs -Wl,-z,relro -Wl,-z,now "-Wl,--version-script=$top/clients/c/tpmsim.map" \
            -o ../libtpmsim.so.0 ./*.o && "${prefix}strip" --strip-unneeded ../libtpmsim.so.0 &&
        chmod 644 ../libtpmsim.*
) >>"$log" 2>&1

# Prints the lines of the file PROVED.
tell_proved() {
    echo "kit: $kit_version"
    echo "target: $target"
    echo "sources: $program_sources"
    echo "program: $(checksum <"$folder/tpmsim")"
    echo "library sources: $library_sources"
    echo "library archive: $(checksum <"$folder/libtpmsim.a")"
    echo "library shared object: $(checksum <"$folder/libtpmsim.so.0")"
}

# Moves all files to dist/aarch64.
deliver() {
    mkdir -p "$folder" && mv "$work/tpmsim" "$work/libtpmsim.a" "$work/libtpmsim.so.0" "$folder/" &&
        cp clients/c/tpmsim.h clients/c/tpmsim.hpp clients/c/tpmsim.pc "$folder/" && tell_proved >"$folder/PROVED"
}

for tool in rt rattle "${prefix}gcc" "${prefix}ar" "${prefix}strip"; do
    command -v "$tool" >/dev/null || fail "there is no $tool"
done
kit_version=$(rt version) && program_sources=$(sources_checksum) &&
    library_sources=$(sources_checksum tpmsim_library) || exit 1
# shellcheck disable=SC2046 # crate names have no spaces
are_built $(crates_below tpmsim tpmsim_library) ||
    fail 'a crate is not built here, or a source is newer: tools/build.sh builds them'
(compile_here tpmsim program.o || fail 'the program is not compiled') &
program=$!
(compile_here tpmsim_library exports.a || fail 'the exports are not compiled') || exit 1
wait "$program" || exit 1
compile_glue || fail 'the glue is not compiled'
link_program || fail 'the program is not linked'
link_library || fail 'the library is not put together'
if ! { [ "$program_sources" = "$(sources_checksum)" ] &&
    [ "$library_sources" = "$(sources_checksum tpmsim_library)" ]; }; then
    fail 'a source changed meanwhile'
fi
deliver || fail "$folder is not written"
hosts/shared.sh --target aarch64
