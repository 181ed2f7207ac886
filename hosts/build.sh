#!/bin/sh
# Builds a program or a library that contains a device, from the archive of the library. With the same compiler,
# the same sources always result in the same bytes.
#
#   hosts/build.sh tcti FOLDER        libtss2-tcti-tpmsim.so.0, the module for libtss2, and tpmsim-power
#   hosts/build.sh libtpms FOLDER     libtpms.so.0, with which swtpm uses tpmsim; tpmsim-swtpm, which
#                                     starts swtpm with that library; swtpm and swtpm_setup, for libvirt's path
#   hosts/build.sh simulator FOLDER   tpmsim-simulator
#
# The archive is the one in dist/ for this machine, or the one that TPMSIM_ARCHIVE names, with tpmsim.h next to
# it. CC, NM and STRIP name the tools, for example those for another machine. CFLAGS contains further arguments
# for CC; if it is set, nothing is stripped. Needs a C compiler and Debian's binutils; tcti needs the headers of
# libtss2-dev, and libtpms those of libtpms-dev.
set -u
LC_ALL=C
export LC_ALL
sources=$(CDPATH='' cd "$(dirname "$0")" && pwd -P) || exit 1
shipped=$sources/../dist
[ "$(uname -sm)" != 'Linux aarch64' ] || shipped=$shipped/aarch64
archive=${TPMSIM_ARCHIVE:-$shipped/libtpmsim.a}
compiler=${CC:-cc}
nm=${NM:-nm}
strip=${STRIP:-strip}

# fail REASON: ends the script with a message.
fail() {
    echo "$0: $1" >&2
    exit 1
}

# needs_header HEADER PACKAGE: ends the script if the compiler does not find the header.
needs_header() {
    echo "#include <$1>" | "$compiler" -E - >/dev/null 2>&1 || fail "there is no header $1: Debian has it in $2"
}

# compile NAME WORDS..: compiles and links a file.
compile() {
    name=$1
    shift
    # shellcheck disable=SC2086 # word splitting of CFLAGS is intended
    "$compiler" -std=c11 -O2 -Wall -Wextra -Werror -Wconversion -I"$(dirname "$archive")" \
        -Wl,--build-id=none -Wl,-z,relro -Wl,-z,now ${CFLAGS:-} -o "$work/$name" "$@" "$archive" || return 1
    [ -n "${CFLAGS:-}" ] || "$strip" --strip-unneeded "$work/$name"
}

# compile_shared NAME MAP WORDS..: compiles and links a shared object that exports the names in a version
# script. Symbols of the sanitizers may stay undefined, because the program that loads the object contains their
# runtime.
compile_shared() {
    name=$1
    map=$2
    shift 2
    # shellcheck disable=SC2086 # word splitting of CFLAGS is intended
    compile "$name" -shared -fPIC -Wl,-soname,"$name" -Wl,--version-script="$map" \
        ${CFLAGS:--Wl,-z,defs} "$@"
}

# Prints the names that libtpms.so.0 must export according to libtpms.map, each with its version.
wanted_names() {
    awk '
        /^LIBTPMS_/ { version = $1 }
        /^ +[A-Za-z_0-9]+;$/ { sub(/;/, ""); print $1 "@@" version }
    ' libtpms/libtpms.map | sort
}

# Prints the names that the built libtpms.so.0 exports, each with its version.
given_names() {
    "$nm" -D --defined-only --with-symbol-versions "$work/libtpms.so.0" |
        awk '$2 != "A" { print $3 }' | sort
}

# deliver SOURCE NAME MODE: replaces a file in the folder. Programs that have the old file open continue to use
# it.
deliver() {
    { cp "$1" "$folder/.$2.new" && chmod "$3" "$folder/.$2.new" && mv "$folder/.$2.new" "$folder/$2"; } ||
        fail "the folder $folder is not written"
}

build_tcti() {
    module=libtss2-tcti-tpmsim.so.0
    compile_shared "$module" tcti/tcti.map -fvisibility=hidden -Ikept tcti/tcti.c tcti/loaded.c kept/*.c ||
        fail "$module is not compiled"
    compile tpmsim-power -Ikept tcti/power.c kept/*.c || fail 'tpmsim-power is not compiled'
    deliver "$work/$module" "$module" 644
    deliver "$work/tpmsim-power" tpmsim-power 755
}

build_libtpms() {
    compile_shared libtpms.so.0 libtpms/libtpms.map -D_GNU_SOURCE= -Ikept -Isimulator libtpms/*.c \
        simulator/record_file.c kept/host.c kept/reason.c kept/secret.c kept/transfer.c ||
        fail 'libtpms.so.0 is not compiled'
    if [ -z "${CFLAGS:-}" ]; then
        wanted_names >"$work/wanted"
        given_names >"$work/given"
        diff "$work/wanted" "$work/given" >&2 || fail 'libtpms.so.0 shows other names than libtpms.map has'
    fi
    deliver "$work/libtpms.so.0" libtpms.so.0 644
    deliver libtpms/tpmsim-swtpm tpmsim-swtpm 755
    deliver libtpms/tpmsim-swtpm swtpm 755
    deliver libtpms/swtpm_setup swtpm_setup 755
}

build_simulator() {
    compile tpmsim-simulator -Ikept -Isimulator -Ilibtpms simulator/*.c libtpms/digests.c kept/*.c ||
        fail 'tpmsim-simulator is not compiled'
    deliver "$work/tpmsim-simulator" tpmsim-simulator 755
}

header=
package=
case $#/${1:-} in
2/tcti) header=tss2/tss2_tcti.h package=libtss2-dev ;;
2/libtpms) header=libtpms/tpm_library.h package=libtpms-dev ;;
2/simulator) ;;
*) fail 'usage: hosts/build.sh tcti|libtpms|simulator FOLDER' ;;
esac
folder=$(realpath -m "$2") || exit 1
case $folder/ in
"$sources/"*) fail "$2 is a folder of the sources" ;;
esac
for tool in "$compiler" "$nm" "$strip"; do
    command -v "$tool" >/dev/null || fail "there is no $tool: Debian has it in gcc and binutils"
done
[ -f "$archive" ] || fail "there is no archive $archive"
archive=$(realpath -e "$archive") || exit 1
"$nm" --defined-only "$archive" 2>/dev/null | grep -q ' tpmsim_fault_text$' ||
    fail "the archive $archive has no keeper of a device"
[ -z "$header" ] || needs_header "$header" "$package"
mkdir -p "$folder" || fail "the folder $folder is not written"
work=$(mktemp -d) || exit 1
trap 'rm -rf "$work"' EXIT
# Runs the compiler in this folder, so that no absolute path gets into the result.
cd "$sources" && "build_$1"
