#!/bin/sh
# Copies the program that `rt ci` proved and built here to dist/, and writes its lines in dist/PROVED: the
# version of the kit, and the checksums of the sources and of the program. Needs `rt`. tools/library.sh builds
# the library, hosts/shared.sh builds the C host for other languages, and tools/web.sh builds the module for web
# pages.
#
#   tools/dist.sh           copies the program, unless a source is newer than the one built here
#   tools/dist.sh --check   checks that dist/ was built from the current sources and, if the same kit is
#                           installed here, that the program has the same bytes as the one built
#                           here. The library is not built again: its checksums must be those in
#                           PROVED
set -u
cd "$(dirname "$0")/.." || exit 1
. tools/lib/proved.sh
# This script makes files for x86-64, even while a package for another machine is made.
ship x86_64

# Prints the faults of dist/, one on each line.
faults() {
    faults_of_program
    faults_of_library
    faults_of_kept
    faults_of_module
    faults_of_aarch64
}

faults_of_program() {
    for file in "$shipped" "$proved"; do
        [ -f "$file" ] || { echo "$file is not there" && return; }
    done
    is_proved sources "$(sources_checksum)" ||
        echo "$shipped was proved of other sources than these"
    is_proved program "$(checksum <"$shipped")" ||
        echo "$shipped is not the program that $proved names"
    if ! is_proved kit "$kit"; then
        echo "the kit here is $kit, and that of $shipped $(proved_line kit):" \
            'the bytes are not compared' >&2
    elif [ ! -x "$built" ] || ! cmp -s "$built" "$shipped"; then
        echo "$shipped has other bytes than $built"
    fi
}

faults_of_library() {
    for file in "$archive" "$shared" dist/tpmsim.h dist/tpmsim.hpp dist/tpmsim.pc; do
        [ -f "$file" ] || { echo "$file is not there" && return; }
    done
    is_proved 'library sources' "$(sources_checksum tpmsim_library)" ||
        echo "$archive was proved of other sources than these"
    is_proved 'library archive' "$(checksum <"$archive")" ||
        echo "$archive is not the archive that $proved names"
    is_proved 'library shared object' "$(checksum <"$shared")" ||
        echo "$shared is not the shared object that $proved names"
    for file in tpmsim.h tpmsim.hpp tpmsim.pc; do
        cmp -s "clients/c/$file" "dist/$file" || echo "dist/$file has other bytes than clients/c/$file"
    done
}

# Prints the faults of dist/aarch64, if it exists. The files there are not built again. Their checksums
# must be those in dist/aarch64/PROVED, and they must have been built from the current sources.
faults_of_aarch64() (
    ship aarch64
    [ -d "$distribution" ] || return 0
    if ! { is_proved sources "$(sources_checksum)" &&
        is_proved 'library sources' "$(sources_checksum tpmsim_library)"; }; then
        echo "$distribution was proved of other sources than these"
    fi
    is_proved program "$(checksum <"$shipped")" || echo "$shipped is not what $proved names"
    is_proved 'library archive' "$(checksum <"$archive")" || echo "$archive is not what $proved names"
    is_proved 'library shared object' "$(checksum <"$shared")" ||
        echo "$shared is not what $proved names"
    faults_of_kept
    for file in tpmsim.h tpmsim.hpp tpmsim.pc; do
        cmp -s "clients/c/$file" "$distribution/$file" ||
            echo "$distribution/$file has other bytes than clients/c/$file"
    done
)

kit=$(rt version) || exit 1
case $* in
--check)
    faults=$(faults)
    [ -z "$faults" ] || { printf '%s\n' "$faults" && exit 1; }
    ;;
'')
    if ! is_newest "$built"; then
        echo "$0: $built is not there, or a source is newer: tools/build.sh builds it" >&2
        exit 1
    fi
    sources=$(sources_checksum) && program=$(checksum <"$built") && mkdir -p dist || exit 1
    cp "$built" "$shipped.new" && chmod 755 "$shipped.new" && mv "$shipped.new" "$shipped" || exit 1
    library=$(sed -n '/^library /p; /^kept /p; /^web /p' "$proved" 2>/dev/null)
    printf 'kit: %s\nsources: %s\nprogram: %s\n' "$kit" "$sources" "$program" >"$proved"
    [ -z "$library" ] || printf '%s\n' "$library" >>"$proved"
    ;;
*)
    echo "usage: $0 [--check]" >&2
    exit 2
    ;;
esac
