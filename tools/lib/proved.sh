# Functions for the scripts that find, build and ship the proved program. These scripts source this file in the
# repository's folder.
# shellcheck shell=sh disable=SC2034 # other scripts use the variables
built=crates/tpmsim/out/tpmsim

# ship MACHINE: sets the paths of the shipped files for a machine, which are in dist/aarch64 for ARM64 and in
# dist/ for x86-64.
ship() {
    distribution=dist
    [ "$1" != aarch64 ] || distribution=dist/aarch64
    shipped=$distribution/tpmsim
    archive=$distribution/libtpmsim.a
    shared=$distribution/libtpmsim.so.0
    kept_shared=$distribution/libtpmsim-kept.so.0
    module=$distribution/tpmsim.wasm
    proved=$distribution/PROVED
}

# By default, the shipped files are those for this machine. TPMSIM_MACHINE names another machine, for example to
# make a package for it.
system=$(uname -sm)
machine=${TPMSIM_MACHINE:-${system#Linux }}
ship "$machine"

# uses CRATE: prints the libraries listed on CRATE's line in crates.txt.
uses() {
    sed -n -e "s/^$1\( [^:]*\)\{0,1\}://p" crates.txt
}

# crates_below CRATE..: prints the crates of this repository on which these crates depend, lowest first.
crates_below() {
    awk -F: -v tops="$*" '
        function visit(crates, i, count, names) {
            count = split(crates, names, " ")
            for (i = 1; i <= count; i++) {
                if (!(names[i] in uses) || names[i] in below) continue
                below[names[i]] = 1
                visit(uses[names[i]])
            }
        }
        /^[^#]/ { sub(/ .*/, "", $1); uses[$1] = $2; order[++lines] = $1 }
        END {
            count = split(tops, names, " ")
            for (i = 1; i <= count; i++) visit(uses[names[i]])
            for (l = 1; l <= lines; l++) if (order[l] in below) print order[l]
        }' crates.txt
}

# sources [CRATE]: prints the files and folders from which a program or the library is built. CRATE is the crate
# of that program or library, by default tpmsim.
sources() {
    below=$(crates_below "${1:-tpmsim}") || return 1
    echo crates.txt
    echo HANDLES
    for crate in $below "${1:-tpmsim}"; do
        for part in src specs proofs; do
            [ ! -d "crates/$crate/$part" ] || echo "crates/$crate/$part"
        done
    done
}

# is_newest FILE [CRATE]: succeeds if a file exists, and no source or folder of sources is newer.
is_newest() {
    # shellcheck disable=SC2086 # source names have no spaces
    [ -e "$1" ] && sources=$(sources "${2:-tpmsim}") &&
        newer=$(find $sources -newer "$1" -print -quit 2>/dev/null) && [ -z "$newer" ]
}

# are_built CRATE..: succeeds if each of these libraries and programs was built here by `rt ci`, and no source
# is newer. `rt ci` leaves no file for a static library. For a static library, all crates on which it depends
# must be built instead.
are_built() {
    for crate do
        if grep -q "^$crate staticlib" crates.txt; then
            # shellcheck disable=SC2046 # crate names have no spaces
            are_built $(crates_below "$crate") || return 1
            continue
        fi
        made=crates/$crate/out/rlib/$crate.rlib/format
        [ ! -e "crates/$crate/src/main.rt" ] || made=crates/$crate/out/$crate
        is_newest "$made" "$crate" || return 1
    done
}

# Reads text, and prints its SHA-256.
checksum() {
    sum=$(sha256sum) && echo "${sum%% *}"
}

# sources_checksum [CRATE]: prints the checksum of the sources. This is the SHA-256 of the lines that sha256sum
# prints for the files, in the order of their paths in the repository.
sources_checksum() {
    sources=$(sources "$@") || return 1
    # shellcheck disable=SC2086 # source names have no spaces
    checksum_of $sources
}

# kept_sources_checksum: prints the checksum of the sources of libtpmsim-kept.so.0, the C host as a shared
# object.
kept_sources_checksum() {
    checksum_of hosts/kept hosts/shared.sh clients/c/tpmsim.h
}

# checksum_of PATH..: prints the SHA-256 of the lines that sha256sum prints for these files, and for the files
# in these folders.
checksum_of() {
    sums=$(find "$@" ! -type d -print0 | LC_ALL=C sort -z | xargs -0 sha256sum) || return 1
    printf '%s\n' "$sums" | checksum
}

# proved_line NAME: prints the value of the line with this name in dist/PROVED.
proved_line() {
    [ ! -f "$proved" ] || sed -n "s/^$1: //p" "$proved"
}

# is_proved NAME SUM: succeeds if dist/PROVED has this checksum on the line with this name.
is_proved() {
    [ -n "$2" ] && [ "$(proved_line "$1")" = "$2" ]
}

# Compares the checksums of the C host with those in dist/PROVED. Prints the faults, one on each line.
faults_of_kept() {
    [ -f "$kept_shared" ] || { echo "$kept_shared is not there" && return; }
    is_proved 'kept sources' "$(kept_sources_checksum)" || echo "$kept_shared was made of other sources than these"
    is_proved 'kept shared object' "$(checksum <"$kept_shared")" || echo "$kept_shared is not what $proved names"
}

# Compares the checksums of the module for web pages with those in dist/PROVED. Prints the faults, one on each
# line.
faults_of_module() {
    [ -f "$module" ] || { echo "$module is not there" && return; }
    is_proved 'web sources' "$(sources_checksum tpmsim_web)" ||
        echo "$module was proved of other sources than these"
    is_proved 'web module' "$(checksum <"$module")" || echo "$module is not the module that $proved names"
}
