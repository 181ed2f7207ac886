#!/bin/sh
# Prints the version that each file states, one per line. The status is 1 if they differ.
#
#   tools/version.sh [PROGRAM]   with this program; by default with dist/tpmsim
set -u
program=${1:-dist/tpmsim}
case $program in
/*) ;;
*/*) [ "$#" -eq 0 ] || program=$PWD/$program ;;
esac
cd "$(dirname "$0")/.." || exit 1

# dotted NUMBER: prints a version that is given as six hex digits.
dotted() {
    rest=${1#??}
    [ -z "$1" ] || echo "$((0x${1%????})).$((0x${rest%??})).$((0x${rest#??}))"
}

# of_header FILE: prints the version that a header defines as a number in hex.
of_header() {
    dotted "$(sed -n 's/^#define TPMSIM_VERSION_NUMBER 0x\([0-9a-f]\{6\}\)$/\1/p' "$1")"
}

# of_journals FILE: prints the version that the heads of journals contain.
of_journals() {
    dotted "$(sed -n 's/^const LIBRARY_VERSION: u32 = 0x\(....\)_\(..\);$/\1\2/p' "$1")"
}

# Prints each version and the file that states it.
versions() {
    echo "$("$program" --version | sed -n 's/^tpmsim //p') the program"
    echo "$(sed -n '/^## /{s/^## \(Unreleased (\)\{0,1\}\([0-9.]*\).*/\2/p;q;}' CHANGELOG.md) CHANGELOG.md"
    for folder in clients/c dist; do
        echo "$(of_header "$folder/tpmsim.h") $folder/tpmsim.h"
        echo "$(sed -n 's/^Version: //p' "$folder/tpmsim.pc") $folder/tpmsim.pc"
    done
    echo "$(sed -n 's/^Version: //p' clients/c/tpmsim-kept.pc) clients/c/tpmsim-kept.pc"
    echo "$(of_journals crates/tpm_journal_text/src/head.rt) crates/tpm_journal_text/src/head.rt"
    echo "$(sed -n 's/^version = "\(.*\)"$/\1/p' clients/python/pyproject.toml) clients/python/pyproject.toml"
    echo "$(sed -n 's/^  "version": "\(.*\)",$/\1/p' clients/js/package.json) clients/js/package.json"
    echo "$(sed -n 's/^version = "\(.*\)"$/\1/p' clients/rust/Cargo.toml) clients/rust/Cargo.toml"
    echo "$(sed -n 's/^__version__ = "\(.*\)"$/\1/p' clients/python/tpmsim/__init__.py) tpmsim.__version__"
}

told=$(versions)
printf '%s\n' "$told"
printf '%s\n' "$told" | awk '
    NR == 1 { wanted = $1 }
    !/^[0-9]+\.[0-9]+\.[0-9]+ / || $1 != wanted { differs = 1 }
    END { exit differs }'
