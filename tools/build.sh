#!/bin/sh
# Proves the program tpmsim and every crate that it uses, from scratch, and builds the program. The launcher
# calls this script if it has no proved program, and prefers the result to the program in dist/. Needs `rt`,
# the command of the Rattle toolchain, and git.
#
#   tools/build.sh                    the program for x86-64
#   tools/build.sh --target aarch64   the contents of dist/aarch64, with the library (tools/aarch64.sh)
set -u
cd "$(dirname "$0")/.." && top=$(pwd -P) || exit 3
case $* in
'') ;;
'--target aarch64') exec tools/aarch64.sh ;;
*) echo "usage: $0 [--target aarch64]" >&2 && exit 2 ;;
esac
. tools/lib/proved.sh
. tools/lib/proving.sh
out=$top/crates/tpmsim/out
log=$out/build.log

# Proves each crate that the program uses, and the program. Crates that do not use each other are proved at the
# same time. Then builds the program. The program's modification time is set to the start of the build, so that
# a source that is edited during the build counts as newer.
build() {
    mkdir -p "$out" && : >"$log" && : >"$out/build_start" || return 1
    crates="$(crates_below tpmsim) tpmsim"
    total=$(echo "$crates" | wc -w)
    folder=$(mktemp -d) || return 1
    trap 'rm -rf "$folder"' EXIT
    copy_crates "$folder" && cd "$folder" && prove_all
    [ -x "$folder/$built" ] && touch -r "$out/build_start" "$folder/$built" &&
        mv "$folder/$built" "$top/$built"
}

for tool in rt git; do
    command -v "$tool" >/dev/null || {
        echo "tpmsim: no program can be built: $tool is missing (rt is the Rattle toolchain's)" >&2
        exit 3
    }
done
echo "tpmsim: proving and building the program; from nothing this takes half an hour to an hour" >&2
echo "tpmsim: meanwhile, unproved and slow: cd $top/crates/tpmsim && rt try -- run - <SCRIPT" >&2
if ! (build); then
    echo "tpmsim: the build failed, so nothing is run; $log says why" >&2
    exit 3
fi
