#!/bin/sh
# Makes the Rust package, tpmsim-VERSION.crate, with the library for each machine for which dist/ contains it,
# and prints the package's path. The script does not use the network.
#
#   tools/crate.sh [FOLDER]   in FOLDER; by default in out/
#
# Needs cargo, which builds the packed crate.
set -u
folder=$(realpath -m "${1:-$(dirname "$0")/../out}") && cd "$(dirname "$0")/.." || exit 1

# fail REASON: ends the script with a message, and prints the end of cargo's output.
fail() {
    [ ! -f "$work/said" ] || tail -n 20 "$work/said" >&2
    echo "$0: $1" >&2
    exit 1
}

work=$(mktemp -d) || exit 1
trap 'rm -rf "$work"' EXIT
PATH=$PATH:${HOME:-/root}/.cargo/bin
command -v cargo >"$work/found" || fail 'there is no cargo'

# copy_libraries FOLDER MACHINE: copies the libraries in FOLDER to where the package of MACHINE looks for them.
copy_libraries() {
    mkdir -p "$work/rust/native/$2" &&
        cp "$1/libtpmsim.a" "$1/libtpmsim.so.0" "$1/libtpmsim-kept.so.0" "$work/rust/native/$2/"
}

# Cargo writes files next to those that it reads. Therefore it runs in a copy of the package, which contains the
# libraries for each machine.
mkdir "$work/rust" || fail 'there is no folder for a copy'
(cd clients/rust && cp -r Cargo.toml README.md build.rs examples src tests "$work/rust/") ||
    fail 'the package is not copied'
copy_libraries dist x86_64 || fail 'the libraries for x86-64 are not copied'
copy_libraries dist/aarch64 aarch64 || fail 'the libraries for ARM64 are not copied'
unset TPMSIM_LIB_DIR
(cd "$work/rust" && cargo package --offline --allow-dirty --target-dir "$work/target") \
    >"$work/said" 2>&1 || fail 'cargo makes no package'
mkdir -p "$folder" || fail "$folder is no folder"
cp "$work"/target/package/*.crate "$folder/" || fail "$folder is not written"
for made in "$work"/target/package/*.crate; do
    echo "$folder/${made##*/}"
done
