# Functions for the tests of the Rust package, which read this file after cases.sh and library.sh. The tests
# use a copy of the package, linked with the archive under test.
# shellcheck shell=sh disable=SC2154 # cases.sh has `room` and `tests`, library.sh `dist`
PATH=$PATH:${HOME:-/root}/.cargo/bin
needs cc
CARGO_TARGET_DIR=$room/target
CARGO_NET_OFFLINE=true
TPMSIM_LIB_DIR=$dist
export CARGO_TARGET_DIR CARGO_NET_OFFLINE TPMSIM_LIB_DIR

# copy_package: copies the Rust package to the folder `package`.
copy_package() {
    cp -r "$tests/../clients/rust" package && rm -rf package/target package/Cargo.lock
}

# play WORDS..: runs cargo in the copied package, and prints its output if it fails.
play() {
    (cd package && cargo "$@") >said 2>&1 && return
    echo "cargo $*: status $?"
    tail -n 40 said
    return 1
}
