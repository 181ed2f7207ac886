# A program in Rust logs its commands, which it executes with the C library, and another one with the Rust
# package. From these logs, tools/explain.py explains why a command was refused. The answers of the completing
# layer are no refusals. tpmsim-coverage counts the commands in the log of the package.
tests=$(cd "$(dirname "$0")/.." && pwd -P)
. "$tests/common/cases.sh"
. "$tests/common/library.sh"
PATH=$PATH:${HOME:-/root}/.cargo/bin
needs cc python3 rustc

rustc --edition 2021 -D warnings -L "$dist" -o "$room/caller" "$sources/explained.rs" &&
    "$room/caller" log
python3 "$tests/../tools/explain.py" log

echo '== the package'
CARGO_PKG_VERSION='' rustc --edition 2021 --crate-name tpmsim --crate-type rlib -L "$dist" -l static=tpmsim \
    --out-dir "$room" "$tests/../clients/rust/src/lib.rs" &&
    rustc --edition 2021 -D warnings --extern "tpmsim=$room/libtpmsim.rlib" -L "$dist" -o "$room/logged" \
        "$sources/logged.rs" && "$room/logged" >logged
grep -c '^# completed$' logged
python3 "$tests/../tools/explain.py" logged
python3 -m tpmsim.coverage.main logged --only state | tail -n 1 | cut -d ";" -f 1
