# Tests the library from Rust. See caller.rs.
tests=$(cd "$(dirname "$0")/.." && pwd -P)
. "$tests/common/cases.sh"
. "$tests/common/library.sh"
PATH=$PATH:${HOME:-/root}/.cargo/bin
needs cc rustc

rustc --edition 2021 -D warnings -L "$dist" -o "$room/caller" "$sources/caller.rs" && "$room/caller"
