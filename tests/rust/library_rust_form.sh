# Checks the formatting of the Rust package, and clippy's lints. Two lints that the clippy of Debian 12 has by
# default, and newer ones do not, are switched off: they also report correct code.
tests=$(cd "$(dirname "$0")/.." && pwd -P)
. "$tests/common/cases.sh"
. "$tests/common/library.sh"
. "$tests/common/rust.sh"
needs cargo cargo-clippy cargo-fmt
copy_package

play fmt --check && echo 'it is laid out'
play clippy --all-targets -- -D warnings -A clippy::needless_collect \
    -A clippy::derive_partial_eq_without_eq && echo 'clippy finds nothing'
