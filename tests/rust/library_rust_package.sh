# Runs the tests of the Rust package, and builds its documentation, with cargo.
tests=$(cd "$(dirname "$0")/.." && pwd -P)
. "$tests/common/cases.sh"
. "$tests/common/library.sh"
. "$tests/common/rust.sh"
needs cargo
copy_package

echo '== tests'
play test
echo "$(grep -c '^test result: ok[.] [1-9]' said) kinds of tests pass"

echo '== documents'
RUSTDOCFLAGS='-D warnings' play doc --no-deps

echo '== no library'
TPMSIM_LIB_DIR=$room play build | sed -n "s|$room|ROOM|; s/^  tpmsim: /tpmsim: /p"
