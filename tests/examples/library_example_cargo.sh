# Runs `cargo test` in examples/cargo, a project in Rust whose tests use devices.
tests=$(cd "$(dirname "$0")/.." && pwd -P)
. "$tests/common/cases.sh"
. "$tests/common/library.sh"
. "$tests/common/rust.sh"
needs cargo
copy_package
cp -r "$tests/../examples/cargo" project && rm -rf project/target project/Cargo.lock
sed -i 's|"../../clients/rust"|"../package"|' project/Cargo.toml

(cd project && cargo test --quiet >../said 2>&1) || cat said
grep -h '^test result' said | grep -v ' 0 passed' | sed 's/;.*//'
