# Checks that the examples in Rust print the same as those in Python.
tests=$(cd "$(dirname "$0")/.." && pwd -P)
. "$tests/common/cases.sh"
. "$tests/common/library.sh"
. "$tests/common/rust.sh"
needs cargo
copy_package

for name in disk_key encrypted_session event_log lockout rollback_guard; do
    echo "== $name"
    play run --quiet --example "$name" && cat said
done
