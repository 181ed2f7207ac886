# Checks that the examples in Go print the same as those in Python.
tests=$(cd "$(dirname "$0")/.." && pwd -P)
. "$tests/common/cases.sh"
. "$tests/common/library.sh"
. "$tests/common/go.sh"
needs go cc
copy_module
mkdir "$room/built"

play build -o "$room/built/" ./examples/...
for name in disk_key encrypted_session event_log lockout rollback_guard; do
    echo "== $name"
    "$room/built/$name"
done
