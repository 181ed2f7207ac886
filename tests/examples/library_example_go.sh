# Runs `go test` in examples/go_module, a project in Go whose tests use devices.
tests=$(cd "$(dirname "$0")/.." && pwd -P)
. "$tests/common/cases.sh"
. "$tests/common/library.sh"
. "$tests/common/go.sh"
needs go cc
copy_module
cp -r "$tests/../examples/go_module" project
sed -i 's|=> ../../clients/go|=> ../module|' project/go.mod

(cd project && go vet ./... && go test -v ./... >../said 2>&1) || cat said
grep -c '^--- PASS' said
