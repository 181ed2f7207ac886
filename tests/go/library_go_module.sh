# Checks the formatting of the Go module, and runs its tests.
tests=$(cd "$(dirname "$0")/.." && pwd -P)
. "$tests/common/cases.sh"
. "$tests/common/library.sh"
. "$tests/common/go.sh"
needs go cc
copy_module

if command -v gofmt >found; then
    gofmt -l module
fi
play vet ./... && echo 'go vet finds nothing'
play test -v ./...
for how in PASS FAIL SKIP; do
    echo "$how: $(grep -c "^ *--- $how: " said)"
done
