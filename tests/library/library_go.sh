# Tests the library from Go, through cgo. See caller.go.
tests=$(cd "$(dirname "$0")/.." && pwd -P)
. "$tests/common/cases.sh"
. "$tests/common/library.sh"
needs go

export CGO_ENABLED=1 CGO_CFLAGS="-I$dist" CGO_LDFLAGS="-L$dist -l:libtpmsim.a"
export GOCACHE="$room/cache" GOPATH="$room/path" GO111MODULE=off GOFLAGS=-buildvcs=false
cp "$sources/caller.go" "$room" && cd "$room" && go vet caller.go &&
    go build -o "$room/caller" caller.go && "$room/caller"
