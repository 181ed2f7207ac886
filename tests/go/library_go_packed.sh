# Uses the Go module that `make go` packs, as INSTALL says: with `go get` from a folder as the module proxy, from the
# folder that `go mod vendor` makes, and from a copy of the module's files. Without cgo, and for other systems, the
# compiler must print one error. The packed README has no link to a file outside the module.
tests=$(cd "$(dirname "$0")/.." && pwd -P)
. "$tests/common/cases.sh"
. "$tests/common/library.sh"
. "$tests/common/go.sh"
needs go cc python3 git unzip
unset CGO_LDFLAGS
top=${tests%/*}
path=$(sed -n 's/^module //p' "$top/clients/go/go.mod")

echo '== go get'
packed=$(cd "$top" && tools/go_module.py "$room/proxy") || exit 1
cp "$packed" once && (cd "$top" && tools/go_module.py "$room/proxy") >said && cmp once "$packed" && echo 'the same bytes twice'
mkdir program && cd program || exit 1
awk '/^```/ { shown = $0 == "```go" && !blocks++; next } shown' "$top/clients/go/README.md" >main.go
printf 'module program\n\ngo 1.19\n' >go.mod
get=$(sed -n "s|.*\`\(GOPROXY=file:[^\`]*\)\`.*|\1|p" "$top/INSTALL.md" | sed "s|PATH/tpmsim/out/go|$room/proxy|")
echo "$get" | sed "s|$room|ROOM|"
sh -c "$get" >said 2>&1 || cat said
cut -d ' ' -f 1,2 go.sum | sort

# run_program LABEL: runs the program, and prints its output without the random bytes.
run_program() {
    echo "== $1"
    go run . 2>&1 | sed 's/\(.\{24\}\)[0-9a-f]*/\1../'
}

run_program 'the program'
cat >main_test.go <<END
package main

import (
	"testing"

	"$path/tpmsimtest"
)

func TestTPM(t *testing.T) {
	if _, err := tpmsimtest.Open(t).Execute([]byte{0x80, 1, 0, 0, 0, 12, 0, 0, 1, 0x7b, 0, 4}); err != nil {
		t.Fatal(err)
	}
}
END
go mod vendor && (cd vendor && find . -name '*.a' -o -name '*.h') | sort
go clean -modcache
run_program 'vendored'
go test . 2>&1 | cut -f 1,2

echo '== one error'
CGO_ENABLED=0 go build . 2>&1
for system in darwin windows; do
    GOOS=$system go build . 2>&1
done

rm -rf vendor go.sum main_test.go
unzip -q "$packed" -d ../unpacked && mv ../unpacked/*/tpmsim@* ../copy
printf 'module program\n\ngo 1.19\n' >go.mod
go mod edit "-require=$path@v0.1.0" "-replace=$path=../copy"
run_program 'a copy'
cmp ../copy/tpmsim.h "$top/clients/c/tpmsim.h" && cmp ../copy/native/amd64/libtpmsim.a "$top/dist/libtpmsim.a" &&
    cmp ../copy/native/arm64/libtpmsim.a "$top/dist/aarch64/libtpmsim.a" && echo 'the shipped header and libraries'
echo "links out of the module: $(grep -c '](\.\.' ../copy/README.md)"
