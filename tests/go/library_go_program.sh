# Runs README's example in a program that uses the folder clients/go/ as the module. The device that is made from a seed,
# the names of response codes and the names of commands must be the same as in Python.
tests=$(cd "$(dirname "$0")/.." && pwd -P)
. "$tests/common/cases.sh"
. "$tests/common/library.sh"
. "$tests/common/go.sh"
needs go cc python3
unset CGO_LDFLAGS
top=${tests%/*}

mkdir program && cd program || exit 1
awk '/^```/ { shown = $0 == "```go" && !blocks++; next } shown' "$top/clients/go/README.md" >main.go
printf 'module program\n\ngo 1.19\n' >go.mod
sh -c "$(sed -n "s|^go mod edit.*PATH/tpmsim|&|; s|PATH/tpmsim|$top|p" "$top/clients/go/README.md")"
go run . | sed 's/\(.\{24\}\)[0-9a-f]*/\1../'

cat >main.go <<'END'
package main

import (
	"fmt"

	"example.org/tpmsim"
)

func main() {
	tpm, err := tpmsim.Open(tpmsim.WithSeed([]byte("the same")))
	if err != nil {
		panic(err)
	}
	for _, count := range []byte{1, 32, 48} {
		response, _ := tpm.Send([]byte{0x80, 1, 0, 0, 0, 12, 0, 0, 1, 0x7b, 0, count})
		fmt.Printf("%x\n", response)
	}
	text, _ := tpm.Snapshot()
	fmt.Printf("%x\n", text)
}
END
go run . >go_told
TPMSIM_LIBRARY=$shared python3 - >python <<'END'
from tpmsim.device import LibraryDevice

with LibraryDevice(seed=b"the same") as device:
    device.execute(bytes.fromhex("80010000000c000001440000"))
    for count in 1, 32, 48:
        print(device.execute(bytes.fromhex(f"80010000000c0000017b{count:04x}")).response.hex())
    print(device.snapshot().hex())
END
cmp go_told python && echo "the same in $(wc -l <go_told) lines"

sed -n 's/^	0x\([0-9a-f]*\): *"\(.*\)",$/\1 \2/p' "$top/clients/go/names.go" >go_told
python3 - >python <<'END'
from tpmsim.standard.command_names import NAMES
from tpmsim.standard.frames import CODES

for number, name in sorted((number, name) for name, number in CODES.items()):
    print(f"{number:03x} {name}")
for number, name in sorted(NAMES.items()):
    if name != "Vendor_TCG_Test":
        print(f"{number:03x} {name}")
END
diff go_told python && echo 'the names are the same'
