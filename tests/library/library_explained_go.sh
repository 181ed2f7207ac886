# A program in Go logs its commands, which it executes with the C library, and another one with the Go module. From
# these logs, tools/explain.py explains why a command was refused. The answers of the completing layer are no
# refusals. tpmsim-coverage counts the commands in the log of the module.
tests=$(cd "$(dirname "$0")/.." && pwd -P)
. "$tests/common/cases.sh"
. "$tests/common/library.sh"
. "$tests/common/go.sh"
needs go python3
copy_module

export CGO_CFLAGS="-I$dist"
cp "$sources/explained.go" . && go vet explained.go &&
    CGO_LDFLAGS="$CGO_LDFLAGS -l:libtpmsim.a" go build -o "$room/caller" explained.go &&
    "$room/caller" log
python3 "$tests/../tools/explain.py" log

echo '== the module'
mkdir module/logged && cp "$sources/logged.go" module/logged/main.go && play build -o "$room/logged" ./logged &&
    "$room/logged" >logged
grep -c '^# completed$' logged
python3 "$tests/../tools/explain.py" logged
python3 -m tpmsim.coverage.main logged --only state | tail -n 1 | cut -d ";" -f 1
