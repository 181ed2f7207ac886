# The program in clients/js/README.md logs its commands. From this log, tools/explain.py explains why a command was
# refused, and tpmsim-coverage counts the commands.
tests=$(cd "$(dirname "$0")/.." && pwd -P)
. "$tests/common/cases.sh"
. "$tests/common/javascript.sh"
needs python3

awk '/^## / { wanted = $0 == "## Why was it refused?" } /^```/ { shown = wanted && $0 == "```js"; next } shown' \
    "$package/README.md" >program.mjs
echo 'console.log(tpm.log);' >>program.mjs
(cd "$package" && node --input-type=module --eval "$(cat "$room/folder/program.mjs")") | sed '1,2d' >log
python3 "$top/tools/explain.py" log
python3 -m tpmsim.coverage.main log --only state | tail -n 1 | cut -d ';' -f 1
