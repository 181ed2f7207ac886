# Compares what the page takes with what tools/explain.py takes: dumps, traces, arrays, captures, logs and codes, as
# other programs print them.
tests=$(cd "$(dirname "$0")/.." && pwd -P)
. "$tests/common/cases.sh"
needs node python3

top=${tests%/*}
python3 "$top/web/build.py" --facts >facts.json || exit 1
python3 "$tests/web/page_taken.py" >cases || exit 1
mkdir -p web clients/js && cp -R "$top/web/page" web/page && cp -R "$top/clients/js/src" clients/js/src || exit 1
echo '{ "type": "module" }' >package.json
node "$tests/web/page_taken.mjs" web/page facts.json cases
