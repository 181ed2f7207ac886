# Checks in node that no text hangs the page. The page says what 16 MiB of various bytes are. Its work grows in
# proportion to the text, and is done in parts. The test counts steps, and does not measure times.
tests=$(cd "$(dirname "$0")/.." && pwd -P)
. "$tests/common/cases.sh"
needs node python3

top=${tests%/*}
python3 "$top/web/build.py" --facts >facts.json || exit 1
mkdir -p web clients/js && cp -R "$top/web/page" web/page && cp -R "$top/clients/js/src" clients/js/src || exit 1
echo '{ "type": "module" }' >package.json
node "$tests/web/page_bounds.mjs" kinds web/page facts.json "$top/dist/tpmsim.wasm"
node --no-opt --no-flush-bytecode "$tests/web/page_bounds.mjs" steps web/page facts.json "$top/dist/tpmsim.wasm"
