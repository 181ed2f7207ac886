# Compares the fields of commands and responses. In all scripts, the page's JavaScript must find the same
# fields as tools/explain.py.
tests=$(cd "$(dirname "$0")/.." && pwd -P)
. "$tests/common/cases.sh"
needs node python3

python3 "$tests/../web/build.py" --facts >facts.json || exit 1
python3 "$tests/web/page_fields.py" >cases || exit 1
cp -R "$tests/../web/page" page && echo '{ "type": "module" }' >page/package.json || exit 1
node "$tests/web/page_fields.mjs" page facts.json cases
