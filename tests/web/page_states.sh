# Plays scripts in node with the page's code, and checks responses, logs, edits, and the lessons' tasks.
# Compares the device states that the page decodes with the Python model.
tests=$(cd "$(dirname "$0")/.." && pwd -P)
. "$tests/common/cases.sh"
needs node python3

top=${tests%/*}
python3 "$top/web/build.py" --facts >facts.json || exit 1
mkdir -p web clients/js && cp -R "$top/web/page" web/page && cp -R "$top/clients/js/src" clients/js/src || exit 1
echo '{ "type": "module" }' >package.json
make_scripts
symmetric_folders | xargs -I FOLDER find FOLDER -name '*.tpm' -size -450k | sort >names
while read -r name; do
    # At an invalid line the program ends the script, but the page continues. Therefore scripts with invalid
    # lines are left out.
    [ -f "${name%.tpm}.status" ] || echo "$name"
done <names >scripts
xargs node "$tests/web/page_states.mjs" web/page facts.json "$top/dist/tpmsim.wasm" \
    "$top/web/page/tutorial.json" states <scripts || exit 1
python3 "$tests/web/page_states.py" states
