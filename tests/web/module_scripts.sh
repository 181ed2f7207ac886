# Tests the module for web pages in node. The module imports nothing. It must play each script like the program,
# with the same responses and traces, and report the same first invalid line.
tests=$(cd "$(dirname "$0")/.." && pwd -P)
. "$tests/common/cases.sh"
needs node python3
top=${tests%/*}
make_scripts

symmetric_folders | xargs node "$top/web/play.mjs" "$top/dist/tpmsim.wasm" compare >told
echo "status $?"
sed '/ scripts, /d' told
sed -n 's/ scripts, .*//p' told | while read -r scripts; do
    [ "$scripts" -lt 100 ] || echo 'all scripts are played'
done
