# Tests in node how the module for web pages keeps and restores devices. module_devices.mjs lists what is
# checked.
tests=$(cd "$(dirname "$0")/.." && pwd -P)
. "$tests/common/cases.sh"
needs node

node "$tests/web/module_devices.mjs" "${tests%/*}/dist/tpmsim.wasm"
