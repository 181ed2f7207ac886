# Functions for the tests of the JavaScript package, which read this file after cases.sh.
# shellcheck shell=sh disable=SC2034,SC2154 # cases.sh has `tests`
top=${tests%/*}
package=$top/clients/js
{ has_tool node && node -e 'process.exit(process.getBuiltinModule ? 0 : 1)'; } ||
    skip 'there is no node from 20.16 on, which Debian 12 does not have'
(cd "$top" && . tools/lib/proved.sh && ship x86_64 && [ -f dist/tpmsim.wasm ] &&
    is_proved 'web sources' "$(sources_checksum tpmsim_web)" &&
    is_proved 'web module' "$(checksum <dist/tpmsim.wasm)") ||
    skip 'dist/tpmsim.wasm was proved of other sources than these'

# all_pass FOLDER: runs the tests of a package with node's test runner, and prints its output if a test fails or is
# skipped.
all_pass() {
    make_scripts
    if TPMSIM_REPOSITORY=$top TPMSIM_MODULE=$top/dist/tpmsim.wasm node --test "$1/tests/" >"$room/said" 2>&1 &&
        grep -q ' skipped 0$' "$room/said"; then
        echo 'all tests pass'
    else
        grep -v '^# Subtest\|^ok\|duration_ms' "$room/said" | head -n 60
    fi
}
