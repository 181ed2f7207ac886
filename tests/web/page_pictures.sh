# Checks that the page's pictures of policies and PCRs are true: the assertions of a session are the steps that changed
# its digest, and the links of a PCR are the steps that changed its value, as the device's state says after each step.
tests=$(cd "$(dirname "$0")/.." && pwd -P)
. "$tests/common/cases.sh"
needs node python3

top=${tests%/*}
set -- sealing_policy disk_unlock one_command policy_or policy_pcr policy_secret policy_restart policy_sessions policy_nv
set -- "$@" policy_command_code policy_locality policy_cp_hash policy_auth_value policy_nv_written policy_sessions_that_encrypt
make_scripts "$@" || exit 1
for name in "$@"; do
    script "$name" || exit 1
done >scripts
ls "$top"/tests/pcrs/*.tpm "$top"/tests/policies/*.tpm >>scripts
python3 "$top/web/build.py" --facts >facts.json || exit 1
mkdir -p web clients/js && cp -R "$top/web/page" web/page && cp -R "$top/clients/js/src" clients/js/src || exit 1
echo '{ "type": "module" }' >package.json
node "$tests/web/page_pictures.mjs" web/page facts.json "$top/dist/tpmsim.wasm" scripts
