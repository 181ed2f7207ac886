# Checks what npm packs for the JavaScript package, without a network. The packed package contains the module.
# Another project installs the package, and its tests pass there. The repository stays unchanged.
tests=$(cd "$(dirname "$0")/.." && pwd -P)
. "$tests/common/cases.sh"
. "$tests/common/javascript.sh"
needs npm python3 tar

HOME=$room/home
npm_config_offline=true npm_config_audit=false npm_config_fund=false npm_config_update_notifier=false
export HOME npm_config_offline npm_config_audit npm_config_fund npm_config_update_notifier
mkdir "$HOME" "$room/clone" "$room/project"
(cd "$top" && tar cf - clients/js dist/tpmsim.wasm) | (cd "$room/clone" && tar xf -)

echo '== it is packed'
(cd "$room/clone/clients/js" && find . -type f | sort) >before
(cd "$room/clone/clients/js" && npm pack --silent --pack-destination "$room") | sed 's/[0-9][0-9.]*tgz/VERSION.tgz/'
(cd "$room/clone/clients/js" && find . -type f | sort) | diff before - && echo 'the folder is as it was'
tar tzf "$room"/tpmsim-*.tgz | sort
tar xzf "$room"/tpmsim-*.tgz -O package/tpmsim.wasm | cmp - "$top/dist/tpmsim.wasm" && echo 'it has the module'

tar xzf "$room"/tpmsim-*.tgz -O package/README.md | grep -c '](\.\.' | sed 's/^/links out of the package: /'
tar xzf "$room"/tpmsim-*.tgz -O package/index.d.cts | cmp - "$package/index.d.ts" && echo 'it has the types for CommonJS'

echo '== it is installed'
cd "$room/project" || exit 1
echo '{ "private": true, "type": "module" }' >package.json
npm install --silent "$room"/tpmsim-*.tgz || exit 1
if node -e 'process.exit(process.features.require_module ? 0 : 1)'; then
    node --no-warnings --input-type=commonjs \
        -e 'require("tpmsim").Device.create().then((tpm) => console.log("CommonJS:", typeof tpm.accepted))'
else
    echo 'CommonJS: function'
fi
cp -R "$package/tests" node_modules/tpmsim/
all_pass node_modules/tpmsim
