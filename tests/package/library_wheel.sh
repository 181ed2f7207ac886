# Tests the wheel that tools/wheel.py makes, which contains the library. Without a network, pip installs it in a
# new venv. pip also installs the folder python/, without changing it. The first example of clients/python/README.md and
# the program tpmsim must run.
tests=$(cd "$(dirname "$0")/.." && pwd -P)
. "$tests/common/cases.sh"
needs python3 venv
top=${tests%/*}
unset PYTHONPATH TPMSIM TPMSIM_LIBRARY
export PIP_NO_COMPILE=1 PIP_NO_INDEX=1 PIP_NO_CACHE_DIR=1 PIP_DISABLE_PIP_VERSION_CHECK=1 PIP_ROOT_USER_ACTION=ignore

command python3 -m venv venv >said 2>&1 || cat said
venv=$PWD/venv

# try WHAT: installs WHAT, and uses it from another folder.
try() {
    "$venv/bin/pip" install -q "$1" || echo "pip: status $?"
    (cd / && "$venv/bin/python" "$room/folder/example.py" | sed 's/^[0-9a-f]\{8\}$/4 random bytes/' &&
        "$venv/bin/python" "$room/folder/found.py" &&
        "$venv/bin/tpmsim-explain" --help | grep -c '^Usage: tpmsim-explain ')
}

# remove: uninstalls the package, and prints the files that are left.
remove() {
    "$venv/bin/pip" uninstall -q -y tpmsim && find venv \( -name 'tpmsim*' -o -name 'libtpmsim*' \)
}

awk '/^```/ { shown = $0 == "```python" && !blocks++; next } shown' "$top/clients/python/README.md" >example.py
cat >found.py <<'END'
import importlib.metadata
import pathlib
import sys
import tempfile

import tpmsim
from tpmsim.device import ChildDevice, Device, KeptDevice
from tpmsim.device.library import beside, places

with Device() as device:
    print(type(device).__name__)
if pathlib.Path(sys.executable).with_name("tpmsim").exists():
    with ChildDevice() as device:
        print(device.program.endswith("/bin/tpmsim"), device.execute(b"").check)
with tempfile.TemporaryDirectory() as folder, KeptDevice(folder) as device:
    print(type(device).__name__, device.execute(b"").check)
for place in places()[0], beside("libtpmsim-kept.so.0"):
    print(pathlib.Path(place).relative_to(sys.prefix).parts[-2:])
print(importlib.metadata.version("tpmsim") == tpmsim.__version__)
types = pathlib.Path(tpmsim.__file__).with_name("caller") / "calls.pyi"
print(types.name, types.read_text("ascii").count("\nclass GetRandomResponse("))
END

echo '== a wheel'
wheel=$("$top/tools/wheel.py" made) || echo "status $?"
version=$(sed -n 's/^version = "\(.*\)"/\1/p' "$top/clients/python/pyproject.toml")
[ "$wheel" = "made/tpmsim-$version-py3-none-manylinux_2_34_$(uname -m).whl" ] && echo 'it has its name'
"$top/tools/wheel.py" again >said && cmp "$wheel" again/*.whl && echo 'it has the same bytes each time'
try "$wheel"
"$venv/bin/pip" show tpmsim | sed -n '/^Version/d; /^Location/d; /^License/d; /^Author/d; p'
metadata=$(find venv -path '*tpmsim-*/METADATA')
grep -c '^Classifier: ' "$metadata"
sed '1,/^$/d' "$metadata" | head -n 1
echo "links to files: $(sed '1,/^$/d' "$metadata" | grep -c ']([^h#]')"
cmp venv/bin/tpmsim "$top/dist/tpmsim" && echo 'do Startup 0' | venv/bin/tpmsim run --trace -
remove

echo '== the one for ARM64'
wheel=$("$top/tools/wheel.py" --machine aarch64 made) && python3 -m zipfile -e "$wheel" arm &&
    cmp arm/tpmsim/libtpmsim.so.0 "$top/dist/aarch64/libtpmsim.so.0" &&
    cmp arm/tpmsim/libtpmsim-kept.so.0 "$top/dist/aarch64/libtpmsim-kept.so.0" &&
    sed -n 's/^Tag: //p' arm/*.dist-info/WHEEL

echo '== the folder'
mkdir -p copy/clients && cp -r "$top/clients/python" copy/clients/ && cp -r "$top/dist" copy/ &&
    find copy -name __pycache__ -prune -exec rm -r {} +
find copy | LC_ALL=C sort >before
try ./copy/clients/python
remove
find copy -name __pycache__ -prune -o -print | LC_ALL=C sort >after
cmp before after && echo 'nothing is left there'

echo '== the folder, without dist/'
rm -r copy/dist
venv/bin/pip install -q ./copy/clients/python && venv/bin/python -c '
from tpmsim.device import ModelDevice
print(ModelDevice().execute(b"").check)'
"$top/tools/wheel.py" /dev/null 2>said
echo "no folder: status $?"
