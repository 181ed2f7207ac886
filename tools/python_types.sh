#!/bin/sh
# Checks the package in clients/python/: its types with strict mypy, its names with pyflakes, its formatting with black,
# and its unit tests with pytest and the package's plugin. Also checks names and formatting of the programs in
# tests/, examples/ and tools/bench/. It is not part of the gate, and needs Debian's packages mypy, pyflakes3, black
# and python3-pytest. The status is 1 if a check fails.
set -u

top=$(CDPATH='' cd "$(dirname "$0")/.." && pwd -P) || exit 1
cd "$top/clients/python" || exit 1
for tool in mypy pyflakes3 black pytest-3; do
    command -v "$tool" >/dev/null || { echo "there is no $tool" >&2; exit 77; }
done
work=$(mktemp -d) || exit 1
trap 'rm -rf "$work"' EXIT
PYTHONPATH=$top/clients/python
PYTHONDONTWRITEBYTECODE=1
export PYTHONPATH PYTHONDONTWRITEBYTECODE
status=0
# mypy and black read a copy of the package, to which the types of the calls are written.
cp -R "$top/clients/python" "$work" && cd "$work/python" || exit 1
PYTHONPATH=$work/python python3 packing/call_types.py || status=1
mypy --cache-dir "$work/mypy" || status=1
/usr/bin/black --quiet --check . || status=1
cd "$top/clients/python" || exit 1
pyflakes3 tpmsim tests "$top/tests" "$top/examples" "$top/tools/bench" || status=1
# The programs of the tests must be formatted like the package.
/usr/bin/black --quiet --check --config pyproject.toml "$top/tests" "$top/examples" || status=1
pytest-3 -q -p no:cacheprovider -p tpmsim.pytest_plugin tests || status=1
exit "$status"
