#!/bin/sh
# Runs python3 so that programs in tests/ and tools/ can import the package in clients/python/ and each other:
#
#   tools/python.sh tests/objects/create.py
set -u

top=$(CDPATH='' cd "$(dirname "$0")/.." && pwd -P) || exit 1
PYTHONPATH=$top/clients/python:$top
export PYTHONPATH
# No Python bytecode is written into the repository.
[ -n "${PYTHONPYCACHEPREFIX:-}" ] || export PYTHONDONTWRITEBYTECODE=1
exec python3 "$@"
