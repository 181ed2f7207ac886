#!/usr/bin/env python3
"""Audits a device's log; see clients/python/tpmsim/audit/main.py. Needs only python3."""

import pathlib
import sys

# Python must write no bytecode into the repository.
sys.dont_write_bytecode = sys.pycache_prefix is None
sys.path.insert(0, str(pathlib.Path(__file__).resolve().parents[1] / "clients" / "python"))

from tpmsim.audit.main import run

if __name__ == "__main__":
    run()
