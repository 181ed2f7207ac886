#!/usr/bin/env python3
"""Explains the refusals in a log; see clients/python/tpmsim/explain/main.py. Needs only python3."""

import pathlib
import sys

# Python must write no bytecode into the repository.
sys.dont_write_bytecode = sys.pycache_prefix is None
sys.path.insert(0, str(pathlib.Path(__file__).resolve().parents[1] / "clients" / "python"))

from tpmsim.explain.main import run

if __name__ == "__main__":
    run()
