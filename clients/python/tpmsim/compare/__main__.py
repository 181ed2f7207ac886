"""Runs tpmsim-compare: python3 -m tpmsim.compare."""

import sys

from tpmsim.compare.main import run

if __name__ == "__main__":
    sys.exit(run())
