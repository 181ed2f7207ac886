"""Runs tpmsim-script: python3 -m tpmsim.script."""

import sys

from tpmsim.script.main import run

if __name__ == "__main__":
    sys.exit(run())
