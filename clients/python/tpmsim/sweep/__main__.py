"""Runs tpmsim-sweep: python3 -m tpmsim.sweep."""

from tpmsim.sweep.main import run

if __name__ == "__main__":
    run()
