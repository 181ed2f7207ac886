"""Runs tpmsim-refusals: python3 -m tpmsim.refusals."""

from tpmsim.refusals.main import run

if __name__ == "__main__":
    run()
