"""Runs tpmsim-coverage: python3 -m tpmsim.coverage."""

from tpmsim.coverage.main import run

if __name__ == "__main__":
    run()
