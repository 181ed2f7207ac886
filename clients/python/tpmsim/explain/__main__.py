"""Runs tpmsim-explain: python3 -m tpmsim.explain."""

from tpmsim.explain.main import run

if __name__ == "__main__":
    run()
