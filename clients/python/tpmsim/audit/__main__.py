"""Runs tpmsim-audit: python3 -m tpmsim.audit."""

from tpmsim.audit.main import run

if __name__ == "__main__":
    run()
