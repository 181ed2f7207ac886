"""Lets pytest find the modules in tests/ of the repository. tests/python/python.sh does the same
for unittest.
"""

import pathlib
import sys

sys.path.append(str(pathlib.Path(__file__).resolve().parents[3]))
