"""Refusals on demand: the least change of a device's state under which a command meets a row of the
table.
"""

from tpmsim.refuse.finding import Found, Met, rows_from_start, rows_near
from tpmsim.refuse.finding import Unrefusable, Wanted

__all__ = ["Found", "Met", "rows_from_start", "rows_near", "Unrefusable", "Wanted"]
