"""Which pairs of widths the tests of the library take, and whether the programs are installed."""

import os
from typing import List

from project import built

PAIRS: List[str] = os.environ.get("PAIRS", "8:4 4:8 128:1 1:128 128:128").split()


def programs() -> str:
    """The word of make about the programs, which are installed if they were built before."""
    there = all(os.access(built(name), os.X_OK) for name in ("tlbridge", "tlexplain"))
    return f"PROGRAMS={'yes' if there else 'no'}"
