"""The TileLink model by calls of the proved C library, and a scoreboard. This package itself is not proved.

    import tlbridge

    with tlbridge.Bridge(client=8, manager=4) as bridge:
        bridge.offer("A", tlbridge.Beat(opcode=4, size=2, source=7, address=0x1004, mask=0xF0))
        for beat in bridge.receive_all("A"):
            print(beat)

The rules are in docs/SPECIFICATION.md. docs/ASSURANCE.md lists what is proved of each call of the C library below it.
"""
from .beats import Beat
from .bridge import Bridge, Counts, Side, Standings, Totals
from .library import MissingLibraryError, RefusedError, Status, load, status_of
from .scoreboard import DiffersError, Scoreboard
from .traces import TraceFaultError, TraceResult, run_trace

__all__ = [
    "Beat",
    "Bridge",
    "Counts",
    "DiffersError",
    "MissingLibraryError",
    "RefusedError",
    "Scoreboard",
    "Side",
    "Standings",
    "Status",
    "Totals",
    "TraceFaultError",
    "TraceResult",
    "load",
    "run_trace",
    "status_of",
]
