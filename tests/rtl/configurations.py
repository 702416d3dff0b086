"""The runs of tests/rtl/test_rtl_long.py: scenarios, corners of the parameters, and values that are refused."""

from typing import Any, Dict, List, Tuple

WIDTHS = (1, 2, 4, 8, 16, 32, 64, 128)
BUDGET = 8  # from this FIFO_DEPTH on both links are full with like clocks


def of(client: int = 8, manager: int = 4, **more: int) -> Dict[str, int]:
    return dict(CLIENT_BYTES=client, MANAGER_BYTES=manager, **more)


# name, seed, length of the trace in parts of BEATS, options of tlbridge.traffic, words for the simulation
REUSE: Dict[str, Any] = dict(sources=3, largest=8, mix={"A": 8, "B": 1, "C": 1, "D": 1, "E": 1}, continuing=8)
APART: Dict[str, Any] = dict(sources=40, largest=7)
SCENARIOS: List[Tuple[str, int, float, Dict[str, Any], List[str]]] = [
    ("wandering clocks", 1, 1, {}, ["client=1000", "manager=1370"]),
    ("manager faster", 1, 1, {}, ["client=1000", "manager=610"]),
    ("one clock", 1, 1, {}, ["single"]),
    ("no stalls", 1, 1, {}, ["client=1000", "manager=1013", "stalls=0"]),
    ("few sources", 2, 1, REUSE, ["client=1000", "manager=870"]),
    ("few sources, no stalls", 2, 1, REUSE, ["client=1000", "manager=1140", "stalls=0"]),
    ("few sources, one clock, no stalls", 2, 1, REUSE, ["single", "stalls=0", "drift=0"]),
    ("clocks 1:50", 3, 0.25, APART, ["client=1000", "manager=50000"]),
    (
        "clocks 50:1, no stalls",
        3,
        0.25,
        APART,
        ["client=50000", "manager=1000", "stalls=0"],
    ),
]

# ---- Corners

TABLES = [
    of(8, 4, MAX_OUTSTANDING=1),
    of(8, 4, MAX_OUTSTANDING=4, SOURCE_BITS=16, COVER=1),
    of(4, 8, MAX_OUTSTANDING=1),
    of(4, 16, MAX_OUTSTANDING=3, SOURCE_BITS=16, COVER=1),
    of(8, 8, MAX_OUTSTANDING=2),
    of(16, 4, MAX_OUTSTANDING=8, SOURCE_BITS=3),
    of(1, 8, MAX_OUTSTANDING=5, FIFO_DEPTH=2),
    of(8, 4, MAX_OUTSTANDING=4, ALLOW_SAME_CYCLE_RESPONSE=0),
    of(64, 1, MAX_OUTSTANDING=2, SYNC_STAGES=3),
]
ONE_CLOCK = [
    of(8, 4, ASYNC=0, COVER=1),
    of(4, 8, ASYNC=0, FIFO_DEPTH=2),
    of(8, 8, ASYNC=0, FIFO_DEPTH=4),
    of(1, 64, ASYNC=0, FIFO_DEPTH=16),
    of(4, 8, ASYNC=0, FIFO_DEPTH=0, COVER=1),
    of(1, 16, ASYNC=0, FIFO_DEPTH=0),
    of(2, 128, ASYNC=0, FIFO_DEPTH=0, MAX_OUTSTANDING=3),
    of(8, 4, ASYNC=0, FIFO_DEPTH=0, MAX_OUTSTANDING=4, COVER=1),
    of(8, 8, ASYNC=0, FIFO_DEPTH=0, MAX_OUTSTANDING=1),
    of(8, 8, ASYNC=0, FIFO_DEPTH=0, ALLOW_SAME_CYCLE_RESPONSE=0),
    of(16, 2, ASYNC=0, FIFO_DEPTH=0, ALLOW_SAME_CYCLE_RESPONSE=0),
    of(64, 64, ASYNC=0, FIFO_DEPTH=2, MAX_OUTSTANDING=16),
]
WITHOUT_B_C_E = [
    of(8, 4, HAS_B_C_E=0, COVER=1),
    of(4, 8, HAS_B_C_E=0, REQUEST_USER_BITS=4),
    of(8, 8, HAS_B_C_E=0, MAX_OUTSTANDING=4),
    of(16, 4, HAS_B_C_E=0, ASYNC=0),
    of(4, 4, HAS_B_C_E=0, ASYNC=0, FIFO_DEPTH=0, MAX_OUTSTANDING=2),
]
USER = [
    of(8, 4, REQUEST_USER_BITS=5, ECHO_BITS=3, COVER=1),
    of(4, 8, RESPONSE_USER_BITS=7),
    of(8, 8, REQUEST_USER_BITS=1, RESPONSE_USER_BITS=1, ECHO_BITS=1),
    of(16, 4, REQUEST_USER_BITS=20, RESPONSE_USER_BITS=3, ECHO_BITS=11),
    of(2, 8, ECHO_BITS=1),
    of(8, 4, ASYNC=0, REQUEST_USER_BITS=2, RESPONSE_USER_BITS=33),
]
SIZES = [
    of(8, 4, FIFO_DEPTH=2, SYNC_STAGES=3, SIZE_BITS=3, SOURCE_BITS=1, SINK_BITS=3, ADDRESS_BITS=32),
    of(4, 8, FIFO_DEPTH=2, SIZE_BITS=8, SOURCE_BITS=3, SINK_BITS=16),
    of(8, 8, FIFO_DEPTH=4, SYNC_STAGES=3, SOURCE_BITS=2, SINK_BITS=1, ADDRESS_BITS=12),
    of(1, 128, FIFO_DEPTH=2, SOURCE_BITS=16, SINK_BITS=5),
    of(128, 1, FIFO_DEPTH=4, SYNC_STAGES=3, SOURCE_BITS=16, SINK_BITS=2),
    of(64, 2, FIFO_DEPTH=2, SYNC_STAGES=4, SIZE_BITS=8, SOURCE_BITS=5, SINK_BITS=3, ADDRESS_BITS=40),
    of(2, 64, FIFO_DEPTH=2, SYNC_STAGES=3, SIZE_BITS=5, SOURCE_BITS=1, SINK_BITS=4),
    of(4, 8, FIFO_DEPTH=2, SOURCE_BITS=1, SINK_BITS=4, ADDRESS_BITS=16),
    of(16, 8, FIFO_DEPTH=16, SOURCE_BITS=16, SINK_BITS=16),
    of(8, 32, FIFO_DEPTH=16, SYNC_STAGES=3, SOURCE_BITS=10, SINK_BITS=9),
    of(16, 4, SIZE_BITS=2, ADDRESS_BITS=2, SOURCE_BITS=4, SINK_BITS=7, COVER=1),
    of(1, 4, SIZE_BITS=1, ADDRESS_BITS=1, SOURCE_BITS=12, SINK_BITS=1),
    of(128, 128, FIFO_DEPTH=16, SYNC_STAGES=3, SOURCE_BITS=7, SINK_BITS=11),
]
CORNERS = TABLES + ONE_CLOCK + WITHOUT_B_C_E + USER + SIZES + [of(4, 8, COVER=1)]
COVERED = [config for config in CORNERS if "COVER" in config]
for config in CORNERS:
    config.pop("COVER", None)

DEFAULT: Dict[str, int] = {}
SMALL = of(1, 1, SIZE_BITS=1, SOURCE_BITS=1, SINK_BITS=1, ADDRESS_BITS=1, FIFO_DEPTH=2)
LINT_CORNERS = [DEFAULT, *CORNERS, SMALL]

# values that are refused, and the beginning of the message
REFUSED = [
    (dict(CLIENT_BYTES=3), "CLIENT_BYTES_must_be"),
    (dict(FIFO_DEPTH=6), "FIFO_DEPTH_must_be"),
    (dict(SYNC_STAGES=1), "SYNC_STAGES_must_be"),
    (dict(MANAGER_BYTES=256), "MANAGER_BYTES_must_be"),
    (dict(MANAGER_BYTES=0), "MANAGER_BYTES_must_be"),
    (dict(ADDRESS_BITS=65), "ADDRESS_BITS_must_be"),
    (dict(ADDRESS_BITS=0), "ADDRESS_BITS_must_be"),
    (dict(SIZE_BITS=9), "SIZE_BITS_must_be"),
    (dict(SIZE_BITS=0), "SIZE_BITS_must_be"),
    (dict(SOURCE_BITS=0), "SOURCE_BITS_must_be"),
    (dict(SOURCE_BITS=17), "SOURCE_BITS_must_be"),
    (dict(SINK_BITS=0), "SINK_BITS_must_be"),
    (dict(SINK_BITS=17), "SINK_BITS_must_be"),
    (dict(FIFO_DEPTH=1), "FIFO_DEPTH_must_be"),
    (dict(FIFO_DEPTH=0), "FIFO_DEPTH_must_not_be_0_with_ASYNC"),
    (dict(MAX_OUTSTANDING=17), "MAX_OUTSTANDING_must_be"),
    (dict(REQUEST_USER_BITS=-1), "REQUEST_USER_BITS_must"),
    (dict(RESPONSE_USER_BITS=-1), "RESPONSE_USER_BITS_must"),
    (dict(ECHO_BITS=-1), "ECHO_BITS_must"),
    (dict(MAX_OUTSTANDING=-1), "MAX_OUTSTANDING_must_be"),
    (dict(ASYNC=0, FIFO_DEPTH=0), "ALLOW_SAME_CYCLE_RESPONSE_needs"),
]

RESETS = [
    of(8, 4),
    of(4, 8),
    of(8, 8),
    of(1, 16),
    of(16, 2),
    of(8, 4, FIFO_DEPTH=2),
    of(4, 8, SYNC_STAGES=3),
    of(8, 4, MAX_OUTSTANDING=4),
    of(4, 8, MAX_OUTSTANDING=4),
    of(8, 4, ASYNC=0),
    of(4, 8, ASYNC=0, FIFO_DEPTH=0),
    of(64, 64, FIFO_DEPTH=16),
    of(2, 8, ASYNC=0, FIFO_DEPTH=2, MAX_OUTSTANDING=2),
]

ICARUS = [of(8, 4, SOURCE_BITS=4), of(4, 8, SOURCE_BITS=4), of(8, 8, SOURCE_BITS=4, MAX_OUTSTANDING=3)]
