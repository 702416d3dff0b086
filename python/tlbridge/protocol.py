"""The tables of TileLink and of this project that everything outside the proofs reads: messages, params, fields of a
beat, faults, statuses.

Opcodes, params and responses are those of the SiFive TileLink Specification 1.8 (opcode and param tables). The numbers
and names of faults are this project's choice. tests/repository/test_protocol.py compares each table with the sources of
the proved crates and with C's header.

Two other models of the rules have tables of their own, so that a mistake in one is seen by the others:
`tlbridge-model`, and the checker in sv/ with the model in its tests. This module imports nothing.
"""
from typing import Dict, FrozenSet, NamedTuple, Tuple

CHANNELS = "ABCDE"
FROM_CLIENT, FROM_MANAGER = "ACE", "BD"
# The channels whose beats have a mask.
MASKED = "AB"
# The widths of a link, in bytes of data.
WIDTHS = (1, 2, 4, 8, 16, 32, 64, 128)
WIDEST = WIDTHS[-1]
# A message has 2^size bytes, and this is the largest size.
MAX_SIZE = 12
# By version of a trace: the hexadecimal digits of a source or sink, and the widest link in bytes.
ID_DIGITS = {1: 2, 2: 4}
WIDEST_OF_VERSION = {1: 64, 2: 128}
# The largest trace, in bytes.
MAX_TRACE_BYTES = 64 << 20


class Kind(NamedTuple):
    """A message: its name, how many params it has (0 to params - 1 are legal), and whether it carries data."""

    name: str
    params: int
    has_data: bool


_ACCESSES = {
    0: Kind("PutFullData", 1, True),
    1: Kind("PutPartialData", 1, True),
    2: Kind("ArithmeticData", 5, True),
    3: Kind("LogicalData", 4, True),
    4: Kind("Get", 1, False),
    5: Kind("Intent", 2, False),
}
_RESPONSES = {
    0: Kind("AccessAck", 1, False),
    1: Kind("AccessAckData", 1, True),
    2: Kind("HintAck", 1, False),
}
# By channel and opcode. E has one message, GrantAck, which has no opcode.
OPCODES: Dict[str, Dict[int, Kind]] = {
    "A": {
        **_ACCESSES,
        6: Kind("AcquireBlock", 3, False),
        7: Kind("AcquirePerm", 3, False),
    },
    "B": {**_ACCESSES, 6: Kind("ProbeBlock", 3, False), 7: Kind("ProbePerm", 3, False)},
    "C": {
        **_RESPONSES,
        4: Kind("ProbeAck", 6, False),
        5: Kind("ProbeAckData", 6, True),
        6: Kind("Release", 6, False),
        7: Kind("ReleaseData", 6, True),
    },
    "D": {
        **_RESPONSES,
        4: Kind("Grant", 3, False),
        5: Kind("GrantData", 3, True),
        6: Kind("ReleaseAck", 1, False),
    },
    "E": {},
}
# By channel and name of a message: its opcode.
NUMBERS: Dict[Tuple[str, str], int] = {
    (channel, kind.name): opcode for channel, kinds in OPCODES.items() for opcode, kind in kinds.items()
}
# By channel: the opcodes of messages that carry data.
CARRIES_DATA: Dict[str, FrozenSet[int]] = {
    channel: frozenset(opcode for opcode, kind in kinds.items() if kind.has_data) for channel, kinds in OPCODES.items()
}
# The names of params that have one: growth on Acquires, caps on Grants and probes, reports on C.
PARAMS = {
    **{"NtoB": 0, "NtoT": 1, "BtoT": 2},
    **{"toT": 0, "toB": 1, "toN": 2},
    **{"TtoB": 0, "TtoN": 1, "BtoN": 2, "TtoT": 3, "BtoB": 4, "NtoN": 5},
}
# By name of a request: the names of its responses.
RESPONSES: Dict[str, Tuple[str, ...]] = {
    "PutFullData": ("AccessAck",),
    "PutPartialData": ("AccessAck",),
    "ArithmeticData": ("AccessAckData",),
    "LogicalData": ("AccessAckData",),
    "Get": ("AccessAckData",),
    "Intent": ("HintAck",),
    "AcquireBlock": ("Grant", "GrantData"),
    "AcquirePerm": ("Grant",),
    "ProbeBlock": ("ProbeAck", "ProbeAckData"),
    "ProbePerm": ("ProbeAck",),
    "Release": ("ReleaseAck",),
    "ReleaseData": ("ReleaseAck",),
}
GRANTS = (NUMBERS["D", "Grant"], NUMBERS["D", "GrantData"])
RELEASES = (NUMBERS["C", "Release"], NUMBERS["C", "ReleaseData"])
RELEASE_ACK = NUMBERS["D", "ReleaseAck"]

_HEAD = ("opcode", "param", "size", "source")
# By channel: the fields of a beat, in the order of a trace's line.
FIELDS: Dict[str, Tuple[str, ...]] = {
    "A": (*_HEAD, "address", "mask", "data", "corrupt"),
    "B": (*_HEAD, "address", "mask", "data", "corrupt"),
    "C": (*_HEAD, "address", "data", "corrupt"),
    "D": (*_HEAD, "sink", "denied", "data", "corrupt"),
    "E": ("sink",),
}

# The faults of a beat, a call, a trace or a stream, by number. `tlexplain --faults` prints a sentence for each.
FAULTS = {
    1: "Opcode",
    2: "Param",
    3: "Size",
    4: "Unaligned",
    5: "Mask",
    6: "Corrupt",
    7: "HeadChanged",
    8: "SourceBusy",
    9: "NoRequest",
    10: "SizeMismatch",
    11: "MidBurst",
    12: "RingSize",
    13: "OutOfMemory",
    14: "Header",
    15: "Channel",
    16: "Length",
    17: "Shape",
    18: "Range",
    19: "NoEnd",
    20: "Stalled",
    21: "Read",
    22: "Write",
    23: "TooLong",
}
# The exit statuses of `tlbridge` and `tlbridge-model`.
ALL_DONE, NOT_DONE, BAD_COMMAND, BAD_TRACE, NO_RESOURCES = range(5)


def beat_count(channel: str, opcode: int, size: int, width: int) -> int:
    """Returns the number of beats of a message of 2^size bytes on a link of `width` bytes (TileLink: burst
    messages)."""
    return max((1 << size) // width, 1) if opcode in CARRIES_DATA[channel] else 1


def active_lanes(size: int, address: int, width: int) -> int:
    """Returns bit i for each lane that has a byte of a message of 2^size bytes at this address, on a link of `width`
    bytes."""
    if 1 << size >= width:
        return (1 << width) - 1
    first = address & width - 1 & ~((1 << size) - 1)
    return ((1 << (1 << size)) - 1) << first
