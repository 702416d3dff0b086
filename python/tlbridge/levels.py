"""The conformance levels of TileLink: which channels, opcodes and bursts a link of each level has.

Rule: SiFive TileLink Specification 1.8, "Protocol Conformance Levels" for channels, multibeat messages and kinds of
operations, and the chapters on TL-UL, TL-UH and TL-C for the messages. The numbers of the faults are this project's
choice; sv/tl_checker.sv has the same ones.
"""
from __future__ import annotations

from typing import Dict, List, NamedTuple, Optional

from .protocol import CHANNELS, OPCODES

# The levels, the lowest first: each has all messages of those before it.
LEVELS = ("ul", "uh", "c")
NAMES = {"ul": "TL-UL", "uh": "TL-UH", "c": "TL-C"}
# By level and channel: the names of the messages that it adds.
MESSAGES: Dict[str, Dict[str, List[str]]] = {
    "ul": {"A": ["PutFullData", "PutPartialData", "Get"], "D": ["AccessAck", "AccessAckData"]},
    "uh": {"A": ["ArithmeticData", "LogicalData", "Intent"], "D": ["HintAck"]},
    "c": {
        "A": ["AcquireBlock", "AcquirePerm"],
        "B": [kind.name for kind in OPCODES["B"].values()],
        "C": [kind.name for kind in OPCODES["C"].values()],
        "D": ["Grant", "GrantData", "ReleaseAck"],
        "E": ["GrantAck"],
    },
}
# The lowest level that has messages of more than one beat, or that ask for one.
BURSTS_FROM = "uh"
CHANNEL_NOT_IN_LEVEL, OPCODE_NOT_IN_LEVEL, BURST_NOT_IN_LEVEL = 24, 25, 26


class LevelFault(NamedTuple):
    """The reason why a level does not have a message: the number and name of the fault, and a sentence."""

    number: int
    name: str
    words: str


def _lowest(channel: str, name: str) -> str:
    return next(level for level in LEVELS if name in MESSAGES[level].get(channel, ()))


# By channel and opcode: the lowest level that has the message. E has no opcode, and 0 is written for it.
LOWEST: Dict[str, Dict[int, str]] = {
    **{
        channel: {opcode: _lowest(channel, kind.name) for opcode, kind in OPCODES[channel].items()}
        for channel in "ABCD"
    },
    "E": {0: "c"},
}
# By channel: the lowest level that has it.
LOWEST_OF_CHANNEL = {channel: min(LOWEST[channel].values(), key=LEVELS.index) for channel in CHANNELS}


def is_above(level: str, other: str) -> bool:
    return LEVELS.index(level) > LEVELS.index(other)


def lowest_level(channel: str, opcode: int, size: int, width: int) -> str:
    """Returns the lowest level that has a message of 2^size bytes on a link of `width` bytes. An opcode without a
    message needs none.
    """
    level = LOWEST[channel].get(opcode, LEVELS[0])
    return max(level, BURSTS_FROM, key=LEVELS.index) if 1 << size > width else level


def fault_of(level: str, channel: str, opcode: int, size: int, width: int) -> Optional[LevelFault]:
    """Returns the fault of a message that the level does not have, or None. An opcode without a message is no fault
    of the level.
    """
    name = NAMES[level]
    if is_above(LOWEST_OF_CHANNEL[channel], level):
        return LevelFault(CHANNEL_NOT_IN_LEVEL, "ChannelNotInLevel", f"{name} has no channel {channel}")
    if is_above(LOWEST[channel].get(opcode, LEVELS[0]), level):
        message = OPCODES[channel][opcode].name
        return LevelFault(OPCODE_NOT_IN_LEVEL, "OpcodeNotInLevel", f"{name} has no {message} on channel {channel}")
    if 1 << size > width and is_above(BURSTS_FROM, level):
        words = f"a message of {1 << size} bytes on a bus of {width}, and {name} has no bursts"
        return LevelFault(BURST_NOT_IN_LEVEL, "BurstNotInLevel", words)
    return None
