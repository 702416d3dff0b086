"""The tables of messages that tests read: opcodes, names, params, which carry data, and the fields of a beat.

They are those of python/tlbridge/protocol.py, which tests/repository/test_protocol.py compares with the proved crates.
C and C++ have the messages in protocol.h. The three models of the rules keep tables of their own, on purpose: the
crates, `tlbridge-model`, and the checker with its model (checker_model.py).
"""

from typing import Dict, List

from tlbridge.protocol import (
    CARRIES_DATA,
    CHANNELS,
    FAULTS,
    FIELDS,
    FROM_CLIENT,
    MASKED,
    NUMBERS,
    OPCODES,
    RELEASE_ACK,
    Kind,
)

__all__ = [
    "CARRIES_DATA",
    "CHANNELS",
    "FAULTS",
    "FIELDS",
    "FROM_CLIENT",
    "MASKED",
    "NUMBERS",
    "OPCODES",
    "RELEASE_ACK",
    "Kind",
    "carries_data",
    "near_width",
    "opcodes",
]


def carries_data(channel: str, opcode: int) -> bool:
    """Whether a message carries data."""
    return opcode in CARRIES_DATA[channel]


def near_width(channel: str, client: int, manager: int) -> int:
    """The width of the sender's link."""
    return client if channel in FROM_CLIENT else manager


def opcodes(channel: str) -> List[int]:
    """The opcodes of a channel, in their order."""
    return list(OPCODES[channel])


def names(channel: str) -> Dict[int, str]:
    """The name of each opcode of a channel."""
    return {opcode: kind.name for opcode, kind in OPCODES[channel].items()}
