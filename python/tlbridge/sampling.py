"""Beats from signals that may have unknown bits. The rules are those of sv/tl_trace_monitor.sv."""
from __future__ import annotations

from typing import Any, Callable, Dict, List, NamedTuple

from .beats import Beat
from .protocol import CARRIES_DATA, FIELDS, GRANTS, RELEASE_ACK

# Returns the bits of a field as text, highest first; each character except 0 and 1 is an unknown bit.
Bits = Callable[[str], str]


class Sampled(NamedTuple):
    """An accepted beat with 0 for each unknown bit, and the fields in which something reads an unknown bit."""

    channel: str
    beat: Beat
    unknown: List[str]


def number_of_bits(bits: str) -> int:
    """Returns the number with 0 for each unknown bit."""
    return int("".join(bit if bit in "01" else "0" for bit in bits), 2)


def is_known(bits: str) -> bool:
    return not bits.strip("01")


def digits_of(bits: str) -> str:
    """Returns the bits in hexadecimal, with x for each digit that has an unknown bit."""
    padded = bits.zfill(-(-len(bits) // 4) * 4)
    nibbles = [padded[at : at + 4] for at in range(0, len(padded), 4)]
    return "".join(f"{int(nibble, 2):x}" if is_known(nibble) else "x" for nibble in nibbles)


class LinkSampler:
    """Samples the accepted beats of one link of `width` bytes.

    The bytes of a short response are on the lanes of its request, so the addresses of requests are kept by source.
    """

    def __init__(self, width: int):
        self._width = width
        self._homes: Dict[int, int] = {}

    def edge(self, accepted: Dict[str, Bits]) -> List[Sampled]:
        """Returns the beats of one clock edge. `accepted` has the channels that accept a beat, with the bits of each
        field."""
        asked: Dict[int, int] = {}
        sampled = []
        for channel in sorted(accepted):  # a request before its response
            bits = {field: accepted[channel](field) for field in FIELDS[channel]}
            values = {field: number_of_bits(text) for field, text in bits.items()}
            if channel == "A":
                asked[values["source"]] = values["address"]
            home = self._home(values, asked) if channel == "D" else values.get("address", 0)
            unknown = [
                f"{field} is {digits_of(text)}"
                for field, text in bits.items()
                if not is_known(self._read(channel, field, text, values, home))
            ]
            sampled.append(Sampled(channel, self._beat(values), unknown))
        self._homes.update(asked)
        return sampled

    def _home(self, response: Dict[str, int], asked: Dict[int, int]) -> int:
        """Returns the address of the request that a response answers: an earlier one, or one that is accepted at the
        same edge."""
        if response["opcode"] == RELEASE_ACK:
            return 0
        source = response["source"]
        return self._homes.pop(source) if source in self._homes else asked.pop(source, 0)

    def _read(self, channel: str, field: str, bits: str, values: Dict[str, int], home: int) -> str:
        """Returns those bits of a field that something reads."""
        if field == "sink" and channel == "D" and values["opcode"] not in GRANTS:
            return ""
        if field != "data":
            return bits
        lanes = [lane for lane in range(self._width) if self._has_byte(channel, lane, values, home)]
        lowest_first = bits[::-1]
        return "".join(lowest_first[8 * lane : 8 * lane + 8] for lane in lanes)

    def _has_byte(self, channel: str, lane: int, values: Dict[str, int], home: int) -> bool:
        """Returns whether a lane has a byte of the message that its mask enables."""
        is_active = (
            values["opcode"] in CARRIES_DATA[channel] and ((lane ^ home) & (self._width - 1)) >> values["size"] == 0
        )
        return is_active and bool(values.get("mask", -1) >> lane & 1)

    def _beat(self, values: Dict[str, int]) -> Beat:
        fields: Dict[str, Any] = dict(values)
        if "data" in values:
            fields["data"] = values["data"].to_bytes(self._width, "little")
        return Beat(**fields)
