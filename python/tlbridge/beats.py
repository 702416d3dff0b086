"""A beat of any channel, with its fields checked."""
import operator
from dataclasses import dataclass, fields
from typing import Tuple

from .library import BeatFields
from .protocol import CHANNELS, FIELDS, WIDEST

# The bits of each numeric field in the library. The model decides which of these values are legal.
_BITS = {"opcode": 8, "param": 8, "size": 8, "source": 16, "sink": 16, "address": 64, "mask": WIDEST}


@dataclass(frozen=True)
class Beat:
    """One transfer. `mask` has bit i for lane i. `data` has one byte for each lane, lane 0 first; a beat without data
    may leave it out."""

    opcode: int = 0
    param: int = 0
    size: int = 0
    source: int = 0
    sink: int = 0
    address: int = 0
    mask: int = 0
    data: bytes = b""
    denied: bool = False
    corrupt: bool = False

    def __post_init__(self) -> None:
        for name, bits in _BITS.items():
            value = operator.index(getattr(self, name))
            if not 0 <= value < 1 << bits:
                raise ValueError(f"{name} has {bits} bits, and {value} does not fit")
        for name in ("denied", "corrupt"):
            if getattr(self, name) not in (0, 1):
                raise ValueError(f"{name} is one bit, not {getattr(self, name)!r}")
        if isinstance(self.data, int):
            raise TypeError("data are bytes, lane 0 first")
        object.__setattr__(self, "data", bytes(self.data))

    def passed(self, channel: str, width: int) -> Tuple[BeatFields, bytes]:
        """Returns the fields and the lanes for a call of the library, on a link of `width` bytes. Raises ValueError if
        they do not fit."""
        if channel not in FIELDS:
            raise ValueError(f"a channel is one of {', '.join(CHANNELS)}, not {channel!r}")
        for field in fields(self):
            if field.name not in FIELDS[channel] and getattr(self, field.name) != field.default:
                raise ValueError(f"a beat of {channel} has no {field.name}")
        if channel != "E" and len(self.data) not in (0, width):
            raise ValueError(f"the link has {width} lanes, but data has {len(self.data)} bytes")
        passed = BeatFields(
            address=self.address,
            mask=self.mask & (1 << 64) - 1,
            mask_high=self.mask >> 64,
            source=self.source,
            sink=self.sink,
            opcode=self.opcode,
            param=self.param,
            size=self.size,
            denied=self.denied,
            corrupt=self.corrupt,
        )
        return passed, self.data.ljust(width, b"\0")


def beat_of(channel: str, came: BeatFields, lanes: bytes) -> Beat:
    """Returns the beat that the library wrote."""
    values = {name: getattr(came, name) for name in FIELDS[channel] if name not in ("mask", "data")}
    values.update((name, bool(values[name])) for name in ("denied", "corrupt") if name in values)
    if "mask" in FIELDS[channel]:
        values["mask"] = came.mask | came.mask_high << 64
    if "data" in FIELDS[channel]:
        values["data"] = lanes
    return Beat(**values)
