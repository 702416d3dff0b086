"""Whether a reset brings back what a device held at first: if it does so for some bytes, it should for all.

A memory keeps its data through a reset, and a file of registers has values of its own after it. A register that a reset
forgets shows only beside others that come back.
"""
from __future__ import annotations

from typing import Dict, List, Optional, Tuple

from ..protocol import CARRIES_DATA, beat_count
from .bench import Run
from .design import Design
from .judge import Beats, is_unknown, lanes_of, values_of

_LEAST = 3  # bytes that come back, before others count
_PUTS, _GET = (0, 1), 4


class Restored:
    """Collects the first bytes of a device, and those that came back after a reset, in all runs."""

    def __init__(self, design: Design):
        assert design.client
        self.design, self.width = design, design.client.width
        self.first: Dict[int, str] = {}  # what each byte held at first
        self.varies: Dict[int, bool] = {}  # it held something else in another run
        self.comes_back: Dict[int, bool] = {}
        self.stays: Dict[int, str] = {}  # the value of before a reset, which a read after it returned

    @property
    def words(self) -> str:
        """The first byte that did not come back, in words. An empty text: all came back, or it is a memory."""
        back = [address for address in self.comes_back if address not in self.varies]
        stays = sorted(
            address for address in self.stays if address not in self.varies and address not in self.comes_back
        )
        if len(back) < _LEAST or not stays:
            return ""
        value, first = self.stays[stays[0]], self.first[stays[0]]
        return (
            f"after a reset, 0x{stays[0]:x} reads {value} as before it, and not {first} as at first; {len(back)} other"
            " bytes come back"
        )

    def add(self, run: Run) -> None:
        """Adds a run, with its beats before a reset."""
        beats = Beats(self.design, Run(run.folder, ""))
        lines, times = beats.lines["client"], beats.times["client"]
        at = (
            next((at for at, time in enumerate(times) if time > run.reset_time), len(times))
            if run.reset_time >= 0
            else 0
        )
        before, after = (lines[:at], lines[at:]) if run.reset_time >= 0 else (lines, [])
        reads, held = self._accesses(before)
        for address, value in reads.items():
            if self.first.setdefault(address, value) != value:
                self.varies[address] = True
        for address, value in self._accesses(after)[0].items():
            wrote, first = held.get(address), self.first.get(address)
            if wrote is not None and first is not None and wrote != first:
                if value == first:
                    self.comes_back[address] = True
                elif value == wrote:
                    self.stays[address] = value

    def _accesses(self, lines: List[str]) -> Tuple[Dict[int, str], Dict[int, Optional[str]]]:
        """Returns what the first read of each byte returned that nothing had written before, and the last value that
        was written for certain. None: it may have another value."""
        reads: Dict[int, str] = {}
        held: Dict[int, Optional[str]] = {}
        asked: Dict[str, Tuple[int, int, int, List[Tuple[int, str]]]] = {}  # opcode, address, size, bytes
        left = {"A": 0, "D": 0}
        index = {"A": 0, "D": 0}
        source = {"A": "", "D": ""}
        for line in lines:
            channel = line[0]
            if channel not in "AD" or is_unknown(line[:13]):
                continue
            values = values_of(line)
            opcode, size = int(values["opcode"], 16), int(values["size"], 16)
            if left[channel] == 0:
                left[channel], index[channel] = beat_count(channel, opcode, size, self.width), 0
                source[channel] = values["source"]
                if channel == "A":
                    asked[values["source"]] = (opcode, int(values["address"], 16), size, [])
            left[channel] -= 1
            if source[channel] not in asked:
                continue
            kind, address, log_size, wrote = asked[source[channel]]
            base = address // self.width * self.width + index[channel] * self.width
            index[channel] += 1
            data = lanes_of(values["data"])
            inside = [lane for lane in range(self.width) if address <= base + lane < address + (1 << log_size)]
            if channel == "A" and opcode in CARRIES_DATA["A"]:
                mask = int(values["mask"], 16)
                for lane in inside:
                    if mask >> lane & 1:
                        held[base + lane] = None
                        is_good = opcode in _PUTS and values["corrupt"] == "0"
                        wrote.append((base + lane, data[lane] if is_good else "?"))
            elif channel == "D" and values["denied"] == "0" and kind in _PUTS and left["D"] == 0:
                for place, value in wrote:
                    held[place] = value if value != "?" else None
            elif channel == "D" and values["denied"] == "0" and kind == _GET and values["corrupt"] == "0":
                for lane in inside:
                    if base + lane not in held and not is_unknown(data[lane]):
                        reads.setdefault(base + lane, data[lane])
            if channel == "D" and left["D"] == 0:
                asked.pop(source["D"], None)
        return reads, held
