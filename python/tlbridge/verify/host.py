"""Judges what a host writes: the same values as in its calm runs, whatever the stalls and the order of the responses.

Only a host knows what it writes. But most hosts write values that do not depend on time, since the memory behind them
returns the same data in each run. Calm runs with responses in order, whose delays differ, show whether a host is one of
them. If so, each byte gets the same values one after the other in all other runs, and the host does not stop earlier.
"""
from __future__ import annotations

from typing import Dict, List, NamedTuple, Set, Tuple

from ..protocol import CARRIES_DATA, beat_count
from .bench import Run, Settings
from .design import Design
from .judge import Beat, Beats, Problem, is_unknown, lanes_of, name_of, values_of

_PERIOD = 10000  # ps, of the only clock
_SILENCE = 800  # cycles, after which a host that has nothing outstanding has stopped
_PAGE, _PAGES = 4096, 37  # of sv/tl_agent.sv as a memory, which holds one of two bytes that have the same place
_PUTS = (0, 1)
# Calm runs, which differ in the delay of responses.
REFERENCES: Tuple[Settings, ...] = (dict(), dict(slow=25), dict(gather=60))


class _Written(NamedTuple):
    values: Dict[int, List[Tuple[str, Beat]]]  # of each byte, by address, one after the other
    is_silent: bool  # nothing is outstanding, nothing came for long, and no value may depend on time


class Reference:
    """The values that a host wrote in calm runs."""

    def __init__(self, design: Design):
        assert design.manager
        self.design, self.width = design, design.manager.width
        self.values: Dict[int, List[str]] = {}
        self.runs = 0
        self.is_steady = True  # the calm runs wrote the same
        self.goes_on = True  # no calm run ended because the host stopped
        self.first: Set[str] = set()  # the first requests of the calm runs

    @property
    def is_used(self) -> bool:
        """Whether other runs are compared with it."""
        return self.is_steady and self.runs >= len(REFERENCES) and bool(self.values)

    @property
    def why_not(self) -> str:
        """Why other runs are not compared with it."""
        if not self.is_steady:
            return "it depends on the delay of responses"
        return "it writes nothing" if self.runs >= len(REFERENCES) else "there was no time for the calm runs"

    def add(self, run: Run, beats: Beats) -> None:
        """Adds a calm run."""
        written = self._written(run, beats)
        self.runs += 1
        self.first |= {self._head(line) for line in beats.of("manager", "A")[:1]}
        self.goes_on &= not written.is_silent
        for address, found in written.values.items():
            known = self.values.setdefault(address, [])
            got = [value for value, _ in found]
            self.is_steady &= all(one == other for one, other in zip(known, got))
            known.extend(got[len(known) :])

    def problems(self, run: Run, beats: Beats) -> List[Problem]:
        """Returns the first byte that differs from the calm runs, or that the host has stopped."""
        wrong_first = self._wrong_first(run, beats)
        if wrong_first or not self.is_used:
            return wrong_first
        written = self._written(run, beats)
        wrong = []
        for address, found in written.values.items():
            for (got, beat), expected in zip(found, self.values.get(address, [])):
                if got != expected:
                    wrong.append((beat.time, address, got, expected, beat))
                    break
        if wrong:
            time, address, got, expected, beat = min(wrong, key=lambda one: one[:2])
            words = (
                f"manager link: {name_of(beat.line)} writes {got} at 0x{address:x}, but runs without stalls write"
                f" {expected}"
            )
            return [Problem("memory", "A", words, time, beat=beat)]
        if self.goes_on and written.is_silent:
            words = "the host has stopped, with nothing outstanding, and goes on in runs without stalls"
            return [Problem("hang", "", words, run.time)]
        return []

    @staticmethod
    def _head(line: str) -> str:
        """A request without its source: all that it asks for."""
        return f"{name_of(line).partition(', source')[0]} at 0x{values_of(line)['address'].lstrip('0') or '0'}"

    def _wrong_first(self, run: Run, beats: Beats) -> List[Problem]:
        """After a reset, a host begins as it did in all calm runs: nothing has come yet that may differ."""
        lines = beats.of("manager", "A")[:1]
        if run.reset_time < 0 or self.runs < len(REFERENCES) or len(self.first) != 1:
            return []
        if not lines or is_unknown(lines[0]):
            return []
        (expected,), got = self.first, self._head(lines[0])
        if got == expected:
            return []
        beat = Beat(beats.times_of("manager", "A")[0], "manager", lines[0])
        words = f"manager link: the first request after a reset is {got}, and in runs without one {expected}"
        return [Problem("memory", "A", words, beat.time, beat=beat)]

    def _written(self, run: Run, beats: Beats) -> _Written:
        """Returns what a run wrote until a value may depend on time: after a denied or corrupt response, after a
        request that overlaps an outstanding one, or a read of what the memory had no room for."""
        lines, times, width = beats.lines["manager"], beats.times["manager"], self.width
        values: Dict[int, List[Tuple[str, Beat]]] = {}
        outstanding: Dict[str, Tuple[int, int, bool]] = {}
        held: Dict[Tuple[int, int], int] = {}
        dropped: Set[int] = set()
        a_left = d_left = index = 0
        for at, line in enumerate(lines):
            if line[0] not in "AD":
                continue
            if is_unknown(line):
                return _Written(values, False)
            word = values_of(line)
            opcode, size = int(word["opcode"], 16), int(word["size"], 16)
            if line[0] == "D":
                if word["denied"] != "0" or word["corrupt"] != "0":
                    return _Written(values, False)
                d_left = d_left or beat_count("D", opcode, size, width)
                d_left -= 1
                if d_left == 0:
                    outstanding.pop(word["source"], None)
                continue
            address = int(word["address"], 16)
            if a_left == 0:
                a_left, index = beat_count("A", opcode, size, width), 0
                end, writes = address + (1 << size), opcode in CARRIES_DATA["A"]
                overlaps = any(
                    address < other[1] and other[0] < end and (writes or other[2]) for other in outstanding.values()
                )
                if overlaps or any(place in dropped for place in range(address, end)):
                    return _Written(values, False)
                outstanding[word["source"]] = address, end, writes
            if opcode in CARRIES_DATA["A"]:
                data, mask = lanes_of(word["data"]), int(word["mask"], 16)
                base = address // width * width + index * width
                beat = Beat(times[at], "manager", line)
                for lane in range(width):
                    place = base + lane
                    if mask >> lane & 1:
                        spot = place // _PAGE % _PAGES, place % _PAGE
                        other = held.get(spot, place)
                        if other != place:
                            dropped.add(other)
                        held[spot] = place
                        dropped.discard(place)
                        values.setdefault(place, []).append((data[lane] if opcode in _PUTS else line[2:5], beat))
            a_left -= 1
            index += 1
        silence = run.time - times[-1] if times else 0
        is_silent = not outstanding and not a_left and not run.offers and silence > _SILENCE * _PERIOD
        return _Written(values, is_silent)
