"""Judges all links of a waveform in one pass: tlbridge-trace --all.

Each link is judged by itself: its rules by the program, its requests and responses in time, its conformance level,
and how long valid waited for ready. A beat or request that still waits when the dump ends
is a remark, since a dump may end at any moment.
"""
from __future__ import annotations

import json
import zlib
from pathlib import Path
from typing import Any, Callable, Dict, List, NamedTuple, Optional, Sequence, Tuple

from ..judge import level_words
from ..levels import NAMES
from ..matching import PAIRS
from ..one_link import LinkFault, LinkJudge
from ..protocol import CHANNELS
from ..run import EndedError, FailureError, Row
from .links import Link, Values
from .sampling import Port, Sampler, Watch


HANGS = " (it may hang: none before waited as long)"


class Wait(NamedTuple):
    """Clock cycles in which valid was 1 and ready was not, one after the other, and the time of the first one."""

    channel: str
    cycles: int
    since: int


class LinkWatch(Watch):
    """Samples a link for `LinkJudge`, and counts how long valid waits for ready. The first thing that cannot be
    understood ends it.
    """

    def __init__(self, link: Link, judge: LinkJudge, version: int):
        super().__init__(link, judge.run, 0, version, CHANNELS, unknown_zero=True)
        self.judge, self.failure = judge, ""
        self.longest: Optional[Wait] = None
        self.fingerprint = 0  # of the beats and their times

    def restart(self) -> None:
        super().restart()
        self._held: Dict[str, Wait] = {}  # the waits that go on, by channel

    def sample(self, values: Values, time: int) -> None:
        if self.failure:
            return
        try:
            self._sample(values, time)
        except (FailureError, EndedError) as error:
            self.failure = f"not judged from time {time} on: {error}"

    def _sample(self, values: Values, time: int) -> None:
        self.edges += 1
        may_be_in_reset = self._was_reset or self._reset_code is None or values[self._reset_code] == self._reset_level
        if may_be_in_reset and self._is_in_reset(values, time):
            return
        moved: List[Port] = []
        for valid, _, port in self._plain:
            if valid is not None and values[valid] == b"0":
                if port.letter in self._held:
                    self._end_wait(port.letter)
            elif port.accepts(values, time):
                port.accepted += 1
                moved.append(port)
                if port.letter in self._held:
                    self._end_wait(port.letter)
            elif port.valid.text(values) == b"1":
                wait = self._held.get(port.letter)
                self._held[port.letter] = Wait(
                    port.letter, wait.cycles + 1 if wait else 1, wait.since if wait else time
                )
        if moved:
            self._beats(moved, values, time)

    def _give(self, letter: str, line: str, time: int) -> None:
        super()._give(letter, line, time)
        self.fingerprint = zlib.crc32(f"{time} {line}".encode(), self.fingerprint)

    def _end_wait(self, letter: str) -> None:
        wait = self._held.pop(letter)
        if self.longest is None or wait.cycles > self.longest.cycles:
            self.longest = wait

    def waiting(self) -> List[Wait]:
        """Returns the waits that go on."""
        return [self._held[letter] for letter in sorted(self._held)]

    def longest_wait(self) -> Optional[Wait]:
        waits = [*self.waiting(), *([self.longest] if self.longest else [])]
        return max(waits, key=lambda wait: wait.cycles) if waits else None


def time_of(row: Row) -> Optional[int]:
    """The place of a beat of a waveform is its time."""
    return int(row.place)


class Verdict:
    """The verdict on a link, when the dump has been read."""

    def __init__(self, watch: LinkWatch, end: int, remarks: Sequence[str], left_out: Sequence[str]):
        self.watch, self.link, self._end = watch, watch.link, end
        matcher = watch.judge.matcher
        self.faults: List[LinkFault] = watch.judge.faults(lambda row: f"time {row.place}")
        self.level_faults = [
            level_words(matcher, name, f"time {found.at.place}", found)
            for name, found in matcher.level_findings.items()
        ]
        self.beats = {port.letter: port.accepted for port in watch.ports}
        self.level = NAMES[matcher.lowest_level()] if any(self.beats.values()) else ""
        self.outstanding = watch.judge.run.outstanding()
        self.asked = matcher.outstanding()
        self.remarks = [*([watch.failure] if watch.failure else []), *left_out, *self._hangs(), *remarks]
        self.same: Optional[Verdict] = None  # that of an earlier link with the same beats at the same times

    @property
    def is_right(self) -> bool:
        return not (self.faults or self.level_faults or self.watch.failure)

    def _hangs(self) -> List[str]:
        """Returns what waits at the end of the dump. It may hang if nothing of its kind waited as long before."""
        said = []
        for wait in self.watch.waiting():
            is_longest = self.watch.longest is None or wait.cycles > self.watch.longest.cycles
            words = f"{wait.channel}: valid without ready since time {wait.since}, for {wait.cycles} cycles"
            said.append(f"{words} until the dump ends{is_longest * HANGS}")
        for asked in self.asked[:1]:
            pair = self.watch.judge.matcher.pairs[asked.channel]
            is_longest = self._end - (asked.time or 0) > pair.longest
            more = f"; {len(self.asked) - 1} later ones have none either" if len(self.asked) > 1 else ""
            what = f"the {PAIRS[asked.channel].request} of time {asked.time} has no {PAIRS[asked.channel].response}"
            words = f"{asked.channel}: {what} when the dump ends: {asked.line}"
            said.append(words + is_longest * HANGS + more)
        return said

    def signature(self) -> Tuple[object, ...]:
        """Returns what is equal for the two names of one link, such as the ports of two modules that it connects."""
        watch = self.watch
        return self.link.width, watch.fingerprint, tuple(self.beats.items()), watch.longest, *watch.waiting()

    def row(self) -> List[str]:
        """Returns the words of the table."""
        wait = self.watch.longest_wait()
        first = self.faults[0] if self.faults else None
        return [
            self.link.name,
            self.level or "-",
            " ".join(f"{letter} {count}" for letter, count in self.beats.items()),
            f"time {first.time}: {first.channel} {first.name}" if first else "level" if self.level_faults else "none",
            str(len(self.outstanding)) + (f", oldest at {self.asked[0].time}" if self.asked else ""),
            f"{wait.channel} {wait.cycles} at {wait.since}" if wait else "0",
        ]

    def lines(self) -> List[str]:
        """Returns what is said below the table."""
        said = [
            f"{fault.channel} {fault.name}: {fault.place}: {fault.words}: {fault.line}" for fault in self.faults[:1]
        ]
        if len(self.faults) > 1:
            said.append(f"{len(self.faults) - 1} more faults after it, which may follow from it")
        if self.same:
            return [f"{self.link.name}: has no row: the same beats at the same times as {self.same.link.name}"]
        name = f"{self.link.name}: "
        return [text if text.startswith(name) else name + text for text in [*said, *self.level_faults, *self.remarks]]

    def record(self) -> Dict[str, Any]:
        """Returns the object for JSON."""
        wait = self.watch.longest_wait()
        return {
            "link": self.link.name,
            "bytes": self.link.width,
            "level": self.level or None,
            "beats": self.beats,
            "faults": [
                {
                    "time": fault.time,
                    "channel": fault.channel,
                    "name": fault.name,
                    "words": fault.words,
                    "beat": fault.line,
                }
                for fault in self.faults
            ],
            "level_faults": self.level_faults,
            "outstanding": self.outstanding,
            "longest_wait": wait._asdict() if wait else None,
            "remarks": self.remarks,
            "same_as": self.same.link.name if self.same else None,
        }


class AllLinks:
    """The links of a dump that are judged, and those that are not."""

    def __init__(self, program: str, level: Optional[str], version_of: Callable[[Link], int]):
        self.program, self._level, self._version_of = program, level, version_of
        self._notes: Dict[LinkWatch, List[str]] = {}
        self.is_verified = Path(program).name == "tlbridge"

    def watch(self, link: Link) -> LinkWatch:
        notes: List[str] = []
        version = self._version_of(link)
        judge = LinkJudge(self.program, link.width, version, notes.append, time_of, self._level)
        watch = LinkWatch(link, judge, version)
        self._notes[watch] = notes
        return watch

    def read(self, sampler: Sampler, remarks_of: Callable[[Watch], List[str]]) -> List[Verdict]:
        """Reads the dump to its end. Returns the verdicts, in the order of the links."""
        sampler.read()
        verdicts = []
        for watch, notes in self._notes.items():
            try:
                watch.judge.run.finish(sampler.end, is_told=False)
            except (FailureError, EndedError) as error:
                watch.failure = watch.failure or f"not judged to its end: {error}"
            verdicts.append(Verdict(watch, sampler.end, remarks_of(watch), notes))
        seen: Dict[Tuple[object, ...], Verdict] = {}
        for verdict in verdicts:
            first = seen.setdefault(verdict.signature(), verdict)
            if first is not verdict and any(verdict.beats.values()):
                verdict.same = first
        return verdicts

    def judged_by(self) -> str:
        """Returns which program the verdicts come from."""
        if self.is_verified:
            return f"judged by the verified program {self.program}"
        return f"judged by {self.program}, an unverified model: the verified program tlbridge is not built or not named"

    def close(self) -> None:
        for watch in self._notes:
            watch.judge.close()


def first_of(verdicts: Sequence[Verdict]) -> Optional[Verdict]:
    """Returns the link with the first fault of the dump, if there is one."""
    wrong = [verdict for verdict in verdicts if verdict.faults and verdict.faults[0].seen is not None]
    return min(wrong, key=lambda verdict: verdict.faults[0].seen or 0) if wrong else None


COLUMNS = ["link", "level", "beats", "first fault", "outstanding", "longest wait"]


def as_json(about: Dict[str, Any], verdicts: Sequence[Verdict], others: Sequence[Dict[str, Any]]) -> str:
    """Returns the report as one JSON object on a line."""
    return json.dumps({**about, "links": [*(verdict.record() for verdict in verdicts), *others]}, ensure_ascii=True)
