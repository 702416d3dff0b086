"""Judges one link by itself: the verdict of the program on its beats, its requests and responses in time, and its
conformance level.
"""
from __future__ import annotations

from typing import Callable, Dict, List, NamedTuple, Optional

from .judge import FaultError, ask, verdicts_of
from .matching import Finding, LinkMatcher
from .protocol import CHANNELS
from .run import FailureError, Part, Row, Run


class LinkFault(NamedTuple):
    """A beat that breaks a rule: since which time it is seen, its own time, channel, the name of the fault, a
    sentence, place and line.
    """

    seen: Optional[int]
    time: Optional[int]
    channel: str
    name: str
    words: str
    place: str
    line: str


# The names of findings in time. Most are those of faults of a beat.
NAMES = {
    "stray": "NoRequest",
    "doubled": "NoRequest",
    "early": "NoRequest",
    "lost": "NoResponse",
    "SizeMismatch": "SizeMismatch",
}
WORDS = {
    "refused": "the beat breaks this rule; later beats of the channel are not judged",
    "waiting": "the beat waits; later beats of the channel are not judged",
}


class LinkJudge:
    """Follows one link of `width` bytes. `program` is tlbridge or its model; `time_of` returns the time of a beat, if
    it is known.
    """

    def __init__(
        self,
        program: str,
        width: int,
        version: int,
        note: Callable[[str], None],
        time_of: Callable[[Row], Optional[int]],
        level: Optional[str] = None,
    ):
        self._program, self._time_of = program, time_of
        self.run = Run(version, width, None, self._part, note, level=level)
        self.beats = dict.fromkeys(CHANNELS, 0)
        self._stopped: Dict[str, LinkFault] = {}  # by channel: the first beat that is not accepted

    @property
    def matcher(self) -> LinkMatcher:
        return self.run.matchers[0]

    def beat(self, line: str, time: Optional[int], place: str) -> None:
        self.beats[line[0]] += 1
        self.run.beat(0, line, time, place)

    def faults(self, place: Callable[[Row], str]) -> List[LinkFault]:
        """Returns the faults, the first one first. `place` prints the place of a beat. Those without a time come
        last.
        """
        found = [self._of_finding(finding, place) for _, finding in self.run.findings()]
        known = {(fault.channel, fault.time) for fault in found}
        found += [
            fault._replace(place=place(Row(fault.place, fault.line, 0)))
            for fault in self._stopped.values()
            if fault.time is None or (fault.channel, fault.time) not in known
        ]
        return sorted(found, key=lambda fault: (fault.seen is None, fault.seen or 0))

    def close(self) -> None:
        self.run.close()

    def _of_finding(self, finding: Finding, place: Callable[[Row], str]) -> LinkFault:
        other = finding.other and place(Row(finding.other.place, finding.other.line, 0))
        at = finding.at
        return LinkFault(
            finding.seen,
            at.time,
            at.channel,
            NAMES[finding.kind],
            finding.words.format(other),
            place(Row(at.place, at.line, 0)),
            at.line,
        )

    def _part(self, part: Part) -> None:
        if not part.beats:
            return
        try:
            answer = ask(self._program, part, ("check",))
        except FaultError as fault:
            raise FailureError(f"{self._program}: line {fault.line}: {fault}") from fault
        for channel, (kind, count, last) in verdicts_of(self._program, part, answer).items():
            if kind not in WORDS or channel in self._stopped:
                continue
            row = next((row for at, row in enumerate(part.rows("near", channel)) if at == count), None)
            if row:
                time = self._time_of(row)
                self._stopped[channel] = LinkFault(time, time, channel, last, WORDS[kind], row.place, row.line)
