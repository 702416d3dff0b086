"""Compares the far beats of a design with those that the bridge sends for the same near beats.

It is the judge of tlbridge-compare and of tlbridge-trace. It reads the beats of a part of a run as streams, so its
memory does not grow with them.
"""
from __future__ import annotations

import os
import re
import shutil
import subprocess
import sys
from collections import deque
from pathlib import Path
from typing import Callable, Deque, Dict, Iterator, List, NamedTuple, Optional, Sequence, TextIO, Tuple

from .protocol import CHANNELS, FIELDS, FROM_CLIENT, beat_count
from .levels import NAMES
from .matching import Finding, LinkMatcher
from .run import LINKS, MOST_BYTES, FailureError, Part, Row

PUT_PARTIAL = "1"
VERDICTS = re.compile(r"= ([A-E]) (?:(done|cut) (\d+) (\d+)|(refused|waiting) (\d+) (\w+))$")
FAR_BEAT = re.compile(r"(?:[A-D](?: [0-9a-f]){3}|E)(?: [0-9a-f]+)+$")
MODEL_NOTE = "the expected beats come from the unverified model tlbridge-model, since tlbridge is not built"


class Places:
    """Prints the place of a beat. `link` is client or manager."""

    def of(self, link: str, row: Row, is_near: bool) -> str:
        raise NotImplementedError

    def time(self, row: Row) -> Optional[int]:
        """Returns the simulation time of a beat, if it is known."""
        raise NotImplementedError


# ---- the program that computes the expected beats


def program_of(given: Optional[str], note: Callable[[str], None]) -> str:
    """Finds tlbridge: the named one, the one installed with this package, built in this repository, or in PATH;
    otherwise the unverified model."""
    if given:
        return _no_wrapper(Path(given)) or given
    program = find_program("tlbridge")
    if program:
        return program
    for path in _places_of("tlbridge-model"):
        if _is_program(path):
            note(MODEL_NOTE)
            return str(path)
    raise FailureError(
        (
            "neither the program tlbridge nor the unverified model tlbridge-model was found: install one, build it in a"
            " clone with ./tlbridge --version, or name it with --program"
        ),
        2,
    )


def find_program(name: str) -> Optional[str]:
    """Finds the verified program of this name: the one installed with this package, built in this repository, or in
    PATH."""
    for path in _places_of(name):
        program = built_program(path.resolve()) if _is_program(path) else None
        if program:
            return str(program)
    return None


def _places_of(name: str) -> List[Path]:
    here = Path(__file__).resolve().parents
    folders = [here[2], *([here[4] / "bin"] if len(here) > 4 else [])]  # of a clone, and of an installed tree
    found = shutil.which(name)
    return [folder / name for folder in folders] + ([Path(found)] if found else [])


def _is_program(path: Path) -> bool:
    return path.is_file() and os.access(str(path), os.X_OK)


def built_program(path: Path) -> Optional[Path]:
    """Returns the program itself. The wrapper of the repository would first prove and build it, which takes long and
    prints nothing here."""
    crate = path.parent / "crates" / path.name
    if path.name not in ("tlbridge", "tlexplain") or not crate.is_dir():
        return path
    program = crate / "out" / path.name
    return program if _is_program(program) else None


def _no_wrapper(path: Path) -> Optional[str]:
    if not _is_program(path):
        return None
    program = built_program(path.resolve())
    if program is None:
        raise FailureError(
            (
                f"{path} is not built yet: run {path} --version, which proves and builds it, or name the unverified"
                f" model with --program {path.with_name('tlbridge-model')}"
            ),
            2,
        )
    return str(
        program if program != path.resolve() else path.absolute()
    )  # (a name without a folder would be searched in PATH)


class FaultError(Exception):
    """The program found a fault in a line of the trace."""

    def __init__(self, line: int, words: str):
        super().__init__(words)
        self.line = line


def ask(program: str, part: Part, command: Sequence[str] = ("run", "--sync")) -> str:
    """Runs a command of the program over the trace of a part. Returns the file with its answer, and passes its standard
    error on."""
    size = os.path.getsize(part.trace)
    if size > MOST_BYTES:
        raise FailureError(
            (
                f"the trace has {size} bytes, but tlbridge takes at most {MOST_BYTES}: a run whose beats all have times"
                " is split at idle points"
            ),
            4,
        )
    answer, said = os.path.join(part.folder, "answer"), deque(maxlen=20)  # type: str, Deque[str]
    try:
        with open(answer, "wb") as out, open(part.trace, "rb") as trace:
            process = subprocess.Popen([program, *command], stdin=trace, stdout=out, stderr=subprocess.PIPE)
    except OSError as error:
        raise FailureError(f"{program}: {error.strerror}", 2) from error
    assert process.stderr is not None
    for line in process.stderr:
        words = line.decode("utf-8", "replace")
        said.append(words.strip())
        sys.stderr.write(words)
    process.stderr.close()
    status = process.wait()
    if status in (0, 1):
        return answer
    fault = re.search(r"line (\d+): (.*)", "\n".join(said))
    if fault and int(fault[1]) > 1:
        raise FaultError(int(fault[1]), fault[2])
    how = f"was ended by signal {-status}" if status < 0 else f"ended with status {status}"
    raise FailureError(
        f"{program} {how}, so there is nothing to compare with" + (f": {said[-1]}" if said else ""),
        status if status in (3, 4) else 2,
    )


def verdicts_of(program: str, part: Part, answer: str) -> Dict[str, Tuple[str, int, str]]:
    """Returns the report lines of an answer by channel: kind, count and last word. Raises FailureError if the answer is
    incomplete."""
    verdicts, channel, number = {}, "A", 0
    wanted = part.header.replace("tilelink-trace", "tilelink-far")
    with open(answer, encoding="latin-1") as lines:
        for number, line in enumerate(lines, 1):
            found = VERDICTS.match(line.rstrip("\n"))
            if number == 1:
                is_right = line.rstrip("\n") == wanted
            elif found:
                is_right = found[1] not in verdicts
                verdicts[found[1]] = (found[2] or found[5], int(found[3] or found[6]), found[4] or found[7])
            else:
                is_right = (
                    not verdicts
                    and FAR_BEAT.match(line) is not None
                    and len(line.split(" ")) == 1 + len(FIELDS[line[0]])
                    and line[0] >= channel
                )
                channel = line[0]
            if not is_right:
                raise FailureError(
                    f"{program} printed no answer to a trace: line {number} is '{line.rstrip()[:80]}'", 2
                )
    if set(verdicts) != set(CHANNELS):
        raise FailureError(
            (
                f"{program} printed {'nothing' if number == 0 else 'an answer that is not complete'}, so there is"
                " nothing to compare with"
            ),
            2,
        )
    return verdicts


# ---- differences


def level_words(matcher: LinkMatcher, name: str, place: str, found: Finding) -> str:
    """Returns the line of a report about a fault of the level."""
    count = matcher.level_counts[name]
    more = f" ({count} messages)" if count > 1 else ""
    return f"level {NAMES[matcher.level or 'c']}: {place}: {found.words}: {found.at.line}{more}"


FOLLOWS = "; it comes after the first fault, and may follow from it"
MOST_FOLLOWING = 4  # faults in time that are printed after the first one


class Said(NamedTuple):
    """A text with the time of the beat that it is about, if that is known."""

    words: str
    time: Optional[int]

    def text(self, after: Optional[int], more: str = "") -> str:
        """Returns the text, which says so if its beat comes after the time of the first fault."""
        follows = self.time is not None and after is not None and self.time > after
        return self.words + more + (FOLLOWS if follows else "")


class Channel:
    """The counts and differences of a channel in the parts so far."""

    def __init__(self) -> None:
        self.near = self.expected = 0
        self.stopped: Optional[Said] = None  # the first verdict that is not done
        self.first: Dict[str, Said] = {}  # the first difference of each kind
        self.counts = {"differ": 0, "are missing": 0, "are unexpected": 0}
        self.has_size_mismatch = False

    def lines(self, after: Optional[int] = None) -> Iterator[str]:
        """Yields the lines of the report. `after` is the time of the first fault, if faults in time were found."""
        if self.stopped:
            yield self.stopped.text(after)
        else:
            yield f"done: {self.near} near beats, {self.expected} far beats expected"
        for kind, said in self.first.items():
            count = self.counts[kind]
            yield said.text(after, f" ({count} beats {kind})" if count > 1 else "")


class Judge:
    """Judges the parts of a run in order. `note` is called with each remark that is not a difference."""

    def __init__(
        self,
        program: str,
        widths: Tuple[int, int],
        places: Places,
        note: Callable[[str], None],
        ignore_unmasked: bool = False,
    ):
        self.program, self.widths, self.places, self._note, self._ignore = (
            program,
            widths,
            places,
            note,
            ignore_unmasked,
        )
        self.channels = {channel: Channel() for channel in CHANNELS}
        self.is_right = True
        self.beats = 0
        self.smaller: Optional[Tuple[str, str]] = None  # a request on A, and a smaller one that came at its address
        self._first: Optional[Tuple[int, str, str]] = None  # the time, channel and fault of the first difference

    def part(self, part: Part) -> None:
        self.beats += part.beats
        if not part.beats:
            return
        try:
            answer = ask(self.program, part)
        except FaultError as fault:
            raise FailureError(self._fault(part, fault)) from fault
        verdicts = verdicts_of(self.program, part, answer)
        with open(answer, encoding="ascii") as lines:
            next(lines)
            expected = Expected(lines)
            for channel in CHANNELS:
                self._channel(part, channel, expected, verdicts[channel])

    def report(
        self,
        say: Callable[[str], None],
        findings: Sequence[Tuple[int, Finding]] = (),
        matchers: Sequence[LinkMatcher] = (),
    ) -> int:
        """Prints the first fault in time, from the findings of `Run.findings` or the differences, then the result of
        each channel, and then the findings of the level of each link. If nothing else is wrong, requests and responses
        on other channels than A and D are remarks, since the model accepts any of them. Returns the exit status.
        """
        if not self.beats:
            raise FailureError("no beat was accepted on either link, so there is nothing to compare", 2)
        findings = [(link, found) for link, found in findings if not self._is_known(found)]
        self.is_right = self.is_right and not any(found.pair == "A" for _, found in findings)
        remarks, findings = (findings, []) if self.is_right else ([], findings)
        first = None
        if findings and self._leads(findings[0][1]):
            first = self._say_findings(say, findings)
        elif self._first:
            say(f"first difference: channel {self._first[1]}, time {self._first[0]}")
        for channel in CHANNELS:
            for words in self.channels[channel].lines(first):
                say(f"{channel}: {words}")
        for link, found in remarks[:1]:
            more = f" (the first of {len(remarks)} requests and responses that do not fit)" if len(remarks) > 1 else ""
            say(f"remark: {self._words(link, found)}{more}")
        for link, matcher in enumerate(matchers):
            for name, found in matcher.level_findings.items():
                self.is_right = False
                say(level_words(matcher, name, self._at_link(link, found), found))
        return 0 if self.is_right else 1

    def _is_known(self, found: Finding) -> bool:
        """Whether the verdict of the beat's channel says the same of this very beat."""
        stopped = self.channels[found.at.channel].stopped
        return stopped is not None and stopped.time == found.at.time and found.kind == "SizeMismatch"

    def _leads(self, found: Finding) -> bool:
        """Whether this fault comes before each difference. At the time of a difference, it does unless the difference
        says more. About responses on other pairs of channels than A and D, the verdicts say nothing."""
        if self._first is None:
            return True
        time, _, fault = self._first
        says_more = (
            found.kind == "doubled"
            or fault == {"lost": "SourceBusy"}.get(found.kind, "NoRequest")
            or found.pair != "A"
            and found.kind != "lost"
        )
        return found.seen < time or found.seen == time and says_more

    def _say_findings(self, say: Callable[[str], None], findings: Sequence[Tuple[int, Finding]]) -> int:
        """Prints the first fault, and the faults in time that come after it. Returns the time of the first one."""
        say(f"first fault: {self._words(*findings[0])}")
        rest = findings[1:]
        for link, found in rest[:MOST_FOLLOWING]:
            say(f"then: {self._words(link, found)}{FOLLOWS}")
        if len(rest) > MOST_FOLLOWING:
            say(f"then: {len(rest) - MOST_FOLLOWING} more requests or responses that do not fit{FOLLOWS}")
        return findings[0][1].at.time or 0

    def _at_link(self, link: int, found: Finding) -> str:
        return self.places.of(LINKS[link], Row(found.at.place, found.at.line, 0), False)

    def _words(self, link: int, found: Finding) -> str:
        other = found.other and self.places.of(LINKS[link], Row(found.other.place, found.other.line, 0), False)
        return f"channel {found.at.channel}, {self._at_link(link, found)}: {found.words.format(other)}: {found.at.line}"

    def _fault(self, part: Part, fault: FaultError) -> str:
        lines_before = (
            min((row.number for name in CHANNELS for row in first_of(part.rows("near", name))), default=2) - 2
        )
        for channel in CHANNELS:
            for row in part.rows("near", channel):
                if row.number == fault.line + lines_before:
                    return f"{self._place(channel, row, True)}: {fault}: {row.line}"
        return f"{self.program}: line {fault.line}: {fault}"

    def _place(self, channel: str, row: Row, is_near: bool) -> str:
        return self.places.of(LINKS[(channel in FROM_CLIENT) != is_near], row, is_near)

    def _differs(self, channel: str, kind: str, words: str, time: Optional[int]) -> None:
        """Records a difference. The first one of its kind is kept as text."""
        self.is_right = False
        of = self.channels[channel]
        of.counts[kind] += 1
        of.first.setdefault(kind, Said(words, time))
        self._at(channel, time)

    def _at(self, channel: str, time: Optional[int], fault: str = "") -> None:
        if time is not None and (self._first is None or time < self._first[0]):
            self._first = (time, channel, fault)

    def _channel(self, part: Part, channel: str, expected: "Expected", verdict: Tuple[str, int, str]) -> None:
        kind, count, last = verdict
        of = self.channels[channel]
        of.near += count
        of.expected += int(last) if kind in ("done", "cut") else 0
        if kind in ("refused", "waiting") or kind == "cut" and not part.is_cut:
            self.is_right = False
            row = next((row for at, row in enumerate(part.rows("near", channel)) if at == count), None)
            time = self.places.time(row) if row and kind != "cut" else None
            words = self._stopped(part, channel, verdict, row)
            of.stopped = of.stopped or Said(words, time)
            of.has_size_mismatch = of.has_size_mismatch or last == "SizeMismatch"
            self._at(channel, time, last)
        self._compare(part, channel, expected.beats(channel), kind)

    def _stopped(self, part: Part, channel: str, verdict: Tuple[str, int, str], row: Optional[Row]) -> str:
        kind, count, last = verdict
        if kind == "cut":
            return (
                f"cut: {self.channels[channel].near} near beats, {self.channels[channel].expected} far beats expected;"
                " the last burst is not complete"
            )
        place = f", {self._place(channel, row, True)}: {last}: {row.line}" if row else f": {last}"
        return (
            f"{kind}: near beat {part.near_before[channel] + count}{place}; later beats of the channel are not judged"
        )

    def _compare(self, part: Part, channel: str, expected: Iterator[str], kind: str) -> None:
        widths = self.widths if channel in FROM_CLIENT else self.widths[::-1]
        came = part.rows("far", channel)
        origins = Origins(part.rows("near", channel), widths[0], channel)
        number, at, missing = part.far_before[channel], 0, 0
        for message, wanted in messages(expected, widths[1], channel):
            row = next(came, None)
            if row is None:
                missing += 1
                if not part.is_cut:
                    origin = origins.of(message)
                    self._differs(
                        channel,
                        "are missing",
                        f"far beat {number + at} is expected but missing: {wanted}{self._begins(channel, origin)}",
                        self.places.time(origin) if origin else None,
                    )
            elif row.line != wanted:
                words = self._difference(channel, row.line, wanted)
                if channel == "A" and self.smaller is None and is_part(row.line, wanted):
                    self.smaller = wanted, row.line
                if words:
                    begins = self._begins(channel, origins.of(message))
                    self._differs(
                        channel,
                        "differ",
                        f"far beat {number + at}, {self._place(channel, row, False)}: {words}{begins}",
                        self.places.time(row),
                    )
            at += 1
        if missing and part.is_cut:
            self._note(
                f"channel {channel}: {missing} expected far beats had not arrived at time {part.end}, when a part of"
                " the run ended; they are not judged"
            )
        if kind in ("done", "cut"):
            for row in came:
                self._differs(
                    channel,
                    "are unexpected",
                    f"far beat {number + at}, {self._place(channel, row, False)}, is unexpected: {row.line}",
                    self.places.time(row),
                )
                at += 1

    def _begins(self, channel: str, origin: Optional[Row]) -> str:
        return f"; its message begins at {self._place(channel, origin, True)}: {origin.line}" if origin else ""

    def _difference(self, channel: str, came: str, wanted: str) -> str:
        """Returns the fields that differ, as text."""
        mine, its = (dict(zip(FIELDS[channel], line.split(" ")[1:])) for line in (came, wanted))
        if self._ignore and channel in "AB" and its["opcode"] == PUT_PARTIAL:
            for fields in (mine, its):
                fields["data"] = enabled(fields["data"], its["mask"])
        return "; ".join(f"{name} is {mine[name]}, expected {its[name]}" for name in mine if mine[name] != its[name])


class Expected:
    """The far beats of an answer, channel by channel."""

    def __init__(self, lines: TextIO):
        self._lines = lines
        self._line = next(lines, "")

    def beats(self, channel: str) -> Iterator[str]:
        while self._line[:1] == channel:
            yield self._line.rstrip("\n")
            self._line = next(self._lines, "")


class Origins:
    """The near beats with which messages begin, in order."""

    def __init__(self, rows: Iterator[Row], width: int, channel: str):
        self._rows, self._width, self._channel = rows, width, channel
        self._number, self._row = -1, None  # type: int, Optional[Row]

    def of(self, message: int) -> Optional[Row]:
        while self._number < message:
            row = next(self._rows, None)
            if row is None:
                return None
            for _ in range(beats_in(row.line, self._width, self._channel) - 1):
                next(self._rows, None)
            self._number, self._row = self._number + 1, row
        return self._row


def beats_in(line: str, width: int, channel: str) -> int:
    """Returns the number of beats of the message that begins with a line."""
    return 1 if channel == "E" else beat_count(channel, int(line[2], 16), int(line[6], 16), width)


def messages(lines: Iterator[str], width: int, channel: str) -> Iterator[Tuple[int, str]]:
    """Yields each line with the number of its message."""
    left, number = 0, -1
    for line in lines:
        if not left:
            number += 1
            left = beats_in(line, width, channel)
        left -= 1
        yield number, line


def is_part(came: str, wanted: str) -> bool:
    """Whether a request on A asks for the first bytes of the wanted one."""
    mine, its = came.split(" "), wanted.split(" ")
    return (mine[1], mine[5]) == (its[1], its[5]) and mine[3] < its[3]


def first_of(rows: Iterator[Row]) -> List[Row]:
    row = next(rows, None)
    return [row] if row else []


def enabled(data: str, mask: str) -> str:
    """Returns the bytes of data that the mask enables, and `..` for each other byte."""
    lanes = len(data) // 2
    return "".join(data[2 * at : 2 * at + 2] if int(mask, 16) >> lanes - 1 - at & 1 else ".." for at in range(lanes))
