"""The beats of a design between two links, in order of time, as parts that can be judged one after the other.

A part ends at an idle point, at which no burst and no request is outstanding on either link, once its trace is long
enough. A reset and a gap of the record end a part also while beats are under way. Beats are kept in temporary files, so
memory does not grow with the run.
"""
from __future__ import annotations

import enum
import io
import os
import shutil
import sys
import tempfile
from typing import IO, Callable, Dict, Iterator, List, NamedTuple, Optional, TextIO, Tuple, cast

from .flow import LinkFlow
from .matching import Finding, LinkMatcher, Message
from .protocol import CHANNELS, FROM_CLIENT

MOST_BYTES = 67_108_864  # of a trace
PART_BYTES = 16 << 20  # a part ends at the first idle point after this size
LINKS = ("client", "manager")


class FailureError(Exception):
    """The reason why there is no result, and the exit status."""

    def __init__(self, words: str, status: int = 3):
        super().__init__(words)
        self.status = status


def shown(word: object, most: int = 40) -> str:
    """Returns a word of a file in printable form."""
    text = word.decode("latin-1") if isinstance(word, bytes) else str(word)
    text = text if len(text) <= most else text[:most] + ".."
    return "".join(letter if " " <= letter <= "~" else f"\\x{ord(letter):02x}" for letter in text)


def one_line(text: str) -> str:
    """Returns a note with its control characters in printable form: the name of a file may have any."""
    return "".join(letter if letter.isprintable() else f"\\x{ord(letter):02x}" for letter in text)


class Output(io.TextIOBase):
    """Standard output. If it cannot be written, that is a FailureError, and the rest of the output is dropped. Nobody
    reads it: a BrokenPipeError."""

    def __init__(self, stream: TextIO):
        self._stream = stream

    def write(self, text: str) -> int:
        try:
            return self._stream.write(text)
        except OSError as error:
            raise self._dropped(error) from error

    def flush(self) -> None:
        try:
            self._stream.flush()
        except OSError as error:
            raise self._dropped(error) from error

    def _dropped(self, error: OSError) -> Exception:
        self._stream = open(os.devnull, "w", encoding="utf-8")
        return error if isinstance(error, BrokenPipeError) else FailureError(f"standard output: {error.strerror}", 4)


def _takes_text(stream: Optional[TextIO]) -> bool:
    """Whether a stream is open for writes. Python has None for a closed one, for which `print` would take standard
    output. If a wrapper started Python, the number of a closed stream may also be that of a file that is only read."""
    if stream is None:
        return False
    try:
        return os.write(stream.fileno(), b"") == 0
    except io.UnsupportedOperation:  # not a file
        return True
    except OSError:
        return False


def _drop_stderr() -> None:
    """Loses what is printed on standard error from here on, so that it changes no exit status."""
    sys.stderr = open(os.devnull, "w", encoding="utf-8")


def print_note(line: str) -> None:
    """Prints a line on standard error. If that is full or closed, the line is lost."""
    try:
        print(line, file=sys.stderr, flush=True)
    except OSError:
        _drop_stderr()


def status_of(command: Callable[[], int], note: Callable[[str], None]) -> int:
    """Runs a command, and returns its exit status. Each failure has one note."""
    if not _takes_text(sys.stderr):
        _drop_stderr()
    try:
        if sys.stdout is None:
            raise FailureError("standard output is closed", 4)
        sys.stdout = cast(TextIO, Output(sys.stdout))
        try:
            return command()
        finally:
            sys.stdout.flush()
    except FailureError as failure:
        note(str(failure))
        return failure.status
    except BrokenPipeError:
        return 4
    except OSError as error:
        note(f"{error.filename or 'a temporary file'}: {error.strerror}")
        return 4
    except KeyboardInterrupt:
        return 130


class EndedError(Exception):
    """The run takes no more beats. The text says why not all of it is judged."""


class Row:
    """A beat of a part: its place as it was passed to the run, its line, and for a near beat its line number in the
    trace of the whole run."""

    __slots__ = ("place", "line", "number")

    def __init__(self, place: str, line: str, number: int):
        self.place, self.line, self.number = place, line, number


class Part:
    """A part of a run: its near beats as a trace, and its near and far beats by channel."""

    def __init__(self, header: str, folder: str, number: int):
        self.header, self.folder, self.number = header, folder, number
        self.begin: Optional[int] = None
        self.end: Optional[int] = None
        self.is_cut = False  # messages were incomplete when the record ended
        self.beats = 0
        self.trace = os.path.join(folder, "trace")
        self.near_before: Dict[str, int] = {}
        self.far_before: Dict[str, int] = {}

    def file(self, kind: str, channel: str) -> str:
        return os.path.join(self.folder, f"{kind}-{channel}")

    def rows(self, kind: str, channel: str) -> Iterator[Row]:
        """Returns the beats of a channel on its near or far link; `kind` is near or far."""
        with open(self.file(kind, channel), encoding="ascii") as file:
            for row in file:
                number, place, line = row.rstrip("\n").split("\t")
                yield Row(place, line, int(number))

    def write_far(self, out: IO[str]) -> None:
        """Writes the far beats in the order of `tlbridge run`, without report lines."""
        out.write(self.header.replace("tilelink-trace", "tilelink-far") + "\n")
        for channel in CHANNELS:
            for row in self.rows("far", channel):
                out.write(row.line + "\n")

    def write_trace(self, out: IO[str]) -> None:
        with open(self.trace, encoding="ascii") as file:
            shutil.copyfileobj(file, out)

    def write_times(self, out: IO[str]) -> None:
        """Writes the time of each beat of the trace: the last word of its place."""
        with open(os.path.join(self.folder, "places"), encoding="ascii") as file:
            for row in file:
                out.write(row.rpartition(" ")[2])


class Spool:
    """The beats of the current part, in the order of arrival."""

    def __init__(self, folder: str):
        self.file = open(os.path.join(folder, "beats"), "w+", encoding="ascii")
        self.bytes = self.trace_bytes = self.beats = 0

    def add(self, kind: str, place: str, line: str) -> None:
        row = f"{kind}\t{place}\t{line}\n"
        self.file.write(row)
        self.bytes += len(row)
        self.beats += 1
        if kind == "near":
            self.trace_bytes += len(line) + 1

    def position(self) -> Tuple[int, int, int]:
        return self.bytes, self.trace_bytes, self.beats

    def back_to(self, position: Tuple[int, int, int]) -> int:
        """Drops the beats after a position. Returns their number."""
        dropped = self.beats - position[2]
        self.bytes, self.trace_bytes, self.beats = position
        self.file.flush()
        self.file.seek(self.bytes)
        self.file.truncate()
        return dropped

    def rows(self) -> Iterator[List[str]]:
        self.file.flush()
        self.file.seek(0)
        for row in self.file:
            yield row.rstrip("\n").split("\t")


class Messages(enum.Enum):
    """The messages of the current part. `_restart` chooses one of the first two. A beat of an older message changes
    UNSURE to STRANGERS, and `_drop_strangers` changes it back."""

    WHOLE = "each began in the part"
    UNSURE = "messages from before the part may be under way"
    STRANGERS = "a beat of such a message was seen"


class Phase(enum.Enum):
    """SEEKING lasts until `_look_for_begin` has found the idle point at which the run begins."""

    SEEKING = "beats are kept only in case the run begins at the last idle point"
    TAKING = "beats belong to a part"


class IdlePoint(NamedTuple):
    """The last time at which nothing was under way, or None, and the position of the spool then."""

    position: Tuple[int, int, int]
    time: Optional[int]


START = (0, 0, 0)


class Run:
    """Takes accepted beats of a client's and a manager's link, and calls `done` with each part.

    Without a manager's width there is one link, and all of its beats are near beats. `first` and `last` are times that
    a part begins and ends near, at an idle point. `note` is called with what a reader has to know.
    """

    def __init__(
        self,
        version: int,
        client: int,
        manager: Optional[int],
        done: Callable[[Part], None],
        note: Callable[[str], None],
        first: Optional[int] = None,
        last: Optional[int] = None,
        level: Optional[str] = None,
    ):
        self.version, self.widths = version, (client, manager or client)
        self._done, self._note, self._first, self._last = done, note, first, last
        self._is_one = manager is None
        digits = 2 * version
        self._flows = [LinkFlow(width, digits) for width in self.widths[: 1 if self._is_one else 2]]
        # of each link; they follow requests and responses if the beats have times, and the level if there is one
        self.matchers = [LinkMatcher(flow.width, level) for flow in self._flows]
        if not self._is_one:
            self.matchers[0].is_offered = lambda channel: channel in "AC" and self._is_ahead(channel, 1)
            self.matchers[1].is_offered = lambda channel: channel in "BD" and self._is_ahead(channel, 0)
        self._covered: List[Tuple[int, Optional[int]]] = []  # the times of the parts, from and to
        self._folder = tempfile.TemporaryDirectory(prefix="tlbridge-")
        self._spool = Spool(self._folder.name)
        self._count = {(kind, channel): 0 for kind in ("near", "far") for channel in CHANNELS}
        self.parts = 0
        self._lines = 1  # of the trace of the whole run: its header
        self._time: Optional[int] = None  # of the last beat
        self._begin: Optional[int] = None  # of the current part
        self._idle = IdlePoint(START, None)
        self._messages = Messages.WHOLE
        self._phase = Phase.TAKING if first is None else Phase.SEEKING
        self._left_out = 0
        self._in_reset: List[int] = []
        self.beats = 0

    # ---- events

    def begins(self, time: int) -> None:
        """The record begins. If that is after time 0, messages may be under way."""
        self._begin = time
        if time:
            self._messages = Messages.UNSURE
            for matcher in self.matchers:
                matcher.restart(is_unsure=True)

    def beat(self, link: int, line: str, time: Optional[int], place: str) -> None:
        """Adds a beat that a link accepted: 0 is the client's, 1 the manager's."""
        if time is not None and time != self._time:
            self._moment(time)
            self._time = time
        self.beats += 1
        is_near = self._is_one or (line[0] in FROM_CLIENT) == (link == 0)
        flow = self._flows[link]
        if flow.beat(line):
            self._see_stranger()
        if flow.began:
            self.matchers[link].message(Message(line[0], *flow.began, time, place, line))
        self._spool.add("near" if is_near else "far", place, line)

    def reset(self, link: int, time: int, with_reset: int) -> None:
        """A link enters reset. `with_reset` is the number of links that have a reset."""
        self._in_reset.append(link)
        if not self.beats:
            return
        if self._spool.beats:
            self._moment(time)
            self._end_part(self._time or time, f"reset asserted again at time {time}", self._is_busy())
        is_unsure = len(self._in_reset) < with_reset
        self._restart(time, is_unsure)
        for matcher in self.matchers:
            matcher.restart(is_unsure)

    def leaves_reset(self, link: int) -> None:
        self._in_reset = [other for other in self._in_reset if other != link]

    def gap(self, off: int, on: int) -> None:
        """Nothing was recorded between two times."""
        if self._spool.beats:
            self._moment(off)
            self._end_part(off, f"nothing was recorded from time {off} to {on}", self._is_busy())
        self._restart(on, is_unsure=True)
        for matcher in self.matchers:
            matcher.restart(is_unsure=True)

    def finish(self, time: Optional[int], is_told: bool = True) -> None:
        """The record ends at a time."""
        if self._spool.beats and time is not None:
            self._moment(time + 1)
        if self._phase is Phase.SEEKING:
            self._spool.back_to(START)
            self._note(f"--from {self._first}: no idle point nearby before the record ends")
        self._drop_strangers()
        if self._is_busy() and self._spool.beats and is_told:
            self._note(
                f"the record ends at time {time} while beats are under way: {self._outstanding()}"
                + (f"; --to {self._idle.time} ends at the last idle point" if self._idle.time is not None else "")
            )
        self._tell_left_out()
        for matcher in self.matchers:
            matcher.finish(time)
        self._end_part(time, "", False)

    def findings(self) -> List[Tuple[int, Finding]]:
        """Returns what does not fit in time, with its link, in the order in which it was seen. Beats of no part of the
        run are left out."""
        found = []
        for link, matcher in enumerate(self.matchers):
            matcher.settle()
            found += [(link, finding) for finding in matcher.findings if self._is_covered(finding.at.time or 0)]
        return sorted(found, key=lambda item: item[1].seen)

    def outstanding(self) -> List[str]:
        """Returns the bursts and requests that are outstanding, as text."""
        return [what for flow in self._flows for what in flow.outstanding()]

    def _is_covered(self, time: int) -> bool:
        return any(begin <= time and (end is None or time <= end) for begin, end in self._covered)

    def _is_ahead(self, channel: str, far: int) -> bool:
        """Whether the design has sent a part of a message on its far link while the near link still offers it."""
        return self._flows[far].messages[channel] > self._flows[1 - far].messages[channel]

    def close(self) -> None:
        self._spool.file.close()
        self._folder.cleanup()

    # ---- idle points

    def _is_busy(self) -> bool:
        for flow in self._flows:
            if not flow.is_quiet():
                return True
        may_differ = self._messages is Messages.STRANGERS or self._is_one
        return not may_differ and self._flows[0].messages != self._flows[1].messages

    def _outstanding(self) -> str:
        words = [
            f"{what} on the {link}'s link" for link, flow in zip(LINKS, self._flows) for what in flow.outstanding()
        ]
        if not words:
            return "messages that did not cross"
        return ", ".join(words[:4]) + (", .." if len(words) > 4 else "")

    def _moment(self, time: int) -> None:
        """Checks whether `time` is an idle point. Every beat before it has been added."""
        for matcher in self.matchers:
            matcher.flush()
        if self._messages is Messages.UNSURE and not self._is_one:
            client, manager = (flow.messages for flow in self._flows)
            if any(
                (client if channel in "BD" else manager)[channel] > (manager if channel in "BD" else client)[channel]
                for channel in CHANNELS
            ):
                self._see_stranger()
        is_quiet = not self._is_busy()
        if is_quiet:
            self._drop_strangers()
        if self._phase is Phase.SEEKING:
            self._look_for_begin(is_quiet, time)
        elif self._last is not None and time > self._last:
            self._look_for_end(is_quiet, time)
        if is_quiet:
            self._idle = IdlePoint(self._spool.position(), self._time)
            if self._phase is Phase.TAKING and self._spool.trace_bytes >= PART_BYTES:
                self._end_part(self._time, "", False)
                self._restart(time, self._messages is not Messages.WHOLE)
                self._idle = IdlePoint(START, self._time)
        elif self._phase is Phase.TAKING and self._spool.trace_bytes > MOST_BYTES - 4096:
            self._too_long()

    def _look_for_begin(self, is_quiet: bool, time: int) -> None:
        """Begins at the idle point nearest to `first`: the beats since the last one before it are kept until a nearer
        one is ruled out."""
        first, begin = self._first, self._begin or 0
        now = begin if self._time is None else self._time
        assert first is not None
        if is_quiet and (time <= first or now <= first or now - first < first - begin):
            self._spool.back_to(START)
            self._begin = time if time <= first else max(now, first)
            if time <= first:
                return
        elif not is_quiet and (time <= first or time - first < first - begin):
            return
        self._phase = Phase.TAKING
        if self._begin != first:
            self._note(
                f"--from {first}: begins at time {self._begin or 0}, the nearest time at which nothing was under way"
            )

    def _look_for_end(self, is_quiet: bool, time: int) -> None:
        """Ends at the idle point nearest to `last`."""
        last, now = self._last, self._time or 0
        assert last is not None
        position, quiet = self._idle
        if is_quiet and (now <= last or quiet is None or now - last < last - quiet):
            end = max(now, last) if now <= last else now
        elif quiet is not None and time - last >= last - quiet:
            self._spool.back_to(position)
            end = quiet
        else:
            return
        if end != last:
            self._note(f"--to {last}: ends at time {end}, the nearest time at which nothing was under way")
        self._tell_left_out()
        self._end_part(end, "", False)
        raise EndedError

    def _too_long(self) -> None:
        self._end_part(self._time, "", True)
        raise EndedError(
            f"the trace from time {self._begin or 0} to {self._time} has {MOST_BYTES} bytes, and no idle point at which"
            f" it could be split: {self._outstanding()}. Later beats are not judged"
        )

    def _see_stranger(self) -> None:
        """Notes a beat of a message that began before the part."""
        if self._messages is Messages.UNSURE:
            self._messages = Messages.STRANGERS

    def _drop_strangers(self) -> None:
        """Drops the beats since the last idle point, if some belong to messages that began before the part."""
        if self._messages is not Messages.STRANGERS:
            return
        self._left_out += self._spool.back_to(self._idle.position)
        self._messages = Messages.UNSURE
        for flow in self._flows:
            flow.messages = dict.fromkeys(CHANNELS, 0)

    def _tell_left_out(self) -> None:
        if self._left_out:
            self._note(
                f"{self._left_out} beats after time {self._begin or 0} are left out: messages that began before it were"
                " under way"
            )
            self._left_out = 0

    # ---- parts

    def _restart(self, time: int, is_unsure: bool) -> None:
        for flow in self._flows:
            flow.restart()
        self._begin, self._idle = time, IdlePoint(START, None)
        self._messages = Messages.UNSURE if is_unsure else Messages.WHOLE

    def _end_part(self, time: Optional[int], why: str, is_cut: bool) -> None:
        if self._phase is Phase.SEEKING:
            self._spool.back_to(START)
        self._drop_strangers()
        self._tell_left_out()
        if why and self._phase is Phase.TAKING:
            self._note(
                f"{why}: "
                + (
                    f"a part of the run ends there, while beats are under way ({self._outstanding()})"
                    if is_cut
                    else "a part of the run ends there"
                )
            )
        if self._spool.beats or self.parts == 0 and not why:
            self.parts += 1
            part = self._sorted(time)
            part.is_cut = is_cut
            self._covered.append((part.begin or 0, part.end))
            self._done(part)
        self._spool.back_to(START)

    def _sorted(self, time: Optional[int]) -> Part:
        """Returns the current part, with its beats sorted into files."""
        header = f"tilelink-trace {self.version} client {self.widths[0]} manager {self.widths[1]}"
        part = Part(header, self._folder.name, self.parts)
        part.begin, part.end, part.beats = self._begin, time, self._spool.beats
        part.near_before = {channel: self._count["near", channel] for channel in CHANNELS}
        part.far_before = {channel: self._count["far", channel] for channel in CHANNELS}
        files = {
            (kind, channel): open(part.file(kind, channel), "w", encoding="ascii") for kind, channel in self._count
        }
        places = open(os.path.join(self._folder.name, "places"), "w", encoding="ascii")
        with open(part.trace, "w", encoding="ascii") as trace:
            trace.write(header + "\n")
            for kind, place, line in self._spool.rows():
                if kind == "near":
                    self._lines += 1
                    trace.write(line + "\n")
                    places.write(f"{place}\n")
                self._count[kind, line[0]] += 1
                files[kind, line[0]].write(f"{self._lines}\t{place}\t{line}\n")
        for file in (*files.values(), places):
            file.close()
        return part
