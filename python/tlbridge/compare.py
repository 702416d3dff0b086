"""Compares the far beats of a design with those that the bridge sends for the same near beats.

CLIENT and MANAGER are the widths of both links in bytes. The files are those that sv/tl_trace_monitor.sv wrote at each
link. The near beats of both links form a trace, whose answer by `tlbridge run` has the expected far beats. For each
channel the verdict is printed, and the first far beat that differs, is missing or is unexpected, with the near beat
that its message begins with. The times of FILE.times are printed if these files exist.

exit status:
  0  each channel is done, and its far beats are as expected
  1  a channel is not done, or a far beat differs, is missing or is unexpected. With times, a request or response of A
     and D does not fit. With --level, the level does not have a message
  2  there is nothing to compare: no beat, no answer, or a wrong command line
  3  a file cannot be understood
  4  a file cannot be read or written
"""
from __future__ import annotations

import argparse
import re
from dataclasses import dataclass
from functools import partial
from pathlib import Path
from typing import Iterator, List, Optional, Sequence, Tuple

from .judge import Judge, Places, Said, level_words, program_of
from .levels import LEVELS
from .one_link import LinkJudge
from .protocol import FIELDS, FROM_CLIENT, MAX_SIZE, WIDTHS
from .run import LINKS, EndedError, FailureError, Part, Row, Run, one_line, print_note, shown, status_of
from .split import SplitJudge

PROGRAM = "tlbridge-compare"
SIZES = tuple(1 << size for size in range(MAX_SIZE + 1))  # of a message, in bytes
MOST_LINK_FAULTS = 6  # faults of the links that are printed with --split
DIGITS = {"opcode": 1, "param": 1, "size": 1, "address": 16, "denied": 1, "corrupt": 1}
LONGEST = 4096  # of a line, in characters; the longest beat has some 330
HEXADECIMAL = re.compile(r"[0-9a-f]*$")
UNKNOWN = re.compile(r"[0-9a-fxzXZ]*$")


class MonitorFile:
    """The beats that a monitor wrote for one link."""

    def __init__(self, path: str, width: int, near: str):
        self.path, self.width, self.near = path, width, near
        self.digits = 2
        self.has_times = Path(f"{path}.times").exists()
        self._lines = 0

    def check(self) -> None:
        """Reads the file once. Raises FailureError unless each line is a beat of this link and, if there are times, has
        one."""
        for beat in self.beats():
            _, _, line = beat
            words = line.split(" ")
            self.digits = max(
                [
                    self.digits,
                    *(len(word) for name, word in zip(FIELDS[line[0]], words[1:]) if name in ("source", "sink")),
                ]
            )

    def beats(self) -> Iterator[Tuple[str, Optional[int], str]]:
        """Yields the place, the time and the line of each beat."""
        times = self._times() if self.has_times else None
        number = 0
        for number, line in enumerate(lines_of(self.path), 1):
            time = None if times is None else next(times, None)
            if times is not None and time is None:
                raise FailureError(
                    f"{self.path}.times ends before {self.path}, after {number - 1} lines: both are of one run, line by"
                    " line"
                )
            self._examine(line, f"{self.path} line {number}")
            yield f"{number} {time}" if time else str(number), int(time) if time and time.isdigit() else None, line
        if times is not None and next(times, None) is not None:
            raise FailureError(
                f"{self.path}.times has more lines than the {number} of {self.path}: both are of one run, line by line"
            )

    def _times(self) -> Iterator[str]:
        for number, line in enumerate(lines_of(f"{self.path}.times"), 1):
            if not line.strip() or not line.isprintable():
                raise FailureError(f"{self.path}.times line {number}: not a time: {shown(line, LONGEST)}")
            yield re.sub(r"\s", "", line)

    def _examine(self, line: str, place: str) -> None:
        channel, *values = line.split(" ")
        names = FIELDS.get(channel)
        if names is None or len(values) != len(names):
            raise FailureError(f"{place}: this is not a beat as tl_trace_monitor writes it: {shown(line, LONGEST)}")
        digits = {**DIGITS, "mask": (self.width + 3) // 4, "data": 2 * self.width}
        for name, value in zip(names, values):
            wanted = digits.get(name)
            if len(value) != wanted if wanted else len(value) not in (2, 4):
                raise FailureError(
                    f"{place}: {name} has {len(value)} digits, and not {wanted or '2 or 4'} as on a link of"
                    f" {self.width} bytes: {shown(line, LONGEST)}"
                )
            if channel in self.near and not HEXADECIMAL.match(value):
                words = "has unknown bits" if UNKNOWN.match(value) else "is not a lower-case hexadecimal number"
                raise FailureError(f"{place}: {name} of a near beat {words}: {shown(value)}")
            if not UNKNOWN.match(value) or channel not in self.near and not HEXADECIMAL.match(value.translate(_KNOWN)):
                raise FailureError(f"{place}: {name} is not a lower-case hexadecimal number: {shown(value)}")


_KNOWN = {ord(letter): "0" for letter in "xzXZ"}


def lines_of(path: str) -> Iterator[str]:
    try:
        with open(path, encoding="latin-1", newline="\n") as file:
            while True:
                line = file.readline(LONGEST)
                if not line:
                    return
                yield line.rstrip("\r\n")
    except OSError as error:
        raise FailureError(f"{path}: {error.strerror}", 4) from error


class FilePlaces(Places):
    def __init__(self, paths: Tuple[str, str]):
        self._paths = dict(zip(("client", "manager"), paths))

    def of(self, link: str, row: Row, is_near: bool) -> str:
        number, _, time = row.place.partition(" ")
        return f"{self._paths[link]} line {number}" + (f", time {time}" if time else "")

    def time(self, row: Row) -> Optional[int]:
        time = row.place.partition(" ")[2]
        return int(time) if time.isdigit() else None


def in_order(files: List[MonitorFile]) -> Iterator[Tuple[int, str, Optional[int], str]]:
    """Yields the beats of both links in order of time, the client's first at equal times. Without times on both links,
    the client's link comes first."""
    streams = [files[0].beats(), files[1].beats()]
    if not all(file.has_times for file in files):
        for link, stream in enumerate(streams):
            for place, _, line in stream:
                yield link, place, None, line
        return
    heads = [next(stream, None) for stream in streams]
    while True:
        waiting = [(head[1] or 0, link) for link, head in enumerate(heads) if head]
        if not waiting:
            return
        link = min(waiting)[1]
        head = heads[link]
        assert head is not None
        yield (link, *head)
        heads[link] = next(streams[link], None)


def spelled(line: str, digits: int) -> str:
    """Returns the line with ids of `digits` digits."""
    channel, *values = line.split(" ")
    names = FIELDS[channel]
    return " ".join(
        [
            channel,
            *(value.rjust(digits, "0") if name in ("source", "sink") else value for name, value in zip(names, values)),
        ]
    )


def write_trace(path: str, part: Part, has_times: bool) -> None:
    """Writes the trace of a part, and its times to a second file. From the second part on, the name ends with the
    number of the part."""
    name = path if part.number == 1 else f"{path}.{part.number}"
    try:
        with open(name, "w", encoding="ascii") as out:
            part.write_trace(out)
        if has_times:
            with open(f"{name}.times", "w", encoding="ascii") as out:
                part.write_times(out)
    except OSError as error:
        raise FailureError(f"{error.filename or name}: {error.strerror}", 4) from error


@dataclass(frozen=True)
class Options:
    """The command line, which `command_line` explains."""

    client: int
    manager: int
    client_beats: str
    manager_beats: str
    ignore_unmasked: bool
    split: bool
    largest: Optional[int]
    level: Optional[str]
    write_trace: Optional[str]
    program: Optional[str]


def compare(options: Options) -> int:
    widths, paths = (options.client, options.manager), (options.client_beats, options.manager_beats)
    if options.largest and not options.split or options.split and options.write_trace:
        raise FailureError("--largest needs --split" if options.largest else "--write-trace is not for --split", 2)
    files = [MonitorFile(path, width, near) for path, width, near in zip(paths, widths, (FROM_CLIENT, "BD"))]
    for file in files:
        file.check()
    version = 2 if max(widths) > 64 or max(file.digits for file in files) > 2 else 1
    has_times = all(file.has_times for file in files)
    if options.split:
        return compare_split(options, files, version, FilePlaces(paths))
    judge = Judge(program_of(options.program, note), widths, FilePlaces(paths), note, options.ignore_unmasked)

    def part_done(part: Part) -> None:
        if options.write_trace:
            write_trace(options.write_trace, part, has_times)
            if part.number > 1:
                note(
                    f"part {part.number} of the run, from time {part.begin}, is the trace"
                    f" {options.write_trace}.{part.number}"
                )
        judge.part(part)

    run = Run(version, widths[0], widths[1], part_done, note, level=options.level)
    try:
        time = None
        for link, place, time, line in in_order(files):
            run.beat(link, spelled(line, 2 * version), time, place)
        run.finish(time, is_told=False)
        status = judge.report(print, run.findings(), run.matchers)
        hint = split_hint(judge)
        if hint:
            print(hint)
        return status
    except EndedError as ended:
        note(str(ended))
        return judge.report(print, run.findings(), run.matchers) or 2
    finally:
        run.close()


def split_hint(judge: Judge, remedy: str = "--split judges one that splits them") -> str:
    """Returns a line with the remedy if the manager's link has a part of a message in place of the whole one."""
    if judge.smaller is None:
        return ""
    whole, piece = (1 << int(line.split(" ")[3], 16) for line in judge.smaller)
    address = judge.smaller[0].split(" ")[5]
    seems = f"this design seems to split messages: {whole} bytes at {address} leave it as {piece}"
    return f"{seems}. It is compared with a bridge that keeps messages whole; {remedy}"


def compare_split(options: Options, files: Sequence[MonitorFile], version: int, places: FilePlaces) -> int:
    """Judges an adapter that splits messages. Each link is also judged by itself. Returns the exit status."""
    program = program_of(options.program, note)
    links = [LinkJudge(program, file.width, version, note, places.time, options.level) for file in files]
    widths = (files[0].width, files[1].width)
    split = SplitJudge(widths, options.largest or min(widths), places, options.ignore_unmasked)
    links[0].matcher.is_offered = lambda channel: channel == "A" and split.is_offered()
    time, beats = None, 0
    try:
        for at, place, time, line in in_order(list(files)):
            row, beats = spelled(line, 2 * version), beats + 1
            split.beat(at, row, time, place)
            links[at].beat(row, time, place)
        split.finish()
        for link in () if split.has_unknown_bits() else links:
            link.run.finish(time, is_told=False)
        if not beats:
            raise FailureError("no beat was accepted on either link, so there is nothing to compare", 2)
        return report_split(links, split, places)
    except EndedError as ended:
        note(str(ended))
        return 2
    finally:
        for link in links:
            link.close()


def report_split(links: Sequence[LinkJudge], split: SplitJudge, places: FilePlaces) -> int:
    """Prints the report. Returns the exit status."""
    faults = [
        (side, fault)
        for side, link in zip(LINKS, links)
        for fault in link.faults(partial(places.of, side, is_near=False))
    ]
    firsts = [
        Said(f"channel {fault.channel}, {fault.place}: {fault.name}: {fault.words}: {fault.line}", fault.seen)
        for _, fault in faults
    ]
    mistake = split.first()
    if mistake:
        firsts.append(Said(f"channel {mistake[0]}, {mistake[1].words}", mistake[1].time))
    timed = [said for said in firsts if said.time is not None]
    first = min(timed, key=lambda said: said.time or 0) if timed else None
    if first:
        print(f"first fault: {first.words}")
    for side, fault in faults[:MOST_LINK_FAULTS]:
        said = Said(f"{fault.name}: {fault.place}: {fault.words}: {fault.line}", fault.seen)
        print(f"{fault.channel} of the {side}'s link: {said.text(first.time if first else None)}")
    if len(faults) > MOST_LINK_FAULTS:
        print(f"{len(faults) - MOST_LINK_FAULTS} more faults of the links")
    for line in split.lines(first.time if first else None):
        print(line)
    is_right = split.is_right and not faults
    for side, link in zip(LINKS, links):
        for name, found in link.matcher.level_findings.items():
            is_right = False
            print(level_words(link.matcher, name, places.of(side, Row(found.at.place, found.at.line, 0), False), found))
    return 0 if is_right else 1


def note(text: str) -> None:
    print_note(f"{PROGRAM}: {one_line(text)}")


def a_width(text: str) -> int:
    if not (text.isascii() and text.isdigit()) or int(text[:4]) not in WIDTHS or len(text) > 3:
        raise argparse.ArgumentTypeError(
            f"a width in bytes is one of {', '.join(map(str, WIDTHS))}, and not '{shown(text)}'"
        )
    return int(text)


def a_size(text: str) -> int:
    if not (text.isascii() and text.isdigit()) or int(text[:5]) not in SIZES or len(text) > 4:
        raise argparse.ArgumentTypeError(
            f"a size in bytes is a power of two up to {SIZES[-1]}, and not '{shown(text)}'"
        )
    return int(text)


def command_line() -> argparse.ArgumentParser:
    words = argparse.ArgumentParser(
        prog=PROGRAM, description=__doc__, formatter_class=argparse.RawDescriptionHelpFormatter
    )
    words.add_argument("client", type=a_width, help="bytes of a beat on the client's link")
    words.add_argument("manager", type=a_width, help="bytes of a beat on the manager's link")
    words.add_argument("client_beats", help="the file that the monitor wrote at the client's link")
    words.add_argument("manager_beats", help="the file that the monitor wrote at the manager's link")
    words.add_argument(
        "--ignore-unmasked", action="store_true", help="do not compare bytes of PutPartialData whose mask bit is 0"
    )
    words.add_argument(
        "--split",
        action="store_true",
        help="judge an adapter that splits messages and joins their responses, by a rule that is not proved",
    )
    words.add_argument(
        "--largest",
        metavar="N",
        type=a_size,
        help="with --split: bytes of the largest message on the manager's link [default: the narrower width]",
    )
    words.add_argument(
        "--level", choices=LEVELS, help="report messages that links of this level do not have: TL-UL, TL-UH or TL-C"
    )
    words.add_argument(
        "--write-trace",
        metavar="FILE",
        help="write the near beats as a trace, for tlexplain, and their times to FILE.times",
    )
    words.add_argument(
        "--program", metavar="TLBRIDGE", help="the program to ask [default: tlbridge, installed with this or in PATH]"
    )
    return words


def main(arguments: Optional[List[str]] = None) -> int:
    return status_of(lambda: compare(Options(**vars(command_line().parse_args(arguments)))), note)
