"""Writes the beats of one link or of two as a trace, as a page, or as monitor files, and judges them."""
from __future__ import annotations

import contextlib
import sys
from typing import IO, Callable, Dict, Iterator, List, Optional, Sequence, Set, Tuple

from ..compare import split_hint
from ..judge import Judge, Places, level_words, program_of
from ..protocol import CHANNELS, FROM_CLIENT
from ..run import LINKS, MOST_BYTES, EndedError, FailureError, Part, Row, Run
from .chosen import link_of, version_for
from .links import Link, Signals
from .options import Options, note, nothing
from .page import Notes, Pages, tlexplain_of, too_long
from .remarks import tell, tell_links
from .sampling import Count, Sampler, Watch
from .vcd import Reader, Variable

SPLIT_REMEDY = "tlbridge-compare --split judges one that splits them, from the files of --beats"


def driven_by(link: Link, near: str, tops: Set[bytes]) -> Dict[bytes, str]:
    """Returns the signals that a bench in C++ may drive at this link, by code: those in Verilator's scope TOP, from the
    side that sends `near`."""
    driven = [
        signal
        for letter, signals in link.channels.items()
        for name, signal in signals.items()
        if (name != "ready") == (letter in near)
    ]
    return {part[0]: signal.name for signal in driven for part in signal.parts if part[0] in tops}


def look_for_drivers(watch: Watch, variables: Sequence[Variable], is_one: bool) -> None:
    """Watches the inputs that a bench in C++ may drive. With two links the outer sides are known. With one link either
    side may be the design, whose outputs follow the clock as they should.
    """
    tops = {variable.code for variable in variables if variable.scope == ("TOP",)}
    nears = (FROM_CLIENT, "BD") if is_one else (watch.near,)
    driven = [driven_by(watch.link, near, tops) for near in nears]
    if all(driven):
        watch.driven, watch.at_rise = driven, [Count() for _ in driven]


class WavePlaces(Places):
    def of(self, link: str, row: Row, is_near: bool) -> str:
        return f"time {row.place} on the {link}'s link" + (f", line {row.number} of the trace" if is_near else "")

    def time(self, row: Row) -> Optional[int]:
        return int(row.place)


@contextlib.contextmanager
def writing(path: str) -> Iterator[None]:
    """A failed write of this file is a FailureError with its name."""
    try:
        yield
    except OSError as error:
        raise FailureError(f"{path}: {error.strerror}", 4) from error


class MonitorRun(Run):
    """A run that also writes all beats as tl_trace_monitor does."""

    files: List[Tuple[IO[str], IO[str]]] = []
    stem = ""

    def beat(self, link: int, line: str, time: Optional[int], place: str) -> None:
        if self.files:
            beats, times = self.files[link]
            with writing(f"{self.stem}.{LINKS[link]}.beats"):
                beats.write(line + "\n")
                times.write(f"{time}\n")
        super().beat(link, line, time, place)

    def open_files(self, stem: str) -> None:
        self.stem = stem
        for side in LINKS:
            path = f"{stem}.{side}.beats"
            with writing(path):
                self.files = [
                    *self.files,
                    (open(path, "w", encoding="ascii"), open(f"{path}.times", "w", encoding="ascii")),
                ]

    def close(self) -> None:
        for pair, side in zip(self.files, LINKS):
            for file in pair:
                with writing(f"{self.stem}.{side}.beats"):
                    file.close()
        super().close()


class Outputs:
    """Writes and judges the parts of a run."""

    def __init__(self, options: Options, judge: Optional[Judge], pages: Optional[Pages], told: Callable[[str], None]):
        self.options, self.judge, self.pages, self._told = options, judge, pages, told
        self.is_trace_shown = not options.trace and not options.compare and not options.html

    def part(self, part: Part) -> None:
        options = self.options
        end = "" if part.number == 1 else f".{part.number}"
        if part.number > 1:
            self._tell(part, end)
        for path, write in (
            (options.trace, part.write_trace),
            (options.times, part.write_times),
            (options.far, part.write_far),
        ):
            if path:
                with writing(path + end), open(path + end, "w", encoding="ascii") as out:
                    write(out)
        if self.is_trace_shown and part.number == 1:
            part.write_trace(sys.stdout)
            sys.stdout.flush()
        if self.pages:
            self.pages.add(part)
        if self.judge:
            self.judge.part(part)

    def _tell(self, part: Part, end: str) -> None:
        files = [path + end for path in (self.options.trace, self.options.times, self.options.far) if path]
        files += [self.pages.name(part.number)] if self.pages else []
        where = f"is in {' and '.join(files)}" if files else "follows"
        if self.is_trace_shown:
            where = "is not written, since a trace is one part: --trace FILE writes each part to a file"
        self._told(f"part {part.number} of the run, from time {part.begin} to {part.end}, {where}")


def trace(
    options: Options,
    sides: Sequence[str],
    reader: Reader,
    all_links: Sequence[Link],
    signals: Signals,
    renamed: Dict[str, str],
) -> int:
    links = [link_of(options, side, all_links, signals, renamed) for side in sides]
    version, is_one = version_for(options, links), len(links) == 1
    printed = nothing if options.quiet else note
    told, doubts = Notes(printed), Notes(
        printed
    )  # what happens in the course of the run, and what the whole dump leaves in doubt
    if not is_one and links[0].key() == links[1].key():
        told("both links are the same wires")
    tell_links(links, told)
    client, manager = links[0].width, links[-1].width
    judge = (
        Judge(program_of(options.program, note), (client, manager), WavePlaces(), told, options.ignore_unmasked)
        if options.compare
        else None
    )
    pages = Pages(options.html, tlexplain_of(options.tlexplain)) if options.html else None
    outputs = Outputs(options, judge, pages, told)
    run = MonitorRun(
        version, client, None if is_one else manager, outputs.part, told, options.first, options.last, options.level
    )
    try:
        if options.beats:
            run.open_files(options.beats)
        nears = (CHANNELS,) if is_one else (FROM_CLIENT, "BD")
        watches = [
            Watch(link, run, at, version, near, options.unknown_zero)
            for at, (link, near) in enumerate(zip(links, nears))
        ]
        for watch in watches:
            watch.resets = len([link for link in links if link.reset])
            look_for_drivers(watch, reader.variables, is_one)
        sampler, unjudged = Sampler(reader, watches), ""
        try:
            sampler.read()
            run.finish(sampler.end)
        except EndedError as ended:
            unjudged = str(ended)
        tell(reader, sampler, run, doubts)
        if not run.beats:
            doubts("no beat was accepted")
        if unjudged:
            note(unjudged)
        status = 2 if unjudged else 0
        if judge is not None:
            parts = f", judged in {run.parts} parts" if run.parts > 1 else ""
            print(
                f"the dump covers time {sampler.begin or 0} to {sampler.end}, in units of"
                f" {reader.timescale or 'its own'}{parts}"
            )
            status = judge.report(print, run.findings(), run.matchers) or status
            hint = split_hint(judge, SPLIT_REMEDY)
            if hint:
                print(hint)
        else:
            status = tell_faults(run, links, doubts) or status
        if pages is not None:
            if unjudged:
                raise too_long(f"the trace has more than {MOST_BYTES} bytes without an idle point")
            dump = "standard input" if options.dump == "-" else options.dump
            source = f"{dump}: {' and '.join(link.name for link in links)}"
            write_pages(pages, source, reader.timescale, doubts.texts() + told.texts(), options.quiet)
        return status
    finally:
        run.close()
        if pages is not None:
            pages.close()


def tell_faults(run: Run, links: Sequence[Link], told: Callable[[str], None]) -> int:
    """Says which requests and responses do not fit in time, and which messages the level does not have. Returns the
    exit status."""
    findings = run.findings()
    for number, found in findings[:1]:
        at, other = found.at, found.other and f"time {found.other.place}"
        told(
            f"{links[number].name}: time {at.place}: channel {at.channel}: {found.words.format(other)}: {at.line}"
            + (f" (the first of {len(findings)} requests and responses that do not fit)" if len(findings) > 1 else "")
        )
    status = 0
    for link, matcher in zip(links, run.matchers):
        for name, found in matcher.level_findings.items():
            told(level_words(matcher, name, f"{link.name}, time {found.at.place}", found))
            status = 1
    return status


def write_pages(pages: Pages, source: str, unit: str, notes: Sequence[str], is_quiet: bool) -> None:
    """Writes the pages. If one has no place for the notes, they are printed also with --quiet."""
    missing: List[str] = []
    try:
        pages.write(source, unit, notes, missing.append)
    finally:
        for text in [*missing, *(notes if missing and is_quiet else ())]:
            note(text)
