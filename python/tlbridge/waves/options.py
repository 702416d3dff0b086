"""From a waveform to a trace, or to a judgement.

    tlbridge-trace DUMP
        lists the TileLink links of a VCD, a .vcd.gz or an FST file
    tlbridge-trace --all DUMP
        judges each of these links by itself, in one pass, with a table
    tlbridge-trace DUMP --link LINK > TRACE
        writes the beats of one link as a trace, for tlexplain
    tlbridge-trace DUMP --link LINK --html PAGE
        writes the page of that trace, with times and notes, for a browser
    tlbridge-trace DUMP --client LINK --manager LINK > TRACE
        writes the near beats of both links as a trace
    tlbridge-trace DUMP --client LINK --manager LINK --compare
        reports whether the design's far beats are as expected

LINK is a name from the list, or its end after a dot. DUMP may be `-` for a VCD on standard input.
"""
from __future__ import annotations

import argparse
from dataclasses import dataclass
from typing import Dict, Mapping, Optional, Sequence, Tuple

from ..levels import LEVELS
from ..protocol import FIELDS, WIDTHS
from ..run import FailureError, one_line, print_note

PROGRAM = "tlbridge-trace"
STATUSES = """
exit status:
  0  done. With --compare, each channel is done and its far beats are as expected. With --all, no link has a fault
  1  with --compare, a channel is not done, or a far beat differs, is missing or is unexpected. With --all or --level,
     a link has a fault
  2  there is nothing to compare, or a wrong command line: no such link, no clock, no program
  3  the dump cannot be understood, or holds no TileLink link
  4  a file cannot be read or written, or there is no fst2vcd for an FST file, or no tlexplain for --html
"""


def note(text: str) -> None:
    print_note(f"{PROGRAM}: {one_line(text)}")


def nothing(text: str) -> None:
    """Discards a note, for --quiet."""


def a_width(text: str) -> int:
    if text not in map(str, WIDTHS):
        raise argparse.ArgumentTypeError(f"a width in bytes is one of {', '.join(map(str, WIDTHS))}, and not '{text}'")
    return int(text)


def a_time(text: str) -> int:
    if not (text.isascii() and text.isdigit()) or len(text) > 31:
        raise argparse.ArgumentTypeError(f"a time is a number in units of the dump, and not '{text}'")
    return int(text)


def command_line() -> argparse.ArgumentParser:
    words = argparse.ArgumentParser(
        prog=PROGRAM, description=__doc__, epilog=STATUSES, formatter_class=argparse.RawDescriptionHelpFormatter
    )
    words.add_argument("dump", metavar="DUMP")
    words.add_argument(
        "--all", action="store_true", help="judge all links of the dump, each by itself, and print a table"
    )
    words.add_argument("--json", action="store_true", help="with --all: print one JSON object instead of the table")
    words.add_argument(
        "--level", choices=LEVELS, help="report messages that links of this level do not have: TL-UL, TL-UH or TL-C"
    )
    links = words.add_argument_group("links")
    links.add_argument("--link", metavar="LINK", help="one link: all of its beats are near beats")
    links.add_argument("--client", metavar="LINK", help="the link to the client: its A, C and E are near beats")
    links.add_argument("--manager", metavar="LINK", help="the link to the manager: its B and D are near beats")
    for side in ("link", "client", "manager"):
        links.add_argument(
            f"--{side}-pattern",
            metavar="PATTERN",
            help="names of its signals, as in top.dut.s_{channel}_{field}, or {CHANNEL} and {FIELD}",
        )
    links.add_argument(
        "--field",
        metavar="NAME=WORD",
        action="append",
        default=[],
        help="what a pattern calls a field, as in opcode=op",
    )
    links.add_argument(
        "--struct",
        metavar="FIELDS",
        action="append",
        default=[],
        help="a packed struct of one direction, highest field first: a_valid:1,a_opcode:3,..",
    )
    for side in ("", "client-", "manager-"):
        links.add_argument(f"--{side}clock", metavar="SIGNAL")
        links.add_argument(
            f"--{side}reset", metavar="SIGNAL", help="active high; !SIGNAL is active low. `none`: every beat is taken"
        )
        links.add_argument(f"--{side}width", metavar="BYTES", type=a_width, help="for a link without data and mask")
    outputs = words.add_argument_group("outputs")
    outputs.add_argument(
        "--trace", metavar="FILE", help="write the trace to FILE, and the later parts of the run to FILE.2, FILE.3, .."
    )
    outputs.add_argument(
        "--times", metavar="FILE", help="write the simulation time of each beat of the trace, line by line"
    )
    outputs.add_argument(
        "--html",
        metavar="PAGE",
        help="write the page of tlexplain --html to PAGE, with the time of each line and with the notes",
    )
    outputs.add_argument(
        "--tlexplain",
        metavar="PROGRAM",
        help="the program that makes the page [default: tlexplain, installed with this or in PATH]",
    )
    outputs.add_argument(
        "--far", metavar="FILE", help="write the far beats of the design, as `tlbridge run` writes the expected ones"
    )
    outputs.add_argument(
        "--beats",
        metavar="STEM",
        help="write STEM.client.beats, STEM.manager.beats and their .times, as tl_trace_monitor does",
    )
    outputs.add_argument(
        "--compare", action="store_true", help="ask tlbridge for the expected far beats, and report what differs"
    )
    outputs.add_argument(
        "--ignore-unmasked", action="store_true", help="do not compare bytes of PutPartialData whose mask bit is 0"
    )
    outputs.add_argument(
        "--program", metavar="TLBRIDGE", help="the program to ask [default: tlbridge, installed with this or in PATH]"
    )
    words.add_argument(
        "--unknown-zero", action="store_true", help="write 0 for unknown bits, and report how many fields had some"
    )
    words.add_argument(
        "--from",
        dest="first",
        metavar="TIME",
        type=a_time,
        help="begin at the idle point nearest to TIME",
    )
    words.add_argument(
        "--to",
        dest="last",
        metavar="TIME",
        type=a_time,
        help="end at the idle point nearest to TIME",
    )
    words.add_argument(
        "--trace-version", type=int, choices=(1, 2), help="[default: 1, or 2 if an id or a width needs it]"
    )
    words.add_argument(
        "--no-count", action="store_true", help="list the links without counting beats: reads the header only"
    )
    words.add_argument("--quiet", action="store_true", help="no progress and no notes")
    return words


@dataclass(frozen=True)
class LinkOptions:
    """The words of the command line for one link."""

    name: Optional[str]
    pattern: Optional[str]
    clock: Optional[str]
    reset: Optional[str]
    width: Optional[int]


@dataclass(frozen=True)
class Options:
    """The command line, which `command_line` explains."""

    dump: str
    links: Mapping[str, LinkOptions]  # of link, client and manager
    default: LinkOptions  # for each link that does not have its own clock, reset or width
    fields: Sequence[str]
    structs: Sequence[str]
    all: bool
    json: bool
    level: Optional[str]
    trace: Optional[str]
    times: Optional[str]
    html: Optional[str]
    tlexplain: Optional[str]
    far: Optional[str]
    beats: Optional[str]
    compare: bool
    ignore_unmasked: bool
    program: Optional[str]
    unknown_zero: bool
    first: Optional[int]
    last: Optional[int]
    trace_version: Optional[int]
    no_count: bool
    quiet: bool


def options_of(words: argparse.Namespace) -> Options:
    """Returns the options of a parsed command line."""
    given = vars(words)

    def link(side: str) -> LinkOptions:
        name, start = given.pop(side, None), f"{side}_" if side else ""
        return LinkOptions(name, *(given.pop(start + what, None) for what in ("pattern", "clock", "reset", "width")))

    links = {side: link(side) for side in ("link", "client", "manager")}
    default = link("")
    return Options(links=links, default=default, fields=given.pop("field"), structs=given.pop("struct"), **given)


def sides_of(options: Options) -> Tuple[str, ...]:
    """The links that are named: none, one, or a client's and a manager's."""
    named = {side for side, link in options.links.items() if link.name or link.pattern}
    if options.all:
        if named or options.compare or options.far or options.trace or options.beats or options.times or options.html:
            raise FailureError("--all judges each link by itself: no other link and no other output can be named", 2)
        if options.first is not None or options.last is not None or options.no_count:
            raise FailureError("--all judges the whole dump: --from, --to and --no-count have no meaning with it", 2)
        return ()
    if options.json:
        raise FailureError("--json needs --all", 2)
    if options.level and (options.first is not None or options.last is not None or not named):
        raise FailureError("--level is for a whole dump, with --all, with --link, or with --client and --manager", 2)
    if not named:
        if options.compare or options.far or options.trace or options.beats or options.times or options.html:
            raise FailureError(
                (
                    "name the links, with --client and --manager, or one with --link; without other options the links"
                    " are listed"
                ),
                2,
            )
        return ()
    if named == {"link"}:
        if options.compare or options.far or options.beats:
            raise FailureError("--compare, --far and --beats need two links: name them with --client and --manager", 2)
        return ("link",)
    if named != {"client", "manager"}:
        raise FailureError("name both links with --client and --manager, or one with --link", 2)
    return ("client", "manager")


def renamed_of(options: Options) -> Dict[str, str]:
    renamed = {}
    known = {"valid", "ready", *(name for names in FIELDS.values() for name in names)}
    for word in options.fields:
        name, equals, value = word.partition("=")
        if not equals or name not in known:
            raise FailureError(f"--field '{word}' is not NAME=WORD, where NAME is one of {', '.join(sorted(known))}", 2)
        renamed[name] = value
    return renamed
