"""Proves that a block between two TileLink links delivers the layout of the beats that it is sent, or shows beats for
which it does not.

    tlbridge-prove FILE.sv .. --top MODULE                 looks for a counterexample in 20 cycles
    tlbridge-prove FILE.sv .. --top MODULE --unbounded     then proves each assertion for any number of cycles

It reads the ports of MODULE, puts free neighbours that keep the rules of TileLink on both links, and a watch between
them that follows any one byte of any one message. For each assertion of the watch it prints `proved`, `no
counterexample in N cycles` or `fails`. docs/PROVE.md explains the assertions.
"""
from __future__ import annotations

import argparse
import os
import re
from pathlib import Path
from typing import Callable, Tuple

from ..verify.design import Choice, Design, Source, read_file_list
from .errors import ProveError
from .harness import DEFAULT_FREE, LEVELS, TIME_COVER, Options, default_address_bits, default_largest
from .report import PROGRAM
from .user_bits import NONE, find_user_bits

# Verilator and yosys read a value of a parameter without the names of the design.
CONSTANT = re.compile(r"-?\d[\d_]*(?:\.\d+)?|-?\d*'[sS]?[bodhBODH][0-9a-fA-FxXzZ_?]+|'[01]|\"[^\"\\]*\"")
MORE = ", or more on a bus of more than 16 bytes"  # of the free bits of an address
STATUSES = """
exit status:
  0  no assertion fails: each one is proved, or has no counterexample in the printed number of cycles
  1  an assertion fails, and the counterexample was written
  2  a wrong command line, or nothing to prove: no beat can arrive under the assumptions
  3  the design cannot be read
  4  a tool is missing or died; nothing is claimed
"""


def _number(low: int, high: int, what: str) -> Callable[[str], int]:
    def read(text: str) -> int:
        if not (text.isascii() and text.isdigit()) or len(text) > 9 or not low <= int(text) <= high:
            raise argparse.ArgumentTypeError(f"{what} is a number from {low} to {high}, and not '{text}'")
        return int(text)

    return read


def _bytes(text: str) -> int:
    if text not in [str(1 << power) for power in range(13)]:
        raise argparse.ArgumentTypeError(f"a message has 1, 2, 4, .. or 4096 bytes, and not '{text}'")
    return int(text)


def _pair(text: str) -> Tuple[str, str]:
    name, equals, value = text.partition("=")
    if not equals or not value or not re.fullmatch(r"\w+", name):
        raise argparse.ArgumentTypeError(f"'{text}' is not NAME=VALUE")
    return name, value


def _parameter(text: str) -> Tuple[str, str]:
    name, value = _pair(text)
    if not CONSTANT.fullmatch(value):
        raise argparse.ArgumentTypeError(f"'{value}' is not a constant of SystemVerilog, as 3, 4'hf or \"text\"")
    return name, value


def command_line() -> argparse.ArgumentParser:
    words = argparse.ArgumentParser(
        prog=PROGRAM,
        usage=f"{PROGRAM} [OPTION ..] FILE .. --top MODULE",
        description=__doc__,
        epilog=STATUSES,
        formatter_class=argparse.RawDescriptionHelpFormatter,
    )
    words.add_argument("files", metavar="FILE", nargs="*", help="the design, in SystemVerilog that yosys reads")
    words.add_argument("--top", metavar="MODULE", required=True)
    design = words.add_argument_group("the design")
    design.add_argument("-f", "--file-list", metavar="LIST", help="files and options, as Verilator's -f")
    design.add_argument("-P", "--param", metavar="NAME=VALUE", type=_parameter, action="append", default=[])
    design.add_argument("-D", "--define", metavar="NAME[=VALUE]", action="append", default=[])
    design.add_argument("-I", "--include", metavar="FOLDER", action="append", default=[])
    for side in ("client", "manager"):
        design.add_argument(f"--{side}", metavar="PREFIX", help=f"the prefix of the ports of the link to the {side}")
        design.add_argument(f"--{side}-clock", metavar="PORT")
        design.add_argument(f"--{side}-reset", metavar="PORT", help="active high; !PORT is active low")
    design.add_argument(
        "--tie",
        metavar="PORT=VALUE",
        type=_pair,
        action="append",
        default=[],
        help="the value of another input [default: 0]",
    )
    design.add_argument(
        "--clocks", type=int, choices=(1, 2), help="one clock for both links, or two free ones [default: by the ports]"
    )
    design.add_argument(
        "--reset-cycles",
        metavar="N",
        type=_number(1, 100, "a number of cycles"),
        default=1,
        help="length of the reset [default: 1]",
    )
    proof = words.add_argument_group("the question")
    proof.add_argument(
        "--cycles",
        metavar="N",
        type=_number(1, 10000, "a number of cycles"),
        default=20,
        help="after the reset [default: 20]",
    )
    proof.add_argument(
        "--unbounded", action="store_true", help="after that, prove each assertion for any number of cycles"
    )
    proof.add_argument(
        "--lemmas",
        action="store_true",
        help="with --unbounded: also prove the assertions in the design, to prove the others by those that hold",
    )
    proof.add_argument(
        "--seconds",
        metavar="S",
        type=_number(1, 1000000, "a number of seconds"),
        default=100,
        help="of processor time, for each search for one assertion [default: 100]",
    )
    proof.add_argument(
        "--only", metavar="REGEX", default="", help="only assertions whose names match, as a.Data or Head"
    )
    assumed = words.add_argument_group("statements about the neighbours, printed with the results")
    assumed.add_argument("--level", choices=LEVELS, help="the messages that they send [default: by the ports]")
    assumed.add_argument(
        "--largest",
        metavar="BYTES",
        type=_bytes,
        help="of a message [default: two beats of the wider link, or one of the narrower for TL-UL]",
    )
    assumed.add_argument(
        "--no-same-cycle-response",
        action="store_true",
        help="the manager never responds in the cycle in which it accepts the request",
    )
    assumed.add_argument(
        "--zero-lanes",
        action="store_true",
        help="also assert that lanes without a byte are 0, which TileLink does not require",
    )
    assumed.add_argument(
        "--forwards-offered",
        action="store_true",
        help="the design sends parts of a beat before it accepts the beat, and its neighbours hold an offered beat",
    )
    assumed.add_argument(
        "--offered-rules",
        action="store_true",
        help="the neighbours keep the rules also in beats that are offered and not accepted",
    )
    assumed.add_argument(
        "--later-resets", action="store_true", help="both sides may be reset again together, at any time"
    )
    assumed.add_argument(
        "--no-user-bits",
        action="store_true",
        help="do not compare the user and echo bits of A, C and D; those that the design reads are 0",
    )
    assumed.add_argument(
        "--watched-source-only",
        action="store_true",
        help=(
            "assume the rules about outstanding requests of the watched source only: a stronger statement, a "
            "smaller model"
        ),
    )
    assumed.add_argument(
        "--within",
        metavar="N",
        type=_number(1, 200, "a number of cycles"),
        default=0,
        help="also assert that no beat waits in N cycles in which the receiver is ready",
    )
    assumed.add_argument(
        "--assume",
        metavar="EXPRESSION",
        action="append",
        default=[],
        help="a further assumption, as 'client_a_opcode == 4'",
    )
    for name, count in DEFAULT_FREE.items():
        assumed.add_argument(
            f"--{name}-bits",
            metavar="N",
            type=_number(1, 64, "a number of bits"),
            default=None if name == "address" else count,
            help=f"free bits of the {name}, the others are 0 [default: {count}{MORE if name == 'address' else ''}]",
        )
    assumed.add_argument(
        "--count-bits",
        metavar="N",
        type=_number(2, 12, "a number of bits"),
        default=3,
        help="the design holds fewer than 2^N messages of a channel [default: 3]",
    )
    run = words.add_argument_group("the run")
    run.add_argument(
        "--jobs",
        metavar="N",
        type=_number(1, 256, "a number of jobs"),
        default=os.cpu_count() or 1,
        help="assertions at once [default: all processors]",
    )
    run.add_argument("--out", metavar="FOLDER", help="the counterexample [default: tlbridge-prove.MODULE]")
    run.add_argument("--sby", metavar="FOLDER", help="write the harness as a project of SymbiYosys, and end")
    run.add_argument("--tcl", metavar="FOLDER", help="write the harness and Tcl for JasperGold, and end")
    run.add_argument("--no-cache", action="store_true", help="do not keep the model for the next run")
    run.add_argument(
        "--keep-going", action="store_true", help="go on with the other assertions if one fails in the first cycles"
    )
    return words


def source_of(words: argparse.Namespace) -> Source:
    source = Source(words.top, tuple(words.files), dict(words.param), tuple(words.define), tuple(words.include))
    if words.file_list:
        listed = read_file_list(Path(words.file_list))
        source = Source(
            words.top,
            (*listed.files, *source.files),
            {**listed.parameters, **source.parameters},
            (*listed.defines, *source.defines),
            (*listed.includes, *source.includes),
        )
        if listed.libraries:
            raise ProveError("the file list has -y, which yosys has not: name the files")
    if not source.files:
        raise ProveError("no file of the design was named: tlbridge-prove adapter.sv --top adapter")
    for folder in source.includes:
        if not Path(folder).is_dir():
            raise ProveError(f"-I {folder}: there is no such folder")
    return source.absolute()


def choice_of(words: argparse.Namespace) -> Choice:
    sides = ("client", "manager")
    return Choice(
        words.client,
        words.manager,
        {side: getattr(words, f"{side}_clock") for side in sides if getattr(words, f"{side}_clock")},
        {side: getattr(words, f"{side}_reset") for side in sides if getattr(words, f"{side}_reset")},
        dict(words.tie),
    )


def options_of(words: argparse.Namespace, design: Design) -> Options:
    if words.lemmas and not words.unbounded:
        raise ProveError("--lemmas helps to prove assertions for any number of cycles: add --unbounded")
    level = words.level or design.level.lower()
    largest = words.largest or default_largest(design, level)
    sizes = design.client.bits("size") if design.client is not None else 4
    if largest.bit_length() - 1 >= 1 << sizes:
        raise ProveError(
            f"--largest {largest}: size has {sizes} bits, enough for messages of {1 << ((1 << sizes) - 1)} bytes"
        )
    two = design.has_two_clocks if words.clocks is None else words.clocks == 2
    if two and not design.has_two_clocks:
        clock = design.client.clock if design.client is not None else ""
        raise ProveError(
            f"--clocks 2: both links have the clock {clock}. Add --client-clock and --manager-clock if that is wrong"
        )
    return Options(
        level,
        largest,
        not words.no_same_cycle_response,
        words.zero_lanes,
        words.forwards_offered,
        words.offered_rules,
        not words.watched_source_only,
        words.within,
        words.count_bits,
        words.reset_cycles,
        (
            ("address", words.address_bits or default_address_bits(design)),
            ("source", words.source_bits),
            ("sink", words.sink_bits),
        ),
        tuple(words.assume),
        two,
        later_resets=words.later_resets,
        user_bits=NONE if words.no_user_bits else find_user_bits(design, tied=dict(words.tie)),
        extra_lines=TIME_COVER,
    )
