"""Plays random lawful TileLink traffic through a design, judges it, and shrinks a run that fails.

    tlbridge-verify adapter.sv --top adapter              a bridge between two links, by the names of its ports
    tlbridge-verify ram.sv --top ram                      a device: reads return what was written
    tlbridge-verify fragmenter.sv --top f --rules-only    no plain bridge: each link by its rules, with a memory
    tlbridge-verify adapter.sv --top adapter --seeds 1-1000 --jobs 4 --junit report.xml
    tlbridge-verify merge FOLDER ..                       joins the verdicts and the coverage of several runs
"""
from __future__ import annotations

import argparse
import re
from pathlib import Path
from typing import Dict, List, Optional, Sequence, Tuple

from .design import Choice, DesignError, Source, modules_of, read_file_list
from .outcome import PROGRAM
from .traffic import KINDS

STATUSES = """
exit status:
  0  no mistake was found, and each kind of message that should pass has arrived; conditions do not change this
  1  a mistake; or some kind of message never arrived, so that the design is not called right
  2  a wrong command line, or two readings of the ports are possible: the message names the option that decides
  3  the design does not compile, or has a combinational loop
  4  a simulator is missing, dies or does not end; a file cannot be written
"""
DEFAULT_MESSAGES = 80000
SECONDS = 70  # of a run


def arguments() -> argparse.ArgumentParser:
    """Returns the command line."""
    words = argparse.ArgumentParser(
        prog=PROGRAM, description=__doc__, epilog=STATUSES, formatter_class=argparse.RawDescriptionHelpFormatter
    )
    design = words.add_argument_group("the design")
    design.add_argument("files", nargs="*", metavar="FILE", help="Verilog or SystemVerilog files")
    design.add_argument(
        "--top", metavar="MODULE", help="the module to verify [the one that no other module has inside]"
    )
    design.add_argument(
        "-f", action="append", default=[], dest="lists", metavar="LIST", help="a file list, as Verilator has them"
    )
    design.add_argument(
        "-P", action="append", default=[], dest="parameters", metavar="NAME=VALUE", help="a parameter of the module"
    )
    design.add_argument("-D", action="append", default=[], dest="defines", metavar="NAME[=VALUE]", help="a macro")
    design.add_argument(
        "-I", action="append", default=[], dest="includes", metavar="FOLDER", help="a folder of include files"
    )
    design.add_argument(
        "-y",
        action="append",
        default=[],
        dest="libraries",
        metavar="FOLDER",
        help="a folder with a file for each module",
    )
    ports = words.add_argument_group("its ports")
    ports.add_argument("--client", metavar="PREFIX", help="the link on which the design receives A")
    ports.add_argument("--manager", metavar="PREFIX", help="the link on which the design sends A")
    ports.add_argument("--device", action="store_true", help="use the link to the client only")
    ports.add_argument("--host", action="store_true", help="use the link to the manager only")
    for side in ("client", "manager"):
        ports.add_argument(f"--{side}-clock", metavar="NAME")
        ports.add_argument(f"--{side}-reset", metavar="NAME", help="with ! before it if it is active low")
    ports.add_argument("--one-clock", action="store_true", help="both clock inputs get the same clock")
    ports.add_argument(
        "--tie", action="append", default=[], metavar="NAME=VALUE", help="the value of another input [0]"
    )
    ports.add_argument(
        "--struct",
        action="append",
        default=[],
        metavar="FIELDS",
        help="the layout of a vector port, highest field first: a_valid:1,a_opcode:3,..",
    )
    traffic = words.add_argument_group("the traffic")
    traffic.add_argument("--seed", type=int, metavar="N", help="[1]")
    traffic.add_argument("--seeds", metavar="FIRST-LAST", help="a run for each seed, each in a folder of its own")
    traffic.add_argument("--jobs", type=int, metavar="N", help="runs side by side, with --seeds [1]")
    traffic.add_argument(
        "--messages",
        type=int,
        metavar="N",
        help=f"that the tool sends of its own accord [{DEFAULT_MESSAGES}, or as many as --seconds allow]",
    )
    traffic.add_argument("--level", choices=tuple(KINDS), help="TL-UL, TL-UH or TL-C [by the ports]")
    traffic.add_argument(
        "--largest",
        type=int,
        metavar="BYTES",
        help="the largest message [UL: the narrower bus; else what the size field can say, at most 4096]",
    )
    traffic.add_argument("--only", metavar="KIND,..", help=f"kinds of messages, of {', '.join(KINDS['C'])}")
    traffic.add_argument("--window", metavar="BASE:BYTES", help="the addresses to use, as 0x1000:256")
    traffic.add_argument("--in-order", action="store_true", help="the manager answers in order")
    traffic.add_argument("--no-early", action="store_true", help="no response before the last beat of its request")
    traffic.add_argument("--no-reuse", action="store_true", help="no source again before the last beat of its response")
    traffic.add_argument("--no-denied", action="store_true", help="no denied response")
    traffic.add_argument(
        "--no-blocking",
        action="store_true",
        help="no side refuses beats because it has work on a channel of higher priority",
    )
    traffic.add_argument("--no-reset", action="store_true", help="no reset while messages are under way")
    traffic.add_argument(
        "--same-cycle",
        action="store_true",
        help="also answers in the cycle of their request [only tried at the end, which changes no verdict]",
    )
    traffic.add_argument("--no-same-cycle", action="store_true", help="answers in the cycle of a request are not tried")
    traffic.add_argument(
        "--after-reset",
        action="store_true",
        help="also requests in the first cycles after a reset [only tried at the end, which changes no verdict]",
    )
    traffic.add_argument("--withdraw", action="store_true", help="also a valid that falls before ready")
    traffic.add_argument(
        "--skew",
        action="store_true",
        help="bits that cross to another clock may each arrive late: refuse a design on which that cannot be played",
    )
    traffic.add_argument("--no-skew", action="store_true", help="bits that cross to another clock arrive together")
    traffic.add_argument(
        "--plusarg", action="append", default=[], metavar="WORD", help="passed to the simulation as +WORD"
    )
    judging = words.add_argument_group("judging")
    judging.add_argument(
        "--rules-only",
        action="store_true",
        help="the design is no plain bridge: each link by its rules, with a memory behind it",
    )
    judging.add_argument("--no-memory", action="store_true", help="reads need not return what was written")
    judging.add_argument(
        "--may-withdraw", action="store_true", help="the design may take back a valid, or change a beat, before ready"
    )
    judging.add_argument(
        "--denied-is-corrupt", action="store_true", help="denied data that are not corrupt are a mistake of a device"
    )
    judging.add_argument(
        "--denied-alike", action="store_true", help="the design has to deny all equal requests, or none of them"
    )
    judging.add_argument(
        "--done-not-denied",
        action="store_true",
        help="with --rules-only: a request that was done behind the design must not be denied",
    )
    judging.add_argument(
        "--reads-accepted",
        action="store_true",
        help="a read of a device has to see each write that was accepted before it [only those that were acknowledged]",
    )
    judging.add_argument(
        "--reads-no-later",
        action="store_true",
        help="a read of a device must not see a write that was accepted after it",
    )
    judging.add_argument(
        "--reads-alike", action="store_true", help="a byte that nobody writes has to read the same each time"
    )
    judging.add_argument(
        "--corrupt-stays",
        action="store_true",
        help="data that a host or a device got as corrupt must not become good data",
    )
    judging.add_argument(
        "--copies-all",
        action="store_true",
        help="a host that copies memory must not write anything else in between, or elsewhere",
    )
    running = words.add_argument_group("running")
    running.add_argument("--simulator", choices=("auto", "icarus", "verilator"), default="auto")
    running.add_argument(
        "--seconds",
        type=float,
        metavar="S",
        help=f"how long the design is played [{SECONDS}; no limit with --messages or --seeds]",
    )
    running.add_argument(
        "--shrink-seconds", type=float, default=25, metavar="S", help="how long a failing run is shrunk [25]"
    )
    running.add_argument("--no-waves", action="store_true", help="no waves.vcd of a failing run")
    running.add_argument(
        "--out", type=Path, default=Path("tlbridge-verify.out"), metavar="FOLDER", help="[tlbridge-verify.out]"
    )
    running.add_argument("--junit", type=Path, metavar="FILE", help="write the verdicts as JUnit XML")
    return words


def _pairs(words: Sequence[str], option: str) -> Dict[str, str]:
    for word in words:
        if not re.fullmatch(r"\w[\w$]*=.+", word):
            raise DesignError(f"{option} {word}: it has to be NAME=VALUE")
    return dict(word.split("=", 1) for word in words)


def source_of(options: argparse.Namespace) -> Source:
    """Returns the files, parameters and macros of the design. Errors: a file list cannot be read, or no module is
    named."""
    lists = [read_file_list(Path(name)) for name in options.lists]
    files = tuple(options.files) + tuple(name for made in lists for name in made.files)
    if not files:
        raise DesignError("name the files of the design, or a file list with -f")
    top = options.top or _top_of(files)
    parameters = {name: value for made in lists for name, value in made.parameters.items()}
    parameters.update(_pairs(options.parameters, "-P"))
    defines = tuple(name for made in lists for name in made.defines) + tuple(options.defines)
    includes = tuple(options.includes) + tuple(name for made in lists for name in made.includes)
    libraries = tuple(options.libraries) + tuple(name for made in lists for name in made.libraries)
    for folder in (*includes, *libraries):
        if not Path(folder).is_dir():
            raise DesignError(f"there is no folder {folder}")
    return Source(top, files, parameters, defines, includes, libraries)


def _top_of(files: Sequence[str]) -> str:
    """Returns the module of the file's name, or the only one that no other module has inside."""
    made, outer = modules_of(files)
    stem = Path(files[0]).stem
    if len(files) == 1 and (stem in made or not made):
        return stem
    if len(outer) != 1:
        raise DesignError(f"--top MODULE is needed. Modules found: {', '.join(dict.fromkeys(outer or made)) or 'none'}")
    return outer[0]


def choice_of(options: argparse.Namespace) -> Choice:
    """Returns what the user says of links, clocks and resets."""
    sides = ("client", "manager")
    return Choice(
        client=options.client,
        manager=options.manager,
        clocks={side: name for side in sides if (name := getattr(options, f"{side}_clock"))},
        resets={side: name for side in sides if (name := getattr(options, f"{side}_reset"))},
        ties=_pairs(options.tie, "--tie"),
        structs=tuple(options.struct),
        only="client" if options.device else "manager" if options.host else None,
    )


def window_of(text: Optional[str]) -> Optional[Tuple[int, int]]:
    """Returns the first address and the number of bytes of --window. Errors: it is no such pair."""
    if text is None:
        return None
    found = re.fullmatch(r"(0x[0-9a-fA-F]+|\d+):(0x[0-9a-fA-F]+|\d+)", text)
    if not found or int(found[2], 0) < 1:
        raise DesignError(f"--window {text}: it has to be BASE:BYTES, as 0x1000:256")
    return int(found[1], 0), int(found[2], 0)


def seeds_of(options: argparse.Namespace) -> List[int]:
    """Returns the seeds to play. Errors: --seeds is no range."""
    if options.seeds is None:
        return [options.seed if options.seed is not None else 1]
    if options.seed is not None:
        raise DesignError("--seed and --seeds exclude each other")
    found = re.fullmatch(r"(\d+)-(\d+)", options.seeds)
    if not found or int(found[1]) > int(found[2]):
        raise DesignError(f"--seeds {options.seeds}: it has to be FIRST-LAST, as 1-1000")
    return list(range(int(found[1]), int(found[2]) + 1))
