"""What tlbridge-prove prints: its progress, what a result holds under, and the words of a verdict."""
from __future__ import annotations

import sys
import time
from typing import List, Sequence

from ..run import one_line
from .engine import FAILS, PROVED, Verdict
from .harness import Harness, Options

PROGRAM = "tlbridge-prove"
NOTE_SECONDS = 30.0  # between two notes of progress, if standard error is no terminal


def note(text: str) -> None:
    print(f"{PROGRAM}: {one_line(text)}", file=sys.stderr)


def say(text: str = "") -> None:
    progress("")
    print(text, flush=True)


def progress(text: str) -> None:
    """Shows what is going on in the last line of a terminal, until the next line is printed."""
    if sys.stderr.isatty():
        print(f"\r\033[K{text}", end="", file=sys.stderr, flush=True)


class Progress:
    """Shows what is going on: in the last line of a terminal, or else as a note every half minute."""

    def __init__(self) -> None:
        self.began = self.noted = time.monotonic()

    def show(self, text: str) -> None:
        """Shows a text, with the seconds since the run began."""
        now = time.monotonic()
        line = f"{text}, {now - self.began:.0f} s so far"
        if sys.stderr.isatty():
            progress(line)
        elif now - self.noted >= NOTE_SECONDS:
            self.noted = now
            note(line)


def stated(options: Options, harness: Harness) -> List[str]:
    """Returns what is assumed and what is free, in a few lines: a result holds only together with them."""
    free = ", ".join(
        f"{harness.free[name]} of {harness.bits[name]} bits of {name}" for name in ("address", "source", "sink")
    )
    lines = [
        f"assumed: both neighbours keep the rules of TL-{options.level.upper()}, messages up to {options.largest} "
        f"bytes, {free} free and the others 0",
        "         the manager may respond in the cycle in which it accepts the request"
        if options.same_cycle_response
        else "         the manager never responds in the cycle in which it accepts the request",
        "         one reset at the beginning, of any register values, "
        + ("and later ones of both sides at any time" if options.later_resets else "and none later"),
    ]
    if options.two_clocks:
        lines.append(
            "         two clocks of any frequency and phase; the bits of a register that crosses arrive together. "
            "Cycles are steps of time"
        )
    if options.forwards_offered:
        lines.append("         a neighbour holds an offered beat until it is accepted")
    if options.assume_offered:
        lines.append("         the rules hold also in beats that are offered and not accepted")
    if not options.all_sources:
        lines.append("         of sources other than the watched one nothing is assumed about outstanding requests")
    lines += [f"         {words}" for words in options.assumptions]
    lines.append(
        "lanes without a byte: " + ("0 on the far link" if options.idle_lanes_zero else "any value on the far link")
    )
    both = options.user_bits.both
    if both:
        counts = ", ".join(f"{options.user_bits.bits(letter)} on {letter}" for letter in sorted(both))
        lines.append(f"user and echo bits: {counts}; a sender keeps them in each beat of a message")
    if options.user_bits.others:
        lines.append(
            "not compared, since only one link has these user and echo bits, or one of them is tied, and inputs are 0 "
            "without --tie: "
            f"{' '.join(options.user_bits.others)}"
        )
    if harness.unread:
        lines.append(f"0, since the design has no such port: {' '.join(harness.unread)}")
    return lines


def unit_of(options: Options) -> str:
    """Returns the name of a unit of time: a step has an edge of either clock, of both or of none."""
    return "steps" if options.two_clocks else "cycles"


def cycles_of(options: Options, frames: int) -> int:
    """Returns the number of cycles or steps after the reset in this number of frames of the model."""
    return max(0, frames - options.reset_cycles)


def words_of(found: Verdict, options: Options) -> str:
    """Returns the words of a verdict, and never more than it says."""
    if found.kind == PROVED:
        return "proved"
    if found.kind == FAILS:
        if options.two_clocks:
            return f"fails in step {found.frames}"
        return f"fails in cycle {cycles_of(options, found.frames)}"
    return f"no counterexample in {cycles_of(options, found.frames)} {unit_of(options)}"


def summary(found: Sequence[Verdict], options: Options) -> str:
    """Returns the number of verdicts of each kind."""
    kinds = [verdict.kind for verdict in found]
    proved, fails = kinds.count(PROVED), kinds.count(FAILS)
    bounds = [cycles_of(options, verdict.frames) for verdict in found if verdict.kind not in (PROVED, FAILS)]
    parts = [f"{proved} proved"] if proved else []
    if bounds:
        parts.append(f"{len(bounds)} without a counterexample in {min(bounds)} {unit_of(options)} or more")
    parts += [f"{fails} fail" + ("s" if fails == 1 else "")] if fails else []
    return f"{len(kinds)} assertion{'s' if len(kinds) > 1 else ''}: {', '.join(parts)}"
