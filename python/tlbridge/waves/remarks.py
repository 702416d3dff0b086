"""Remarks on a link, and on the whole dump: a reader should know them before trusting the beats."""
from __future__ import annotations

from typing import Callable, List, Optional, Sequence

from ..protocol import CHANNELS
from ..run import Run
from .links import Link
from .sampling import Count, Sampler, Watch
from .vcd import Reader


def few(names: Sequence[str], most: int) -> str:
    return ", ".join(names[:most]) + (", .." if len(names) > most else "")


def channels_of(link: Link) -> str:
    return "".join(letter for letter in CHANNELS if letter in link.channels)


def reset_of(link: Link) -> str:
    return "!" * link.is_reset_low + link.reset.name if link.reset else "none"


def print_remarks(link: Link) -> None:
    for text in dict.fromkeys(link.problems + [text for text in link.notes if link.clock or " reset " not in text]):
        print(f"{link.name}: {text}")
    if link.ignored:
        print(f"{link.name}: ignored, since a trace has no such fields: {few(sorted(link.ignored), 6)}")


def why_not(link: Link) -> str:
    """Returns why a link is not judged."""
    return f"the same wires as {link.same.name}" if link.same else few(link.problems or ["it has no clock"], 2)


def notes_of(reader: Reader, sampler: Sampler) -> List[str]:
    """Returns what a reader has to know about the whole dump."""
    said: List[str] = []
    tell(reader, sampler, None, said.append, with_links=False)
    return said


def tell(
    reader: Reader, sampler: Sampler, run: Optional[Run], told: Callable[[str], None], with_links: bool = True
) -> None:
    for text in reader.notes:
        told(text)
    if sampler.begin:
        told(f"the dump begins at time {sampler.begin}: beats before it are missing")
    if run is None:
        for off, on in sampler.gaps:
            told(f"nothing was dumped from time {off} to {on}: beats of that time are missing")
    for watch in sampler.watches if with_links else ():
        for text in remarks_of(watch, run is None):
            told(text)


def remarks_of(watch: Watch, is_list: bool) -> List[str]:
    link, out = watch.link, []  # type: Link, List[str]
    if not watch.edges and link.clock:
        out.append(f"{link.name}: its clock {link.clock.name} never rises")
    elif watch.in_reset == watch.edges and link.reset:
        out.append(
            f"{link.name}: it is in reset all the time, by {link.reset.name}; --reset names another one, !NAME one that"
            " is active low"
        )
    for port in watch.ports:
        for name, level in port.unknown.items():
            if level.first:
                out.append(
                    f"{port.signals[name].name} is unknown at {level.count} clock edges, first at time"
                    f" {level.first[0]}: no beat is taken there"
                )
    risen = [count.first for count in watch.at_rise if count.first]
    if risen and len(risen) == len(watch.at_rise):
        out.append(
            f"{risen[0][1]}, an input that a C++ bench drives, changes as the clock rises,"
            f" {watch.at_rise[0].count} times, first at time {risen[0][0]}. If the bench changes it before it evaluates"
            " the rise, the dump does not show what the edge saw, and the beats are wrong. Change inputs at the"
            " falling edge, or dump before the rise"
        )
    if is_list and watch.resets_after.first:
        out.append(f"{link.name}: reset asserted again at time {watch.resets_after.first[0]}, after beats")
    out += counted(link, watch.zeroed, "fields had unknown bits, which are written as 0")
    out += counted(link, watch.unknown_far, "fields of far beats had unknown bits, written as x")
    if watch.sinks:
        out.append(
            f"{link.name}: D sink was unknown in {watch.sinks} responses that are not Grants, and is written as 0 there"
        )
    return out


def counted(link: Link, count: Count, what: str) -> List[str]:
    return (
        [f"{link.name}: {count.count} {what}, first {count.first[1]} at time {count.first[0]}"] if count.first else []
    )


def tell_links(links: Sequence[Link], told: Callable[[str], None]) -> None:
    for link in links:
        reset = f"reset {reset_of(link)}" if link.reset else "no reset"
        told(
            f"{link.name}: {channels_of(link)}, {link.width} bytes, clock {link.clock.name if link.clock else 'none'},"
            f" {reset}"
        )
        for text in link.notes:
            told(f"{link.name}: {text}")
        if link.ignored:
            told(f"{link.name}: ignored: {few(sorted(link.ignored), 6)}")
