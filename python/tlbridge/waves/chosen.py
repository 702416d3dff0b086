"""The dump and the links that a command line names, and a watch for each link."""
from __future__ import annotations

from typing import Callable, Dict, Sequence, TypeVar

from ..run import FailureError
from .links import Layout, Link, Signals, adopt_clock, by_pattern, choose, find_clocks, is_wanted, names_of_pattern
from .options import Options
from .sampling import Watch
from .vcd import Reader, open_wave


def opened(options: Options, renamed: Dict[str, str], layouts: Sequence[Layout]) -> Reader:
    links = [options.default, *options.links.values()]
    extra = [name.lstrip("!") for link in links for name in (link.clock, link.reset) if name]
    for link in links:
        if link.pattern:
            extra += names_of_pattern(link.pattern, renamed)
    stream, feeder, size = open_wave(options.dump)
    return Reader(stream, is_wanted(extra, layouts), options.dump, feeder, size, options.quiet)


def link_of(options: Options, side: str, links: Sequence[Link], signals: Signals, renamed: Dict[str, str]) -> Link:
    named, default = options.links[side], options.default
    if named.pattern and named.name:
        raise FailureError(f"give --{side} or --{side}-pattern, and not both", 2)
    link = by_pattern(named.pattern, signals, renamed) if named.pattern else choose(links, named.name or "")
    link.finish(named.width or default.width)
    find_clocks(link, signals, named.clock or default.clock, named.reset or default.reset)
    if link.clock is None:
        for other in links:
            if other is not link and not other.is_half:
                find_clocks(other, signals)
        adopt_clock(link, links)
    if link.problems:
        raise FailureError(f"{link.name}: {link.problems[0]}", 2)
    return link


def version_for(options: Options, links: Sequence[Link]) -> int:
    needs = (
        2
        if max(link.bits(name) for link in links for name in ("source", "sink")) > 8
        or max(link.width for link in links) > 64
        else 1
    )
    if options.trace_version and options.trace_version < needs:
        raise FailureError("these links need a trace of version 2", 2)
    return options.trace_version or needs


AnyWatch = TypeVar("AnyWatch", bound=Watch)


def watches_of(
    options: Options, links: Sequence[Link], signals: Signals, made: Callable[[Link], AnyWatch]
) -> Dict[Link, AnyWatch]:
    """A watch for each link that can be sampled; the same wires are sampled once."""
    watches: Dict[Link, AnyWatch] = {}
    seen: Dict[object, Link] = {}
    for link in links:
        link.finish(options.default.width)
        try:
            find_clocks(link, signals, options.default.clock, options.default.reset)
        except FailureError as error:
            link.problems.append(str(error))
    for link in links:
        adopt_clock(link, links)
        key = (link.key(), link.clock.key() if link.clock else None, link.reset.key() if link.reset else None)
        link.same = seen.get(key)
        seen.setdefault(key, link)
        if link.clock and not link.same and not any(" has no " in problem for problem in link.problems):
            watches[link] = made(link)
    return watches
