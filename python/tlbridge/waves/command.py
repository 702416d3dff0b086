"""The command tlbridge-trace: `options` has its command line."""
from __future__ import annotations

from typing import Optional, Sequence

from ..judge import program_of
from ..run import status_of
from .chosen import opened
from .links import find_links, layout_of
from .options import Options, command_line, note, nothing, options_of, renamed_of, sides_of
from .page import tlexplain_of
from .tables import judge_all, list_links
from .trace import trace


def lists_or_writes(options: Options) -> int:
    """Lists the links of a dump, or writes or judges its beats. Returns the exit status."""
    reader = None
    try:
        sides, renamed = sides_of(options), renamed_of(options)
        layouts = [layout_of(text) for text in options.structs]
        if options.compare or options.all:
            program_of(options.program, nothing)  # before a long dump is read
        if options.html:
            tlexplain_of(options.tlexplain)
        reader = opened(options, renamed, layouts)
        links, signals = find_links(reader.variables, layouts)
        if options.all:
            return judge_all(options, reader, links, signals)
        if sides:
            return trace(options, sides, reader, links, signals, renamed)
        return list_links(options, reader, links, signals)
    finally:
        if reader is not None:
            reader.close()


def main(arguments: Optional[Sequence[str]] = None) -> int:
    return status_of(lambda: lists_or_writes(options_of(command_line().parse_args(arguments))), note)
