"""Runs tlbridge-prove: the model is made once, then the assumptions are checked, and each assertion is asked about."""
from __future__ import annotations

import os
import signal
import time
from typing import Any, Optional, Sequence

from ..run import FailureError, status_of
from .covers import reach
from .errors import ProveError
from .failure import show
from .options import command_line
from .report import note, say, summary
from .search import Search
from .session import Session


def prove(session: Session) -> int:
    """Prints a verdict of each assertion, and returns the exit status."""
    session.build_whole()
    indices = session.chosen()
    reach(session)
    search = Search(session)
    search.run(indices)
    used = os.times()
    taken = used.user + used.system + used.children_user + used.children_system
    say(summary([search.verdicts[index] for index in indices], session.options))
    say(f"it took {taken:.0f} s of processor time, {time.monotonic() - session.shown.began:.0f} s by the clock")
    index = search.first_failure()
    if index is None:
        return 0
    show(session, index, search.verdicts[index].frames)
    return 1


def run(session: Session) -> int:
    """Runs the command after its words are read, and returns the exit status."""
    session.describe()
    if session.words.sby or session.words.tcl:
        session.write_projects()
        return 0
    return prove(session)


def end(number: int, _: Any) -> None:
    """Ends the run after a signal, with its temporary files and the tools that it started."""
    raise SystemExit(128 + number)


def main(arguments: Optional[Sequence[str]] = None) -> int:
    words = command_line().parse_args(arguments)
    before = signal.signal(signal.SIGTERM, end)

    def command() -> int:
        try:
            session = Session(words)
            try:
                return run(session)
            finally:
                session.close()
        except ProveError as error:
            raise FailureError(str(error), error.status) from error

    try:
        return status_of(command, note)
    finally:
        signal.signal(signal.SIGTERM, before)
