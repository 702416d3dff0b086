"""Runs tlbridge-verify: the design is read and compiled once, then one seed is played, or several."""
from __future__ import annotations

import argparse
import os
import sys
import tempfile
from pathlib import Path
from typing import Optional, Sequence

from .design import DesignError
from .options import arguments, seeds_of
from .outcome import Folder, PROGRAM
from .play import Play
from .seeds import junit, merge, run_seeds, status_of, summary
from .session import Session, Voice


def _verify(options: argparse.Namespace, room: Path) -> int:
    seeds = seeds_of(options)
    folder = Folder(options.out) if options.seeds is None else None
    try:
        session = Session(options, room)
        say = Voice()
        say(*session.describe())
        first = session.first_simulator(say)
        session.explore(first, say)
        try:
            if folder is None:
                outcomes = run_seeds(session, seeds, first)
                for line in summary([outcome.as_json() for outcome in outcomes]):
                    print(line)
            else:
                outcomes = [Play(session, seeds[0], say, room).outcome(first, folder.draft)]
                folder.publish()
                say(*outcomes[0].text)
        finally:
            session.cancel_background()
        if options.junit:
            junit(options.junit, session.design.source.top, [outcome.as_json() for outcome in outcomes])
        return status_of([outcome.verdict for outcome in outcomes])
    finally:
        if folder:
            folder.discard()


def main(words: Optional[Sequence[str]] = None) -> int:
    """Runs the program with the words of its command line, and returns the exit status."""
    words = sys.argv[1:] if words is None else list(words)
    try:
        if words[:1] == ["merge"]:
            return merge(words[1:])
        options = arguments().parse_intermixed_args(words)
        with tempfile.TemporaryDirectory(prefix="tlbridge-verify.") as room:
            status = _verify(options, Path(room))
        sys.stdout.flush()
        return status
    except DesignError as error:
        print(f"{PROGRAM}: {error}", file=sys.stderr)
        return error.status
    except BrokenPipeError:
        os.dup2(os.open(os.devnull, os.O_WRONLY), 1)
        return 4
    except OSError as error:
        print(f"{PROGRAM}: {error.filename or 'a file'}: {error.strerror}", file=sys.stderr)
        return 4
    except KeyboardInterrupt:
        print(f"{PROGRAM}: interrupted", file=sys.stderr)
        return 130
