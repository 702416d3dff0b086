#!/usr/bin/env python3
"""Plays tlbridge-prove on each adapter of adapters.py and each of its planted bugs, and prints the tables of
docs/PROVE.md.

    tests/prove/play.py [ADAPTER ..] [--jobs N] [--bugs [REGEX] | --correct] [--cache FOLDER] [--seconds S]

The status is 1 if a bug is not found by an expected assertion and in time, or an assertion of a correct adapter fails.
"""

import argparse
import os
import re
import subprocess
import sys
import tempfile
from pathlib import Path
from typing import Dict, List, NamedTuple, Optional, Sequence, Tuple

from adapters import ADAPTERS, Adapter, Planted

ROOT = Path(__file__).resolve().parent.parent.parent

PROVE = ROOT / "tlbridge-prove"
# Bits 1 to 6 of the data are left out of the search for bugs: no planted bug is about one bit of a byte.
FEWER_BITS = ("--only", "^(?!.*Data[1-6]$)")
ROW = re.compile(r"^  (\S+) +(proved|no counterexample in \d+ \w+|fails in \w+ \d+) +([\d.]+) s$", re.M)


class Played(NamedTuple):
    """A run: its status, what it printed, and for each assertion the verdict and the seconds of abc."""

    status: int
    said: str
    rows: Dict[str, Tuple[str, float]]

    @property
    def fails(self) -> List[Tuple[int, float, str]]:
        """The assertions that fail, first the earliest: cycle, seconds, name."""
        found = [(verdict.split(), seconds, name) for name, (verdict, seconds) in self.rows.items()]
        return sorted((int(words[-1]), seconds, name) for words, seconds, name in found if words[0] == "fails")


def play(words: Sequence[str], folder: Path, cache: Optional[Path] = None, jobs: int = 2) -> Played:
    """Runs tlbridge-prove in a folder; files are relative to the repository."""
    files = [str(ROOT / word) if word.endswith(".sv") else word for word in words]
    keep = [] if cache is not None else ["--no-cache"]
    done = subprocess.run(
        [sys.executable, str(PROVE), *files, *keep, "--jobs", str(jobs)],
        cwd=folder,
        env={**os.environ, **({"TLBRIDGE_CACHE": str(cache)} if cache is not None else {})},
        capture_output=True,
        text=True,
        check=False,
    )
    rows = {name: (verdict, float(seconds)) for name, verdict, seconds in ROW.findall(done.stdout)}
    return Played(done.returncode, done.stdout + done.stderr, rows)


def play_bug(adapter: Adapter, bug: Planted, folder: Path, cache: Optional[Path] = None, jobs: int = 2) -> Played:
    """Looks for a planted bug in the cycles in which it has to be found."""
    cycles = ("--cycles", str(bug.cycle + 1), "--keep-going")
    return play((*adapter.words, *bug.words, *bug.options, *cycles, *FEWER_BITS), folder, cache, jobs)


def play_correct(
    adapter: Adapter, folder: Path, cache: Optional[Path] = None, jobs: int = 2, seconds: int = 300
) -> Played:
    """Proves the correct adapter without a bound as far as abc gets, and the rest in its number of cycles."""
    words = ("--cycles", str(adapter.cycles), "--unbounded", "--seconds", str(seconds))
    return play((*adapter.words, *adapter.proof, *words), folder, cache, jobs)


def is_found(bug: Planted, run: Played) -> bool:
    """Whether an expected assertion is among the first that fail, in time."""
    if run.status != 1 or not run.fails:
        return False
    first = run.fails[0][0]
    return first <= bug.cycle and any(name in bug.expected for cycle, _, name in run.fails if cycle == first)


def line_of_bug(adapter: Adapter, bug: Planted, run: Played) -> str:
    if not run.fails:
        return f"| {adapter.name} | {bug.name} | not found, status {run.status} | | | |"
    cycle = run.fails[0][0]
    first = [(name not in bug.expected, seconds, name) for at, seconds, name in run.fails if at == cycle]
    _, seconds, name = min(first)
    later = sorted(other for _, _, other in run.fails if other != name)
    return f"| {adapter.name} | {bug.name} | `{name}` | {cycle} | {seconds:.1f} | {', '.join(later) or '-'} |"


def line_of_correct(adapter: Adapter, run: Played) -> str:
    proved = [name for name, (verdict, _) in run.rows.items() if verdict == "proved"]
    others = {name: verdict for name, (verdict, _) in run.rows.items() if verdict != "proved"}
    left = ", ".join(f"{name} {verdict}" for name, verdict in sorted(others.items()))
    seconds = sum(seconds for _, seconds in run.rows.values())
    return f"| {adapter.name} | {adapter.what} | {len(proved)} of {len(run.rows)} | {left or '-'} | {seconds:.0f} |"


def main() -> int:
    words = argparse.ArgumentParser(description=__doc__, formatter_class=argparse.RawDescriptionHelpFormatter)
    words.add_argument("adapters", metavar="ADAPTER", nargs="*", help=", ".join(one.name for one in ADAPTERS))
    words.add_argument("--jobs", type=int, default=2)
    words.add_argument(
        "--bugs", metavar="REGEX", nargs="?", const="", help="only the planted bugs, or those whose names match"
    )
    words.add_argument("--correct", action="store_true", help="only the correct adapters")
    words.add_argument("--cache", type=Path, help="keep the models here")
    words.add_argument(
        "--seconds", type=int, default=300, help="for each assertion of a correct adapter [default: 300]"
    )
    given = words.parse_args()
    chosen = [one for one in ADAPTERS if not given.adapters or one.name in given.adapters]
    bad: List[str] = []
    with tempfile.TemporaryDirectory() as name:
        folder = Path(name)
        if not given.correct:
            print(
                "| Adapter | Planted bug | First to fail | Cycle | Seconds | Also fails by then |\n"
                "|---|---|---|---|---|---|"
            )
            for adapter in chosen:
                for bug in (one for one in adapter.bugs if re.search(given.bugs or "", one.name)):
                    run = play_bug(adapter, bug, folder, given.cache, given.jobs)
                    print(line_of_bug(adapter, bug, run), flush=True)
                    if not is_found(bug, run):
                        bad.append(f"{adapter.name}: {bug.name}: {run.said if run.status > 1 else 'not as expected'}")
        if given.bugs is None:
            print("\n| Adapter | What it is | Proved | The others | Seconds |\n|---|---|---|---|---|")
            for adapter in chosen:
                run = play_correct(adapter, folder, given.cache, given.jobs, given.seconds)
                print(line_of_correct(adapter, run), flush=True)
                if run.status:
                    bad.append(f"{adapter.name}: {run.said}")
    print("\n".join(["", *bad]) if bad else "", file=sys.stderr)
    return 1 if bad else 0


if __name__ == "__main__":
    sys.exit(main())
