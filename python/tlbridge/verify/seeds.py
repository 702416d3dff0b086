"""Several seeds, side by side or one folder after another, and what they say together."""
from __future__ import annotations

import argparse
import concurrent.futures
import json
import multiprocessing
import re
import tempfile
import xml.etree.ElementTree as tree
from pathlib import Path
from typing import Any, Dict, List, Mapping, Optional, Sequence

from .design import DesignError
from .outcome import Condition, FAILED, Folder, INCOMPLETE, MISTAKE, Outcome, PROGRAM, RIGHT, written
from .play import Play
from .report import Coverage
from .session import Session, Voice
from .traffic import KINDS, Limits

_session: Optional[Session] = None


def _play(seed: int, first: str, out: str) -> Outcome:
    """Plays a seed in a process of its own, which has inherited the session."""
    assert _session
    folder = Folder(Path(out) / f"seed-{seed}")
    with tempfile.TemporaryDirectory(prefix=f"seed-{seed}.", dir=_session.room) as room:
        try:
            outcome = Play(_session, seed, Voice(True), Path(room)).outcome(first, folder.draft)
            folder.publish()
            return outcome
        except DesignError as error:
            folder.discard()
            return Outcome(seed, FAILED, str(error), _session.judge.name)


def run_seeds(session: Session, seeds: Sequence[int], first: str) -> List[Outcome]:
    """Plays seeds in processes of their own, and prints a line for each as it ends."""
    global _session
    out: Path = session.options.out
    for name in session.later_builds(first):
        session.build(name)
    if not session.is_short():
        session.explore_sizes(session.simulation(session.long_simulator(first)), Voice())
    _session = session
    outcomes = []
    context = multiprocessing.get_context("fork")
    with concurrent.futures.ProcessPoolExecutor(session.options.jobs or 1, mp_context=context) as pool:
        waiting = [pool.submit(_play, seed, first, str(out)) for seed in seeds]
        for future in concurrent.futures.as_completed(waiting):
            outcome = future.result()
            outcomes.append(outcome)
            more = "".join(f", {condition.line}" for condition in outcome.conditions)
            more = more or (f": {outcome.words}" if outcome.words else "")
            print(f"seed {outcome.seed}: {outcome.verdict}{more}", flush=True)
    return sorted(outcomes, key=lambda outcome: outcome.seed)


def junit(path: Path, top: str, outcomes: Sequence[Mapping[str, Any]]) -> None:
    """Writes the verdicts as JUnit XML: a mistake is a failure, a run without a verdict an error."""
    failures = [o for o in outcomes if o["verdict"] in (MISTAKE, INCOMPLETE)]
    errors = [o for o in outcomes if o["verdict"] == FAILED]
    suite = tree.Element(
        "testsuite", name=PROGRAM, tests=str(len(outcomes)), failures=str(len(failures)), errors=str(len(errors))
    )
    for outcome in outcomes:
        case = tree.SubElement(
            suite, "testcase", classname=top, name=f"seed {outcome['seed']}", time=str(outcome["seconds"])
        )
        if outcome["verdict"] != RIGHT:
            tag = "error" if outcome["verdict"] == FAILED else "failure"
            tree.SubElement(case, tag, message=_printable(outcome["words"]), type=str(outcome["verdict"]))
        elif conditions_of(outcome):
            tree.SubElement(case, "system-out").text = _printable("right, " + "; ".join(conditions_of(outcome)))
    written(path, '<?xml version="1.0" encoding="utf-8"?>\n' + tree.tostring(suite, encoding="unicode") + "\n")


def _printable(words: Any) -> str:
    return "".join(letter if letter.isprintable() else "?" for letter in str(words))


def conditions_of(outcome: Mapping[str, Any]) -> List[str]:
    """Returns the conditions under which a right design is not right, in words."""
    return [Condition(**made).line for made in outcome.get("conditions", [])]


def summary(outcomes: Sequence[Mapping[str, Any]]) -> List[str]:
    """Returns lines with the number of each verdict, and with the seeds of each mistake and of each condition."""
    counts = {
        verdict: sum(o["verdict"] == verdict for o in outcomes) for verdict in (RIGHT, MISTAKE, INCOMPLETE, FAILED)
    }
    beats = sum(o["beats"] for o in outcomes)
    lines = [
        ", ".join(f"{number} {verdict}" for verdict, number in counts.items() if number)
        + f" of {len(outcomes)} seeds, {beats} beats"
    ]
    said: Dict[str, List[int]] = {}
    for outcome in outcomes:
        right = [f"right, {line}" for line in conditions_of(outcome)]
        for words in right if outcome["verdict"] == RIGHT else [str(outcome["words"])]:
            key = re.sub(r"beat \d+ of", "a beat of", re.sub(r"\b[0-9a-f]{2,}\b", "..", words))[:160]
            said.setdefault(key, []).append(int(outcome["seed"]))
    for key, seeds in sorted(said.items(), key=lambda item: -len(item[1]))[:20]:
        more = f" and {len(seeds) - 6} more" if len(seeds) > 6 else ""
        lines.append(f"  seeds {', '.join(map(str, seeds[:6]))}{more}: {key}")
    return lines


def status_of(verdicts: Sequence[str]) -> int:
    """Returns the exit status of these verdicts."""
    return 4 if FAILED in verdicts and MISTAKE not in verdicts else int(any(verdict != RIGHT for verdict in verdicts))


def merge(words: Sequence[str]) -> int:
    """Joins the folders of several runs, as the command line says, and returns the exit status."""
    parser = argparse.ArgumentParser(
        prog=f"{PROGRAM} merge", description="Joins the verdicts and the coverage of several runs."
    )
    parser.add_argument(
        "folders", nargs="+", type=Path, metavar="FOLDER", help="as --out named it, of one seed or of several"
    )
    parser.add_argument("--json", type=Path, metavar="FILE", help="write the joint coverage")
    parser.add_argument("--junit", type=Path, metavar="FILE", help="write the verdicts as JUnit XML")
    options = parser.parse_args(words)
    outcomes: List[Dict[str, Any]] = []
    coverage = Coverage()
    for folder in options.folders:
        found = sorted(folder.glob("seed-*/verdict.json"), key=lambda path: int(path.parent.name[5:] or 0))
        found = ([folder / "verdict.json"] if (folder / "verdict.json").exists() else []) + found
        if not found:
            raise DesignError(f"{folder} has no verdict.json, and no folder seed-N with one")
        for path in found:
            try:
                outcomes.append(json.loads(path.read_text()))
                conditions_of(outcomes[-1])
                coverage.merge(json.loads((path.parent / "coverage.json").read_text()))
            except (OSError, ValueError, KeyError, TypeError) as error:
                raise DesignError(f"{path.parent} has no verdict of this program: {error}") from error
    print("\n".join(summary(outcomes)))
    kinds = KINDS["C"] if set("BCE") <= set(coverage.channels) else KINDS["UH"]
    seen = {key[2] for key in coverage.messages}
    kinds = tuple(kind for kind in kinds if kind in ("release", "probe") or _named(kind) in seen)
    largest = 1 << max([key[3] for key in coverage.messages if key[1] == "A"] + [0])
    print("\n".join(coverage.table(Limits(kinds, largest))))
    if options.json:
        written(options.json, json.dumps(coverage.as_json()) + "\n")
    if options.junit:
        junit(options.junit, "merged", outcomes)
    return status_of([str(outcome["verdict"]) for outcome in outcomes])


def _named(kind: str) -> str:
    from .traffic import REQUESTS

    return REQUESTS[kind]
