"""Asks yosys-abc about one assertion at a time: a counterexample, a bound, or a proof without a bound.

A proof is claimed only if abc ended normally, printed its last word, reported the proof, and verified the invariant
that it found.
"""
from __future__ import annotations

import re
import signal
import tempfile
from concurrent.futures import FIRST_COMPLETED, Future, ThreadPoolExecutor, wait
from dataclasses import dataclass
from pathlib import Path
from typing import Callable, Dict, Generator, List, Sequence, Tuple, TypeVar

from .aiger import write_assumed
from .errors import TOOL, ProveError
from .model import Model, last_line
from .tools import RUNNING, run_tool

LAST_WORD = "tlbridge-prove-has-ended"
MORE_SECONDS = 60  # at least, for what abc does before and after a search that has a limit
TICK_SECONDS = 1.0
Found = TypeVar("Found")
PROVED, BOUNDED, FAILS, OPEN = "proved", "bounded", "fails", "open"


@dataclass(frozen=True)
class Verdict:
    """What abc found of one assertion. `frames`: without a counterexample in this number of frames, or the frame in
    which it fails, from 0.
    """

    kind: str
    frames: int
    seconds: float


def ask(model_path: Path, steps: Sequence[str], seconds: float) -> Tuple[str, float]:
    """Runs steps of abc on a model, and returns what it printed and its seconds of processor time.

    The steps limit their search to `seconds`. If abc still runs after twice that time, and a minute later at least,
    it is ended, and nothing of what it printed counts. Errors: abc died or printed no last word (4).
    """
    script = "; ".join([f"read_aiger {model_path}", *steps, f"echo {LAST_WORD}"])
    limit = int(seconds) + max(int(seconds), MORE_SECONDS)
    done = run_tool(["yosys-abc", "-c", script], 100 * seconds + 3600, None, limit)
    status, said = done.status, done.said
    if status == -signal.SIGXCPU:
        return "", done.seconds
    if status != 0 or LAST_WORD not in map(str.strip, said.splitlines()):
        how = f"was ended by signal {-status}" if status < 0 else f"ended with status {status}"
        raise ProveError(
            f"yosys-abc {how} before it was done: nothing is claimed of this assertion. {last_line(said)}", TOOL
        )
    return said, done.seconds


def verdict(said: str, seconds: float) -> Verdict:
    """Reads what abc printed about one assertion. Anything that is not understood is OPEN."""
    failed = re.search(r"Output *\d+ of miter .* was asserted in frame *(\d+)", said)
    if failed:
        return Verdict(FAILS, int(failed[1]), seconds)
    if "Property proved" in said and re.search(r"Verification of invariant with \d+ clauses was successful", said):
        return Verdict(PROVED, 0, seconds)
    bound = re.findall(r"No output asserted in (\d+) frames", said)
    if bound:
        return Verdict(BOUNDED, int(bound[-1]), seconds)
    return Verdict(OPEN, 0, seconds)


def bounded(model: Model, index: int, frames: int, seconds: int) -> Verdict:
    """Looks for a counterexample to one assertion in the first `frames` frames, for at most `seconds`."""
    said, taken = ask(model.small, [f"cone -s -O {index}", f"bmc3 -F {frames} -T {seconds}"], seconds)
    return verdict(said, taken)


def unbounded(
    model: Model, index: int, seconds: int, with_previous: bool = False, assumed: Sequence[int] = ()
) -> Verdict:
    """Looks for a proof of one assertion for any number of frames, for at most `seconds`.

    `with_previous`: of this one and of the one in front of it, both at once. A proof is one of each, and a failure may
    be one of either. `assumed` are assertions that were proved on this model before: they hold in each run, so a proof
    that assumes them is one without them.
    """
    proof = ["scorr", "dc2", f"pdr -T {seconds}"]
    asked = [index - 1, index] if with_previous else [index]
    if not assumed:
        cone = [f"cone -s -O {index - 1} -R 2", "orpos"] if with_previous else [f"cone -s -O {index}"]
        return verdict(*ask(model.small, [*cone, *proof], seconds))
    with tempfile.TemporaryDirectory(prefix="tlbridge-assumed.") as folder:
        path = Path(folder) / "assumed.aig"
        write_assumed(model.small, path, asked, assumed)
        return verdict(*ask(path, ["fold", "strash", *(["orpos"] if with_previous else []), *proof], seconds))


def no_tick() -> None:
    """Does nothing."""


def in_parallel(
    jobs: int, questions: Sequence[Tuple[int, Callable[[], Found]]], tick: Callable[[], None] = no_tick
) -> Generator[Tuple[int, Found], None, None]:
    """Asks all questions with `jobs` at once, and yields each number with its result as it comes. The first error
    ends it, and all tools that run. `tick` is called each second.
    """
    pool = ThreadPoolExecutor(max_workers=max(1, jobs))
    numbers: Dict["Future[Found]", int] = {pool.submit(question): number for number, question in questions}
    waiting = set(numbers)
    try:
        while waiting:
            done, waiting = wait(waiting, TICK_SECONDS, FIRST_COMPLETED)
            for one in done:
                yield numbers[one], one.result()
            tick()
    except BaseException:
        for one in numbers:
            one.cancel()
        while not all(one.done() for one in numbers):
            RUNNING.end()
            wait(numbers, 0.1)
        raise
    finally:
        pool.shutdown()


def counterexample(model: Model, index: int, frame: int, seconds: int, path: Path) -> List[Dict[str, int]]:
    """Returns the values of the model's inputs, step by step, with which one assertion fails in this frame.

    The names are those of the harness' inputs, and `init NAME` for a register that begins with a chosen value.
    Errors: abc finds none (4).
    """
    steps = ["fold", "strash", f"cone -s -O {index}", f"bmc3 -F {frame + 1} -T {seconds}", f"write_cex -a {path}"]
    said, _ = ask(model.path, steps, seconds)
    if verdict(said, 0).kind != FAILS or not path.is_file():
        raise ProveError("yosys-abc found the counterexample once, and not again: report this with the design", TOOL)
    return rows_of(model.folder / "model.map", path)


def rows_of(map_path: Path, path: Path) -> List[Dict[str, int]]:
    """Reads a counterexample of abc's `write_cex -a`. Its first row has the registers, its last one a remark behind
    it.
    """
    names: Dict[int, Tuple[str, int]] = {}
    for line in map_path.read_text().splitlines():
        words = line.split()
        if words and words[0] in ("input", "init"):
            names[int(words[1])] = ((words[3] if words[0] == "input" else f"init {words[3]}"), int(words[2]))
    wide = max(names) + 1 if names else 0
    rows = [found[0] for found in (re.match(r"[01]+", line) for line in path.read_text().splitlines()) if found]
    table: List[Dict[str, int]] = []
    for row in [row for row in rows[1:] if len(row) >= wide]:
        values: Dict[str, int] = {}
        for place, (name, bit) in names.items():
            values[name] = values.get(name, 0) | (1 << bit if row[place] == "1" else 0)
        table.append(values)
    return table
