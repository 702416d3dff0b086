"""Tests how tools/build estimates the time that is left, and what it prints. Nothing is proved.

Runs are computed: each takes the crates of the programs in the order of tools/build. A crate takes its seconds of
tools/crate-seconds, times what the machine and chance make of them. From the first quarter of a run on, each estimate
has to be right within half of what is left, or within a tenth of the whole run. If a crate is late, the estimate may
not sink to nothing. Each crate below the programs has to be in the table. Then tools/build runs over crates of a few
lines with a stand-in for `rt`, and its lines are checked.
"""

import io
import os
import random
import re
import subprocess
import sys
import tempfile
from pathlib import Path
from typing import Any, Callable, Dict, Iterator, List, Sequence, Tuple

import pytest
from project import ROOT, script

build = script(ROOT / "tools" / "build")
EACH = 5
# A recorded run of `./tlbridge` from nothing, two crates at a time on four processors, on which more and more other
# work began. `tl_parts` was a part of `tl_run` then: the two rows have its time, divided by estimate.
RECORDED = {
    "tl_lanes": 22,
    "tl_order": 16,
    "tl_msg": 53,
    "tl_burst": 28,
    "tl_words": 98,
    "tl_convert": 64,
    "tl_ring": 209,
    "tl_settle": 113,
    "tl_trace": 428,
    "tl_stream": 264,
    "tl_sides": 446,
    "tl_offer": 71,
    "tl_parts": 30,
    "tl_run": 147,
    "tl_check": 86,
    "tl_bridge": 166,
    "tl_answer": 314,
    "tlbridge": 1016,
}


Takes = Callable[[Any], float]


def crates_of(names: Sequence[str]) -> Any:
    """The crates as if none was built."""
    build.Crate.is_made = lambda crate: False
    return build.crates_for(ROOT, names)


def next_crate(waiting: Any, running: Any) -> Any:
    """The crate that begins next, if one can."""
    unbuilt = {crate.name for crate in (*waiting, *running)}
    ready = [crate for crate in waiting if not unbuilt & crate.below]
    return max(ready, key=lambda crate: float(crate.behind), default=None)


def estimates(names: Sequence[str], takes: Takes, places: int) -> Tuple[List[Tuple[float, float]], float]:
    """A run in which a crate takes `takes(crate)` seconds: pairs of a time and of the estimate then, and how long the
    whole run takes."""
    crates = crates_of(names)
    waiting, now = list(crates), 0.0
    running: Dict[Any, float] = {}
    found: List[Tuple[float, float]] = []
    while waiting or running:
        while len(running) < places and (crate := next_crate(waiting, running)):
            waiting.remove(crate)
            crate.began, running[crate] = now, now + takes(crate)
        ends = min(running.values())
        while now + EACH < ends:
            now += EACH
            found.append((now, build.seconds_left(crates, places, now)))
        now = ends
        for crate in [crate for crate, end in running.items() if end == ends]:
            crate.is_done, crate.seconds = True, now - crate.began
            del running[crate]
        found.append((now, build.seconds_left(crates, places, now)))
    return found, now


def worst(takes: Takes, places: int, names: Sequence[str]) -> Tuple[float, str]:
    """The worst estimate after the first quarter: by how much it is off what it may be off, and in words."""
    found, whole = estimates(names, takes, places)

    def off(time: float, left: float) -> float:
        return abs(left - (whole - time)) / max((whole - time) / 2, whole / 10)

    time, left = max(((time, left) for time, left in found if time >= whole / 4), key=lambda pair: off(*pair))
    return (
        off(time, left),
        f"after {time:.0f} s of {whole:.0f} s the estimate is {left:.0f} s, and {whole - time:.0f} s are left",
    )


def late_failure(places: int) -> str:
    """The last crate takes far longer than expected: while it is late, a tenth of its time so far is left, at the
    least."""
    late, seconds = "tlbridge", build.measured_seconds()["tlbridge"]
    found, whole = estimates([late], lambda crate: float(crate.expected) * (10 if crate.name == late else 1), places)
    times = [(time - (whole - 10 * seconds), left) for time, left in found if whole - 8 * seconds < time < whole]
    wrong = [f"after {passed:.0f} s the estimate is {left:.0f} s" for passed, left in times if left < passed / 10]
    return "" if times and not wrong else f"{late} is late, and {', '.join(wrong[:3]) or 'nothing is estimated'}"


def slower(factor: float) -> Takes:
    """All crates take their seconds times a factor."""
    return lambda crate: factor * float(crate.expected)


def varied(seed: int) -> Takes:
    """Each crate takes 0.7 to 1.4 times its seconds, whatever other crates there are."""
    return lambda crate: float(crate.expected) * random.Random(f"{crate.name} {seed}").uniform(0.7, 1.4)


def runs() -> Iterator[Tuple[str, Takes, int, List[str]]]:
    """Names of runs, with the seconds that a crate takes, how many are proved side by side, and the crates at the
    top."""
    both = ["tlbridge", "tlexplain"]
    yield "the recorded run", lambda crate: RECORDED[crate.name], 2, ["tlbridge"]
    for places in (1, 2):
        for factor in (0.3, 1, 4):
            yield f"{factor} times the seconds, {places} at a time", slower(factor), places, both
        for seed in range(20):
            yield f"each crate 0.7 to 1.4 times its seconds, seed {seed}, {places} at a time", varied(
                seed
            ), places, both


# ---- What it prints

# It makes the library of the crate in whose folder it is called; of the crate `wrong` it refuses a function.
STAND_IN = """#!/bin/sh
name=$(basename "$PWD")
[ "$name" != wrong ] || { echo "fn wrong::f: open goal"; exit 1; }
sleep 0.2
mkdir -p out/rlib && : > "out/rlib/$name.rlib"
"""
LINES = (
    r"3 crates are to be proved and built: some \d+ s on a machine with four processors",
    r"low, 1 of 3, begins(, some \d+ s left)?",
    r"low, 1 of 3, took \d+ s(, some \d+ s left)?",
    r"(left|right), \d of 3, begins(, some \d+ s left)?",
    r"(left|right), \d of 3, took \d+ s(, some \d+ s left)?",
)


def lines_of(names: Sequence[str]) -> Tuple[List[str], int]:
    """Returns the standard error of tools/build for these crates, and its exit status."""
    with tempfile.TemporaryDirectory() as folder:
        top = Path(folder)
        (top / "crates.txt").write_text("low:\nleft: low\nright: low\nwrong: low\n")
        for name in ("low", "left", "right", "wrong"):
            (top / "crates" / name / "src").mkdir(parents=True)
            (top / "crates" / name / "src" / "lib.rt").write_text("//! A crate.\n" * 40)
        (top / "bin").mkdir()
        (top / "bin" / "rt").write_text(STAND_IN)
        (top / "bin" / "rt").chmod(0o755)
        command: List[Any] = [sys.executable, ROOT / "tools" / "build", "--in", top, "--as", "TITLE", *names]
        path = {**os.environ, "PATH": f"{top / 'bin'}:{os.environ['PATH']}"}
        done = subprocess.run(command, env=path, stdout=subprocess.PIPE, stderr=subprocess.PIPE, text=True, timeout=60)
    return done.stderr.splitlines(), done.returncode


def test_the_lines_of_three_crates() -> None:
    """How many there are, which begins and ends, and how long is left."""
    lines, status = lines_of(["left", "right"])
    assert [line for line in lines if not any(re.fullmatch(f"TITLE: {form}", line) for form in LINES)] == []
    assert (status, len(lines)) == (0, 7)
    assert re.fullmatch(f"TITLE: {LINES[0]}", lines[0])


def test_a_crate_that_is_refused() -> None:
    """Its name and what the checker says of it are printed."""
    lines, status = lines_of(["wrong"])
    assert status == 1
    assert {"TITLE: wrong is refused:", "fn wrong::f: open goal"} <= {*lines}


def test_a_long_refusal() -> None:
    """A line is cut after 400 characters, and 60 lines are shown. Those about success are left out."""
    log = io.StringIO("fn low::f: proved\n" + f"{'x' * 399}\n{'y' * 400}\n" * 40)
    log.seek(0, io.SEEK_END)
    assert build.refusal(log) == f"{'x' * 399}\n{'y' * 400} ..\n" * 30


@pytest.mark.parametrize("places", (1, 2))
def test_a_late_crate(places: int) -> None:
    """The estimate does not sink to nothing."""
    assert late_failure(places) == ""


@pytest.mark.parametrize("run", [pytest.param(run, id=name) for name, *run in runs()])
def test_each_estimate(run: Any) -> None:
    """From the first quarter on, it is off by at most half of what is left, or a tenth of the whole run."""
    off, words = worst(*run)
    assert off <= 1, words


def test_each_crate_has_its_seconds() -> None:
    """tools/crate-seconds has a row for each crate below the programs and the library."""
    names = {crate.name for crate in crates_of(["tlbridge", "tlexplain", "tl_c", "tl_answer_c"])}
    assert names - {*build.measured_seconds()} == set()
