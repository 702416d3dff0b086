"""The watch in a simulation: a correct converter has no report, a planted bug one of the assertion that is about it."""

import re
import subprocess
import tempfile
from functools import lru_cache
from pathlib import Path
from typing import FrozenSet, Set, Tuple

import pytest
from bugs import NARROW, WATCH_MUTANTS, Bug, WatchMutant
from project import ROOT, SV, needs_tools

pytestmark = pytest.mark.simulator
HERE = Path(__file__).parent
FILES = (
    SV / "tl_bridge_watch.sv",
    HERE / "designs" / "narrow.sv",
    ROOT / "tests" / "rtl" / "resets_bench.sv",
    HERE / "watch_bench.sv",
)


def reports(bug: int, folder: Path, seed: int = 1, watch: Path = FILES[0], cycles: int = 4000) -> Tuple[Set[str], int]:
    """The assertions that a watch reports in this number of cycles, and the number of messages that it watched on A."""
    needs_tools("iverilog", "vvp")
    words = [
        "iverilog",
        "-g2012",
        "-s",
        "watch_bench",
        f"-Pwatch_bench.BUG={bug}",
        f"-Pwatch_bench.SEED={seed}",
        f"-Pwatch_bench.CYCLES={cycles}",
        "-o",
        str(folder / "bench"),
    ]
    done = subprocess.run([*words, str(watch), *map(str, FILES[1:])], capture_output=True, text=True, check=False)
    assert done.returncode == 0, done.stdout + done.stderr
    said = subprocess.run(["vvp", "-n", str(folder / "bench")], capture_output=True, text=True, check=False).stdout
    last = re.search(r"^done: \d+ beats, (\d+) messages watched$", said, re.M)
    assert last, said[-500:]
    found = re.findall(r"watch_bench\.watch\.([a-e])[\w.]*: (\w+)", said)
    return {f"{channel}.{name}" for channel, name in found}, int(last[1])


def test_correct_converter(tmp_path: Path) -> None:
    found, messages = reports(0, tmp_path)
    assert not found and messages >= 200


@lru_cache(maxsize=None)
def first_reports(bug: Bug) -> Tuple[int, FrozenSet[str]]:
    """The first of four seeds with which the watch reports a bug by an expected assertion, or 0, and all reports of it
    in 1,000 cycles.

    A bug that stops the converter is reported only if the message that waits is the watched one.
    """
    with tempfile.TemporaryDirectory() as folder:
        for seed in (1, 2, 3, 4):
            found, _ = reports(bug.number, Path(folder), seed, cycles=1000)
            if found & set(bug.expected):
                return seed, frozenset(found)
    return 0, frozenset()


@pytest.mark.parametrize("bug", NARROW, ids=[one.name for one in NARROW])
def test_planted_bug_is_reported(bug: Bug) -> None:
    assert first_reports(bug)[0]


def test_each_assertion_reports_a_planted_bug() -> None:
    """No assertion of the watch is without a bug of narrow.sv that it reports. Covers are no assertions, and helpers
    say nothing that the others do not.
    """
    names = set(re.findall(r"^ *`TL_WATCH_ASSERT\((?!Sees|Helper)(\w+),", FILES[0].read_text(), re.M))
    assert {"Invented", "Room", "SourceOne", "Ready"} <= names
    reported = {name.partition(".")[2] for bug in NARROW for name in first_reports(bug)[1]}
    assert names == reported


@pytest.mark.parametrize("mutant", WATCH_MUTANTS, ids=[one.name for one in WATCH_MUTANTS])
def test_weaker_watch_misses_a_bug(mutant: WatchMutant, tmp_path: Path) -> None:
    """So each of these assertions, and each of these parts of one, is needed: without it the bug has no report."""
    text = FILES[0].read_text()
    assert text.count(mutant.text) == 1
    (tmp_path / "weaker.sv").write_text(text.replace(mutant.text, mutant.by))
    seed, _ = first_reports(next(bug for bug in NARROW if bug.number == mutant.bug))
    found, messages = reports(mutant.bug, tmp_path, seed, tmp_path / "weaker.sv")
    assert not found and messages
