"""Long runs of tlbridge-verify: the trial of planted mistakes, the bridge of rtl/ at many widths, and both simulators
beside each other."""

import functools
import json
import os
import subprocess
import sys
from pathlib import Path
from typing import Dict, List, Tuple

import pytest
import trial
from project import EXAMPLES, ROOT, RTL, needs_tools

from tlbridge.verify.bench import Bench, Simulation
from tlbridge.verify.design import Design, Source, read_design
from tlbridge.verify.judge import Beats, Judge, Rules
from tlbridge.verify.traffic import Traffic, limits_of

pytestmark = [pytest.mark.long, pytest.mark.simulator]
PAIRS = ((1, 1), (1, 8), (8, 1), (2, 8), (8, 4), (4, 8), (16, 4), (4, 32), (64, 8), (8, 64))
START = str(EXAMPLES / "start" / "adapter.sv")


def verify(folder: Path, *words: str) -> Tuple[int, str]:
    """Runs the program in this folder. Returns its status, and its output with its messages."""
    needs_tools("verilator", "iverilog")
    done = subprocess.run(
        [sys.executable, str(ROOT / "tlbridge-verify"), *words], capture_output=True, text=True, cwd=folder
    )
    return done.returncode, done.stdout + done.stderr


CASES = [(name, bug) for name, path in trial.designs().items() for bug in (0, *trial.bugs_of(path))]


@functools.lru_cache(maxsize=None)
def right(design: str) -> trial.Result:
    """The right version, which is played once."""
    return trial.played(design, 0, trial.SAME_ROUNDS)


@pytest.mark.parametrize("design,bug", CASES)
def test_the_trial(design: str, bug: int) -> None:
    """A right design is called right. A mistake is found as one, or under a condition that the right design does not
    have, if it is one of those."""
    needs_tools("verilator", "iverilog", "yosys")
    if bug in trial.MISSED.get(design, ()):
        pytest.xfail("docs/VERIFY.md says why this one is missed")
    result = trial.played(design, bug, trial.SAME_ROUNDS) if bug else right(design)
    is_under = bug in trial.UNDER.get(design, ())
    if is_under:
        result = result.beside(right(design).conditions)
    print(trial.line_of(result))
    assert result.is_right, trial.line_of(result)
    assert result.status == int(bug > 0 and not is_under), trial.line_of(result)


def test_a_trial_of_right_designs_sums_their_beats(
    monkeypatch: pytest.MonkeyPatch, capsys: pytest.CaptureFixture[str]
) -> None:
    """It plays each right version once, also that of the first example, and a false alarm makes it fail."""
    asked: List[Tuple[str, int]] = []

    def played(design: str, bug: int, more: Tuple[str, ...]) -> trial.Result:
        asked.append((design, bug))
        return trial.Result(design, bug, int(design == alarm), "", 0, 0, 0, 0, judged=1000)

    monkeypatch.setattr(trial, "played", played)
    alarm = ""
    assert trial.main(["--right-only", "--", "--messages", "9"]) == 0
    assert asked == [(name, 0) for name in [*trial.designs(), "adapter"]]
    assert f"{1000 * len(asked)} beats of {len(asked)} right designs" in capsys.readouterr().out
    alarm = "skid"
    assert trial.main(["--right-only", "skid:3", "gray"]) == 1
    assert asked[-2:] == [("skid", 0), ("gray", 0)]


@pytest.mark.parametrize("is_async", [0, 1])
@pytest.mark.parametrize("client,manager", PAIRS)
def test_the_bridge_of_this_project(tmp_path: Path, client: int, manager: int, is_async: int) -> None:
    words = [str(path) for path in sorted(RTL.glob("tl_*.sv"))] + ["--top", "tl_bridge"]
    words += ["-P", f"CLIENT_BYTES={client}", "-P", f"MANAGER_BYTES={manager}", "-P", f"ASYNC={is_async}"]
    status, out = verify(tmp_path, *words, *([] if is_async else ["--one-clock"]))
    assert status == 0 and "NO MISTAKE" in out, out


def test_structs_of_opentitan(tmp_path: Path) -> None:
    request = "a_valid:1,a_opcode:3,a_param:3,a_size:2,a_source:8,a_address:32,a_mask:4,a_data:32,a_user:23,d_ready:1"
    response = "d_valid:1,d_opcode:3,d_param:3,d_size:2,d_source:8,d_sink:1,d_data:32,d_user:14,d_error:1,a_ready:1"
    words = [str(path) for path in sorted(RTL.glob("tl_*.sv"))] + ["--top", "tl_bridge_structs"]
    status, out = verify(tmp_path, *words, "--struct", request, "--struct", response, "--messages", "6000")
    assert status == 0 and "NO MISTAKE" in out, out


def simulations(folder: Path, design: Design, one_clock: bool) -> Dict[str, Simulation]:
    needs_tools("verilator", "iverilog")
    bench = Bench(design, True, one_clock, False)
    return {name: Simulation(design, name, folder / name, bench) for name in ("icarus", "verilator")}


@pytest.mark.parametrize("name", ["start", "gray"])
def test_both_simulators_play_the_same_beats(tmp_path: Path, name: str) -> None:
    file = {"start": START, "gray": str(trial.FOLDERS[0] / "gray.sv")}[name]
    design = read_design(Source({"start": "adapter"}.get(name, name), (file,)))
    limits = limits_of(design, True, None, None, None, None)
    made = simulations(tmp_path, design, False)
    traffic = Traffic(design, limits, 5, True, design.has_two_clocks, False)
    judge = Judge(design, Rules(True, False))
    for number in range(13):
        script, settings = traffic.round(number, 150)
        seen: List[Dict[str, List[str]]] = []
        for simulator, simulation in made.items():
            run = simulation.run(script, settings, tmp_path / f"run-{simulator}")
            beats = Beats(design, run)
            assert not judge.problems(run, beats)
            lines = {f"{side} beats": of for side, of in beats.lines.items()}
            seen.append({**lines, **{f"{side} times": [*map(str, of)] for side, of in beats.times.items()}})
        assert seen[0] == seen[1], (number, settings)


# Options that add what many designs do not hold, each with a design that holds it and one that does not.
ADDED: Dict[str, Tuple[List[str], List[str], int]] = {
    "same cycle, right": (["skid"], ["--same-cycle"], 0),
    "same cycle, wrong": (["adapter"], ["--same-cycle"], 1),
    "withdrawn, right": (["skid"], ["--withdraw"], 0),
    "skew, right": (["gray"], ["--skew"], 0),
    "skew, wrong": (["pointers", "-D", "BUG_1"], ["--skew"], 1),
    "without skew": (["pointers", "-D", "BUG_1"], ["--no-skew"], 0),
}


@pytest.mark.parametrize("case", ADDED)
def test_options_that_add_something(tmp_path: Path, case: str) -> None:
    (name, *more), options, status = ADDED[case]
    file = START if name == "adapter" else str(trial.FOLDERS[0] / f"{name}.sv")
    got, out = verify(
        tmp_path, file, *more, *options, "--messages", "2600", "--simulator", "icarus", "--shrink-seconds", "10"
    )
    assert got == status, out


# Options that leave something out: the settings of the runs, as the coverage counts them, show it.
LEFT_OUT = {"--no-reset": "resets", "--no-blocking": "runs with blocking"}


@pytest.mark.parametrize("option", LEFT_OUT)
def test_options_that_leave_something_out(tmp_path: Path, option: str) -> None:
    counts = []
    choices: List[List[str]] = [[], [option]]
    for words in choices:
        status, out = verify(tmp_path, START, "--simulator", "icarus", "--messages", "2600", *words)
        assert status == 0, out
        counts.append(json.loads((tmp_path / "tlbridge-verify.out" / "coverage.json").read_text())["counts"])
    assert counts[0][LEFT_OUT[option]] > 0 and counts[1].get(LEFT_OUT[option], 0) == 0


def test_thirty_seeds_with_one_build(tmp_path: Path) -> None:
    words = ("--seeds", "1-30", "--jobs", str(min(2, os.cpu_count() or 1)), "--messages", "4000", "--out", "r")
    status, out = verify(tmp_path, START, *words)
    assert status == 0 and "30 right of 30 seeds" in out
    assert len(list((tmp_path / "r").glob("seed-*/coverage.json"))) == 30
