"""What the bench of a design writes, and how its runs are limited. Icarus plays."""

import os
from pathlib import Path
from typing import List

import pytest
from project import EXAMPLES, needs_tools

from tlbridge.verify import bench
from tlbridge.verify.bench import Bench, EndlessError, Run, SimulatorError, Simulation
from tlbridge.verify.design import Design, Source, read_design
from tlbridge.verify.judge import Beats
from tlbridge.verify.traffic import Message

pytestmark = pytest.mark.simulator
HALF = 5000  # ps, of a clock that has no setting
# Beats of both sides at the same times, and the beats that a judge needs of them.
CLIENT = "10 A 4 a\n10 D 1 b\n30 E 5\n30 A 4 c\n50 C 7 d\n"
MANAGER = "10 A 4 e\n30 B 6 f\n30 D 1 g\n50 E 5\n"


def adapter(folder: Path, head: str = "", tail: str = "") -> Design:
    """Returns the adapter of the first example, with lines before its first and after its last one."""
    needs_tools("verilator", "iverilog")
    text = (EXAMPLES / "start" / "adapter.sv").read_text()
    (folder / "adapter.sv").write_text(head + text.rpartition("endmodule")[0] + tail + "endmodule\n")
    return read_design(Source("adapter", (str(folder / "adapter.sv"),)))


def simulation(folder: Path, design: Design) -> Simulation:
    return Simulation(design, "icarus", folder / "icarus", Bench(design, True, False, False))


SCRIPT: List[Message] = [Message("A", 4, 0, 2, at % 4, 4 * at, tag=at) for at in range(20)]


@pytest.mark.parametrize("unit", ["1ps / 1ps", "1ns / 1ps", "1ns / 1fs"])
def test_times_are_in_ps_with_any_unit_of_the_design(tmp_path: Path, unit: str) -> None:
    """The times of beats, of the end, and of the reset in the middle are compared with each other."""
    design = adapter(tmp_path, f"`timescale {unit}\n")
    run = simulation(tmp_path, design).run(SCRIPT, {"seed": 3, "reset_at": 40}, tmp_path / "run")
    assert run.time == (2 * run.cycles - 1) * HALF and 40 * 2 * HALF < run.reset_time < 60 * 2 * HALF
    beats = Beats(design, run)
    assert beats.times["client"] and all(time // HALF % 2 and time % HALF == 0 for time in beats.times["client"])
    assert run.reset_time < min(beats.times["client"]) and max(beats.times["client"]) < run.time


def test_the_bench_prints_whole_numbers_as_times(tmp_path: Path) -> None:
    """A real number as a time takes a fifth of a simulation in Verilator."""
    text = Bench(adapter(tmp_path), True, False, False).text()
    assert text.count('$fwrite(times, "%0d\\n", $time)') == text.count("$fwrite(times, ") == 5
    assert "module tl_verify_monitor" in text and "tl_trace_monitor #" not in text


def test_a_run_has_a_limit_of_processor_time(tmp_path: Path) -> None:
    design = adapter(tmp_path, tail="    reg turns = 0;\n    initial begin #300000; while (1) turns = !turns; end\n")
    made = simulation(tmp_path, design)
    with pytest.raises(EndlessError, match="did not end a run within 1 processor seconds"):
        made.run(SCRIPT, {"seed": 3}, tmp_path / "run", processor=1)


@pytest.mark.parametrize("simulator, name", [("icarus", "iverilog"), ("verilator", "verilator"), ("verilator", "make")])
def test_a_compiler_that_does_not_end(
    monkeypatch: pytest.MonkeyPatch, tmp_path: Path, simulator: str, name: str
) -> None:
    """It is ended, and the message names the simulator. `name` is the command that sleeps."""
    design = adapter(tmp_path)
    (tmp_path / "bin").mkdir()
    for command in ("verilator", name):
        tool = tmp_path / "bin" / command
        tool.write_text(f"#!/bin/sh\n{'exec sleep 100' if command == name else 'echo Verilator 5'}\n")
        tool.chmod(0o755)
    monkeypatch.setenv("PATH", f"{tmp_path / 'bin'}:{os.environ['PATH']}")
    monkeypatch.setattr(bench, "_WALL_SECONDS", 1)
    with pytest.raises(SimulatorError, match=f"{simulator} did not compile .* within 1 seconds") as caught:
        Simulation(design, simulator, tmp_path / "made", Bench(design, True, False, False))
    assert caught.value.status == 4


def test_a_limit_that_cannot_be_set_ends_no_run(monkeypatch: pytest.MonkeyPatch, tmp_path: Path) -> None:
    """A user's own limit may be lower, and then it stays."""

    def refuse(*_: object) -> None:
        raise ValueError("not allowed to raise maximum limit")

    made = simulation(tmp_path, adapter(tmp_path))
    monkeypatch.setattr("resource.prlimit", refuse)
    assert not made.run(SCRIPT, {"seed": 3}, tmp_path / "run").hang


def test_the_beats_of_a_channel_and_the_near_ones_of_both_links(tmp_path: Path) -> None:
    for side, said in (("client", CLIENT), ("manager", MANAGER)):
        pairs = [line.partition(" ") for line in said.splitlines()]
        (tmp_path / f"{side}.beats").write_text("".join(f"{line}\n" for _, _, line in pairs))
        (tmp_path / f"{side}.beats.times").write_text("".join(f"{time}\n" for time, _, _ in pairs))
    beats = Beats(adapter(tmp_path), Run(tmp_path, ""))
    assert beats.of("client", "A") == ["A 4 a", "A 4 c"] and beats.times_of("client", "A") == [10, 30]
    assert beats.of("manager", "B") == ["B 6 f"] and not beats.of("manager", "C") and not beats.times_of("client", "B")
    assert beats.near() == ["A 4 a", "A 4 c", "E 5", "B 6 f", "D 1 g", "C 7 d"]
