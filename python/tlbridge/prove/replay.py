"""Plays a counterexample in Icarus: a waveform, the beats of both links, and the watch's own report as a second
opinion.
"""
from __future__ import annotations

import re
from dataclasses import dataclass
from pathlib import Path
from typing import Dict, List, Sequence, Tuple

from ..verify.design import Source
from .harness import TOP, Harness
from .tools import run_tool

SECONDS = 3600.0
BENCH = """// Written by tlbridge-prove: the counterexample, one step of the proof every 10 ns.
module replay;
    reg clock = 0, client_clock = 0, manager_clock = 0, client_tick = 0, manager_tick = 0;
{declared}
    {top} proof ({joined});
    initial begin
        $dumpfile("counterexample.vcd");
        $dumpvars(0, proof);
{registers}{steps}        $finish;
    end
endmodule
"""


@dataclass(frozen=True)
class Replayed:
    """What Icarus showed. `reports` are the lines of the watch; `problem` says why there is no replay, if there is
    none.
    """

    reports: Tuple[str, ...]
    problem: str = ""


def first_value(name: str, value: int) -> str:
    """Returns a statement that gives a register its first value. An assignment needs a cast if the type of the register
    has a name, and Icarus has no $deposit of a word of a memory.
    """
    number = f"{value.bit_length() or 1}'h{value:x}"
    return f"proof.{name} = {number}" if name.endswith("]") else f"$deposit(proof.{name}, {number})"


def bench_of(harness: Harness, table: Sequence[Dict[str, int]], two_clocks: bool, with_registers: bool) -> str:
    """Returns the text of the bench: each row of the counterexample is one step."""
    declared = "".join(f"    reg [{bits - 1}:0] {name} = 0;\n" for name, bits in harness.inputs)
    clocks = ["clock", *(["client_clock", "manager_clock", "client_tick", "manager_tick"] if two_clocks else [])]
    joined = ", ".join(f".{name}({name})" for name in [*clocks, *(name for name, _ in harness.inputs)])
    registers = ""
    if with_registers and table:
        for name, value in table[0].items():
            if name.startswith("init dut."):
                registers += f"        {first_value(name[5:], value)};\n"
    steps: List[str] = []
    for number, values in enumerate(table):
        steps.append(f"        // step {number}\n")
        for name, bits in harness.inputs:
            steps.append(f"        {name} = {bits}'h{values.get(name, 0):x};\n")
        edges = ["clock"]
        if two_clocks:
            for side in ("client", "manager"):
                steps.append(f"        {side}_tick = {values.get(f'{side}_tick', 0)};\n")
                if values.get(f"{side}_tick"):
                    edges.append(f"{side}_clock")
        listed = ", ".join(edges)
        steps.append(f"        #5 {{{listed}}} = {{{len(edges)}{{1'b1}}}}; #5 {{{listed}}} = 0;\n")
    return BENCH.format(declared=declared, top=TOP, joined=joined, registers=registers, steps="".join(steps))


def replay(
    folder: Path,
    harness: Harness,
    table: Sequence[Dict[str, int]],
    words: Sequence[str],
    files: Sequence[Path],
    two_clocks: bool,
) -> Replayed:
    """Writes bench and waveform into `folder` and returns the reports. `words` are the design's files and options for
    Icarus.

    Registers of the design begin with the values of the counterexample if Icarus can reach them by name, otherwise
    with x.
    """
    problem = ""
    (folder / "timescale.sv").write_text("`timescale 1ns/1ps\n")
    for with_registers in (True, False):
        (folder / "replay.sv").write_text(bench_of(harness, table, two_clocks, with_registers))
        done = run_tool(
            [
                "iverilog",
                "-g2012",
                "-s",
                "replay",
                "-DREPLAY",
                "-o",
                "replay.vvp",
                "timescale.sv",
                *words,
                *map(str, files),
                "proof.sv",
                "replay.sv",
            ],
            SECONDS,
            folder,
        )
        if done.status == 0:
            break
        errors = [line for line in done.said.splitlines() if "error" in line] or done.said.splitlines()
        problem = f"Icarus cannot read the design: {errors[0][:300] if errors else 'it printed nothing'}"
    else:
        return Replayed((), problem)
    done = run_tool(["vvp", "-n", "replay.vvp"], SECONDS, folder)
    (folder / "replay.log").write_text(done.said)
    if done.status:
        return Replayed((), f"vvp ended with status {done.status}")
    reports = re.findall(r"(\d+): replay\.proof\.watch\.(\S+): (\w+)", done.said)
    return Replayed(
        tuple(f"{int(time)} {_name(place, word)}" for time, place, word in reports if not word.startswith("Sees"))
    )


def write_plain(source: Source, folder: Path) -> bool:
    """Writes `design.v`, the design in plain Verilog as yosys reads it, with the values of its parameters. Returns
    whether yosys did.
    """
    flags = "".join(f" -D{name}" for name in source.defines) + "".join(f" -I{path}" for path in source.includes)
    sets = "".join(f" -chparam {name} {value}" for name, value in source.parameters.items())
    steps = [
        f"read_verilog -sv -noassert -noassume -norestrict{flags} {' '.join(source.files)}",
        f"hierarchy -check -top {source.top}{sets}",
        "proc",
        "write_verilog -noattr design.v",
    ]
    done = run_tool(["yosys", "-q", "-p", "; ".join(steps)], SECONDS, folder)
    return done.status == 0 and (folder / "design.v").is_file()


def without_parameters(text: str, top: str) -> str:
    """Returns the harness of a design that has its parameters in it, as of `write_plain`."""
    return re.sub(rf"^    {top} #\(.*\) dut \($", f"    {top} dut (", text, flags=re.M)


def _name(place: str, word: str) -> str:
    """The name of an assertion as it is printed: `a.Data0`."""
    return f"{place.partition('.')[0]}.{word}"
