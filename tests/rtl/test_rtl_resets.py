"""rtl/ with resets of either side in mid-run, with one clock, and with a table of outstanding requests: a quick
simulation of each, and planted bugs.

The bench is resets_bench.sv: the watch and the checkers are its judges. Also here: values of parameters that have to
be refused, the netlist without initial values in gate-level simulation, and the statements about OpenTitan's bus
integrity in tl_bridge_structs.
"""

import re
import shutil
import subprocess
from pathlib import Path
from typing import Dict, List, NamedTuple, Tuple

import pytest
from project import RTL, ROOT, SV, needs_tools

pytestmark = pytest.mark.simulator
BENCH = Path(__file__).parent / "resets_bench.sv"
SECONDS = 3600
FAULT = re.compile(r"ERROR|%Error|Stopped|Unknown|InReset")
FILES = sorted(path.name for path in RTL.glob("tl_*.sv") if not path.name.startswith("tl_bridge_"))


class Config(NamedTuple):
    """Parameters of the bench, and the least numbers of far beats and resets that a run of 3,000 cycles has."""

    name: str
    values: Dict[str, int]
    beats: int = 1000
    resets: int = 15


CONFIGS = (
    Config("4:2 two sides", {}),
    Config("2:4 two sides", {"CLIENT_BYTES": 2, "MANAGER_BYTES": 4}),
    Config("4:2 table of 2", {"MAX_OUTSTANDING": 2}),
    Config("2:4 table of 3", {"CLIENT_BYTES": 2, "MANAGER_BYTES": 4, "MAX_OUTSTANDING": 3}),
    Config("4:2 one clock", {"ASYNC": 0}),
    Config("2:4 one clock, table of 2", {"CLIENT_BYTES": 2, "MANAGER_BYTES": 4, "ASYNC": 0, "MAX_OUTSTANDING": 2}),
    Config("4:2 no FIFO, table of 2", {"ASYNC": 0, "FIFO_DEPTH": 0, "MAX_OUTSTANDING": 2}),
)


class Bug(NamedTuple):
    """A change of one file that some configuration has to see."""

    name: str
    file: str
    old: str
    new: str
    config: int


BUGS = (
    Bug(
        "one side reads the other's two bits exchanged",
        "tl_bridge.sv",
        ".other_asks(manager_asks), .other_agrees(manager_agrees)",
        ".other_asks(manager_agrees), .other_agrees(manager_asks)",
        0,
    ),
    Bug(
        "the gate ends its discarding at once",
        "tl_gate.sv",
        "else if (moves && last) discards <= 1'b0;",
        "else discards <= 1'b0;",
        0,
    ),
    Bug("the gate never discards", "tl_gate.sv", "discards <= !first;", "discards <= 1'b0;", 0),
    Bug(
        "a burst never counts down", "tl_burst.sv", "first ? after_first : left - 1'b1", "first ? after_first : left", 0
    ),
    Bug("a side never clears", "tl_reset.sv", "(clear || asked || (asks && agreed))", "1'b0", 0),
    Bug(
        "a reset clears nothing in the FIFO's reader",
        "tl_async_fifo.sv",
        "if (r_clear) {r_valid, r_index, r_gray} <= '0;\n        else begin",
        "begin",
        0,
    ),
    Bug("a request never becomes free", "tl_outstanding.sv", "(frees ? used & ~found : used)", "used", 2),
    Bug("each request takes the first entry", "tl_outstanding.sv", "~used & (used + 1'b1)", "MAX_OUTSTANDING'(1)", 2),
    Bug(
        "a request takes its entry with each beat that is offered",
        "tl_outstanding.sv",
        "wire takes = opens && a_ready &&",
        "wire takes = opens &&",
        2,
    ),
    Bug(
        "the lanes of the wrong entry",
        "tl_outstanding.sv",
        "sources[i*SOURCE_BITS+:SOURCE_BITS] == d_source",
        "sources[i*SOURCE_BITS+:SOURCE_BITS] != d_source",
        2,
    ),
    Bug(
        "the FIFO of one clock is read while it is empty",
        "tl_fifo.sv",
        "assign r_valid = w_count != r_count;",
        "assign r_valid = w_count == r_count;",
        4,
    ),
    Bug(
        "one clock: the manager's reset resets nothing",
        "tl_bridge.sv",
        "client_clear  = client_reset || manager_reset;",
        "client_clear  = client_reset;",
        4,
    ),
)


def compiled(rtl: Path, values: Dict[str, int], folder: Path) -> List[str]:
    """Compiles the bench by Icarus and returns the command that runs it."""
    sets = [f"-Presets_bench.{name}={value}" for name, value in values.items()]
    files = [str(rtl / name) for name in FILES] + [
        str(SV / "tl_checker.sv"),
        str(SV / "tl_bridge_watch.sv"),
        str(BENCH),
    ]
    words = ["iverilog", "-g2012", "-s", "resets_bench", *sets, "-o", str(folder / "bench"), *files]
    done = subprocess.run(words, capture_output=True, text=True, timeout=SECONDS, check=False)
    assert done.returncode == 0, done.stdout + done.stderr
    return ["vvp", "-n", str(folder / "bench")]


def run(words: List[str]) -> Tuple[List[str], List[int]]:
    """Runs a bench. Returns its reports of faults, and the numbers of its last line: far beats, resets, watched
    messages.
    """
    done = subprocess.run(["nice", "-n", "15", *words], capture_output=True, text=True, timeout=SECONDS, check=False)
    said = done.stdout + done.stderr
    counts = re.findall(r"^done: (\d+) beats, (\d+) resets, (\d+) messages watched", said, re.M)
    faults = [line for line in said.splitlines() if FAULT.search(line)]
    if not counts:
        faults.append(f"no last line, status {done.returncode}: {said[-300:]}")
    return faults, [int(number) for number in counts[-1]] if counts else [0, 0, 0]


@pytest.mark.parametrize("config", CONFIGS, ids=[one.name for one in CONFIGS])
def test_resets_in_mid_run(config: Config, tmp_path: Path) -> None:
    needs_tools("iverilog", "vvp")
    faults, (beats, resets, watched) = run(compiled(RTL, {**config.values, "SEED": 3}, tmp_path))
    assert not faults, "\n".join(faults[:5])
    assert beats >= config.beats and resets >= config.resets and watched >= 10


@pytest.mark.gate
@pytest.mark.parametrize("bug", BUGS, ids=[one.name for one in BUGS])
def test_planted_bug_is_seen(bug: Bug, tmp_path: Path) -> None:
    needs_tools("iverilog", "vvp")
    rtl = tmp_path / "rtl"
    shutil.copytree(RTL, rtl)
    text = (rtl / bug.file).read_text()
    assert text.count(bug.old) == 1, f"the text of the bug is not once in {bug.file}"
    (rtl / bug.file).write_text(text.replace(bug.old, bug.new))
    for seed in (3, 4, 5):
        faults, _ = run(compiled(rtl, {**CONFIGS[bug.config].values, "SEED": seed}, tmp_path))
        if faults:
            return
    pytest.fail(f"not seen in 3 runs: {bug.name}")


@pytest.mark.long
@pytest.mark.parametrize("config", CONFIGS, ids=[one.name for one in CONFIGS])
def test_resets_in_mid_run_by_verilator(config: Config, tmp_path: Path) -> None:
    needs_tools("verilator")
    sets = [f"-G{name}={value}" for name, value in {**config.values, "CYCLES": 30000, "SEED": 9}.items()]
    files = [str(RTL / name) for name in FILES] + [
        str(SV / "tl_checker.sv"),
        str(SV / "tl_bridge_watch.sv"),
        str(BENCH),
    ]
    words = [
        "nice",
        "-n",
        "15",
        "verilator",
        "--binary",
        "--timing",
        "-Wno-fatal",
        "-Wno-lint",
        "-Wno-style",
        "--top-module",
        "resets_bench",
    ]
    words += ["--timescale", "1ns/1ps", "--Mdir", str(tmp_path / "built"), *sets, *files]
    done = subprocess.run(words, capture_output=True, text=True, timeout=SECONDS, check=False)
    assert done.returncode == 0, done.stderr[-2000:]
    faults, (beats, resets, watched) = run([str(tmp_path / "built" / "Vresets_bench"), "+verilator+error+limit+1000"])
    assert not faults, "\n".join(faults[:5])
    assert beats >= 10 * config.beats and resets >= 10 * config.resets and watched >= 100


# ---- gate-level simulation: a netlist has no initial values

GATES = """`timescale 1ns/1ps
module gates;
    reg client_clock = 0, manager_clock = 0, reset = 1, valid = 0;
    always #5 client_clock = !client_clock;
    always #7 manager_clock = !manager_clock;
    wire a_ready, d_valid, a_valid, d_ready;
    tl_bridge bridge (.client_clock(client_clock), .client_reset(reset), .manager_clock(manager_clock),
    .manager_reset(reset),
        .client_a_valid(valid), .client_a_ready(a_ready), .client_a_opcode(3'd4), .client_a_param(3'd0),
        .client_a_size(2'd1), .client_a_source(1'd0), .client_a_address(4'd2), .client_a_mask(2'd3),
        .client_a_data(16'd0), .client_a_corrupt(1'b0), .client_d_valid(d_valid), .client_d_ready(1'b1),
        .manager_a_valid(a_valid), .manager_a_ready(1'b1), .manager_d_valid(1'b0), .manager_d_ready(d_ready));
    integer known = 0, arrived = 0;
    initial begin
        if ($test$plusargs("deposit")) begin
DEPOSITS        end
        #400 reset = 0;
        #1000 valid = 1;
        #200 valid = 0;
        #400 $display("ready %b, valid %b, arrived %0d", {a_ready, d_ready}, {a_valid, d_valid}, arrived);
        $finish;
    end
    always @(posedge manager_clock) if (a_valid === 1'b1) arrived = arrived + 1;
endmodule
"""


def test_netlist_without_initial_values(tmp_path: Path) -> None:
    """Eight deposits make a netlist known, as docs/RTL.md says, and without them it stays unknown."""
    needs_tools("yosys", "iverilog", "vvp")
    files = " ".join(str(RTL / name) for name in FILES)
    sizes = {
        "CLIENT_BYTES": 2,
        "MANAGER_BYTES": 2,
        "ADDRESS_BITS": 4,
        "SIZE_BITS": 2,
        "SOURCE_BITS": 1,
        "SINK_BITS": 1,
        "FIFO_DEPTH": 2,
        "HAS_B_C_E": 0,
    }
    steps = [
        f"read_verilog -sv {files}",
        *(f"chparam -set {name} {value} tl_bridge" for name, value in sizes.items()),
        "hierarchy -check -top tl_bridge",
        *("proc", "setattr -unset init w:*", "flatten", "memory_map", "opt -fast", "techmap", "opt -fast"),
        *("setattr -unset init w:*", "rename -top tl_bridge", f"write_verilog -noattr {tmp_path}/netlist.v"),
    ]
    words = ["nice", "-n", "15", "yosys", "-q", "-p", "; ".join(steps)]
    done = subprocess.run(words, capture_output=True, text=True, timeout=SECONDS, check=False)
    assert done.returncode == 0, done.stdout + done.stderr
    values = {"asks": 1, "agrees": 0, "waits": 0, "clear": 1}
    deposits = "".join(
        f"            bridge.\\two_clocks.{side}_side.{name} = 1'b{value};\n"
        for side in ("client", "manager")
        for name, value in values.items()
    )
    (tmp_path / "gates.sv").write_text(GATES.replace("DEPOSITS", deposits))
    words = [
        "iverilog",
        "-g2012",
        "-s",
        "gates",
        "-o",
        str(tmp_path / "gates"),
        str(tmp_path / "netlist.v"),
        str(tmp_path / "gates.sv"),
    ]
    done = subprocess.run(words, capture_output=True, text=True, timeout=SECONDS, check=False)
    assert done.returncode == 0, done.stdout + done.stderr
    said = [
        subprocess.run(
            ["vvp", "-n", str(tmp_path / "gates"), *more], capture_output=True, text=True, check=False
        ).stdout
        for more in (("+nothing",), ("+deposit",))
    ]
    assert "ready xx" in said[0], said[0]
    assert re.search(r"ready 11, valid 00, arrived [1-9]", said[1]), said[1]


# ---- values of parameters that two tools would understand in two ways


@pytest.mark.parametrize("name", ["ASYNC", "HAS_B_C_E", "ALLOW_SAME_CYCLE_RESPONSE"])
@pytest.mark.parametrize("top", ["tl_bridge", "tl_bridge_rocket", "tl_bridge_structs"])
def test_only_0_and_1(top: str, name: str, tmp_path: Path) -> None:
    """Each tool refuses 2, -1 and 3 with the parameter's name: in a parameter of one bit, Icarus kept 2 as two clocks,
    and yosys took its lowest bit.
    """
    needs_tools("iverilog")
    if top == "tl_bridge_structs" and name == "HAS_B_C_E":
        pytest.skip("tl_bridge_structs has no such parameter")
    files = [str(path) for path in sorted(RTL.glob("tl_*.sv"))]
    for value, allowed in ((2, False), (-1, False), (3, False), (1, True), (0, True)):
        words = ["iverilog", "-g2012", "-s", top, f"-P{top}.{name}={value}", "-o", str(tmp_path / "out"), *files]
        icarus = subprocess.run(words, capture_output=True, text=True, check=False)
        assert (icarus.returncode == 0) == allowed, f"{name} = {value}: {icarus.stderr}"
        if not allowed:
            assert f"{name}_must_be_0_or_1" in icarus.stdout + icarus.stderr
    if shutil.which("yosys"):
        steps = (f"read_verilog -sv {' '.join(files)}", f"chparam -set {name} 2 {top}", f"hierarchy -check -top {top}")
        yosys = subprocess.run(["yosys", "-q", "-p", "; ".join(steps)], capture_output=True, text=True, check=False)
        assert yosys.returncode and f"{name}_must_be_0_or_1" in yosys.stdout + yosys.stderr
    if shutil.which("verilator"):
        words = ["verilator", "--lint-only", f"-G{name}=2", "--top-module", top, *files]
        verilator = subprocess.run(words, capture_output=True, text=True, check=False)
        assert verilator.returncode and f"{name}_must_be_0_or_1" in verilator.stderr


# ---- what the pages and heads say


def test_heads_say_what_is_proved() -> None:
    """The first comment of the bridge and of both wrappers names the page that says what is tested and what is
    proved.
    """
    for name in ("tl_bridge.sv", "tl_bridge_rocket.sv", "tl_bridge_structs.sv"):
        head = (RTL / name).read_text().partition("module ")[0]
        assert "docs/RTL_PROOFS.md" in head, name


def test_structs_say_that_bus_integrity_is_lost() -> None:
    head = (RTL / "tl_bridge_structs.sv").read_text().partition("module ")[0]
    assert "bus integrity" in head and "burst" in head
    page = (ROOT / "docs" / "RTL.md").read_text()
    assert "bus integrity" in page
