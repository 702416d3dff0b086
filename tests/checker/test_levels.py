"""The conformance level of sv/tl_checker.sv, in Icarus, in Verilator and in a proof.

A checker of the level UL or UH has to report the faults of one of the level C, and in addition 24, 25 or 26 at the
first beat of each message that its level does not have. The rule is stated here by the names of the messages
(TileLink: protocol conformance levels).
"""

import random
import re
import subprocess
from dataclasses import dataclass, field, replace
from pathlib import Path
from typing import Dict, List, Optional, Tuple

import pytest
from commands import BRIEF
from once import made_once
from project import ROOT, SV, needs_tools
from tlbridge import levels
from tlbridge.protocol import CARRIES_DATA, CHANNELS, OPCODES, RESPONSES

BENCH = ROOT / "tests" / "checker" / "levels.sv"
CHECKER = SV / "tl_checker.sv"
LIMIT = 900  # seconds, of one run of a tool; Verilator compiles for minutes on a busy machine
UL = ("PutFullData", "PutPartialData", "Get", "AccessAck", "AccessAckData")
UH = (*UL, "ArithmeticData", "LogicalData", "Intent", "HintAck")
OF_LEVEL = {"UL": UL, "UH": UH}
CHANNEL, OPCODE, BURST = 24, 25, 26
pytestmark = pytest.mark.simulator
# Verilator takes minutes to compile the bench for each setting.
SYSTEMS = ("icarus", pytest.param("verilator", marks=pytest.mark.long))


@dataclass(frozen=True)
class Beat:
    opcode: int = 0
    param: int = 0
    size: int = 0
    source: int = 0
    address: int = 0
    mask: int = 0
    corrupt: int = 0


Cycle = Dict[str, Beat]


def request(name: str, size: int, width: int, source: int = 0, address: int = 0, param: int = 0) -> Beat:
    """A beat of A or B with the right mask."""
    opcode = next(opcode for channel in "AB" for opcode, kind in OPCODES[channel].items() if kind.name == name)
    active = sum(1 << (address + i) % width for i in range(min(1 << size, width)))
    return Beat(opcode, param, size, source, address, active)


def response(name: str, size: int, source: int = 0) -> Beat:
    opcode = next(opcode for opcode, kind in OPCODES["D"].items() if kind.name == name)
    return Beat(opcode, 0, size, source)


def level_fault(level: str, channel: str, beat: Beat, width: int) -> int:
    """The fault of a first beat that has no other one."""
    if level == "C":
        return 0
    if channel in "BCE":
        return CHANNEL
    if OPCODES[channel][beat.opcode].name not in OF_LEVEL[level]:
        return OPCODE
    return BURST if level == "UL" and 1 << beat.size > width else 0


@dataclass
class Model:
    """Which of the accepted beats begin a message. `faults` of a cycle are those of the checker of level C, which
    does not resynchronise.
    """

    width: int
    left: Dict[str, int] = field(default_factory=lambda: dict.fromkeys(CHANNELS, 0))

    def expected(self, cycle: Cycle, faults: Dict[str, int], level: str) -> Dict[str, int]:
        return {
            channel: faults[channel]
            or (0 if channel not in cycle or self.left[channel] else level_fault(level, channel, beat, self.width))
            for channel in CHANNELS
            for beat in [cycle.get(channel, Beat())]
        }

    def step(self, cycle: Cycle, faults: Dict[str, int]) -> None:
        for channel, beat in cycle.items():
            if faults[channel] or channel == "E":
                continue
            beats = max((1 << beat.size) // self.width, 1) if beat.opcode in CARRIES_DATA[channel] else 1
            self.left[channel] = (self.left[channel] or beats) - 1


def lines_of(cycles: List[Optional[Cycle]]) -> str:
    """The file for levels.sv; None is a cycle of reset."""
    lines = []
    for cycle in cycles:
        beats = cycle or {}
        words = ["1" if cycle is None else "0", f"{sum(1 << CHANNELS.index(channel) for channel in beats):x}"]
        for channel in "ABCD":
            beat = beats.get(channel, Beat(5, 6, 3, 1, 8, 3, 1))
            words += [f"{value:x}" for value in vars(beat).values()]
        lines.append(" ".join(words))
    return "\n".join([*lines, "?"]) + "\n"


@dataclass
class Bench:
    """levels.sv in one simulator, compiled once for each setting."""

    system: str
    room: Path
    factory: pytest.TempPathFactory

    def command(self, width: int, resync: int, reports: int) -> List[str]:
        values = {"DATA_BYTES": width, "RESYNC_AFTER_FAULT": resync, "MAX_REPORTS": reports}

        def make(folder: Path) -> None:
            if self.system == "icarus":
                words = ["iverilog", "-g2012", "-s", "levels", "-o", str(folder / "bench")]
                words += [f"-Plevels.{name}={value}" for name, value in values.items()]
            else:
                words = ["verilator", "--binary", "--timing", "--assert", "-j", "2", "-Wno-fatal", "-Wno-lint"]
                words += ["--top-module", "levels", "--Mdir", str(folder), "-o", "bench", "-MAKEFLAGS", BRIEF]
                words += [f"-G{name}={value}" for name, value in values.items()]
            done = subprocess.run([*words, str(CHECKER), str(BENCH)], capture_output=True, text=True, timeout=LIMIT)
            assert done.returncode == 0, done.stderr

        bench = made_once(self.factory, f"levels_{self.system}_{width}_{resync}_{reports}", make) / "bench"
        return ["vvp", "-n", str(bench)] if self.system == "icarus" else [str(bench), "+verilator+error+limit+100000"]

    def run(self, cycles: List[Optional[Cycle]], width: int = 8, resync: int = 1, reports: int = 0) -> "Ran":
        path = self.room / "cycles"
        path.write_text(lines_of(cycles))
        words = [*self.command(width, resync, reports), f"+cycles={path}"]
        done = subprocess.run(words, capture_output=True, text=True, timeout=LIMIT)
        rows = [list(map(int, line[2:].split())) for line in done.stdout.splitlines() if line.startswith("= ")]
        assert len(rows) == len(cycles), done.stdout[-2000:] + done.stderr[-2000:]
        said = re.findall(r": \d+: \S*check_(\w+)\.\S*?: (.*)", done.stdout + done.stderr)
        return Ran(rows, said)


@dataclass
class Ran:
    """The numbers that levels.sv printed, and the reports: the level and the text."""

    rows: List[List[int]]
    said: List[Tuple[str, str]]

    def faults(self, at: int, level: str) -> Dict[str, int]:
        first = 5 * ("UL", "UH", "C").index(level)
        return dict(zip(CHANNELS, self.rows[at][first : first + 5]))

    def count(self, level: str) -> int:
        return self.rows[-1][15 + ("UL", "UH", "C").index(level)]


@pytest.fixture(scope="module", params=SYSTEMS)
def bench(request: pytest.FixtureRequest, tmp_path_factory: pytest.TempPathFactory) -> Bench:
    needs_tools(*(("iverilog", "vvp") if request.param == "icarus" else ("verilator", "g++", "make")))
    return Bench(request.param, tmp_path_factory.mktemp("levels"), tmp_path_factory)


def every_message(width: int) -> List[Cycle]:
    """For each opcode of each channel the first beat of a message of one beat, and on A and D of one that is wider
    than the bus.
    """
    cycles: List[Cycle] = []
    source = 0
    for name, answers in list(RESPONSES.items())[:8]:
        for size in (0, 2, 4):
            for answer in answers:
                beat = request(name, size, width, source=source)
                beats = max((1 << size) // width, 1) if beat.opcode in CARRIES_DATA["A"] else 1
                cycles += [{"A": beat}] * beats
                back = response(answer, size, source)
                beats = max((1 << size) // width, 1) if back.opcode in CARRIES_DATA["D"] else 1
                cycles += [{"D": back}] * beats
                source += 1
    cycles += [{"B": request(kind.name, 0, width)} for kind in OPCODES["B"].values()]
    cycles += [{"C": Beat(opcode)} for opcode in OPCODES["C"]] + [{"D": Beat(6)}, {"E": Beat()}]
    return cycles


def test_each_message(bench: Bench) -> None:
    """Each message of TileLink has a fault at each level that does not have it, and no other fault."""
    for width in (4, 8):
        cycles = every_message(width)
        ran = bench.run([None, *cycles], width)
        model, seen = Model(width), set()
        for at, cycle in enumerate(cycles, 1):
            assert not any(ran.faults(at, "C").values()), (at, cycle)
            for level in ("UL", "UH"):
                wanted = model.expected(cycle, ran.faults(at, "C"), level)
                assert ran.faults(at, level) == wanted, (width, level, cycle)
                seen |= {(level, fault) for fault in wanted.values()}
            model.step(cycle, ran.faults(at, "C"))
        assert seen >= {("UL", CHANNEL), ("UL", OPCODE), ("UL", BURST), ("UH", CHANNEL), ("UH", OPCODE)}
        assert ("UH", BURST) not in seen


def test_once_for_each_message(bench: Bench) -> None:
    """A burst that TL-UL does not have is one fault, its response is answered as any other, and channel B's burst is
    one fault.
    """
    put, ack = request("PutFullData", 5, 8), response("AccessAck", 5)
    probe = request("PutFullData", 4, 8)
    cycles: List[Optional[Cycle]] = [None, *[{"A": put}] * 4, {"D": ack}, {"B": probe}, {"B": probe}, {"A": put}]
    ran = bench.run(cycles)
    found = [{name: fault for name, fault in ran.faults(at, "UL").items() if fault} for at in range(1, len(cycles))]
    assert found == [{"A": BURST}, {}, {}, {}, {"D": BURST}, {"B": CHANNEL}, {}, {"A": BURST}]
    assert (ran.count("UL"), ran.count("UH"), ran.count("C")) == (4, 1, 0)


def test_own_fault_first(bench: Bench) -> None:
    """A beat with another fault has that one, and begins no message."""
    beat = replace(request("ArithmeticData", 2, 8), param=5)
    ran = bench.run([None, {"A": beat}, {"A": replace(beat, param=4)}, {"A": request("Get", 4, 8, address=8)}])
    assert [ran.faults(at, "UL")["A"] for at in (1, 2, 3)] == [2, OPCODE, 4]


def test_reports(bench: Bench) -> None:
    """The words of each report."""
    cycles: List[Optional[Cycle]] = [
        None,
        {"A": request("Intent", 2, 8)},
        {"D": response("HintAck", 2)},
        {"A": request("Get", 4, 8)},
        {"E": Beat()},
        {"B": request("Get", 2, 8)},
        {"A": request("AcquirePerm", 3, 8, source=1, param=1)},
    ]
    ran = bench.run(cycles, reports=20)
    ul = [text.partition(" (first")[0] for level, text in ran.said if level == "ul"]
    assert ul == [
        "A beat 0: fault 25 OpcodeNotInLevel: opcode is 5, expected 0, 1 or 4 at level TL-UL",
        "D beat 0: fault 25 OpcodeNotInLevel: opcode is 2, expected 0 or 1 at level TL-UL",
        "A beat 1: fault 26 BurstNotInLevel: size is 4, expected at most 3 at level TL-UL",
        "E beat 0: fault 24 ChannelNotInLevel: channel is E, expected A or D at level TL-UL",
        "B beat 0: fault 24 ChannelNotInLevel: channel is B, expected A or D at level TL-UL",
        "A beat 2: fault 25 OpcodeNotInLevel: opcode is 7, expected 0, 1 or 4 at level TL-UL",
    ]
    uh = [text.partition(" (first")[0] for level, text in ran.said if level == "uh"]
    assert uh == [
        "E beat 0: fault 24 ChannelNotInLevel: channel is E, expected A or D at level TL-UH",
        "B beat 0: fault 24 ChannelNotInLevel: channel is B, expected A or D at level TL-UH",
        "A beat 2: fault 25 OpcodeNotInLevel: opcode is 7, expected 0 to 5 at level TL-UH",
    ]
    assert not [text for level, text in ran.said if level == "c"]


def random_cycles(chance: random.Random, width: int, many: int) -> List[Optional[Cycle]]:
    """Beats of which about half are legal: the next one of the burst that is open, or a new message, sometimes with
    one field changed.
    """
    cycles: List[Optional[Cycle]] = [None]
    last: Cycle = {}
    for _ in range(many):
        if chance.random() < 0.005:
            cycles.append(None)
            last = {}
            continue
        cycle: Cycle = {}
        for channel in CHANNELS:
            if chance.random() < 0.5:
                continue
            if channel in last and chance.random() < 0.6:
                cycle[channel] = last[channel]
                continue
            size = chance.choice((0, 1, 2, 3, 4, 5, 5))
            address = chance.randrange(64) >> size << size
            active = sum(1 << (address + i) % width for i in range(min(1 << size, width)))
            beat = Beat(
                chance.randrange(8), chance.choice((0, 0, 0, 1, 2, 5)), size, chance.randrange(3), address, active
            )
            if chance.random() < 0.15:
                name, most = chance.choice((("mask", 1 << width), ("corrupt", 2), ("address", 64), ("size", 16)))
                beat = replace(beat, **{name: chance.randrange(most)})
            cycle[channel] = beat
        last.update(cycle)
        cycles.append(cycle)
    return cycles


@pytest.mark.parametrize("seed", range(3))
def test_random(bench: Bench, seed: int) -> None:
    """The faults of levels UL and UH are those of level C, and those of the level at the first beats of other
    messages.
    """
    width = (4, 8, 1)[seed]
    cycles = random_cycles(random.Random(seed), width, 3000)
    ran = bench.run(cycles, width, resync=0)
    model, counts = Model(width), {"UL": 0, "UH": 0}
    seen: Dict[Tuple[str, int], int] = {}
    for at, cycle in enumerate(cycles):
        if cycle is None:
            model = Model(width)
            continue
        faults = ran.faults(at, "C")
        for level in counts:
            wanted = model.expected(cycle, faults, level)
            assert ran.faults(at, level) == wanted, (at, level, cycle)
            for fault in wanted.values():
                seen[level, fault] = seen.get((level, fault), 0) + 1
        model.step(cycle, faults)
    for level, fault in (("UL", CHANNEL), ("UL", OPCODE), ("UL", BURST), ("UH", CHANNEL), ("UH", OPCODE), ("UL", 0)):
        assert seen[level, fault] > 10, seen


def test_bad_level() -> None:
    """A level that there is not is refused."""
    needs_tools("verilator")
    words = ["verilator", "--lint-only", "--top-module", "tl_checker", '-GLEVEL="U"', str(CHECKER)]
    done = subprocess.run(words, capture_output=True, text=True, timeout=LIMIT)
    assert done.returncode != 0 and 'LEVEL is "UL", "UH" or "C"' in done.stderr


def test_table() -> None:
    """The table of the Python tools has the rule of this file, for each message."""
    for channel in CHANNELS:
        for opcode in OPCODES[channel] if channel != "E" else (0,):
            for size in range(5):
                for level in ("UL", "UH", "C"):
                    fault = level_fault(level, channel, Beat(opcode, size=size), 4)
                    found = levels.fault_of(level.lower(), channel, opcode, size, 4)
                    assert (found.number if found else 0) == fault, (level, channel, opcode, size)


# ---- in a proof

TOP = """module top(
    input logic clock, input logic [4:0] valid, input logic [2:0] a_opcode, b_opcode, c_opcode, d_opcode,
    input logic [3:0] a_size, d_size, input logic a_source, d_source, input logic [3:0] a_mask);
    logic reset = 1'b1;
    always_ff @(posedge clock) reset <= 1'b0;
    localparam [4:0] ALLOWED = 5'bCHANNELS;
`define HEAD(x, i, z, s) .x``_valid(valid[i] && ALLOWED[i]), .x``_ready(1'b1), .x``_opcode(x``_opcode), .x``_size(z), \\
        .x``_source(s), .x``_corrupt(1'b0)
`define CHECKER(name, level, assumed) \\
    tl_checker #(.DATA_BYTES(4), .ADDRESS_BITS(5), .SOURCE_BITS(1), .SINK_BITS(1), .MAX_OUTSTANDING(2), \\
        .LEVEL(level), .ASSUME_CLIENT(assumed), .ASSUME_MANAGER(assumed)) name (.clock(clock), .reset(reset), \\
        `HEAD(a, 0, a_size, a_source), .a_param(3'd0), .a_address(5'd0), .a_mask(a_mask), \\
        `HEAD(b, 1, 4'd2, 1'b0), .b_param(3'd0), .b_address(5'd0), .b_mask(4'd15), \\
        `HEAD(c, 2, 4'd2, 1'b0), .c_param(3'd0), .c_address(5'd0), \\
        `HEAD(d, 3, d_size, d_source), .d_param(2'd0), .d_sink(1'b0), .d_denied(1'b0), \\
        .e_valid(valid[4] && ALLOWED[4]), .e_ready(1'b1), .e_sink(1'b0))
    `CHECKER(check, "UL", 1'b0);
    `CHECKER(keeps, "ASSUMED", 1'b1);
endmodule
"""


def proved(room: Path, channels: str, assumed: str) -> str:
    """Returns the first line of sv/prove for a checker of level UL, on channels that keep the rules of the level
    `assumed` by assumption.
    """
    (room / "top.sv").write_text(TOP.replace("CHANNELS", channels, 1).replace("ASSUMED", assumed))
    words = ["sh", str(SV / "prove"), "top", "4", str(room / "top.sv"), str(CHECKER)]
    done = subprocess.run(words, capture_output=True, text=True, timeout=LIMIT)
    assert done.returncode in (0, 1), done.stderr
    return done.stdout.splitlines()[0]


@pytest.mark.parametrize("channels", ("11111", "00001"))
def test_proof_holds(tmp_path: Path, channels: str) -> None:
    """If both sides keep the rules of TL-UL by assumption, a checker of TL-UL sees no fault."""
    needs_tools("yosys", "yosys-abc")
    assert re.fullmatch(r"no assertion of \d+ fails in 4 cycles", proved(tmp_path, channels, "UL"))


@pytest.mark.parametrize(
    "channels, assumed, labels",
    (
        ("00001", "C", ("a.OpcodeNotInLevel", "a.BurstNotInLevel")),
        ("00001", "UH", ("a.OpcodeNotInLevel", "a.BurstNotInLevel")),
        ("00010", "C", ("b.ChannelNotInLevel",)),
        ("00100", "C", ("c.ChannelNotInLevel",)),
        ("10000", "C", ("e.ChannelNotInLevel",)),
        ("10000", "UH", ()),
    ),
)
def test_proof_fails(tmp_path: Path, channels: str, assumed: str, labels: Tuple[str, ...]) -> None:
    """If they keep those of a higher level, an assertion of the level fails; a channel that neither level has stays
    silent.
    """
    needs_tools("yosys", "yosys-abc")
    first = proved(tmp_path, channels, assumed)
    if labels:
        assert any(f"{label}_asserted" in first for label in labels), first
    else:
        assert first.startswith("no assertion"), first
