"""Writes the bench around a design, compiles it once, and runs it with a script, a seed and settings.

The bench has an agent (sv/tl_agent.sv), a monitor and a checker for each link. The same bench runs in Icarus and in
Verilator, and writes the same beats in both.
"""
from __future__ import annotations

import contextlib
import os
import re
import resource
import shlex
import shutil
import signal
import subprocess
import tempfile
from dataclasses import dataclass, field
from pathlib import Path
from typing import Dict, List, Mapping, Optional, Sequence, Set, Tuple

from ..protocol import CHANNELS, FIELDS, FROM_CLIENT
from .design import Design, DesignError
from .traffic import Message

Settings = Dict[str, int]
# The lowest bit of each field of a beat of an agent; data come after the mask.
_LOW = {
    "opcode": 0,
    "param": 3,
    "size": 6,
    "address": 14,
    "source": 78,
    "sink": 94,
    "denied": 110,
    "corrupt": 111,
    "mask": 115,
}
_ROOM = {"opcode": 3, "param": 3, "size": 8, "address": 64, "source": 16, "sink": 16, "denied": 1, "corrupt": 1}
IDLE_CYCLES = 2000  # without a beat: a hang
_END_CYCLES = 200  # without a beat after the last one: the end
_RUN_SECONDS = 120  # of processor time
_WALL_SECONDS = 3600  # of a run, or of one command of a compilation


class SimulatorError(DesignError):
    """A simulator is missing, cannot compile the bench, dies, or does not end."""

    def __init__(self, words: str, status: int = 4):
        super().__init__(words, status)


def sv_folder() -> Path:
    """Returns the folder of tl_agent.sv and tl_checker.sv: of this repository, or as `make install-files` puts them."""
    here = Path(__file__).resolve()
    for folder in (here.parents[3] / "sv", here.parents[3], here.parents[4] / "sv" if len(here.parents) > 4 else here):
        if (folder / "tl_agent.sv").exists() and (folder / "tl_checker.sv").exists():
            return folder
    raise DesignError("sv/tl_agent.sv was not found next to this program: run `make install-files` again")


def cache_folder() -> Path:
    """Returns the folder for Verilator's compiled runtime."""
    return Path(os.environ.get("XDG_CACHE_HOME") or Path.home() / ".cache") / "tlbridge" / "verilated"


def version_of(design: Design) -> int:
    """The version of the trace format that the beats of both links need."""
    links = design.links.values()
    return 2 if any(link.bits("source") > 8 or link.bits("sink") > 8 or link.width > 64 for link in links) else 1


def channels_of(design: Design, side: str, is_bridge: bool) -> str:
    """Returns the channels of a link that are played: those of both links of a bridge."""
    return design.channels if is_bridge else "".join(sorted(design.links[side].channels))


# ---- the text of the bench


def _monitor() -> str:
    """Returns sv/tl_trace_monitor.sv as a module of the bench, in which times are whole ps.

    Verilator takes ten times as long to print a time that may have a fraction.
    """
    text = (sv_folder() / "tl_trace_monitor.sv").read_text()
    text = text.replace("module tl_trace_monitor", "module tl_verify_monitor")
    return text.replace('"%0t\\n", $realtime', '"%0d\\n", $time')


class Bench:
    """The text of the bench of a design."""

    def __init__(self, design: Design, is_bridge: bool, one_clock: bool, is_memory: bool):
        self.design, self.is_bridge, self.is_memory = design, is_bridge, is_memory
        self.has_two = design.has_two_clocks and not one_clock
        self.sides = list(design.links)
        self.present = {side: channels_of(design, side, is_bridge) for side in self.sides}
        self.clock_of = {side: f"{side if self.has_two else self.sides[0]}_clock" for side in self.sides}
        self.lines: List[str] = []
        self.level = ""  # that the checkers judge by, if the user names one

    def say(self, text: str) -> None:
        self.lines.append(text)

    def text(self) -> str:
        """Returns the text of the bench, which does not change."""
        if not self.lines:
            self.write()
        return "\n".join(self.lines) + "\n"

    def write(self) -> None:
        self.say("// Written by tlbridge-verify.\n`timescale 1ps / 1ps\nmodule tl_verify_bench;")
        for side in sorted(set(self.clock_of.values())):
            name = side[: -len("_clock")]
            self.say(f"    reg {side} = 0; integer {name}_half, {name}_phase;")
        for side in self.sides:
            self.say(
                f"    reg {side}_reset = 1, {side}_hold = 1; wire [31:0] {side}_moves, {side}_faults; wire"
                f" {side}_works;"
            )
        for side in self.sides:
            self.link(side)
        self.dut()
        self.ticks()
        self.end()
        self.say("endmodule\n\n" + _monitor())

    def bits(self, side: str, channel: str, name: str) -> int:
        link = self.design.links[side]
        if name in ("mask", "data"):
            return link.width * (1 if name == "mask" else 8)
        if name in ("address", "size", "source", "sink"):
            return link.bits(name, 1)
        return 2 if name == "param" and channel == "D" else _ROOM[name]

    def is_used(self, side: str, channel: str, name: str) -> bool:
        """Whether a field is played and compared. Between two links it is if both have it."""
        if self.is_bridge:
            return self.design.has(channel, name)
        return self.design.links[side].has(channel, name)

    def is_sent(self, side: str, channel: str) -> bool:
        return (channel in FROM_CLIENT) == (side == "client")

    def link(self, side: str) -> None:
        link = self.design.links[side]
        vector = 115 + 9 * link.width
        names = ", ".join(f"{side}_{way}_{number}" for way in "sr" for number in range(5))
        self.say(f"    // ---- the {side} link, {link.name}")
        self.say(f"    wire [4:0] {side}_sv, {side}_sr, {side}_rv, {side}_rr; wire [{vector - 1}:0] {names};")
        for number, channel in enumerate(CHANNELS):
            self.channel(side, number, channel)
        present = sum(1 << number for number, channel in enumerate(CHANNELS) if channel in self.present[side])
        memory = int(self.is_memory and side == "manager")
        self.say(
            f"    tl_agent #(.MANAGER({int(side == 'manager')}), .MEMORY({memory}), .BYTES({link.width}),"
            f" .SOURCE_BITS({link.bits('source')}), .SINK_BITS({link.bits('sink', 1)}), .CHANNELS(5'd{present}))"
            f" {side} ("
        )
        beats = ", ".join(f".{way}_{number}({side}_{way}_{number})" for way in "sr" for number in range(5))
        other = next((f"{name}_reset" for name in self.sides if name != side), "1'b0")
        self.say(
            f"        .clock({self.clock_of[side]}), .reset({side}_hold), .other_reset({other}),"
            f" .s_valid({side}_sv), .s_ready({side}_sr), {beats},"
        )
        self.say(f"        .r_valid({side}_rv), .r_ready({side}_rr), .moves({side}_moves), .works({side}_works));")
        self.judges(side)

    def judges(self, side: str) -> None:
        link = self.design.links[side]
        ports = ", ".join(
            f".{channel.lower()}_{name}({side}_{channel.lower()}_{name})"
            for channel in CHANNELS
            for name in ("valid", "ready", *FIELDS[channel])
        )
        sizes = ", ".join(
            f".{word}_BITS({link.bits(name, 1)})"
            for word, name in (("ADDRESS", "address"), ("SIZE", "size"), ("SOURCE", "source"), ("SINK", "sink"))
        )
        offered = ", .RESPOND_TO_OFFERED(1)" if side == "client" else ""
        offered += f', .LEVEL("{self.level}")' if self.level else ""
        clock = f".clock({self.clock_of[side]}), .reset({side}_reset)"
        self.say(
            f'    tl_verify_monitor #(.FILE("{side}.beats"), .DATA_BYTES({link.width}), {sizes},'
            f" .VERSION({version_of(self.design)})) {side}_monitor ({clock}, {ports});"
        )
        self.say(
            f"    tl_checker #(.DATA_BYTES({link.width}), {sizes}, .MATCH_OPCODES(1), .MAX_REPORTS(3){offered}) "
            f"{side}_checker ({clock}, {ports},"
        )
        self.say(f"        .faults({side}_faults), .overflow(), .a_fault(), .b_fault(), .c_fault(), .d_fault());")

    def channel(self, side: str, number: int, channel: str) -> None:
        link = self.design.links[side]
        wire = f"{side}_{channel.lower()}"
        sends, present = self.is_sent(side, channel), channel in self.present[side]
        own, other = ("valid", "ready") if sends else ("ready", "valid")
        self.say(f"    wire {wire}_valid, {wire}_ready;")
        self.say(
            f"    assign {wire}_{own} = {f'{side}_{chr(115 if sends else 114)}{own[0]}[{number}]' if present else 0};"
        )
        if not present:
            self.say(f"    assign {wire}_{other} = 1'b0;")
        self.say(f"    assign {side}_sr[{number}] = {f'{wire}_ready' if sends else 1};")
        self.say(f"    assign {side}_rv[{number}] = {0 if sends else f'{wire}_valid'};")
        pieces: Dict[str, Tuple[str, int]] = {}
        for name in FIELDS[channel]:
            bits = self.bits(side, channel, name)
            low = _LOW[name] if name != "data" else 115 + link.width
            self.say(f"    wire [{bits - 1}:0] {wire}_{name};")
            used = self.is_used(side, channel, name)
            if sends:
                self.say(f"    assign {wire}_{name} = {f'{side}_s_{number}[{low}+:{bits}]' if used else 0};")
            elif not (present and link.has(channel, name)):
                self.say(f"    assign {wire}_{name} = 0;")
            if used:
                pieces[name] = (f"{wire}_{name}", bits)
        if sends:
            self.say(f"    assign {side}_r_{number} = 0;")
            return
        words = [pieces.get("data", (f"{8 * link.width}'d0", 0))[0]]
        for name, room in {"mask": link.width, **{n: _ROOM[n] for n in reversed(list(_ROOM))}}.items():
            have, bits = pieces.get(name, ("", 0))
            if name == "corrupt":
                words.append("3'd0")
            words += ([f"{room - bits}'d0"] if bits < room else []) + ([have] if bits else [])
        order = ", ".join(words)
        self.say(f"    assign {side}_r_{number} = {{{order}}};")

    def full_mask(self, side: str, channel: str) -> str:
        """The mask of a beat on a link without masks: all lanes of the message."""
        width, wire = self.design.links[side].width, f"{side}_{channel.lower()}"
        ones = f"{{{width}{{1'b1}}}}"
        few = f"((129'd1 << (8'd1 << {wire}_size)) - 129'd1) << ({wire}_address & {width - 1})"
        return f"(32'd1 << {wire}_size) >= {width} ? {ones} : {few}"

    def dut(self) -> None:
        self.say("    // ---- the design")
        design, connections, ticks = self.design, [], {}
        for side, link in design.links.items():
            ticks[link.clock] = self.clock_of[side]
            if link.reset:
                ticks[link.reset] = ("!" if link.reset_is_low else "") + f"{side}_reset"
        for name, port in design.ports.items():
            if name in ticks:
                connections.append(f".{name}({ticks[name]})")
            elif name in design.tied:
                connections.append(f".{name}({design.tied[name]})")
            else:
                self.say(f"    wire [{port.bits - 1}:0] port_{name};")
                connections.append(f".{name}(port_{name})")
        driven: Dict[str, Set[int]] = {}
        for side, link in design.links.items():
            for channel in link.channels:
                self.connect(side, channel, driven)
        for name, bits in driven.items():
            for bit in sorted(set(range(design.ports[name].bits)) - bits):
                self.say(f"    assign port_{name}[{bit}] = 1'b0;")
        given = ", ".join(f".{name}({value})" for name, value in design.source.parameters.items())
        self.say(f"    {design.source.top} {f'#({given}) ' if given else ''}dut (")
        self.say("        " + ",\n        ".join(connections) + ");")

    def connect(self, side: str, channel: str, driven: Dict[str, Set[int]]) -> None:
        for name, field_of in self.design.links[side].channels[channel].items():
            wire = f"{side}_{channel.lower()}_{name}"
            mine = 1 if name in ("valid", "ready") else self.bits(side, channel, name)
            place = f"port_{field_of.port}[{field_of.low}+:{field_of.bits}]"
            present = channel in self.present[side]
            if field_of.direction == "output":
                if not present:
                    continue
                bits = min(mine, field_of.bits)
                self.say(
                    f"    assign {wire}{f'[{bits - 1}:0]' if mine > 1 else ''} ="
                    f" port_{field_of.port}[{field_of.low}+:{bits}];"
                )
                if bits < mine:
                    self.say(f"    assign {wire}[{mine - 1}:{bits}] = 0;")
            else:
                self.say(f"    assign {place} = {wire};")
                driven.setdefault(field_of.port, set()).update(range(field_of.low, field_of.low + field_of.bits))

    def ticks(self) -> None:
        """Clocks, the reset at the beginning, and one in the middle of the run."""
        self.say("    // ---- clocks and resets")
        for clock in sorted(set(self.clock_of.values())):
            name = clock[: -len("_clock")]
            self.say(f'    initial begin if (!$value$plusargs("{name}_half=%d", {name}_half)) {name}_half = 5000;')
            self.say(
                f'        if (!$value$plusargs("{name}_phase=%d", {name}_phase)) {name}_phase = 0; #({name}_phase);'
            )
            self.say(f"        forever begin #({name}_half) {clock} = 1; #({name}_half) {clock} = 0; end end")
        cycles = 40 if self.has_two else 5
        first, last = self.clock_of[self.sides[0]], self.clock_of[self.sides[-1]]
        self.say("    integer reset_at, at_once;")
        self.say('    initial if (!$value$plusargs("reset_at=%d", reset_at)) reset_at = 0;')
        self.say('    initial if (!$value$plusargs("at_once=%d", at_once)) at_once = 0;  // no pause after a reset')
        for side in self.sides:
            clock = self.clock_of[side]
            wait = f"repeat ({cycles}) @(posedge {first}); repeat ({cycles}) @(posedge {last});"
            pause = f"if (at_once == 0) begin {wait} @(negedge {clock}); end"
            self.say(f"    initial begin {wait} @(negedge {clock}) {side}_reset = 0;")
            self.say(f'        {pause} {side}_hold = 0; $fwrite({side}.log, "9 %0d\\n", {side}.cycle);')
            self.say(
                f"        if (reset_at != 0) begin wait ({self.sides[0]}.cycle >= reset_at); @(negedge {clock})"
                f" {side}_reset = 1; {side}_hold = 1;"
            )
            self.say(f'        {wait} @(negedge {clock}) {side}_reset = 0; $display("VERIFY reset %0t", $time);')
            self.say(f"        {pause} {side}_hold = 0; end end")

    def end(self) -> None:
        self.say("    // ---- the end")
        first = self.sides[0]
        moves = " + ".join(f"{side}_moves" for side in self.sides)
        works = " || ".join(f"{side}_works || (|{side}_rv) === 1'b1" for side in self.sides)
        faults = " + ".join(f"{side}_faults" for side in self.sides)
        self.say("    reg [31:0] idle = 0, moved = 0, most_idle, end_idle;")
        self.say("    integer cycles = 0, most, stop, flood, faulty = 0;")
        self.say('    initial $timeformat(-12, 0, "", 0);  // ps, even if a file of the design has a finer unit')
        self.say(f'    initial begin if (!$value$plusargs("idle=%d", most_idle)) most_idle = {IDLE_CYCLES};')
        self.say(f'        if (!$value$plusargs("end=%d", end_idle)) end_idle = {_END_CYCLES};')
        self.say(
            '        if (!$value$plusargs("most=%d", most)) most = 0; if (!$value$plusargs("stop=%d", stop)) stop = 0;'
        )
        self.say('        if (!$value$plusargs("flood=%d", flood)) flood = 0;')
        self.say(
            '        if ($test$plusargs("vcd")) begin $dumpfile("waves.vcd"); $dumpvars(0, tl_verify_bench); end end'
        )
        self.say(f"    always @(posedge {self.clock_of[first]}) begin")
        self.say("        cycles = cycles + 1;")
        self.say(
            f"        if (stop != 0 && ({faults}) != 0) faulty = faulty + 1;  // a shrinking run ends soon after a rule"
            " is broken"
        )
        self.say(
            f"        if ({moves} != moved || {first}_hold) begin moved = {moves}; idle = 0; end else idle = idle + 1;"
        )
        self.say(
            "        if (idle > most_idle || (most != 0 && cycles > most) || (flood != 0 && moved > flood) ||"
            f" faulty > 40 || (idle > end_idle && !({works}))) begin"
        )
        self.say(
            f'            $display("VERIFY %0s %0t cycles %0d moves %0d", ({works}) && !(most != 0 && cycles > most) &&'
            ' !(flood != 0 && moved > flood) && faulty <= 40 ? "hang" : "end", $time, cycles, moved);'
        )
        for side in self.sides:
            for number, letter in enumerate(CHANNELS):
                if letter in self.present[side]:
                    wire = f"{side}_{letter.lower()}"
                    self.say(
                        f'            $display("VERIFY state {side} {letter} valid %b ready %b stalls %0d",'
                        f" {wire}_valid, {wire}_ready, {side}.stalls[{number}]);"
                    )
        self.say("            $finish; end")
        self.say("    end")


# ---- running it


@dataclass
class Run:
    """What a run left: its folder, and what the bench and the checkers reported. Times are in ps."""

    folder: Path
    output: str
    complaints: List[Tuple[int, str, str, str]] = field(default_factory=list)  # time, side, channel, words
    faults: List[Tuple[int, str, str, str]] = field(default_factory=list)  # of the checkers
    hang: str = ""
    time: int = 0
    cycles: int = 0
    reset_time: int = -1  # of the reset in the middle
    offers: bool = False  # at the end, the valid of a beat is 1
    stalls: Dict[Tuple[str, str], int] = field(default_factory=dict)


_FAULT = re.compile(r"(\d+): \S*?(client|manager)_checker\.\w: ([A-D]) beat \d+: (fault .*?) \(")


class OverTimeError(SimulatorError):
    """A run did not end within its seconds."""


class EndlessError(SimulatorError):
    """A run took more processor time than it may."""


class Cancel:
    """Ends compilations and runs that are no longer needed, with the processes that they started."""

    def __init__(self) -> None:
        self.processes: Set["subprocess.Popen[str]"] = set()
        self.is_set = False

    def set(self) -> None:
        self.is_set = True
        for process in list(self.processes):
            _end(process)


def _end(process: "subprocess.Popen[str]") -> None:
    """Ends a process and all that it started, which are a group."""
    if process.poll() is None:
        try:
            os.killpg(process.pid, signal.SIGTERM)
        except ProcessLookupError:
            pass


def _called(
    words: Sequence[str],
    folder: Optional[Path] = None,
    seconds: float = _WALL_SECONDS,
    cancel: Optional[Cancel] = None,
    is_nice: bool = False,
    processor: Optional[int] = None,
) -> "subprocess.CompletedProcess[str]":
    """Runs a command, as a group of processes. `processor` limits its processor seconds."""
    pipe = subprocess.PIPE
    try:
        process = subprocess.Popen(
            words,
            stdout=pipe,
            stderr=pipe,
            text=True,
            errors="replace",
            cwd=folder,
            start_new_session=True,
        )
    except FileNotFoundError:
        raise SimulatorError(
            f"{Path(words[0]).name} was not found: install it, or choose another --simulator"
        ) from None
    except OSError as error:
        raise SimulatorError(f"{Path(words[0]).name} cannot be started: {error.strerror}") from error
    with process:
        if processor is not None:  # a shell with ulimit would take a tenth of a short run
            with contextlib.suppress(OSError, ValueError):  # it has ended, or the user's own limit is lower
                resource.prlimit(process.pid, resource.RLIMIT_CPU, (processor, processor))
        if is_nice:
            with contextlib.suppress(OSError):
                os.setpriority(os.PRIO_PROCESS, process.pid, 4)
        if cancel is not None:
            cancel.processes.add(process)
            if cancel.is_set:
                cancel.set()
        try:
            out, err = process.communicate(timeout=seconds)
        except BaseException:
            _end(process)
            raise
        finally:
            if cancel is not None:
                cancel.processes.discard(process)
    return subprocess.CompletedProcess(words, process.returncode, out, err)


class Simulation:
    """A compiled bench. `run` plays a script through it."""

    def __init__(
        self,
        design: Design,
        simulator: str,
        room: Path,
        bench: Bench,
        extra: Sequence[Path] = (),
        plusargs: Sequence[str] = (),
        has_waves: bool = False,
        cancel: Optional[Cancel] = None,
    ):
        self.design, self.simulator, self.room = design, simulator, room
        self.has_two, self.plusargs = bench.has_two, list(plusargs)
        self._text, self._extra = bench, extra
        room.mkdir(parents=True, exist_ok=True)
        self.bench = room / "tl_verify_bench.sv"
        self.bench.write_text(bench.text())
        # the bench comes first, so that files without a timescale have its own
        names = ("tl_agent.sv", "tl_checker.sv")
        ours = [str(self.bench), *(str(sv_folder() / name) for name in names), *map(str, extra)]
        source = design.source.absolute()
        if simulator == "icarus":
            self.program = room / "simulation"
            self.compile_words = [
                "iverilog",
                "-g2012",
                "-s",
                "tl_verify_bench",
                "-o",
                str(self.program),
                *ours,
                *source.words("iverilog"),
            ]
            self._check(self._compiled(self.compile_words))
        else:
            self.program = room / "obj" / "Vtl_verify_bench"
            off = [f"-Wno-{name}" for name in ("fatal", "lint", "style", "MULTIDRIVEN", "UNOPTFLAT")]
            self.compile_words = [
                "verilator",
                "--cc",
                "--exe",
                "--main",
                "--timing",
                "-O3",
                "--top-module",
                "tl_verify_bench",
                *off,
            ]
            self.compile_words += [
                "--x-assign",
                "unique",
                "--x-initial",
                "unique",
                "-CFLAGS",
                "-O1",
                "--output-split",
                "60000",
                "--Mdir",
                str(room / "obj"),
            ]
            self.compile_words += [*(["--trace"] if has_waves else []), *ours, *source.words("verilator")]
            self._verilate(cancel)

    def with_waves(self, room: Path) -> "Simulation":
        """Returns the same bench, compiled so that it can write waves."""
        return Simulation(self.design, self.simulator, room, self._text, self._extra, self.plusargs, has_waves=True)

    def _verilate(self, cancel: Optional[Cancel]) -> None:
        self._check(self._compiled(self.compile_words, cancel), is_made=False)
        version = _called(["verilator", "--version"]).stdout.split()
        cache = cache_folder() / "-".join(version[1:2] or ["unknown"])
        for made in cache.glob("*.o"):  # its runtime takes half of the time, and is the same for every design
            shutil.copy(made, self.room / "obj")
        words = [
            "make",
            "-s",
            "-j",
            os.environ.get("JOBS", str(min(4, os.cpu_count() or 1))),
            "-C",
            str(self.room / "obj"),
            "-f",
            "Vtl_verify_bench.mk",
        ]
        self._check(self._compiled(words, cancel))
        if not cache.exists():
            self._keep(cache)

    def _compiled(self, words: Sequence[str], cancel: Optional[Cancel] = None) -> "subprocess.CompletedProcess[str]":
        """Runs a command of the compilation. In the background, it leaves the processors to the runs. Errors: it does
        not end."""
        try:
            return _called(words, seconds=_WALL_SECONDS, cancel=cancel, is_nice=cancel is not None)
        except subprocess.TimeoutExpired:
            raise SimulatorError(
                f"{self.simulator} did not compile the design and its bench within {_WALL_SECONDS:.0f} seconds: choose"
                " smaller parameters (-P), or another --simulator"
            ) from None

    def _keep(self, cache: Path) -> None:
        """Copies the runtime into the cache, which another process may do at the same time. Without a cache it is
        compiled again."""
        try:
            cache.parent.mkdir(parents=True, exist_ok=True)
            folder = Path(tempfile.mkdtemp(dir=cache.parent))
            for made in (self.room / "obj").glob("verilated*.o"):
                shutil.copy2(made, folder)
            os.rename(folder, cache)
        except OSError:
            pass

    def _check(self, done: "subprocess.CompletedProcess[str]", is_made: bool = True) -> None:
        said = done.stderr + done.stdout
        if not done.returncode and (not is_made or self.program.exists()):
            return
        first = next(
            (line for line in said.splitlines() if "rror" in line or "sorry" in line),
            said.strip()[:200] or "no message",
        )
        ours = "No space left" in said or "Killed" in said
        raise SimulatorError(
            f"{self.simulator} cannot compile the design and its bench: {first.strip()}", 4 if ours else 3
        )

    def flood(self, script: Sequence[Message]) -> int:
        """Returns a number of beats that a design cannot reach by this script, unless it repeats a beat for ever: five
        times what crosses both links. 0 if nothing is known of the number: a host, or a design that is no plain
        bridge."""
        if self.design.client is None or (self.design.manager is not None and not self._text.is_bridge):
            return 0
        narrow = min(link.width for link in self.design.links.values())
        return 1000 + 20 * sum([4 + (1 << message.size) // narrow for message in script])

    def words(self, script: Sequence[Message], settings: Mapping[str, int]) -> List[str]:
        """Returns the command that plays a script."""
        channels = [message.channel for message in script]
        start = ["vvp", "-n", str(self.program)]
        if self.simulator != "icarus":
            start = [str(self.program), "+verilator+error+limit+1000000", "+verilator+rand+reset+2"]
        counted = [f"+n{channel}={channels.count(channel)}" for channel in "ABC"]
        return (
            start
            + counted
            + [f"+flood={self.flood(script)}"]
            + [f"+{name}={value}" for name, value in settings.items()]
            + [f"+{word}" for word in self.plusargs]
        )

    def run(
        self,
        script: Sequence[Message],
        settings: Mapping[str, int],
        folder: Path,
        waves: bool = False,
        seconds: float = _WALL_SECONDS,
        cancel: Optional[Cancel] = None,
        processor: int = _RUN_SECONDS,
    ) -> Run:
        """Plays a script. Errors: the simulator dies, does not end within `seconds` or within its processor seconds, or
        the disk is full."""
        folder.mkdir(parents=True, exist_ok=True)
        for channel in "ABC":
            words = "".join([message.word() for message in script if message.channel == channel])
            (folder / f"{channel.lower()}.hex").write_text(words)
        command = self.words(script, settings) + (["+vcd"] if waves else [])
        try:
            done = _called(command, folder, min(seconds, _WALL_SECONDS), cancel, processor=processor)
        except subprocess.TimeoutExpired:
            raise OverTimeError(
                f"{self.simulator} did not end a run within {seconds:.0f} seconds, since this machine is slow or the"
                " design is large: --seconds gives it more"
            ) from None
        if done.returncode in (-signal.SIGXCPU, -signal.SIGKILL):
            raise EndlessError(
                f"{self.simulator} did not end a run within {processor} processor seconds: is there a combinational"
                " loop in the design?"
            )
        run = _read_output(folder, done.stdout + done.stderr)
        if not run.cycles:
            raise _died(self.simulator, done, run.output)
        return run


def _died(simulator: str, done: "subprocess.CompletedProcess[str]", said: str) -> SimulatorError:
    if "converge" in said:
        where = next((line for line in said.splitlines() if "converge" in line), "")
        return SimulatorError(f"the design has a combinational loop that does not settle: {where.strip()}", 3)
    if "No space left" in said:
        return SimulatorError("the disk is full: free some space, or set TMPDIR to another disk")
    lines = said.strip().splitlines()
    how = f"signal {-done.returncode}" if done.returncode < 0 else f"status {done.returncode}"
    fatal = next((line for line in lines if "atal" in line or "%Error" in line), lines[-1] if lines else "no message")
    return SimulatorError(f"{simulator} ended with {how} in the middle of a run: {fatal[:300]}")


def _read_output(folder: Path, output: str) -> Run:
    run = Run(folder, output)
    for line in output.splitlines():
        if not line.startswith("VERIFY"):
            found = _FAULT.search(line)
            if found:
                run.faults.append((int(found[1]), found[2], found[3], found[4]))
            continue
        word = line.split()
        if word[1] == "state":
            if word[9] != "0":
                run.stalls[word[2], word[3]] = int(word[9])
            run.offers |= word[5] != "0"
            if run.hang and word[5] != "0":
                run.hang += f" {word[2]} {word[3]} has valid {word[5]} and ready {word[7]},"
        elif word[1] in ("hang", "end"):
            run.time, run.cycles = int(word[2]), int(word[4])
            run.hang = "no beat moves:" if word[1] == "hang" else ""
        elif word[1] == "reset":
            run.reset_time = int(word[2]) if run.reset_time < 0 else run.reset_time
        else:
            run.complaints.append((int(word[1]), word[2], CHANNELS[int(word[3])], " ".join(word[4:])))
    return run


def repeat_text(simulation: Simulation, script: Sequence[Message], settings: Settings, out: Path) -> str:
    """Returns a shell script that compiles the bench and plays the script again in its own folder. It does not need
    this program."""

    def local(word: str) -> str:
        if word.startswith(str(simulation.bench)):
            return "./" + simulation.bench.name
        if word.startswith(str(simulation.room)):
            return "." + word[len(str(simulation.room)) :]
        for head in ("-I", ""):
            if word.startswith(head + "/") and Path(word[len(head) :]).exists():
                return head + os.path.relpath(word[len(head) :], out)
        return word

    words = (simulation.compile_words, simulation.words(script, settings))
    compiled, played = (" ".join(shlex.quote(local(word)) for word in command) for command in words)
    if simulation.simulator == "icarus":
        played += " +vcd"
    else:
        compiled += "\nmake -s -C obj -f Vtl_verify_bench.mk"
    head = (
        "#!/bin/sh\n# Compiles the bench and plays the shrunk script again, which writes client.beats and"
        " manager.beats.\nset -eu\n"
    )
    return f'{head}cd "$(dirname "$0")"\n{compiled}\n{played}\n'
