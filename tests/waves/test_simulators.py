"""tlbridge-trace over waveforms of simulators, compared with the monitor that is bound in the same run.

An adapter of five channels between two clocks, with the names of Rocket Chip, SpinalHDL, plain ones, plain ones in a
scope of their own, a
pattern and packed structs, a TL-UL crossing with OpenTitan's structs, and rtl/tl_bridge.sv are simulated under Icarus
and Verilator, as VCD and
as FST, and in Verilator with --trace-structs. Each is run twice, as it is and with a planted mistake. Each waveform has
to give the monitor's
lines and times. Its comparison has to end as sv/compare does over the monitor's files: alike without a mistake, and
with one at the same first
beat, which in Verilator the scoreboard also has to name. It judges by the plain bridge in C of tests/lib.

The expected beats come from the built program, or from the unverified model if it is not there. MEGABYTES is the size
of the large dump.
"""

import os
import re
import subprocess
import sys
import time
from pathlib import Path
from typing import Any, List, NamedTuple, Sequence, Tuple

import pytest
import wave_bench
from board_library import PLAIN_BRIDGE, SOURCES, compile_object
from commands import BRIEF, Word, run, said, succeed
from once import made_once
from planted import Change, Planted
from project import MODEL, ROOT, RTL, SV, built, needs_tools

pytestmark = pytest.mark.simulator

HERE = Path(__file__).resolve().parent
MONITOR, SCOREBOARD = SV / "tl_trace_monitor.sv", SV / "tlbridge_scoreboard.sv"
TOOL, COMPARE = ROOT / "tlbridge-trace", SV / "compare"
PROGRAM = built("tlbridge") if os.access(built("tlbridge"), os.X_OK) else MODEL
MEGABYTES = int(os.environ.get("MEGABYTES", "200"))
LEAST_SPEED, MOST_MEMORY = 20.0, 64.0  # megabytes a second of processor time, and megabytes
LONG_REQUESTS = 240_000  # half of them writes of 64 bytes: some 69 MiB of traces
Run = Tuple[str, str, str, str]
# Names, simulator, dump, and more words for Verilator.
NAMES = ("rocket", "spinal", "plain", "scope", "pattern", "struct", "opentitan", "bridge")
WITH_STRUCTS = ("plain", "struct", "opentitan", "bridge")
RUNS = (
    *(
        (names, simulator, dump, "")
        for simulator in ("icarus", "verilator")
        for names in NAMES
        for dump in ("vcd", "fst")
    ),
    *((names, "verilator", dump, "--trace-structs") for names in WITH_STRUCTS for dump in ("vcd", "fst")),
)
QUICK = (("rocket", "icarus", "vcd", ""), ("struct", "icarus", "vcd", ""))
RTL_BUG = Planted(
    "a response of part of a beat comes on the lowest lanes",
    changes=[Change("rtl/tl_widen.sv", "gathers ? next_slot : first_slot", "gathers ? next_slot : '0")],
)
PATTERN = (
    "--client-pattern",
    "top.dut.Slv{CHANNEL}__{FIELD}",
    "--manager-pattern",
    "top.dut.Mst{CHANNEL}__{FIELD}",
    "--field",
    "valid=vld",
    "--field",
    "ready=rdy",
    "--client-clock",
    "dut.s_clk",
    "--manager-clock",
    "dut.m_clk",
    "--client-reset",
    "dut.s_rst",
    "--manager-reset",
    "dut.m_rst",
)
LINKS = {
    "rocket": ("--client", "dut.auto_in", "--manager", "dut.auto_out"),
    "spinal": ("--client", "dut.io_up", "--manager", "dut.io_down"),
    "plain": ("--client", "dut.s", "--manager", "dut.m"),
    "scope": ("--client", "dut.up", "--manager", "dut.down"),
    "struct": ("--client", "dut.up_req+dut.up_rsp", "--manager", "dut.down_req+dut.down_rsp"),
    "opentitan": ("--client", "dut.tl_h", "--manager", "dut.tl_d"),
    "bridge": ("--client", "dut.client", "--manager", "dut.manager"),
    "pattern": PATTERN,
}
FIRST = re.compile(r"([A-E]): far beat (\d+)(?:, | of ).*?time (\d+)")


def links_of(names: str) -> List[str]:
    """The words by which tlbridge-trace finds the links of a convention."""
    structs = [word for fields in wave_bench.struct_words() for word in ("--struct", fields)]
    return [*LINKS[names], *(structs if names == "struct" else [])]


# ---- the simulations


def bridge_in(folder: Path, bug: int) -> List[Path]:
    """The files of rtl/, or of a copy with a mistake."""
    return sorted((RTL_BUG.plant(ROOT, folder) if bug else RTL).glob("tl_*.sv"))


def build_archive(folder: Path) -> None:
    """An archive of the scoreboard over the plain bridge in C."""
    objects = [compile_object(path, folder, ["8:4", "4:4"]) for path in (*SOURCES, PLAIN_BRIDGE)]
    succeed(["ar", "rcs", folder / "libtlbridge.a", *objects])


def build(folder: Path, of: Run, bug: int, archive: Path) -> None:
    """The simulation, as folder/sim."""
    names, simulator, dump, flags = of
    if names == "opentitan":
        sources = [HERE / "adapter.sv", HERE / "tlul.sv"]
        defines = [f'-DDUMP="dump.{dump}"', *(["-DSCOREBOARD"] if simulator == "verilator" else [])]
    else:
        text = wave_bench.bench_of(names, simulator, f"dump.{dump}", simulator == "verilator")
        (folder / "top.sv").write_text(text)
        sources = [*(bridge_in(folder, bug) if names == "bridge" else [HERE / "adapter.sv"]), folder / "top.sv"]
        defines = []
    if simulator == "icarus":
        words: List[Word] = ["iverilog", "-g2012", "-s", "top", *defines, "-o", "sim", MONITOR, *sources]
    else:
        words = ["verilator", "--binary", "--timing", "-j", 1, "-Wno-fatal", "-Wno-lint", "-Wno-style"]
        words += ["-MAKEFLAGS", BRIEF, "--top-module", "top", "--Mdir", "obj"]
        words += ["--trace-fst" if dump == "fst" else "--trace", *flags.split(), *defines, "-o", "../sim"]
        words += [MONITOR, *sources, SCOREBOARD, archive]
    succeed(words, folder, 900)


def name_of(of: Run) -> str:
    return " ".join(word for word in of if word)


class Wave(NamedTuple):
    """A simulation that was run: its folder with the dump and the monitors' files, and what it printed."""

    of: Run
    bug: int
    folder: Path
    printed: str


PARAMETERS: List[Any] = [
    pytest.param((of, bug), marks=[pytest.mark.long] * (of not in QUICK), id=f"{name_of(of)}{' wrong' * bug}")
    for of in RUNS
    for bug in (0, 1)
]


@pytest.fixture(scope="module", params=PARAMETERS)
def wave(request: pytest.FixtureRequest, tmp_path_factory: pytest.TempPathFactory) -> Wave:
    """A run of each simulation, as it is and with a mistake, which for rtl/ is in the source."""
    of, bug = request.param
    names, simulator, dump, _ = of
    needs_tools(*(("iverilog", "vvp") if simulator == "icarus" else ("verilator", "g++", "make")))
    needs_tools(*(["fst2vcd"] if dump == "fst" else []))
    archive = Path("libtlbridge.a")
    if simulator == "verilator":
        archive = made_once(tmp_path_factory, "wave_board", build_archive) / archive
    in_source = bug if names == "bridge" else 0
    name = re.sub(r"\W+", "-", f"wave {name_of(of)} {in_source}")
    sim = made_once(tmp_path_factory, name, lambda place: build(place, of, in_source, archive)) / "sim"
    folder = tmp_path_factory.mktemp("wave")
    words: List[Word] = ["vvp", "-n", sim, *(["-fst"] if dump == "fst" else [])] if simulator == "icarus" else [sim]
    done = run([*words, *(["+bug"] if bug else [])], folder, 600)
    assert done.returncode == 0, said(done)
    return Wave(of, bug, folder, done.stdout + done.stderr)


def compared(wave: Wave) -> "subprocess.CompletedProcess[str]":
    """tlbridge-trace over the dump: it writes the beats, and compares both links."""
    names, _, dump, _ = wave.of
    words: List[Word] = [sys.executable, TOOL, f"dump.{dump}", *links_of(names), "--beats", "wave", "--compare"]
    return run([*words, "--program", PROGRAM], wave.folder, 600)


def test_a_waveform_says_what_the_monitors_and_the_scoreboard_say(wave: Wave) -> None:
    """The lines and times of the monitors; the same verdicts, counts and first difference; in Verilator, that of the
    scoreboard too.
    """
    by_wave = compared(wave)
    for name in ("client.beats", "manager.beats", "client.beats.times", "manager.beats.times"):
        its = (wave.folder / name).read_text()
        assert its
        assert (wave.folder / f"wave.{name}").read_text() == its, name
    widths = ("4", "4") if wave.of[0] == "opentitan" else ("8", "4")
    words: List[Word] = [sys.executable, COMPARE, *widths, "client.beats", "manager.beats", "--program", PROGRAM]
    by_monitors = run(words, wave.folder, 600)
    statuses = (by_wave.returncode, by_monitors.returncode)
    assert statuses == (wave.bug, wave.bug), said(by_wave) + said(by_monitors)
    for pattern in (FIRST, re.compile(r"^first difference: .*|^[A-E]: done: .*", re.M)):
        assert pattern.findall(by_wave.stdout) == pattern.findall(by_monitors.stdout)
    firsts = FIRST.findall(by_wave.stdout)
    assert bool(firsts) == bool(wave.bug), said(by_wave)
    if wave.of[1] == "verilator":
        found = re.search(r"tlbridge_scoreboard: time (\d+): far ([A-E]) beat (\d+)", wave.printed)
        assert bool(found) == bool(wave.bug), wave.printed[-1000:]
        if found:
            channel, number, at = firsts[0]
            assert (found[2], found[3]) == (channel, number)
            assert int(at) in (int(found[1]), 1000 * int(found[1]))


# ---- large dumps


class Measured(NamedTuple):
    """A command that ended: its seconds of the processor, its peak memory in megabytes, its status and its output."""

    seconds: float
    megabytes: float
    status: int
    printed: str


def measured(words: Sequence[Word], place: Path) -> Measured:
    """Runs a command, and looks at the memory of the process itself, and not of those that it starts."""
    peak = 0
    with open(place / "said", "w+", encoding="utf-8") as said:
        process = subprocess.Popen(
            [str(word) for word in words], cwd=place, stdin=subprocess.DEVNULL, stdout=said, stderr=subprocess.STDOUT
        )
        while True:
            try:
                peak = max(
                    [
                        peak,
                        *(
                            int(line.split()[1])
                            for line in Path(f"/proc/{process.pid}/status").read_text().splitlines()
                            if line.startswith("VmHWM")
                        ),
                    ]
                )
            except OSError:
                pass
            pid, status, usage = os.wait4(process.pid, os.WNOHANG)
            if pid:
                break
            time.sleep(0.02)
        process.returncode = os.waitstatus_to_exitcode(status)
        said.seek(0)
        return Measured(usage.ru_utime + usage.ru_stime, peak / 1024, process.returncode, said.read())


LARGE = ("--client", "auto_in", "--manager", "auto_out", "--quiet")


def is_frugal(result: Measured, megabytes: float) -> None:
    """The reader took little memory, and little time of the processor for this size of a dump."""
    speed = megabytes / max(result.seconds, 0.01)
    print(f"{speed:.1f} MB/s of the processor, {result.megabytes:.1f} MB")
    assert result.megabytes <= MOST_MEMORY
    assert speed >= LEAST_SPEED


@pytest.fixture(scope="session")
def large(tmp_path_factory: pytest.TempPathFactory) -> Path:
    """A folder with a dump of MEGABYTES, and how many beats it has in the file `beats`."""

    def make(folder: Path) -> None:
        with open(folder / "dump.vcd", "wb") as out:
            words: List[Any] = [sys.executable, HERE / "wave_dump.py", str(MEGABYTES)]
            done = subprocess.run(words, stdout=out, stderr=subprocess.PIPE, text=True, check=True)
        (folder / "beats").write_text(re.findall(r"\d+", done.stderr)[0])

    return made_once(tmp_path_factory, "large_dump", make)


@pytest.mark.long
def test_a_large_dump_is_listed_with_little_memory(large: Path, tmp_path: Path) -> None:
    """And fast."""
    result = measured([sys.executable, TOOL, large / "dump.vcd", "--quiet"], tmp_path)
    is_frugal(result, (large / "dump.vcd").stat().st_size / 1e6)


@pytest.mark.long
def test_all_beats_of_a_large_dump_are_written_with_little_memory(large: Path, tmp_path: Path) -> None:
    """And fast; from the FST of the same dump, the same trace."""
    result = measured([sys.executable, TOOL, large / "dump.vcd", *LARGE, "--trace", "trace", "--far", "far"], tmp_path)
    assert result.status == 0, result.printed
    files = [*tmp_path.glob("trace*"), *tmp_path.glob("far*")]
    assert sum(path.read_text().count("\n") - 1 for path in files) == int((large / "beats").read_text())
    is_frugal(result, (large / "dump.vcd").stat().st_size / 1e6)
    needs_tools("vcd2fst", "fst2vcd")
    succeed(["vcd2fst", large / "dump.vcd", tmp_path / "dump.fst"], timeout=1200)
    result = measured([sys.executable, TOOL, "dump.fst", *LARGE, "--trace", "trace.fst"], tmp_path)
    assert result.status == 0, result.printed
    assert (tmp_path / "trace.fst").read_bytes() == (tmp_path / "trace").read_bytes()


@pytest.mark.long
def test_a_run_whose_trace_is_above_64_mib_is_judged_whole(tmp_path: Path) -> None:
    """A run of rtl/tl_bridge.sv that is right except for its last beat."""
    needs_tools("verilator", "g++", "make")
    words: List[Word] = ["verilator", "--binary", "--timing", "-j", 1, "-Wno-fatal", "-Wno-lint", "-Wno-style"]
    words += ["--trace", "--trace-depth", 1, "--top-module", "top", "--Mdir", "obj", "-o", "sim"]
    succeed([*words, HERE / "long.sv", *bridge_in(tmp_path, 0)], tmp_path, 900)
    printed = succeed([tmp_path / "obj" / "sim", f"+requests={LONG_REQUESTS}", "+wrong"], tmp_path, 1800)
    found = re.search(r"the last of (\d+) responses is at time (\d+)", printed)
    assert found, printed[-1000:]
    links = ("--client", "top.client", "--manager", "top.manager")
    words = [sys.executable, TOOL, "dump.vcd", *links, "--compare", "--trace", "trace", "--program", PROGRAM]
    result = measured(words, tmp_path)
    assert sum(path.stat().st_size for path in tmp_path.glob("trace*")) > 64 * 2**20
    at = 1000 * int(found[2])  # the dump counts in ps
    wanted = (
        f"D: far beat {LONG_REQUESTS - 1}, time {at} on the client's link: denied is 1, expected 0",
        f"first difference: channel D, time {at}",
        f"A: done: {LONG_REQUESTS} near beats, {LONG_REQUESTS * 3 // 2} far beats expected",
        f"D: done: {LONG_REQUESTS * 3 // 2} near beats, {LONG_REQUESTS} far beats expected",
    )
    assert [text for text in wanted if text not in result.printed] == [], result.printed[-2000:]
    assert result.status == 1
    assert len(re.findall("far beat ", result.printed)) == 1
    assert result.megabytes <= MOST_MEMORY
