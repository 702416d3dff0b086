"""Simulations of rtl/, the bridge in SystemVerilog: traffic and its expected far beats, and a bench that is built once
for each configuration.

In each run sv/tl_checker.sv judges both links. TLBRIDGE is the command that computes the far beats of a trace on
standard input. The default is `tlbridge run --sync` of the verified program, and the unverified model if the program is
not built. BEATS (3000) is the length of a trace.
"""

import fcntl
import hashlib
import itertools
import os
import shutil
import subprocess
import sys
import tempfile
from functools import lru_cache
from pathlib import Path
from typing import Any, Callable, Dict, List, Mapping, Optional, Sequence, Tuple

from commands import Word, run, said
from configurations import SCENARIOS, WIDTHS
from project import MODEL, ROOT, RTL, SV, built
from tlbridge import traffic as maker
from tlbridge.traffic import Conversation, Options

HERE = Path(__file__).resolve().parent
CHECKER = SV / "tl_checker.sv"
LIB = ROOT / "tests" / "lib"
BEATS = int(os.environ.get("BEATS", "3000"))
ANSWERS = os.environ.get("TLBRIDGE")
VERIFIED = os.access(built("tlbridge"), os.X_OK)
BY_DEFAULT: List[Word] = [built("tlbridge"), "run", "--sync"] if VERIFIED else [sys.executable, MODEL, "run"]
ANSWERER: List[Word] = [*ANSWERS.split()] if ANSWERS else BY_DEFAULT
DEFAULTS = dict(
    CLIENT_BYTES=8,
    MANAGER_BYTES=4,
    SOURCE_BITS=8,
    SINK_BITS=8,
    ADDRESS_BITS=64,
    SIZE_BITS=4,
    ASYNC=1,
    FIFO_DEPTH=8,
    HAS_B_C_E=1,
    MAX_OUTSTANDING=0,
    ALLOW_SAME_CYCLE_RESPONSE=1,
)
# Any messages of all channels, with any ids.
TRAFFIC: Dict[str, Any] = dict(
    mix={"A": 5, "B": 2, "C": 2, "D": 1, "E": 1}, continuing=5, sources=256, denied=0.5, corrupt=0.3, noise=1.0
)
PAIRS = [dict(CLIENT_BYTES=client, MANAGER_BYTES=manager) for client in WIDTHS for manager in WIDTHS]
Config = Mapping[str, int]
Scenario = Tuple[str, int, float, Dict[str, Any], List[str]]


def sources(rtl: Path = RTL) -> List[Path]:
    """The files of a design, in their order."""
    return sorted(rtl.glob("*.sv"))


def digest(*texts: object) -> str:
    return hashlib.sha1("\0".join(map(str, texts)).encode()).hexdigest()[:16]


def named(config: Config) -> str:
    """A short name: the pair, and what is not the default."""
    full = {**DEFAULTS, **config}
    more = [
        f"{key}={value}"
        for key, value in config.items()
        if key not in ("CLIENT_BYTES", "MANAGER_BYTES") and DEFAULTS.get(key) != value
    ]
    return f"{full['CLIENT_BYTES']}:{full['MANAGER_BYTES']}" + "".join(" " + m for m in more)


class Room:
    """The folder of the built simulations, the traces and the answers, which all workers of a run share."""

    def __init__(self, path: Path) -> None:
        self.path = Path(path)
        self.path.mkdir(parents=True, exist_ok=True)

    def once(self, path: Path, make: Callable[[Path], Any]) -> Path:
        """Makes a file once, whichever process asks first."""
        with open(self.path / f"{path.parent.name}.{path.name}.lock", "w") as lock:
            fcntl.flock(lock, fcntl.LOCK_EX)
            if not path.exists():
                make(path)
        return path

    def trace(self, config: Config, seed: int, beats: int, **options: Any) -> Tuple[Path, Path]:
        """The trace of some traffic, by the options of tlbridge.traffic, and its answer."""
        full = {**DEFAULTS, **config}
        given = {**TRAFFIC, **options}
        most = min(given.pop("largest", 12), 12, (1 << full["SIZE_BITS"]) - 1)
        given.setdefault("sizes", [min(size, most) for top in (3, 5, 8, 12) for size in range(top + 1)])
        if full["MAX_OUTSTANDING"]:
            given["outstanding"] = full["MAX_OUTSTANDING"]
        if not full["HAS_B_C_E"]:
            given.update(mix={"A": 1}, continuing=1)
        given.update({f"{name}_bits": full[f"{name.upper()}_BITS"] for name in ("source", "sink", "address")})
        made = Options(full["CLIENT_BYTES"], full["MANAGER_BYTES"], seed, beats=beats, **given)
        name = digest(Path(maker.__file__).read_text(), made)
        trace = self.once(
            self.path / f"{name}.trace", lambda path: path.write_text("".join(Conversation(made).texts()))
        )
        return trace, self.answer(trace)

    def answer(self, trace: Path) -> Path:
        """The far beats of a trace by the model."""

        def make(path: Path) -> None:
            done = run(ANSWERER, text=trace.read_text())
            assert done.returncode == 0, f"the model does not take a trace to its end: {said(done)}"
            path.write_text(done.stdout)

        return self.once(trace.with_suffix(".answer"), make)

    # ---- Simulations in Verilator

    def build(self, config: Config, rtl: Path = RTL, synchronizer: str = "late", coverage: bool = False) -> Path:
        """The program of a configuration. The model's file is compiled alone; all else is shared."""
        full = {**DEFAULTS, **config}
        texts = [
            f.read_text()
            for f in [
                *sources(rtl),
                HERE / "top.sv",
                HERE / "main.cpp",
                HERE / "tl_synchronizer.sv",
                CHECKER,
            ]
        ]
        folder = self.path / digest(sorted(full.items()), synchronizer, coverage, *texts)

        def make(path: Path) -> None:
            shutil.rmtree(folder, ignore_errors=True)
            given = [f"-G{key}={value}" for key, value in full.items()]
            files: List[Word] = [f for f in sources(rtl) if f.name != "tl_synchronizer.sv"]
            files.append(rtl / "tl_synchronizer.sv" if synchronizer == "plain" else HERE / "tl_synchronizer.sv")
            words: List[Word] = [
                "verilator",
                "--cc",
                "-Wno-fatal",
                "-Wno-lint",
                "-O3",
                "--top-module",
                "top",
                "--prefix",
                "Vtop",
                "--Mdir",
                folder,
                *given,
            ]
            words += ["-DLAG_ONE_EDGE"] * (synchronizer == "one edge") + ["--coverage-line"] * coverage
            done = run([*words, HERE / "top.sv", *files, CHECKER], timeout=600)
            assert done.returncode == 0, f"it does not build: {said(done)}"
            (folder / "all.cpp").write_text("".join(f'#include "{f.name}"\n' for f in sorted(folder.glob("Vtop*.cpp"))))
            objects = self.shared(folder, coverage)
            command = [
                "g++",
                "-O1",
                *self.flags(folder, coverage),
                "-o",
                path,
                folder / "all.cpp",
                *objects,
                "-lpthread",
            ]
            built = run(command, timeout=900)
            assert built.returncode == 0, f"it does not build: {said(built)}"
            for left in folder.iterdir():  # some 10 MB
                if left != path:
                    left.unlink()

        return self.once(folder / "top", make)

    def flags(self, folder: Path, coverage: bool) -> List[Word]:
        include = verilated()
        return [
            "-std=c++17",
            f"-I{include}",
            f"-I{include}/vltstd",
            f"-I{folder}",
            "-DVM_SC=0",
            "-DVM_TRACE=0",
            f"-DVM_COVERAGE={int(coverage)}",
        ]

    def shared(self, folder: Path, coverage: bool) -> List[Path]:
        objects = []
        files = [HERE / "main.cpp", *(verilated() / f"{name}.cpp" for name in SHARED)]
        for source in files:
            if source.name == "verilated_cov.cpp" and not coverage:
                continue

            def make(path: Path, source: Path = source) -> None:
                made = run(["g++", "-O1", *self.flags(folder, coverage), "-c", "-o", path, source])
                assert made.returncode == 0, said(made)

            # the order of the ports in Vtop.h depends on which of them are clocks
            key = digest(
                source.read_text(), coverage, (folder / "Vtop.h").read_text() if source.name == "main.cpp" else ""
            )
            objects.append(self.once(self.path / f"{source.stem}_{key}.o", make))
        return objects

    def play(
        self,
        program: Path,
        trace: Path,
        answer: Path,
        words: Sequence[str],
        environment: Optional[Mapping[str, str]] = None,
    ) -> "Played":
        """Runs a simulation of a trace, and compares its far beats with the answer, unless there are resets."""
        handle, name = tempfile.mkstemp(suffix=".far", dir=self.path)
        os.close(handle)
        far = Path(name)
        done = run([program, trace, far, *words], environment=environment)
        got = far.read_text()
        far.unlink()
        with_resets = any(word.startswith("resets=") for word in words)
        return Played(done, None if with_resets else first_difference(answer.read_text(), got))


SHARED = ("verilated", "verilated_threads", "verilated_cov")


@lru_cache(maxsize=None)
def verilated() -> Path:
    """The folder of the sources that belong to Verilator."""
    return Path(run(["verilator", "--getenv", "VERILATOR_ROOT"]).stdout.strip()) / "include"


class Played:
    """A run of a simulation: what it said, and the first far beat that differs."""

    def __init__(self, done: "subprocess.CompletedProcess[str]", differs: Optional[str]) -> None:
        self.printed, self.status, self.differs = done.stdout, done.returncode, differs
        self.said = said(done, 600)

    @property
    def far(self) -> int:
        """The number of far beats."""
        return int(self.printed.split()[3])

    @property
    def wrong(self) -> str:
        """What is wrong: a far beat that differs, or what a checker or the bench reports. Empty if nothing is."""
        return self.differs or (self.said if self.status else "")


def first_difference(due: str, got: str) -> Optional[str]:
    """The first far beat of a channel that differs or is missing, as `far beat 3 of A`."""
    if due == got:
        return None
    firsts = []
    for k in "ABCDE":
        a, b = ([line for line in text.splitlines() if line.startswith(k)] for text in (due, got))
        firsts += [(i + 1, k) for i, (x, y) in enumerate(itertools.zip_longest(a, b)) if x != y][:1]
    return "far beat {} of {}".format(*min(firsts)) if firsts else "the verdicts"


def scenarios(config: Config) -> List[Scenario]:
    """Name, seed, length in parts of BEATS, options of the traffic and words of the simulation."""
    full = {**DEFAULTS, **config}
    wanted: List[Scenario] = []
    for name, seed, length, traffic, words in SCENARIOS:
        if full["ASYNC"] or "single" in words:
            more = ["later"] * (not full["ALLOW_SAME_CYCLE_RESPONSE"])
            if not full["FIFO_DEPTH"]:
                wanted.append((name + ", steady", seed, length, traffic, [*words, "through", "steady", *more]))
                # a wide beat that is cut has to stay; the channels that narrow have a FIFO
                more = [*more, "through"]
            wanted.append((name, seed, length, traffic, [*words, *more]))
    return wanted


def lint_words(config: Config) -> Dict[str, List[Word]]:
    """The command of each tool that reads the design with these parameters."""
    given = dict(config)
    # (a plain number has 32 bits, of which Verilator warns for a parameter of one bit)
    sized = {
        key: f"1'b{value}" if key in ("ASYNC", "HAS_B_C_E", "ALLOW_SAME_CYCLE_RESPONSE") else value
        for key, value in given.items()
    }
    verilator: List[Word] = [
        "verilator",
        "--lint-only",
        "-Wall",
        "--top-module",
        "tl_bridge",
        *(f"-G{k}={v}" for k, v in sized.items()),
        *sources(),
    ]
    icarus: List[Word] = [
        "iverilog",
        "-g2012",
        "-Wall",
        "-s",
        "tl_bridge",
        *(f"-Ptl_bridge.{k}={v}" for k, v in given.items()),
        "-o",
        os.devnull,
        *sources(),
    ]
    chosen = "".join(f"chparam -set {k} {v} tl_bridge; " for k, v in given.items())
    yosys: List[Word] = [
        "yosys",
        "-q",
        "-p",
        (
            f"read_verilog -sv {' '.join(map(str, sources()))}; {chosen}hierarchy -check -top tl_bridge; proc; check"
            " -assert"
        ),
    ]
    return dict(verilator=verilator, iverilog=icarus, yosys=yosys)
