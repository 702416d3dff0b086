"""sv/tl_checker.sv in Verilator over a million random beats, lawful and faulty; planted mistakes in it; and bounded
proofs with it.

- It reports the fault that the proved library reports, on links of 1, 8, 64 and 128 lanes, and that the plain rules of
rules.h give, on these
  and four more. Each fault of each channel occurs a thousand times or more. Icarus reports the same for a part of these
  beats.
- Each mistake of bugs.txt, planted in the checker, is seen.
- A bounded proof: the adapter of examples/verilator keeps the rules on each link if its neighbours do; each of its
planted bugs that
  breaks a rule of a link breaks it, and Icarus replays the counterexample with the checker's report. The others break
  none.
- Each assertion can fail, and none does if the rules are assumed.
"""

import os
import re
import sys
from collections import defaultdict
from fnmatch import fnmatchcase
from pathlib import Path
from typing import Dict, List, Optional

import pytest
from board_library import is_newer
from commands import Word, run, said, succeed
from once import made_once
from planted import Planted, mistakes
from project import EXAMPLES, ROOT, SV, needs_tools

pytestmark = [pytest.mark.long, pytest.mark.simulator]

HERE = Path(__file__).resolve().parent
CHECKER = SV / "tl_checker.sv"
RANDOM_CYCLES = int(os.environ.get("CYCLES", "1000000"))
FRAMES = int(os.environ.get("FRAMES", "12"))  # of the bounded proofs of the adapter
# Each link: its number and the parameters of its checker, in the order of the columns of links.txt.
COLUMNS = (
    "DATA_BYTES ADDRESS_BITS SIZE_BITS SOURCE_BITS SINK_BITS MAX_OUTSTANDING ALLOW_SAME_CYCLE_RESPONSE"
    " ALLOW_SAME_CYCLE_REUSE RESYNC_AFTER_FAULT"
).split()
LINKS = [line.split() for line in (HERE / "links.txt").read_text().splitlines()[1:]]
BY_LIBRARY = (1, 8, 64, 128)  # widths of the links that the proved library judges, too


# ---- random beats


def archives() -> Optional[List[Path]]:
    """The proved libraries of the widths that are judged by them, or None if one is not there or older than its
    sources.
    """
    folder = Path(os.environ.get("TLBRIDGE_ARCHIVES", ROOT / "out"))
    found = [folder / f"libtlbridge_{width}_{width}.a" for width in BY_LIBRARY]
    kept = "TLBRIDGE_ARCHIVES" in os.environ
    return found if all(path.is_file() and (kept or is_newer(path)) for path in found) else None


def build_agree(folder: Path, flags: str, libraries: List[Path]) -> None:
    """The program `agree` over a checker for each line of links.txt."""
    lines = [f"`LINK({', '.join([*line[:7], *(f'''1'b{bit}''' for bit in line[7:])])})\n" for line in LINKS]
    (folder / "links.svh").write_text("".join(lines))
    words: List[Word] = [
        "verilator",
        "--cc",
        "--exe",
        "--build",
        "-j",
        2,
        "--assert",
        "-Wno-fatal",
        "-Wno-lint",
        f"-I{folder}",
    ]
    words += ["--top-module", "links", "-CFLAGS", f"-std=c++17 -O1 {flags}", "--Mdir", folder / "built", "-o", "agree"]
    succeed([*words, CHECKER, HERE / "links.sv", HERE / "agree.cpp", *libraries], timeout=900)


@pytest.fixture(scope="session")
def agree(tmp_path_factory: pytest.TempPathFactory) -> Path:
    """The program `agree`, without the proved library."""
    needs_tools("verilator", "g++", "make")
    return made_once(tmp_path_factory, "agree", lambda folder: build_agree(folder, "", [])) / "built" / "agree"


def over_random_beats(program: Path) -> str:
    done = run([program, HERE / "links.txt", RANDOM_CYCLES, 1], timeout=1800)
    assert done.returncode == 0, said(done)
    print(done.stdout)
    return done.stdout


def test_the_checker_and_the_plain_rules_agree_over_a_million_random_cycles(agree: Path) -> None:
    """Each fault of each channel occurs a thousand times or more."""
    assert "alike by checker and plain rules" in over_random_beats(agree)


@pytest.mark.library
def test_the_proved_library_agrees_too(tmp_path_factory: pytest.TempPathFactory) -> None:
    """On the links of 1, 8, 64 and 128 bytes."""
    needs_tools("verilator", "g++", "make")
    libraries = archives()
    if libraries is None:
        pytest.skip(
            "out/libtlbridge_W_W.a is not there for each W of 1, 8, 64, 128, or is old (tools/make-library W W)"
        )
    made = made_once(
        tmp_path_factory,
        "agree_with_libraries",
        lambda folder: build_agree(folder, f"-DLIBRARIES -I{ROOT}/include", libraries or []),
    )
    printed = over_random_beats(made / "built" / "agree")
    assert not re.search(r" 0 of them by the proved library", printed)


@pytest.fixture(scope="session")
def vectors(agree: Path, tmp_path_factory: pytest.TempPathFactory) -> Path:
    """A folder with the inputs of each link N and the faults that are expected, in the file N."""

    def make(folder: Path) -> None:
        done = run([agree, HERE / "links.txt", 60000, 2, folder / "all"], timeout=900)
        # 2 says that there are too few beats for a test
        assert done.returncode in (0, 2), said(done)
        lines = defaultdict(list)
        for line in (folder / "all").read_text().splitlines(keepends=True):
            lines[line.split()[0]].append(line)
        for number, own in lines.items():
            (folder / number).write_text("".join(own))

    return made_once(tmp_path_factory, "vectors", make)


def replayed(checker: Path, link: List[str], vectors: Path, folder: Path) -> str:
    """What a checker says in Icarus of the beats of a link."""
    needs_tools("iverilog", "vvp")
    number, *values = link
    given = [f"-Preplay.{name}={value}" for name, value in zip(COLUMNS, values)]
    words: List[Word] = [
        "iverilog",
        "-g2012",
        "-s",
        "replay",
        "-o",
        folder / "replay",
        f"-Preplay.LINK={number}",
        *given,
    ]
    done = run([*words, checker, HERE / "replay.sv"])
    assert done.returncode == 0, said(done)
    return run(["vvp", "-n", folder / "replay", f"+vectors={vectors}/{number}"], timeout=900).stdout


@pytest.mark.parametrize("link", LINKS, ids=lambda link: f"link {link[0]}, {link[1]} bytes")
def test_icarus_reports_the_same_faults(link: List[str], vectors: Path, tmp_path: Path) -> None:
    """For a part of the beats."""
    printed = replayed(CHECKER, link, vectors, tmp_path)
    assert re.search(r"^link .*: [0-9]* cycles, [1-9][0-9]* faults, no difference", printed, re.M), printed


@pytest.mark.parametrize("planted", mistakes(HERE / "bugs.txt"), ids=str)
def test_a_planted_mistake_is_seen(planted: Planted, vectors: Path, tmp_path: Path) -> None:
    """On one link at least, Icarus sees another fault than is expected. The links with the largest numbers are
    quickest.
    """
    folder = planted.plant(ROOT, tmp_path / "planted")
    for link in reversed(LINKS):
        if re.search("^differs", replayed(folder / CHECKER.name, link, vectors, tmp_path), re.M):
            return
    pytest.fail("not seen")


# ---- bounded proofs


class Proof:
    """A model for yosys-abc, with the labels of its assertions."""

    def __init__(self, folder: Path, top: str, files: List[Path], flags: str = "", leave: str = "") -> None:
        """`leave` are words of yosys that remove assertions."""
        needs_tools("yosys", "yosys-abc")
        self.folder = folder
        script = (
            f"read_verilog -sv -formal {flags} {' '.join(map(str, files))}; prep -flatten -nordff -top {top}; {leave};"
            " memory_map; async2sync; setundef -anyseq; opt -fast; techmap; opt -fast; dffunmap; abc -g AND -fast;"
            f" opt_clean; select -write {folder}/labels t:$assert; write_aiger -I -B -zinit -symbols {folder}/model.aig"
        )
        succeed(["yosys", "-q", "-p", script], timeout=900)
        self.labels = [line.rpartition("/")[2] for line in (folder / "labels").read_text().splitlines()]

    def abc(self, words: str) -> str:
        script = f"read_aiger {self.folder}/model.aig; fold; strash; {words}"
        done = run(["yosys-abc", "-c", script], self.folder, timeout=3600)
        return done.stdout + done.stderr

    def holds(self, frames: int) -> None:
        """No assertion fails in this number of frames; one of a clock edge is checked in the frame after it."""
        printed = self.abc(f"bmc3 -F {frames}")
        assert re.search(rf"^No output asserted in {frames} frames", printed, re.M), printed[-2000:]

    def first_failure(self, frames: int) -> str:
        """The label of an assertion that fails; the counterexample is in the folder."""
        printed = self.abc(f"bmc3 -F {frames}; write_cex -n counterexample")
        found = re.search(r"^Output *(\d+) of miter.* was asserted in frame", printed, re.M)
        assert found, printed[-2000:]
        return self.labels[int(found[1])]

    def failures(self, frames: int, first: str = "") -> int:
        """How many assertions can fail."""
        return self.abc(f"{first}bmc3 -a -F {frames}").count("was asserted in frame")


@pytest.fixture(scope="session")
def adapter(tmp_path_factory: pytest.TempPathFactory) -> Path:
    """The adapter of examples/verilator as yosys reads it."""

    def make(folder: Path) -> None:
        names = "adapter_pkg async_fifo narrow_a widen_d hold_back adapter".split()
        files = [EXAMPLES / "verilator" / f"{name}.sv" for name in names]
        (folder / "adapter.sv").write_text(succeed([sys.executable, HERE / "readable.py", *files]))

    return made_once(tmp_path_factory, "adapter", make) / "adapter.sv"


def proof_of_adapter(folder: Path, adapter: Path, planted: int, flags: str = "", leave: str = "") -> Proof:
    """The adapter between two checkers, with the planted bug of this number; 0 is none."""
    files = [adapter, CHECKER, HERE / "adapter_proof.sv"]
    return Proof(folder, "adapter_proof", files, f"-DPLANTED={planted} {flags}", leave)


def test_the_adapter_keeps_the_rules_on_each_link(adapter: Path, tmp_path: Path) -> None:
    """If its neighbours do."""
    proof_of_adapter(tmp_path, adapter, 0).holds(FRAMES)


def test_the_adapter_carries_bursts_under_these_assumptions(adapter: Path, tmp_path: Path) -> None:
    """A put of 16 bytes is answered, and a response of 16 bytes arrives: what REACH denies."""
    leave = "delete t:$assert */no_put_is_answered %d */no_response_arrives %d"
    assert proof_of_adapter(tmp_path, adapter, 0, "-DREACH", leave).failures(FRAMES + 2) == 2


@pytest.mark.parametrize(
    "name, number, label",
    [
        ("DROP_WHEN_FULL", 4, "*_asserted"),
        ("INTERLEAVE", 5, "manager.a.HeadChanged_asserted"),
        ("SHORT_ID", 7, "client.d.NoRequest_asserted"),
    ],
)
def test_a_bug_of_the_adapter_breaks_a_rule(name: str, number: int, label: str, adapter: Path, tmp_path: Path) -> None:
    """Icarus replays the trace, and there the checker reports the same fault at the same place."""
    needs_tools("iverilog", "vvp")
    proof = proof_of_adapter(tmp_path, adapter, number)
    broken = proof.first_failure(FRAMES)
    assert fnmatchcase(broken, label)
    place, _, fault = broken.rpartition(".")
    shown = succeed(
        [sys.executable, HERE / "trace.py", tmp_path / "model.aig", tmp_path / "counterexample", "adapter_proof"]
    )
    (tmp_path / "shown.sv").write_text(shown)
    words: List[Word] = [
        "iverilog",
        "-g2012",
        f"-DPLANTED={number}",
        "-s",
        "shown",
        "-o",
        tmp_path / "shown",
        adapter,
        CHECKER,
    ]
    succeed([*words, HERE / "adapter_proof.sv", tmp_path / "shown.sv"])
    printed = succeed(["vvp", "-n", tmp_path / "shown"])
    report = rf"^ERROR: \S* .*shown\.top\.{place}: [AD] beat [0-9]*: fault [0-9]* {fault.replace('_asserted', '')}: "
    assert re.search(report, printed, re.M), printed


@pytest.mark.parametrize("name, number", [("LANE", 1), ("MASK", 2), ("CORRUPT", 3), ("D_LANE_0", 6)])
def test_a_bug_that_spoils_lawful_messages_breaks_no_rule(
    name: str, number: int, adapter: Path, tmp_path: Path
) -> None:
    """The scoreboard sees these, not the checker."""
    proof_of_adapter(tmp_path, adapter, number).holds(FRAMES - 2)


def test_each_assertion_can_fail(tmp_path: Path) -> None:
    """All 28. (Without scorr, the abc of yosys 0.23 ends with a segmentation fault here.)"""
    assert Proof(tmp_path, "each_rule", [CHECKER, HERE / "each_rule.sv"]).failures(8, "scorr; ") == 28


def test_no_assertion_fails_if_the_rules_are_assumed(tmp_path: Path) -> None:
    """In 7 cycles."""
    proof = Proof(tmp_path, "each_rule", [CHECKER, HERE / "each_rule.sv"], "-DASSUMED")
    proof.holds(8)
    assert len(proof.labels) == 28


# An adapter that raises ready with the last part of a beat keeps the rules if its client's offered beats do; if only
# those that are
# accepted do, an unlawful beat that is offered leaves as parts.
def proof_of_offered(folder: Path, flags: str, leave: str = "") -> Proof:
    return Proof(folder, "offered_proof", [CHECKER, HERE / "offered_proof.sv"], flags, leave)


def test_offered_beats_keep_the_rules_by_assumption(tmp_path: Path) -> None:
    """In 9 cycles."""
    proof_of_offered(tmp_path, "-DOFFERED=1 -DRESPOND=1").holds(10)


OFFERED: Dict[str, List[str]] = {
    "an unlawful offered beat leaves as parts": ["-DOFFERED=0 -DRESPOND=1", "manager.a", "Mask_asserted"],
    "a response comes while its request is offered": ["-DOFFERED=1 -DRESPOND=0", "client.d", "NoRequest_asserted"],
}


@pytest.mark.parametrize("flags, side, fault", OFFERED.values(), ids=OFFERED)
def test_without_an_assumption_a_rule_breaks(flags: str, side: str, fault: str, tmp_path: Path) -> None:
    """Of the assertions of this side, the first one that fails."""
    proof = proof_of_offered(tmp_path, flags, f"delete t:$assert */{side}.* %d")
    assert proof.first_failure(10) == f"{side}.{fault}"
