"""tlbridge-prove: correct designs are proved, planted bugs fail the assertion that is about them, and nothing is
claimed after an error.

test_adapters.py has more designs.
"""

import os
import re
import shutil
import stat
import subprocess
import sys
import time
from pathlib import Path
from typing import Any, Dict, List, Optional, Sequence

import pytest
from project import EXAMPLES, ROOT, needs_tools

from tlbridge.prove import command, model, user_bits
from tlbridge.prove.errors import ProveError
from tlbridge.prove.harness import TOP, Options, write_harness
from tlbridge.prove.sizes import check_sizes, sizes_of
from tlbridge.verify import design
from tlbridge.verify.design import Source, read_design

pytestmark = pytest.mark.simulator
PROVE = ROOT / "tlbridge-prove"
START = EXAMPLES / "start" / "adapter.sv"
SECONDS = 7200  # of wall-clock time, on a busy machine


@pytest.fixture(scope="session")
def cache(tmp_path_factory: pytest.TempPathFactory) -> Path:
    """A cache of models that all tests of a session share."""
    return tmp_path_factory.mktemp("models")


class Run:
    """A run of tlbridge-prove: its status, what it printed, and the verdict of each assertion."""

    def __init__(self, done: "subprocess.CompletedProcess[str]"):
        self.status, self.out, self.err = done.returncode, done.stdout, done.stderr
        rows = re.findall(
            r"^  (\S+) +(proved|no counterexample in \d+ \w+|fails in \w+ \d+) +[\d.]+ s$", self.out, re.M
        )
        self.verdicts: Dict[str, str] = dict(rows)

    def fails(self) -> Dict[str, int]:
        """The cycle in which each assertion fails that fails."""
        return {name: int(words.split()[-1]) for name, words in self.verdicts.items() if words.startswith("fails")}

    def claims_nothing(self) -> bool:
        return "proved" not in self.verdicts.values() and "no counterexample" not in self.out


def prove(cache: Optional[Path], folder: Path, *words: Any, path: str = "") -> Run:
    """Runs tlbridge-prove in a folder. `path` goes in front of PATH."""
    environment = {**os.environ, "PATH": (path + os.pathsep if path else "") + os.environ["PATH"]}
    if cache is not None:
        environment["TLBRIDGE_CACHE"] = str(cache)
    command = [sys.executable, str(PROVE), *map(str, words), "--jobs", "2"]
    return Run(
        subprocess.run(
            command, cwd=folder, env=environment, capture_output=True, text=True, timeout=SECONDS, check=False
        )
    )


def fake(folder: Path, name: str, text: str) -> str:
    """Writes a program that takes the place of a tool, and returns its folder."""
    place = folder / "fake"
    place.mkdir(exist_ok=True)
    path = place / name
    path.write_text(f"#!/bin/sh\n{text}\n")
    path.chmod(path.stat().st_mode | stat.S_IXUSR)
    return str(place)


def start(*words: str) -> List[str]:
    return [str(START), "--top", "adapter", "--no-same-cycle-response", *words]


@pytest.fixture(scope="session")
def bounded(cache: Path, tmp_path_factory: pytest.TempPathFactory) -> Run:
    """A run of three cycles. From here on, the model of the adapter is in the cache."""
    needs_tools("yosys", "yosys-abc", "verilator")
    return prove(cache, tmp_path_factory.mktemp("bounded"), *start("--cycles", "3", "--only", "a.Data0"))


# ---- quick: the adapter of examples/start


def test_correct_adapter_is_proved(cache: Path, tmp_path: Path) -> None:
    needs_tools("yosys", "yosys-abc", "verilator")
    run = prove(
        cache, tmp_path, *start("--unbounded", "--cycles", "4", "--only", "a.(Data0|Mask)|d.(Data7|Head)|Source")
    )
    assert run.status == 0, run.out + run.err
    assert set(run.verdicts) == {
        "a.Data0",
        "a.Mask",
        "d.Data7",
        "d.Head",
        "d.SourceA",
        "d.SourceD",
        "d.SourceOne",
        "d.SourceRoom",
    }
    assert set(run.verdicts.values()) == {"proved"}
    assert "the manager never responds in the cycle" in run.out
    assert "8 assertions: 8 proved" in run.out


def test_bound_is_a_bound(bounded: Run) -> None:
    assert (bounded.status, bounded.verdicts) == (0, {"a.Data0": "no counterexample in 3 cycles"}), bounded.err
    assert "proved" not in bounded.out.replace("nothing is proved", "")


def test_killed_solver_claims_nothing(cache: Path, bounded: Run, tmp_path: Path) -> None:
    """abc prints that it has a proof, and is killed before it ends."""
    assert bounded.status == 0, bounded.err
    said = "Verification of invariant with 3 clauses was successful.\\nProperty proved.  Time = 0.1 sec\\n"
    for text in (f"printf '{said}'; kill -9 $$", f"printf '{said}'; exit 0", f"printf '{said}'; exit 1", "exit 0"):
        run = prove(cache, tmp_path, *start("--unbounded", "--only", "a.Head"), path=fake(tmp_path, "yosys-abc", text))
        assert run.status == 4, run.out + run.err
        assert run.claims_nothing(), run.out
        assert "nothing is claimed" in run.err


def test_killed_yosys_claims_nothing(tmp_path: Path) -> None:
    needs_tools("yosys", "yosys-abc", "verilator")
    run = prove(tmp_path / "cache", tmp_path, *start(), path=fake(tmp_path, "yosys", "kill -9 $$"))
    assert run.status == 4 and run.claims_nothing(), run.out + run.err
    assert "yosys" in run.err and len(run.err.splitlines()) == 1


def test_a_run_that_is_ended(tmp_path: Path) -> None:
    """SIGTERM ends the run, with the tools that it started and its temporary files."""
    needs_tools("verilator")
    place = fake(tmp_path, "yosys", f"[ $1 != -V ] || exit 0; echo $$ > {tmp_path}/id; exec sleep 3600")
    environment = {**os.environ, "PATH": place + os.pathsep + os.environ["PATH"], "TMPDIR": str(tmp_path / "temporary")}
    (tmp_path / "temporary").mkdir()
    command = [sys.executable, str(PROVE), *start(), "--no-cache"]
    process = subprocess.Popen(command, cwd=tmp_path, env=environment, stdout=subprocess.PIPE, stderr=subprocess.PIPE)
    end = time.monotonic() + 600
    while not (tmp_path / "id").is_file() or not (tmp_path / "id").read_text():
        assert time.monotonic() < end and process.poll() is None
        time.sleep(0.05)
    assert list((tmp_path / "temporary").iterdir())
    process.terminate()
    out, err = process.communicate(timeout=600)
    assert process.returncode == 143 and b"proved" not in out and err == b""
    with pytest.raises(ProcessLookupError):
        os.kill(int((tmp_path / "id").read_text()), 0)
    assert not list((tmp_path / "temporary").iterdir())


def test_model_without_assertions_claims_nothing(cache: Path, bounded: Run, tmp_path: Path) -> None:
    """A model of the cache whose list of assertions is empty, and a name that no assertion has."""
    assert bounded.status == 0, bounded.err
    kept = {path: path.read_text() for path in cache.glob("*/labels")}
    for path, text in kept.items():
        if "SeesTime" in text:  # those with all assertions
            path.write_text("")
    try:
        run = prove(cache, tmp_path, *start("--unbounded", "--only", "a.Head"))
    finally:
        for path, text in kept.items():
            path.write_text(text)
    assert run.status == 4 and run.claims_nothing(), run.out + run.err
    assert "the model has no assertion: nothing is proved" in run.err
    run = prove(cache, tmp_path, *start("--only", "a.Nothing"))
    assert run.status == 2 and run.claims_nothing(), run.out + run.err
    assert "There are a.Corrupt, a.Data0" in run.err


@pytest.mark.long
def test_assumption_that_excludes_everything_claims_nothing(tmp_path: Path) -> None:
    needs_tools("yosys", "yosys-abc", "verilator")
    run = prove(tmp_path / "cache", tmp_path, *start("--unbounded", "--assume", "!client_a_valid"))
    assert run.status == 2 and run.claims_nothing(), run.out + run.err
    assert re.search(r"nothing is proved: no beat of channel [AD] can arrive", run.err)


@pytest.mark.long
def test_assumption_that_ends_time_claims_nothing(cache: Path, tmp_path: Path) -> None:
    """Beats arrive in the first cycles, and after the tenth one no run is left: all would hold from there on."""
    needs_tools("yosys", "yosys-abc", "verilator")
    run = prove(tmp_path / "cache", tmp_path, *start("--unbounded", "--assume", "cycles < 10"))
    assert run.status == 2 and run.claims_nothing(), run.out + run.err
    assert "nothing is proved: the assumptions exclude every run of 16 cycles" in run.err


def test_planted_bug_fails_and_is_replayed(tmp_path: Path) -> None:
    needs_tools("yosys", "yosys-abc", "verilator", "iverilog")
    words = ("--define", "BUG", "--cycles", "6", "--only", "d.Data0|a.Data0", "--watched-source-only")  # a small model
    run = prove(tmp_path / "cache", tmp_path, *start(*words))
    assert run.status == 1, run.out + run.err
    assert set(run.fails()) == {"d.Data0"} and run.fails()["d.Data0"] <= 3
    assert run.verdicts["a.Data0"] == "no counterexample in 6 cycles"
    out = tmp_path / "tlbridge-prove.adapter"
    assert "in which the watch reports d.Data0" in run.out  # the watch in Icarus sees the same
    assert (out / "counterexample.vcd").stat().st_size > 1000
    assert (out / "counterexample.trace").read_text().startswith("tilelink-trace")
    assert re.search(r"compared with the far beats of .*: D: far beat \d+", run.out)  # so does the model


# ---- quick: bad input, which needs no model

PORTS: Dict[str, Any] = {}
READ_PORTS = design.read_ports


def read_ports_once(source: Source, structs: Sequence[str] = ()) -> Any:
    key = repr((source, structs))
    if key not in PORTS:
        PORTS[key] = READ_PORTS(source, structs)
    return PORTS[key]


@pytest.mark.parametrize(
    "words, status, message",
    [
        (["none.sv", "--top", "adapter"], 2, "there is no file"),
        ([str(START), "--top", "adaptor"], 2, "the files have no module adaptor"),
        (["--top", "adapter"], 2, "no file of the design was named"),
        ([str(EXAMPLES), "--top", "adapter"], 2, "is a folder: name the files of the design"),
        (start("--out", str(START)), 2, "this is a file: name a folder"),
        (start("--assume", "client_a_opcod == 4"), 2, "there is no signal client_a_opcod, but client_a_opcode"),
        (start("--assume", "client_a_opcode = 4"), 2, "--assume 'client_a_opcode = 4': syntax error"),
        (start("--clocks", "2"), 2, "both links have the clock clock"),
        (start("--assume", "1; end"), 2, "this is not an expression"),
        (start("--largest", "64"), 2, "size has 2 bits"),
        (start("--cycles", "0"), 2, "a number of cycles is a number from 1"),
        (start("--tie", "nothing=1"), 2, "the design has no such input left over"),
    ],
)
def test_bad_input(
    words: List[str],
    status: int,
    message: str,
    tmp_path: Path,
    monkeypatch: pytest.MonkeyPatch,
    capsys: pytest.CaptureFixture[str],
) -> None:
    """In this process, and Verilator reads each design once."""
    needs_tools("verilator")
    monkeypatch.chdir(tmp_path)
    monkeypatch.setenv("TLBRIDGE_CACHE", str(tmp_path / "cache"))
    monkeypatch.setattr(sys, "stdout", sys.stdout)  # the command puts its own in this place
    for module in (design, user_bits):
        monkeypatch.setattr(module, "read_ports", read_ports_once)
    try:
        found = command.main([*words, "--jobs", "2"])
    except SystemExit as ended:  # of argparse
        found = int(str(ended.code))
    said = capsys.readouterr()
    run = Run(subprocess.CompletedProcess(words, found, said.out, said.err))
    assert run.status == status, run.out + run.err
    assert message in run.err
    assert run.claims_nothing()


def test_unreadable_design(tmp_path: Path) -> None:
    """Verilator reads it, yosys 0.23 does not: the message has the line and a remedy."""
    needs_tools("yosys", "yosys-abc", "verilator")
    text = START.read_text().replace(
        "assign down_a_valid   = up_a_valid;", "assign down_a_valid = up_a_valid inside {1'b1};"
    )
    assert "inside" in text
    (tmp_path / "odd.sv").write_text(text)
    run = prove(tmp_path / "cache", tmp_path, "odd.sv", "--top", "adapter")
    assert run.status == 3, run.out + run.err
    assert re.search(r"odd\.sv:\d+", run.err) and "sv2v" in run.err and len(run.err.splitlines()) == 1
    broken = START.read_text().replace("endmodule", "")
    (tmp_path / "broken.sv").write_text(broken)
    run = prove(tmp_path / "cache", tmp_path, "broken.sv", "--top", "adapter")
    assert run.status == 3 and "the design does not compile" in run.err


ACCEPTED = "assign up_a_ready     = down_a_ready;"
WRONG_DESIGNS = {
    "latch": (
        "always_ff @(posedge clock)\n        if (up_a_valid && up_a_ready) begin",
        "always_latch\n        if (up_a_valid && up_a_ready) begin",
        r"/design\.sv:\d+\.\d+: \w+ is a latch: a proof needs registers",
    ),
    "two drivers": (
        ACCEPTED,
        ACCEPTED + " assign up_a_ready = 1'b1;",
        r"/design\.sv:6\.\d+: up_a_ready has two drivers",
    ),
    "clock": (ACCEPTED, "assign up_a_ready = down_a_ready && clock;", r"/design\.sv:\d+\.\d+: a clock is used as data"),
    "memory": (
        ACCEPTED,
        ACCEPTED + " logic [31:0] ram[65536]; always_ff @(posedge clock) ram[up_a_address[15:0]] <= up_a_data[31:0];\n"
        "    assign extra = ram[down_d_data[15:0]];",
        r"/design\.sv:\d+\.\d+: the memory ram has 2097152 bits.* smaller by a parameter",
    ),
    "array of structs": (
        ACCEPTED,
        ACCEPTED + " typedef struct packed {logic [3:0] high, low;} pair_t;\n    pair_t  pairs [2];\n"
        "    always_ff @(posedge clock) pairs[up_a_source[0]] <= up_a_data[7:0];\n"
        "    assign extra = {24'd0, pairs[up_a_source[1]]};",
        r"/design\.sv:\d+\.13: pairs has 16 bits, of which yosys reads 8: it drops the bounds of an array",
    ),
    "loop": (
        ACCEPTED,
        "wire round = round ^ down_a_ready; assign up_a_ready = round;",
        r"/design\.sv:\d+\.\d+: a loop of logic without a register: break it",
    ),
    "falling edge": (  # AIGER has one kind of register
        "always_ff @(posedge clock)",
        "always_ff @(negedge clock)",
        r"/design\.sv:\d+\.\d+ is clocked by a falling edge: a proof needs registers",
    ),
}


def wrong_design(name: str, folder: Path) -> Path:
    """Writes the adapter of examples/start with one of these changes."""
    old, new, _ = WRONG_DESIGNS[name]
    text = START.read_text()
    assert text.count(old) == 1
    path = folder / "design.sv"
    path.write_text(text.replace(old, new).replace("up_d_ready,\n", "up_d_ready,\n    output logic [31:0] extra,\n"))
    return path


def build_without_watch(path: Path) -> model.Model:
    """Makes a model of the design with one assertion about it, in a tenth of the time."""
    source = Source("adapter", (str(path),))
    assertion = "    always @* if (!reset) Reads: assert (client_a_ready || client_d_data[0]);\n"
    options = Options(level="ul", largest=4, extra_lines=assertion)
    text = write_harness(read_design(source), options, cover=False).text
    text, count = re.subn(r"    tl_bridge_watch #\(.*?\);\n(?=`ifdef FORMAL)", "", text, flags=re.S)
    assert count == 1
    (path.parent / "proof.sv").write_text(text)
    recipe = model.Recipe(TOP, source.files, (str(path.parent / "proof.sv"),))
    sizes = sizes_of(source, path.parent)
    return model.build(recipe, path.parent / "cache", lambda netlist: check_sizes(netlist, sizes))[0]


@pytest.mark.parametrize("name", WRONG_DESIGNS)
def test_design_that_has_no_model(name: str, tmp_path: Path) -> None:
    """Verilator and yosys read each of these, and a model of it would be that of another design."""
    needs_tools("yosys", "yosys-abc", "verilator")
    with pytest.raises(ProveError, match=WRONG_DESIGNS[name][2]) as error:
        build_without_watch(wrong_design(name, tmp_path))
    assert error.value.status == 3
    assert not list((tmp_path / "cache").glob("*/labels"))  # nor is one found the next time


def test_design_that_has_a_model(tmp_path: Path) -> None:
    """The adapter without a change is none of them."""
    needs_tools("yosys", "yosys-abc", "verilator")
    shutil.copy(START, tmp_path / "design.sv")
    assert build_without_watch(tmp_path / "design.sv").labels == ("Reads",)


def test_command_refuses_a_design_that_has_no_model(tmp_path: Path) -> None:
    needs_tools("yosys", "yosys-abc", "verilator")
    name = "array of structs"  # the last check of the netlist
    wrong_design(name, tmp_path)
    run = prove(tmp_path / "cache", tmp_path, "design.sv", "--top", "adapter")
    assert run.status == 3 and run.claims_nothing(), run.out + run.err
    assert re.search(WRONG_DESIGNS[name][2], run.err) and len(run.err.splitlines()) == 1, run.err


def test_missing_tool(tmp_path: Path) -> None:
    needs_tools("verilator")
    place = tmp_path / "bin"
    place.mkdir()
    for name in ("verilator", "verilator_bin", "nice", "env", "perl", "sh", "python3", Path(sys.executable).name):
        for folder in os.environ["PATH"].split(os.pathsep):
            if (Path(folder) / name).exists() and not (place / name).exists():
                (place / name).symlink_to(Path(folder) / name)
    environment = {**os.environ, "PATH": str(place), "TLBRIDGE_CACHE": str(tmp_path / "cache")}
    done = subprocess.run(
        [sys.executable, str(PROVE), *start()],
        cwd=tmp_path,
        env=environment,
        capture_output=True,
        text=True,
        timeout=SECONDS,
        check=False,
    )
    assert done.returncode == 4, done.stdout + done.stderr
    assert "yosys was not found in PATH: install it" in done.stderr


def test_projects(tmp_path: Path) -> None:
    """The project of SymbiYosys and the Tcl were not run, and say so. yosys runs the script of the project."""
    needs_tools("verilator", "yosys")
    run = prove(tmp_path / "cache", tmp_path, *start("--sby", "sby", "--tcl", "tcl", "--cycles", "7"))
    assert run.status == 0, run.out + run.err
    text = (tmp_path / "sby" / "prove.sby").read_text()
    assert "did NOT run it" in text and "bmc: depth 8" in text
    proof_files = {"proof.sv", "tl_checker.sv", "tl_bridge_watch.sv"}
    assert proof_files <= {path.name for path in (tmp_path / "sby").iterdir()}
    assert proof_files <= {path.name for path in (tmp_path / "tcl").iterdir()}
    assert run.claims_nothing()
    tcl = (tmp_path / "tcl" / "prove.tcl").read_text()
    assert "NEVER run" in tcl and str(START) in tcl and "set_max_trace_length 8" in tcl
    shutil.copy(START, tmp_path / "sby")
    script = text[text.index("\n[script]\n") + 10 : text.index("\n[files]\n")]
    (tmp_path / "sby" / "script.ys").write_text(script + "\nselect -write assertions t:$assert\n")
    done = subprocess.run(
        ["yosys", "-q", "-s", "script.ys"], cwd=tmp_path / "sby", capture_output=True, text=True, check=False
    )
    assert done.returncode == 0, done.stdout + done.stderr
    assertions = (tmp_path / "sby" / "assertions").read_text().split()
    assert len(assertions) == 32 and "tlbridge_proof/watch.d.watch.Data0" in assertions
