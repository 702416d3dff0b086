"""The parts of tlbridge-prove around the proof, without yosys: tools, projects, the replay, and what is printed of a
failure."""

import argparse
import os
import signal
import threading
import time
from pathlib import Path
from typing import Any, Dict, List, Optional, Sequence, Tuple

import pytest
from project import needs_tools

from tlbridge.prove import command, engine, failure, model, netlist, projects, replay, tools, user_bits
from tlbridge.prove.engine import BOUNDED, FAILS, PROVED, Verdict
from tlbridge.prove.errors import ProveError
from tlbridge.prove.harness import Harness, Options, write_harness
from tlbridge.prove.model import Model
from tlbridge.prove.options import command_line
from tlbridge.prove.report import Progress
from tlbridge.prove.search import Search
from tlbridge.prove.session import Session
from tlbridge.verify.design import Design, Port, Signal, Source, find_links

LABELS = ("watch.a.watch.Data0", "watch.a.watch.Invented", "watch.SourceA")


def a_tool(folder: Path, name: str, text: str) -> None:
    """Writes a program of the shell, in the place of a tool."""
    folder.mkdir(exist_ok=True)
    (folder / name).write_text(f"#!/bin/sh\n{text}\n")
    (folder / name).chmod(0o755)


def error_of(call: Any, *words: Any) -> Tuple[str, int]:
    with pytest.raises(ProveError) as caught:
        call(*words)
    return str(caught.value), caught.value.status


# ---- tools


def test_a_tool_runs_to_its_end(tmp_path: Path) -> None:
    done = tools.run_tool(["sh", "-c", "pwd && echo wrong >&2; exit 3"], 60, tmp_path)
    assert (done.status, done.said) == (3, f"{tmp_path}\nwrong\n") and 0 <= done.seconds < 30
    assert tools.run_tool(["sh", "-c", "kill -9 $$"], 60).status == -9
    began = time.monotonic()
    said, status = error_of(tools.run_tool, ["sh", "-c", "echo $$ > pid; exec sleep 60"], 1.5, tmp_path)
    assert (said, status) == ("sh did not end within 2 seconds: nothing is claimed", 4)
    assert time.monotonic() - began < 50
    with pytest.raises(ProcessLookupError):
        os.kill(int((tmp_path / "pid").read_text()), 0)


def test_a_tool_that_reaches_its_processor_time() -> None:
    """The system ends it by SIGXCPU. A tool that only waits has no such limit."""
    done = tools.run_tool(["sh", "-c", "while :; do :; done"], 600, None, 1)
    assert done.status == -signal.SIGXCPU and 0.5 < done.seconds < 20
    assert tools.run_tool(["sh", "-c", "sleep 1.2"], 600, None, 1).status == 0


def test_a_tool_that_is_missing(tmp_path: Path, monkeypatch: pytest.MonkeyPatch) -> None:
    monkeypatch.setenv("PATH", str(tmp_path))
    for name, package in (("yosys-abc", "yosys"), ("vvp", "iverilog"), ("other", "other")):
        said = f"{name} was not found in PATH: install it (`apt install {package}`)"
        assert error_of(tools.find_tool, name) == (said, 4)
    a_tool(tmp_path, "vvp", "")
    assert tools.find_tool("vvp") == str(tmp_path / "vvp")


@pytest.mark.parametrize("jobs", [1, 2])
def test_as_many_questions_at_once_as_there_are_jobs(jobs: int) -> None:
    now, most, lock = [0], [0], threading.Lock()

    def question() -> Verdict:
        with lock:
            now[0] += 1
            most[0] = max(most[0], now[0])
        time.sleep(0.05)
        with lock:
            now[0] -= 1
        return Verdict(PROVED, 0, 0.1)

    assert sorted(number for number, _ in engine.in_parallel(jobs, [(at, question) for at in range(4)])) == [0, 1, 2, 3]
    assert most[0] == jobs


# ---- projects


def test_projects_of_other_tools(tmp_path: Path) -> None:
    (tmp_path / "from").mkdir()
    proof = [tmp_path / "from" / "tl_watch.sv", tmp_path / "to" / "proof.sv"]
    for path in proof:
        path.parent.mkdir(exist_ok=True)
        path.write_text(path.name)
    source = Source("dut", ("a/x.sv", "y.sv"), {}, ("P", "Q=2"), ("inc",))
    for write, option in ((projects.write_sby, "--sby"), (projects.write_tcl, "--tcl")):
        made = write(tmp_path / "to", source, proof, 20, 3, False)
        said, status = error_of(write, tmp_path / "two", source, proof, 20, 3, True)
        assert status == 2 and said.startswith(f"{option}: it is for one clock only") and made.parent == tmp_path / "to"
        assert not (tmp_path / "two").exists()
    assert (tmp_path / "to" / "tl_watch.sv").read_text() == "tl_watch.sv"
    sby = (tmp_path / "to" / "prove.sby").read_text()
    assert "in 20 cycles" in sby and "bmc: depth 23\n" in sby and "hierarchy -check -top tlbridge_proof\n" in sby
    assert "read_verilog -sv -formal -DP -DQ=2 -Iinc tl_watch.sv proof.sv\n" in sby
    assert "-norestrict -DP -DQ=2 -Iinc x.sv y.sv\n" in sby
    assert sby.endswith("[files]\na/x.sv\ny.sv\ntl_watch.sv\nproof.sv\n")
    tcl = (tmp_path / "to" / "prove.tcl").read_text()
    assert (
        "+define+FORMAL +define+P +define+Q=2 tl_watch.sv proof.sv\n" in tcl
        and "elaborate -top tlbridge_proof\n" in tcl
    )
    assert "+define+SYNTHESIS +define+P +define+Q=2 +incdir+inc a/x.sv y.sv\n" in tcl
    assert "for 3 cycles by itself" in tcl and "set_max_trace_length 23\n" in tcl
    twice = Source("dut", ("a/x.sv", "b/x.sv"))
    assert "two files have one name" in error_of(projects.write_sby, tmp_path / "to", twice, proof, 20, 3, False)[0]
    same = Source("dut", ("a/proof.sv",))
    assert "two files have one name" in error_of(projects.write_sby, tmp_path / "to", same, proof, 20, 3, False)[0]


# ---- the replay

HARNESS = Harness("module proof; endmodule\n", "AD", {}, {}, (), (("free_valid", 1), ("free_data", 12)))
TABLE: List[Dict[str, int]] = [
    {"free_valid": 1, "free_data": 0xABC, "init dut.state": 5, "init dut.off": 0, "client_tick": 1},
    {},
]


def test_the_bench_of_a_replay() -> None:
    text = replay.bench_of(HARNESS, TABLE, False, True)
    assert "    reg [0:0] free_valid = 0;\n    reg [11:0] free_data = 0;\n" in text
    assert "    tlbridge_proof proof (.clock(clock), .free_valid(free_valid), .free_data(free_data));\n" in text
    assert "        $deposit(proof.dut.state, 3'h5);\n        $deposit(proof.dut.off, 1'h0);\n" in text
    steps = "        // step 0\n        free_valid = 1'h1;\n        free_data = 12'habc;\n"
    steps += "        #5 {clock} = {1{1'b1}}; #5 {clock} = 0;\n"
    steps += steps.replace("step 0", "step 1").replace("1'h1", "1'h0").replace("habc", "h0")
    assert steps + "        $finish;" in text and "_tick = " not in text.replace("_tick = 0", "")
    assert "proof.dut" not in replay.bench_of(HARNESS, TABLE, False, False)
    text = replay.bench_of(HARNESS, TABLE, True, True)
    assert (
        ".clock(clock), .client_clock(client_clock), .manager_clock(manager_clock), .client_tick(client_tick)," in text
    )
    assert (
        "client_tick = 1;\n        manager_tick = 0;\n        #5 {clock, client_clock} = {2{1'b1}}; #5 {clock, cl"
        in text
    )


def test_what_a_replay_reports(tmp_path: Path, monkeypatch: pytest.MonkeyPatch) -> None:
    bin_folder, out = tmp_path / "bin", tmp_path / "out"
    out.mkdir()
    monkeypatch.setenv("PATH", f"{bin_folder}:/usr/bin:/bin")

    def played(iverilog: str, vvp: str) -> replay.Replayed:
        a_tool(bin_folder, "iverilog", iverilog)
        a_tool(bin_folder, "vvp", vvp)
        return replay.replay(out, HARNESS, TABLE, ["dut.sv"], [Path("/w.sv")], False)

    said = "50: replay.proof.watch.a.watch: Data0 is wrong\n60: replay.proof.watch.a.watch: SeesBeat\n"
    good = played('echo "$@" > words', f"printf '{said}'")
    assert good == replay.Replayed(("50 a.Data0",)) and (out / "replay.log").read_text() == said
    words = (out / "words").read_text().split()
    assert words[-5:] == ["timescale.sv", "dut.sv", "/w.sv", "proof.sv", "replay.sv"] and "-DREPLAY" in words
    assert "proof.dut.state" in (out / "replay.sv").read_text()
    # registers that Icarus cannot reach begin with x
    assert played("! grep -q 'proof.dut' replay.sv", f"printf '{said}'").reports == ("50 a.Data0",)
    assert "proof.dut" not in (out / "replay.sv").read_text()
    bad = played("echo note\necho 'dut.sv:3: error: odd'\nexit 1", "")
    assert bad == replay.Replayed((), "Icarus cannot read the design: dut.sv:3: error: odd")
    assert played("exit 1", "").problem == "Icarus cannot read the design: it printed nothing"
    assert played("", "exit 2").problem == "vvp ended with status 2"


ENUMERATED = """module holder (input wire clock);
    typedef enum logic [1:0] {IDLE, BUSY, LAST} state_t;
    state_t state;
    logic [3:0] words[0:1];
    always_ff @(posedge clock) begin
        $display("%0t: replay.proof.watch.a.watch: State%0d_%0d", $time, state, words[1]);
        state <= state == BUSY ? LAST : IDLE;
    end
endmodule
"""


@pytest.mark.simulator
def test_a_replay_sets_registers_of_any_type(tmp_path: Path) -> None:
    """Icarus takes no number for a register of an enumerated type, except by $deposit, which takes no word of a
    memory.
    """
    needs_tools("iverilog", "vvp")
    (tmp_path / "holder.sv").write_text(ENUMERATED)
    module = "module tlbridge_proof (input wire clock, input wire [0:0] free_valid);\n    holder dut (.clock(clock));\n"
    harness = Harness(f"{module}endmodule\n", "AD", {}, {}, (), (("free_valid", 1),))
    (tmp_path / "proof.sv").write_text(harness.text)
    table: List[Dict[str, int]] = [{"free_valid": 1, "init dut.state": 1, "init dut.words[1]": 5}, {}]
    shown = replay.replay(tmp_path, harness, table, ["holder.sv"], [], False)
    assert shown == replay.Replayed(("5000 a.State1_5", "15000 a.State2_5"))


def test_the_name_of_a_register() -> None:
    cell = {"connections": {"Q": [5]}}
    wires: Dict[str, Any] = {"dut.a.dut.b": {"bits": [5], "attributes": {"src": "x.sv:3.1-3.9"}}}
    wires["$hidden"] = {"bits": [5], "hide_name": 1, "attributes": {}}
    assert netlist._register({"netnames": wires}, cell) == "x.sv:3.1: a.dut.b"
    assert netlist._register({"netnames": {}}, cell) == "a register"


# ---- the harness, the model


def a_design(more: Sequence[Tuple[str, Signal]] = ()) -> Design:
    """A design with two links of 4 bytes."""
    fields = {"opcode": 3, "size": 2, "source": 2, "address": 8, "mask": 4, "data": 32, "valid": 1, "ready": 1}
    signals: List[Tuple[str, Signal]] = []
    for stem, receives in (("in_", True), ("out_", False)):
        for letter in "ad":
            for word, bits in fields.items():
                way = "input" if ((letter == "a") == receives) != (word == "ready") else "output"
                signals.append((f"{stem}{letter}_{word}", Signal(f"{stem}{letter}_{word}", 0, bits, way)))
    links = find_links([*signals, *more])
    links["in_"].clock = links["out_"].clock = "clock"
    ports = {signal.port: Port(signal.direction, signal.low + signal.bits) for _, signal in signals}
    return Design(Source("adapter", ("adapter.sv",)), ports, links["in_"], links["out_"])


def test_the_wires_of_the_harness() -> None:
    design = a_design()
    assert design.manager
    text = write_harness(design, Options(level="ul", largest=4)).text
    assert "wire [2:0] manager_a_opcode = port_out_a_opcode[2:0];" in text and ".ASSUME_OFFERED(1'b0)" in text
    assert "wire [31:0] client_d_data = port_in_d_data[31:0];" in text and "wire [3:0] port_out_a_mask;" in text
    for options in (Options(level="ul", largest=4, forwards_offered=True), Options("ul", 4, assume_offered=True)):
        assert ".ASSUME_OFFERED(1'b1)" in write_harness(design, options).text
    del design.manager.channels["A"]["mask"]
    said = "channel A of the link out sends no mask: add it in a wrapper module"
    assert error_of(write_harness, design, Options(level="ul", largest=4))[0] == said


def test_the_user_bits_of_structs(monkeypatch: pytest.MonkeyPatch) -> None:
    design = a_design()
    assert design.client and design.manager
    design.client.stem, design.manager.stem = "tl_h_", "tl_d_"
    signals = [("tl_h_i_a_user", Signal("tl_h_i", 4, 3, "input")), ("tl_d_o_a_user", Signal("tl_d_o", 9, 3, "output"))]
    signals += [("tl_d_a_user", Signal("other", 0, 3, "output")), ("tl_d_i_d_user", Signal("tl_d_i", 0, 3, "input"))]
    monkeypatch.setattr(user_bits, "read_ports", lambda source, structs: ({}, signals[:2]))
    found = user_bits.find_user_bits(design)
    assert found.both == {"A": ((signals[0][1], signals[1][1]),)} and found.others == ()
    monkeypatch.setattr(user_bits, "read_ports", lambda source, structs: ({}, [signals[0], signals[3]]))
    assert user_bits.find_user_bits(design).others == ("tl_h_i", "tl_d_i")
    plain = [("in_a_user", Signal("in_a_user", 0, 2, "input")), ("out_a_user", Signal("out_a_user", 0, 2, "output"))]
    monkeypatch.setattr(user_bits, "read_ports", lambda source, structs: ({}, plain))
    assert user_bits.find_user_bits(a_design()).bits("A") == 2


def test_the_assertions_that_a_model_keeps(tmp_path: Path, monkeypatch: pytest.MonkeyPatch) -> None:
    """The others are assumed or removed, and one that yosys folds is named."""
    names = [
        f"tlbridge_proof/{name}" for name in ("watch.a.watch.Head", "watch.a.watch.Data0", "watch.d.watch.Odd", "x.Z")
    ]
    scripts: List[List[str]] = []

    def yosys(steps: List[str], folder: Path) -> None:
        scripts.append(list(steps))
        (folder / "flat.il").write_text("")
        (folder / "labels.all").write_text("\n".join(names))
        (folder / "assumed.all").write_text("p/free.One\np/free.Two\n")
        (folder / "labels.last").write_text(names[1] + "\n")

    monkeypatch.setattr(model, "_yosys", yosys)
    monkeypatch.setattr("tempfile.tempdir", str(tmp_path))
    for name in ("check_netlist", "settle_clocks", "simplify"):
        monkeypatch.setattr(model, name, lambda *_: None)
    recipe = model.Recipe("top", ("dut.sv",), ("proof.sv",), assume="Head", drop="Odd", forget="Two")
    made, was_there = model.build(recipe, None)
    assert not was_there and made.labels == ("watch.a.watch.Data0",) and made.folded == ("x.Z",)
    assert (made.folder / "labels.ys").read_text().splitlines() == [
        f"chformal -assert -assert2assume {names[0]}",
        f"chformal -assert -remove {names[2]}",
        "chformal -assume -remove p/free.Two",
    ]
    assert scripts[0][1] == "read_verilog -sv -noassert -noassume -norestrict dut.sv"
    made, _ = model.build(model.Recipe("top", ("dut.sv",), ("proof.sv",), keep="Data"), None)
    assert (made.folder / "labels.ys").read_text().count("-remove") == 3 and made.folded == ()
    said, status = error_of(model.build, model.Recipe("top", ("a b.sv",), ()), None)
    assert status == 2 and said.startswith("a b.sv: yosys needs a file name without spaces")


# ---- what is printed


def result(
    monkeypatch: pytest.MonkeyPatch,
    folder: Path,
    verdicts: Dict[int, Verdict],
    asked: List[int],
    largest: Optional[int] = None,
) -> int:
    """Prints the result of a session whose search ends with these verdicts, and returns its exit status. `largest` is
    the word of the command line.
    """
    session = Session.__new__(Session)
    session.words = argparse.Namespace(
        reset_cycles=2, out=str(folder / "out"), seconds=9, top="dut", unbounded=False, largest=largest
    )
    session.design = a_design()
    session.options, session.shown = Options(reset_cycles=2), Progress()
    session.model, session.harness, session.folder = Model(folder, LABELS), HARNESS, folder
    monkeypatch.setattr(Session, "build_whole", lambda _: None)
    monkeypatch.setattr(Session, "chosen", lambda _: asked)
    monkeypatch.setattr(command, "reach", lambda _: None)
    monkeypatch.setattr(Search, "run", lambda search, asked: search.verdicts.update({i: verdicts[i] for i in asked}))
    return command.prove(session)


def test_the_result_of_a_proof(
    tmp_path: Path, monkeypatch: pytest.MonkeyPatch, capsys: pytest.CaptureFixture[str]
) -> None:
    verdicts = {0: Verdict(PROVED, 0, 1.0), 1: Verdict(BOUNDED, 22, 1.0), 2: Verdict(BOUNDED, 9, 1.0)}
    assert result(monkeypatch, tmp_path, verdicts, [0, 1, 2]) == 0
    assert capsys.readouterr().out.splitlines()[0] == (
        "3 assertions: 1 proved, 2 without a counterexample in 7 cycles or more"
    )
    assert result(monkeypatch, tmp_path, verdicts, [0]) == 0
    assert capsys.readouterr().out.startswith("1 assertion: 1 proved\n")


def test_a_failure_without_icarus(
    tmp_path: Path, monkeypatch: pytest.MonkeyPatch, capsys: pytest.CaptureFixture[str]
) -> None:
    asked: List[int] = []
    size = [2]

    def counterexample(_: Model, index: int, frame: int, seconds: int, path: Path) -> List[Dict[str, int]]:
        asked.append(index)
        return [*TABLE[:1], {"free_client_a_valid": 1, "free_client_a_size": size[0]}]

    monkeypatch.setattr(engine, "counterexample", counterexample)
    monkeypatch.setattr("shutil.which", lambda name: None)
    fails = {0: Verdict(FAILS, 7, 1.0), 1: Verdict(FAILS, 5, 1.0), 2: Verdict(FAILS, 5, 1.0)}
    assert result(monkeypatch, tmp_path, fails, [0, 1, 2]) == 1
    out = capsys.readouterr().out
    assert (
        asked == [1] and "3 assertions: 3 fail\n" in out and f"counterexample of a.Invented, in {tmp_path}/out:" in out
    )
    assert "--forwards-offered" in out and "There is no Icarus (`apt install iverilog`), so there is no waveform" in out
    assert "--largest" not in out
    assert (tmp_path / "out" / "inputs.txt").read_text() == (
        "step 0: free_valid=1 free_data=abc client_tick=1\nstep 1: free_client_a_valid=1 free_client_a_size=2\n"
    )
    assert (tmp_path / "out" / "proof.sv").read_text() == HARNESS.text
    assert result(monkeypatch, tmp_path, fails, [0]) == 1
    out = capsys.readouterr().out
    assert "1 assertion: 1 fails\n" in out and "--forwards-offered" not in out
    size[0] = 4  # 16 bytes, and the links have 4
    assert result(monkeypatch, tmp_path, fails, [0]) == 1
    said = (
        "a message of 16 bytes is offered, which has more than one beat on both links. If your neighbours send none, "
    )
    assert said + "add --largest 4\n" in capsys.readouterr().out
    assert result(monkeypatch, tmp_path, fails, [0], 16) == 1
    assert "add --largest" not in capsys.readouterr().out


@pytest.mark.parametrize(
    "response, time, found", [("D 1 0 0 02", 15000, True), ("D 1 0 0 02", 25000, False), ("D 1 0 0 01", 15000, False)]
)
def test_a_response_in_the_cycle_of_its_request(response: str, time: int, found: bool, tmp_path: Path) -> None:
    """It has the time and the source of a request."""
    (tmp_path / "manager.beats").write_text(f"A 4 0 0 02 0000 1 00 0\n{response} 00 0 01 0\n")
    (tmp_path / "manager.beats.times").write_text(f"15000\n{time}\n")
    assert failure.responds_at_once(tmp_path / "manager.beats") == found
    assert not failure.responds_at_once(tmp_path / "client.beats")


def test_the_words_of_the_command_line() -> None:
    words = "a.sv b.sv --top t -f l -P N=1 -P M=2 -D Q=2 -I i --client up --manager down --client-clock c"
    words += " --manager-reset !r --tie x=1 --clocks 2 --reset-cycles 3 --cycles 9 --unbounded --seconds 7 --only Data"
    words += " --level ul --largest 64 --no-same-cycle-response --zero-lanes --forwards-offered --offered-rules"
    words += " --later-resets --no-user-bits"
    found = vars(command_line().parse_args(words.split()))
    expected: Dict[str, Any] = dict(
        files=["a.sv", "b.sv"], top="t", file_list="l", param=[("N", "1"), ("M", "2")], define=["Q=2"]
    )
    expected.update(include=["i"], client="up", manager="down", client_clock="c", manager_reset="!r", tie=[("x", "1")])
    expected.update(clocks=2, reset_cycles=3, cycles=9, unbounded=True, seconds=7, only="Data", level="ul", largest=64)
    expected.update(no_same_cycle_response=True, zero_lanes=True, forwards_offered=True, offered_rules=True)
    expected.update(later_resets=True, no_user_bits=True, manager_clock=None, client_reset=None)
    assert {name: found[name] for name in expected} == expected
    for wrong in ("--cycles 0", "--cycles 10001", "--largest 3", "--largest 8192", "-P N", "--reset-cycles 101"):
        with pytest.raises(SystemExit):
            command_line().parse_args(["--top", "t", *wrong.split()])
