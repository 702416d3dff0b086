"""The messages of tlbridge-prove about bad input and about names: each has one line, the place and a remedy."""

import re
from pathlib import Path
from typing import Any, Dict, List, Tuple

import pytest
from project import EXAMPLES, needs_tools
from test_prove_parts import error_of
from test_prove_run import a_session

from tlbridge.prove import engine, failure, replay
from tlbridge.prove.command import main
from tlbridge.prove.options import command_line, source_of
from tlbridge.prove.remedies import remedy_of
from tlbridge.prove.tools import run_tool
from tlbridge.prove.user_bits import UserBits, find_user_bits, strange_ports
from tlbridge.verify.design import Signal, Source, read_design

START = (EXAMPLES / "start" / "adapter.sv").read_text()
HEAD = "module adapter ("


def error_of_run(words: List[str], capsys: pytest.CaptureFixture[str]) -> Tuple[int, str]:
    """Runs the command. Returns its status, and what it wrote to standard error without the line of usage."""
    try:
        status = main(words)
    except SystemExit as ended:  # of argparse
        status = int(str(ended.code))
    said = capsys.readouterr().err.splitlines()
    return status, "\n".join(line for line in said if not line.startswith("usage: "))


CHANGES: Dict[str, Tuple[str, str, List[str], str]] = {
    "include": (
        HEAD,
        '`include "absent.svh"\n' + HEAD,
        [],
        r"/design\.sv:2:10: Cannot find include file: absent\.svh\. Add -I FOLDER with the folder that has it$",
    ),
    "module": (
        "endmodule",
        "helper one (.clock(clock));\nendmodule",
        [],
        r"/design\.sv:\d+:1: Cannot find file containing module: 'helper'\. Name the file of that module, too$",
    ),
    "parameter": (
        HEAD,
        "module adapter #(parameter int WIDTH) (",
        [],
        r"/design\.sv:2:\d+: Parameter without initial value .* 'WIDTH'\. Add -P NAME=VALUE with a value for it$",
    ),
    "syntax": (
        "endmodule",
        "assign = ;\nendmodule",
        [],
        r"/design\.sv:\d+:8: syntax error, unexpected '='\. Correct that line, or name the macros and folders",
    ),
    "macro": (
        HEAD,
        "`ABSENT\n" + HEAD,
        [],
        r"/design\.sv:2:\d+: Define or directive not defined: '`ABSENT'\. Add -D NAME=VALUE, or -I",
    ),
}


@pytest.mark.simulator
@pytest.mark.parametrize("name", CHANGES)
def test_a_design_that_verilator_cannot_read(name: str, tmp_path: Path, capsys: pytest.CaptureFixture[str]) -> None:
    """One line with the place of the error and what to do, and status 3."""
    needs_tools("verilator")
    old, new, words, wanted = CHANGES[name]
    assert START.count(old) == 1
    (tmp_path / "design.sv").write_text(START.replace(old, new))
    status, said = error_of_run([str(tmp_path / "design.sv"), "--top", "adapter", *words], capsys)
    assert status == 3 and len(said.splitlines()) == 1, said
    assert said.startswith("tlbridge-prove: the design does not compile: ") and re.search(wanted, said), said


@pytest.mark.parametrize(
    "words, wanted",
    (
        (["-P", "WIDTH"], "argument -P/--param: 'WIDTH' is not NAME=VALUE"),
        (["-P", "WIDTH="], "argument -P/--param: 'WIDTH=' is not NAME=VALUE"),
        (["-P", "WIDTH=wide"], "argument -P/--param: 'wide' is not a constant of SystemVerilog, as 3, 4'hf"),
        (["--tie", "port="], "argument --tie: 'port=' is not NAME=VALUE"),
        (["-I", "absent"], "-I absent: there is no such folder"),
    ),
)
def test_an_option_without_sense(
    words: List[str], wanted: str, tmp_path: Path, monkeypatch: pytest.MonkeyPatch, capsys: pytest.CaptureFixture[str]
) -> None:
    """The message is one line after one of usage, and names the option."""
    monkeypatch.chdir(tmp_path)
    status, said = error_of_run(["design.sv", "--top", "adapter", *words], capsys)
    assert status == 2 and wanted in said and len(said.splitlines()) == 1


@pytest.mark.parametrize("value", ("3", "-1", "1_000", "8'hff", "'1", "4'b1x0z", '"text"', "1.5"))
def test_a_value_of_a_parameter(value: str, tmp_path: Path) -> None:
    """Each form that Verilator and yosys read."""
    words = command_line().parse_args(["dut.sv", "--top", "dut", "-P", f"N={value}", "-I", str(tmp_path)])
    assert source_of(words).parameters == {"N": value}


def test_a_missing_folder_of_a_file_list(tmp_path: Path) -> None:
    (tmp_path / "list").write_text("-I inc\ndut.sv\n")
    words = command_line().parse_args(["--top", "dut", "-f", str(tmp_path / "list")])
    error, status = error_of(source_of, words)
    assert (error, status) == ("-I inc: there is no such folder", 2)


def test_the_remedy_for_a_type_of_a_package() -> None:
    """yosys 0.23 reads no $bits of such a type."""
    said = "design.sv:13: syntax error, unexpected TOK_PKG_USER_TYPE"
    assert remedy_of(said).endswith("write the number, or $bits of a variable")


# ---- names that are no fields, and user bits that have a fixed value


@pytest.mark.simulator
def test_ports_that_are_no_fields_are_named(tmp_path: Path, capsys: pytest.CaptureFixture[str]) -> None:
    """A port with the prefix of a channel and an unknown name: the assertions about it would fail without a reason."""
    needs_tools("verilator")
    text = re.sub(r"\bup_d_error\b", "up_d_err", re.sub(r"\bup_a_mask\b", "up_a_lanes", START))
    (tmp_path / "design.sv").write_text(text)
    design = read_design(Source("adapter", (str(tmp_path / "design.sv"),)))
    assert strange_ports(design, find_user_bits(design)) == ["up_a_lanes", "up_d_err"]
    assert main([str(tmp_path / "design.sv"), "--top", "adapter", "--sby", str(tmp_path / "sby")]) == 0
    wanted = "  no fields of TileLink by their names: up_a_lanes up_d_err; inputs are 0 (--tie NAME=VALUE), and outputs"
    assert wanted in capsys.readouterr().out
    (tmp_path / "design.sv").write_text(START)
    assert main([str(tmp_path / "design.sv"), "--top", "adapter", "--sby", str(tmp_path / "sby")]) == 0
    assert "no fields of TileLink" not in capsys.readouterr().out


USER = """module adapter (input logic up_a_user_secure, output logic down_a_user_secure,
    input logic down_d_user, output logic up_d_user,"""


@pytest.mark.simulator
def test_user_bits_are_no_other_inputs(tmp_path: Path, capsys: pytest.CaptureFixture[str]) -> None:
    """Free user bits are not listed as inputs that are 0. One with a fixed value is not compared."""
    needs_tools("verilator")
    assigned = "assign {down_a_user_secure, up_d_user} = {up_a_user_secure, down_d_user};\nendmodule"
    (tmp_path / "design.sv").write_text(START.replace(HEAD, USER).replace("endmodule", assigned))
    words = [str(tmp_path / "design.sv"), "--top", "adapter", "--sby", str(tmp_path / "sby")]
    assert main(words) == 0
    said = capsys.readouterr().out
    assert "user and echo bits: 1 on A, 1 on D;" in said and "other inputs" not in said
    assert main([*words, "--tie", "up_a_user_secure=1"]) == 0
    said = capsys.readouterr().out
    assert "user and echo bits: 1 on D;" in said and "other inputs: up_a_user_secure=1 (--tie NAME=VALUE)" in said
    assert "or one of them is tied, and inputs are 0 without --tie: down_a_user_secure\n" in said
    assert ".up_a_user_secure(1'd1)" in (tmp_path / "sby" / "proof.sv").read_text()


# ---- a failure


def shown(
    folder: Path,
    monkeypatch: pytest.MonkeyPatch,
    capsys: pytest.CaptureFixture[str],
    size: int,
    **words: Any,
) -> str:
    """Returns what is printed of a failure with a message of this size, on links of 2 and 4 bytes."""
    given: Dict[str, Any] = {"largest": None, **words}
    made = a_session(folder, **given)
    assert made.design.client
    for name, signal in (("data", Signal("a_data", 0, 16, "input")), ("mask", Signal("a_mask", 0, 2, "input"))):
        for have in made.design.client.channels.values():
            if name in have:
                have[name] = signal
    table = [{"free_client_a_valid": 1, "free_client_a_size": size}]
    monkeypatch.setattr(engine, "counterexample", lambda *_: table)
    monkeypatch.setattr("shutil.which", lambda name: None)
    failure.show(made, 0, 7)
    return capsys.readouterr().out


@pytest.mark.parametrize(
    "size, largest, hint",
    (
        (1, None, ""),
        (2, None, "a message of 4 bytes is offered, which has more than one beat on the narrower link. .*--largest 2"),
        (3, None, "a message of 8 bytes is offered, which has more than one beat on both links. .*--largest 4"),
        (3, 8, ""),
    ),
)
def test_the_hint_about_bursts(
    size: int,
    largest: Any,
    hint: str,
    tmp_path: Path,
    monkeypatch: pytest.MonkeyPatch,
    capsys: pytest.CaptureFixture[str],
) -> None:
    """Chisel's TL-UL links have the ports of TL-UH, so the neighbours send bursts by default."""
    said = shown(tmp_path, monkeypatch, capsys, size, largest=largest)
    assert bool(re.search(hint, said)) and ("add --largest" in said) == bool(hint), said


ODD = """module dut #(parameter int unsigned WIDTH = 1) (input logic clock, output logic [WIDTH-1:0] seen);
    always_ff @(posedge clock) seen <= ~seen;
endmodule
"""


@pytest.mark.simulator
def test_a_design_that_icarus_cannot_read(tmp_path: Path) -> None:
    """yosys writes it in plain Verilog, with the values of its parameters, and Icarus reads that."""
    needs_tools("yosys", "iverilog")
    (tmp_path / "dut.sv").write_text(ODD)
    source = Source("dut", (str(tmp_path / "dut.sv"),), {"WIDTH": "3"})
    assert replay.write_plain(source, tmp_path)
    assert re.search(r"^  output \[2:0\] seen;", (tmp_path / "design.v").read_text(), re.M)
    done = run_tool(["iverilog", "-g2012", "-o", str(tmp_path / "out"), str(tmp_path / "design.v")], 600)
    assert done.status == 0, done.said
    (tmp_path / "empty").mkdir()
    assert not replay.write_plain(Source("absent", (str(tmp_path / "dut.sv"),)), tmp_path / "empty")


def test_a_harness_without_parameters() -> None:
    text = '    dut #(.WIDTH(3), .NAME("a")) dut (\n        .clock(clock));\n    tl_bridge_watch #(.X(1)) watch (\n'
    changed = replay.without_parameters(text, "dut")
    assert changed == "    dut dut (\n        .clock(clock));\n    tl_bridge_watch #(.X(1)) watch (\n"
    assert replay.without_parameters(changed, "dut") == changed


def test_a_failure_is_played_as_yosys_reads_the_design(
    tmp_path: Path, monkeypatch: pytest.MonkeyPatch, capsys: pytest.CaptureFixture[str]
) -> None:
    """Only if Icarus cannot read the design. The output says so, and why."""
    played: List[List[str]] = []

    def play(_: Path, harness: Any, table: Any, words: List[str], *more: Any) -> replay.Replayed:
        played.append(list(words))
        return replay.Replayed(("50 a.Data0",), "" if words == ["design.v"] else "Icarus cannot read the design: odd")

    monkeypatch.setattr(engine, "counterexample", lambda *_: [{}])
    monkeypatch.setattr("shutil.which", lambda name: f"/bin/{name}")
    monkeypatch.setattr(failure, "replay", play)
    monkeypatch.setattr(failure, "compare", lambda widths, out: False)
    for plain, wanted in (
        (True, "  design.v: the design as yosys reads it, which is played here. Icarus cannot read the design: odd\n"),
        (False, "There is no waveform: Icarus cannot read the design: odd\n"),
    ):
        monkeypatch.setattr(failure, "write_plain", lambda source, out, plain=plain: plain)
        failure.show(a_session(tmp_path), 0, 7)
        said = capsys.readouterr().out
        assert wanted in said and ("in which the watch reports a.Data0 at 50 ps" in said) == plain
    assert played == [["dut.sv"], ["design.v"], ["dut.sv"]]


@pytest.mark.parametrize(
    "name, differs, hint", (("a.Head", False, True), ("a.Head", True, False), ("a.Data0", False, False))
)
def test_the_hint_about_user_bits(
    name: str,
    differs: bool,
    hint: bool,
    tmp_path: Path,
    monkeypatch: pytest.MonkeyPatch,
    capsys: pytest.CaptureFixture[str],
) -> None:
    """Monitor files have no user bits, so the beats of both links can look right when the head is not."""
    one, other = Signal("in_a_user", 0, 2, "input"), Signal("out_a_user", 0, 2, "output")
    made = a_session(tmp_path, (f"watch.a.watch.{name[2:]}",))
    made.options = made.options.__class__(reset_cycles=2, user_bits=UserBits({"A": ((one, other),)}, ()))
    monkeypatch.setattr(engine, "counterexample", lambda *_: [{}])
    monkeypatch.setattr("shutil.which", lambda tool: f"/bin/{tool}")
    monkeypatch.setattr(failure, "replay", lambda *_: replay.Replayed(("50 a.Head",)))
    monkeypatch.setattr(failure, "compare", lambda widths, out: differs)
    failure.show(made, 0, 7)
    wanted = "these beats are without user and echo bits: see client_a_user and manager_a_user in the waveform"
    assert (wanted in capsys.readouterr().out) == hint
