"""A run of tlbridge-prove without yosys and abc: the sizes of variables, the session, the kinds of beats, the search,
and what is printed. The answers of tools are made up.
"""

import argparse
import json
import os
from pathlib import Path
from typing import Any, Dict, List, Sequence, Tuple

import pytest
from test_prove_parts import HARNESS, LABELS, TABLE, a_design, error_of

from tlbridge.prove import command, covers, engine, failure, session, sizes, tools
from tlbridge.prove.engine import BOUNDED, FAILS, OPEN, PROVED, Verdict
from tlbridge.prove.errors import ProveError
from tlbridge.prove.harness import Harness, Options
from tlbridge.prove.model import Model
from tlbridge.prove.options import command_line, options_of
from tlbridge.prove.remedies import REMEDIES, remedy_of
from tlbridge.prove.replay import Replayed
from tlbridge.prove.report import Progress, stated
from tlbridge.prove.search import Search
from tlbridge.prove.session import Session
from tlbridge.verify.design import Link, Source


def a_session(folder: Path, labels: Sequence[str] = LABELS, folded: Sequence[str] = (), **words: Any) -> Session:
    """A session whose model has these labels, with words of the command line."""
    made = Session.__new__(Session)
    given: Dict[str, Any] = dict(
        reset_cycles=2, seconds=9, jobs=1, only="", unbounded=False, keep_going=False, lemmas=False
    )
    made.words = argparse.Namespace(
        **{**given, "out": str(folder / "out"), "top": "dut", "sby": "", "tcl": "", **words}
    )
    made.options, made.shown, made.frames = Options(reset_cycles=2), Progress(), 22
    made.model, made.harness, made.folder = Model(folder, tuple(labels), tuple(folded)), HARNESS, folder
    made.source, made.design = Source("dut", ("dut.sv",)), a_design()
    return made


# ---- remedies and sizes


def test_the_remedy_for_an_error_of_yosys() -> None:
    """The first known words in an error decide, in letters of any case."""
    assert remedy_of("ERROR: Syntax error, unexpected TOK_ID") == REMEDIES["syntax error"]
    assert remedy_of("found logic loop in module") == REMEDIES["logic loop"]
    assert remedy_of("another error").endswith('`yosys -p "read_verilog -sv FILE"` tries one file')


XML = """<verilator_xml><netlist>
<module name="dut">
  <var name="a" dtype_id="1"/><var name="P" dtype_id="2" param="true"/><var name="L" dtype_id="2" localparam="true"/>
  <begin name="g"><var name="b" dtype_id="2"/></begin><var name="s" dtype_id="5"/>
</module>
<module name="part"><var name="c" dtype_id="3"/></module>
<cell name="dut" submodname="dut" hier="dut"><cell name="one" submodname="part" hier="dut.one"/></cell>
<typetable>
  <basicdtype id="1" name="logic"/><basicdtype id="2" name="logic" left="7" right="0"/>
  <basicdtype id="5" name="string"/>
  <unpackarraydtype id="3" sub_dtype_id="4"><range><const name="32'h0"/><const name="32'h1"/></range></unpackarraydtype>
  <structdtype id="4"><memberdtype sub_dtype_id="1"/><memberdtype sub_dtype_id="2"/></structdtype>
</typetable></netlist></verilator_xml>
"""


def test_the_sizes_that_verilator_reads(tmp_path: Path, monkeypatch: pytest.MonkeyPatch) -> None:
    """Variables of all instances and of named blocks, and no parameters. What is none of bits has no size."""

    def verilator(words: Sequence[str], seconds: float, folder: Path) -> tools.Ended:
        assert "-GN=3" in words and words[-1] == "dut.sv"
        (folder / "design.xml").write_text(XML)
        return tools.Ended(0, "", 0.1)

    monkeypatch.setattr(sizes, "run_tool", verilator)
    found = sizes.sizes_of(Source("dut", ("dut.sv",), {"N": "3"}), tmp_path)
    assert found == {"a": 1, "g.b": 8, "one.c": 18}


def test_a_variable_of_another_size_is_refused(tmp_path: Path) -> None:
    """Wires and memories are compared, each by its own line, and a variable that yosys removed is not."""
    wires = {"dut.a": {"bits": [1], "attributes": {"src": "x.sv:3.1-3.9"}}}
    memories = {"dut.one.c": {"width": 9, "size": 2, "attributes": {"src": "y.sv:7.1-7.9"}}}
    netlist = {"modules": {"top": {"netnames": wires, "memories": memories}}}
    (tmp_path / "flat.json").write_text(json.dumps(netlist))
    sizes.check_sizes(tmp_path / "flat.json", {"a": 1, "one.c": 18, "removed": 5})
    for name, bits, said in (
        ("a", 2, "x.sv:3.1: a has 2 bits, of which yosys reads 1: "),
        ("one.c", 9, "y.sv:7.1: one.c has 9 bits, of which yosys reads 18: "),
    ):
        error, status = error_of(sizes.check_sizes, tmp_path / "flat.json", {name: bits})
        assert error.startswith(said) and status == 3


# ---- options, and what a result holds under


def given(*words: str) -> argparse.Namespace:
    """The words of a command line."""
    return command_line().parse_args(["dut.sv", "--top", "dut", "--no-user-bits", *words])


def test_options_of_a_command_line(monkeypatch: pytest.MonkeyPatch) -> None:
    """Free bits, and clocks that a design has or does not have."""
    design = a_design()
    assert options_of(given("--address-bits", "1"), design).free[0] == ("address", 1)
    for width, bits in ((1, 5), (16, 5), (32, 6), (128, 8)):  # a byte may be on any lane
        monkeypatch.setattr(Link, "width", width)
        assert options_of(given(), design).free[0] == ("address", bits)
    monkeypatch.undo()
    for name in ("address", "source", "sink"):
        with pytest.raises(SystemExit):
            given(f"--{name}-bits", "0")
    error, status = error_of(options_of, given("--clocks", "2"), design)
    assert error.startswith("--clocks 2: both links have the clock clock. ") and status == 2
    assert not options_of(given(), design).two_clocks and not options_of(given("--clocks", "1"), design).two_clocks
    assert design.manager
    design.manager.clock = "other"
    assert options_of(given("--clocks", "2"), design).two_clocks and options_of(given(), design).two_clocks
    assert not options_of(given("--clocks", "1"), design).two_clocks


def test_the_lines_about_assumptions() -> None:
    """Each assumption has its line if it is made, and only then."""
    bits = {"address": 32, "source": 4, "sink": 2}
    harness = Harness("", "AD", bits, {"address": 3, "source": 1, "sink": 1}, ("d_user",), ())
    offered = "         the rules hold also in beats that are offered and not accepted"
    others = "         of sources other than the watched one nothing is assumed about outstanding requests"
    few = stated(Options(level="ul", largest=8), harness)
    assert few[0].endswith("3 of 32 bits of address, 1 of 4 bits of source, 1 of 2 bits of sink free and the others 0")
    assert offered not in few and others not in few
    more = stated(Options("ul", 8, assume_offered=True, all_sources=False), harness)
    assert [line for line in more if line not in few] == [offered, others]
    assert few[-1] == more[-1] == "0, since the design has no such port: d_user"


# ---- the session


def test_the_cycles_of_a_session(monkeypatch: pytest.MonkeyPatch) -> None:
    """The cycles of the reset are in addition to those that were asked for."""
    monkeypatch.setattr(session, "read_design", lambda source, choice: a_design())
    made = Session(given("--cycles", "30", "--reset-cycles", "4"))
    try:
        assert made.frames == 34 and made.folder.is_dir()
    finally:
        made.close()
    assert not made.folder.exists()


def test_an_assumption_that_yosys_cannot_read(tmp_path: Path, monkeypatch: pytest.MonkeyPatch) -> None:
    """The error names the assumption of its line. Any other error stays as it is."""
    made = a_session(tmp_path)
    made.options = Options(assumptions=("x == 1", "y =="))
    lines = ["module proof;", "assume (x == 1);", "assume (y ==);", "endmodule"]
    made.harness = Harness("\n".join(lines), "AD", {}, {}, (), ())
    said = ["/a/proof.sv:3: syntax error, unexpected ')'. It reads less"]

    def build(_: Session, harness: Harness) -> Model:
        raise ProveError(said[0], 3)

    monkeypatch.setattr(Session, "build", build)
    wanted = "--assume 'y ==': syntax error, unexpected ')': write an expression of SystemVerilog"
    assert error_of(made.build_whole) == (wanted, 2)
    for said[0] in ("/a/proof.sv:1: odd. More", "dut.sv:2: odd. More"):
        assert error_of(made.build_whole) == (said[0], 3)


def test_the_assertions_that_are_chosen(tmp_path: Path) -> None:
    """All but the covers, by their names. An expression that fits none is an error, with the names."""
    labels = (*LABELS, "watch.a.watch.SeesBeat")
    assert a_session(tmp_path, labels).chosen() == [0, 1, 2]
    assert a_session(tmp_path, labels, only="Data|Source").chosen() == [0, 2]
    error, status = error_of(a_session(tmp_path, labels, only="Sees").chosen)
    assert error.endswith("There are a.Data0, a.Invented, d.SourceA: nothing is proved") and status == 2
    assert error_of(a_session(tmp_path, (), only="").chosen)[1] == 4
    assert "is not a regular expression" in error_of(a_session(tmp_path, labels, only="(").chosen)[0]


# ---- the kinds of beats

KINDS = [f"watch.{letter}.watch.{name}" for letter in "ad" for name in ("SeesBeat", "SeesByte")]


def reached(folder: Path, monkeypatch: pytest.MonkeyPatch, verdicts: Dict[str, Verdict], **words: Any) -> List[Any]:
    """Looks for the kinds of beats with these verdicts. Returns the label, the frames and the seconds of each."""
    made = a_session(folder, (*LABELS, "SeesTime", *KINDS), ("watch.a.watch.SeesLater", "x.Odd"), **words)
    asked: List[Any] = []

    def bounded(model: Model, index: int, frames: int, seconds: int) -> Verdict:
        asked.append((model.labels[index], frames, seconds))
        return verdicts.get(model.labels[index], Verdict(FAILS, 5, 0.1))

    monkeypatch.setattr(engine, "bounded", bounded)
    covers.reach(made)
    return asked


def test_the_kinds_of_beats_that_arrive(
    tmp_path: Path, monkeypatch: pytest.MonkeyPatch, capsys: pytest.CaptureFixture[str]
) -> None:
    """Each cover is asked about. A kind that yosys removed is not seen, and one that the channel does not have is not
    mentioned."""
    asked = reached(tmp_path, monkeypatch, {KINDS[3]: Verdict(BOUNDED, 18, 0.1)})
    assert asked == [
        ("SeesTime", 18, 120),
        (KINDS[0], 18, 120),
        (KINDS[1], 18, 10),
        (KINDS[2], 18, 120),
        (KINDS[3], 18, 10),
    ]
    assert capsys.readouterr().out.splitlines() == [
        "possible: 3 of 5 kinds of beats arrive",
        "  not seen on A in up to 16 cycles, so nothing is said of it: another message after the watched one",
        "  not seen on D in up to 16 cycles, so nothing is said of it: a byte of data",
    ]


@pytest.mark.parametrize(
    "label, kind, frames, said",
    (
        ("SeesTime", BOUNDED, 18, "the assumptions exclude every run of 16 cycles. Check --assume"),
        ("SeesTime", BOUNDED, 17, "a run of 16 cycles was not found in 120 seconds. Make"),
        (KINDS[2], BOUNDED, 18, "no beat of channel D can arrive at its receiver in 16 cycles. "),
        (KINDS[0], BOUNDED, 9, "a run with a beat of channel A was not found in 120 seconds. Make"),
        (KINDS[0], OPEN, 0, "no beat of channel A can arrive at its receiver in 16 cycles. "),
    ),
)
def test_a_proof_of_nothing_is_refused(
    label: str, kind: str, frames: int, said: str, tmp_path: Path, monkeypatch: pytest.MonkeyPatch
) -> None:
    """If time does not go on, or if no beat of a channel can arrive, the error says why."""
    verdicts = {label: Verdict(kind, frames, 0.1)}
    if label in KINDS:
        verdicts[label.replace("SeesBeat", "SeesByte")] = verdicts[label]
    error, status = error_of(reached, tmp_path, monkeypatch, verdicts)
    assert error.startswith(f"nothing is proved: {said}") and status == 2


# ---- the search


def searched(
    folder: Path, monkeypatch: pytest.MonkeyPatch, verdicts: Dict[Tuple[int, int], Verdict], **words: Any
) -> Tuple[List[Any], Search]:
    """Searches with these verdicts, by assertion and frames. Returns the questions, and the search."""
    search, asked = Search(a_session(folder, **words)), []

    def bounded(model: Model, index: int, frames: int, seconds: int) -> Verdict:
        asked.append((index, frames, seconds))
        return verdicts.get((index, frames), Verdict(BOUNDED, frames, 0.5))

    monkeypatch.setattr(engine, "bounded", bounded)
    search.run([0, 1, 2])
    return asked, search


def test_a_search_in_two_steps(
    tmp_path: Path, monkeypatch: pytest.MonkeyPatch, capsys: pytest.CaptureFixture[str]
) -> None:
    """First in 8 cycles after the reset, for a part of the time, then in all. Each assertion has one line."""
    asked, search = searched(tmp_path, monkeypatch, {}, seconds=60)
    assert asked[:3] == [(at, 10, 20) for at in range(3)] and sorted(asked[3:]) == [(at, 22, 60) for at in range(3)]
    assert [search.verdicts[at] for at in range(3)] == [Verdict(BOUNDED, 22, 0.5)] * 3
    lines = sorted(capsys.readouterr().out.splitlines())
    assert lines[0].split() == "a.Data0 no counterexample in 20 cycles 0.5 s".split()
    assert [line.split()[0] for line in lines] == ["a.Data0", "a.Invented", "d.SourceA"]
    assert search.first_failure() is None


def test_a_search_in_one_step(
    tmp_path: Path, monkeypatch: pytest.MonkeyPatch, capsys: pytest.CaptureFixture[str]
) -> None:
    """A short run needs no first step."""
    short = a_session(tmp_path, seconds=60)
    short.frames = 10
    asked: List[Any] = []

    def bounded(model: Model, index: int, frames: int, seconds: int) -> Verdict:
        asked.append((index, frames, seconds))
        return Verdict(BOUNDED, 10, 0.5)

    monkeypatch.setattr(engine, "bounded", bounded)
    Search(short).run([0, 2])
    assert asked == [(0, 10, 60), (2, 10, 60)]
    assert sorted(line.split()[0] for line in capsys.readouterr().out.splitlines()) == ["a.Data0", "d.SourceA"]


def test_a_search_ends_at_a_short_counterexample(
    tmp_path: Path, monkeypatch: pytest.MonkeyPatch, capsys: pytest.CaptureFixture[str]
) -> None:
    """What is known of the others is printed. With --keep-going their search goes on."""
    fails = {(1, 10): Verdict(FAILS, 6, 0.5)}
    asked, search = searched(tmp_path, monkeypatch, fails)
    assert len(asked) == 3 and search.first_failure() == 1
    assert [line.split()[0] for line in capsys.readouterr().out.splitlines()] == ["a.Invented", "a.Data0", "d.SourceA"]
    asked, search = searched(tmp_path, monkeypatch, fails, keep_going=True)
    assert sorted(asked[3:]) == [(0, 22, 9), (2, 22, 9)] and search.verdicts[1] == Verdict(FAILS, 6, 0.5)


# ---- the command


def test_a_run_ends_with_the_processor_time(
    tmp_path: Path, monkeypatch: pytest.MonkeyPatch, capsys: pytest.CaptureFixture[str]
) -> None:
    """The model is built, and the seconds are those of this process and of the tools."""
    built: List[Session] = []
    monkeypatch.setattr(Session, "build_whole", lambda made: built.append(made))
    monkeypatch.setattr(Session, "chosen", lambda _: [0])
    monkeypatch.setattr(command, "reach", lambda _: None)
    monkeypatch.setattr(Search, "run", lambda search, _: search.verdicts.update({0: Verdict(PROVED, 0, 1.0)}))
    monkeypatch.setattr(os, "times", lambda: os.times_result((1.0, 2.0, 4.0, 8.0, 99.0)))
    made = a_session(tmp_path)
    assert command.prove(made) == 0 and built == [made]
    assert "it took 15 s of processor time, " in capsys.readouterr().out


@pytest.mark.parametrize("option", ["sby", "tcl"])
def test_a_project_of_another_tool_is_not_run(option: str, tmp_path: Path, monkeypatch: pytest.MonkeyPatch) -> None:
    """The files are written, and nothing is proved."""
    done: List[str] = []
    monkeypatch.setattr(Session, "describe", lambda _: done.append("described"))
    monkeypatch.setattr(Session, "write_projects", lambda _: done.append("written"))

    def prove(_: Session) -> int:
        done.append("proved")
        return 1

    monkeypatch.setattr(command, "prove", prove)
    assert command.run(a_session(tmp_path, **{option: "folder"})) == 0 and done == ["described", "written"]
    assert command.run(a_session(tmp_path)) == 1 and done[2:] == ["described", "proved"]


def test_a_failure_with_a_waveform(
    tmp_path: Path, monkeypatch: pytest.MonkeyPatch, capsys: pytest.CaptureFixture[str]
) -> None:
    """abc has ten times the seconds to find it again. The waveform is named, with the time at which the watch reports
    the assertion."""
    asked: List[Any] = []
    reports: Tuple[str, ...] = ("50 a.Data0", "60 d.SourceA")

    def counterexample(*words: Any) -> List[Dict[str, int]]:
        asked.append(words[1:4])
        return TABLE

    monkeypatch.setattr(engine, "counterexample", counterexample)
    monkeypatch.setattr("shutil.which", lambda name: f"/bin/{name}")
    monkeypatch.setattr(failure, "replay", lambda *_: Replayed(reports))
    monkeypatch.setattr(failure, "compare", lambda widths, out: asked.append(widths))
    failure.show(a_session(tmp_path), 0, 7)
    assert asked == [(0, 7, 90), [4, 4]]
    assert (
        "  counterexample.vcd: the waveform, in which the watch reports a.Data0 at 50 ps\n  client.beats: no beat\n"
        in capsys.readouterr().out
    )
    reports = ()
    failure.show(a_session(tmp_path), 0, 7)
    assert "reports a.Data0 not: a register of the design begins with x there" in capsys.readouterr().out


def test_a_proof_in_a_smaller_model(
    tmp_path: Path, monkeypatch: pytest.MonkeyPatch, capsys: pytest.CaptureFixture[str]
) -> None:
    """An assertion is asked about in the model of its channel, and in the whole one if it fails there. SourceRoom is
    proved together with SourceOne if that one is in front of it."""
    labels = ("SourceRoom", "watch.d.watch.Data0", "SourceOne")
    small = Model(tmp_path / "small", labels)
    asked: List[Any] = []

    def unbounded(
        model: Model, index: int, seconds: int, with_previous: bool = False, assumed: Sequence[int] = ()
    ) -> Verdict:
        asked.append((model is small, index, with_previous))
        is_failure = model is small and model.labels[index].endswith("Data0")
        return Verdict(FAILS if is_failure else PROVED, 0, 0.5)

    monkeypatch.setattr(engine, "unbounded", unbounded)
    monkeypatch.setattr(Session, "build_small", lambda _, letter: {"D": small}[letter])
    search = Search(a_session(tmp_path, labels))
    ask = search.prover(search.smaller([0, 1, 2]))
    assert ask(0) == Verdict(PROVED, 0, 0.5) and ask(2) == Verdict(PROVED, 0, 0.5)
    assert ask(1) == Verdict(PROVED, 0, 1.0)
    assert asked == [(True, 0, False), (True, 2, False), (True, 1, False), (False, 1, False)]
    small = Model(tmp_path / "small", (labels[2], labels[0]))
    asked.clear()
    search = Search(search.session)
    assert search.prover(search.smaller([0]))(0) == Verdict(PROVED, 0, 0.5) and asked == [(True, 1, True)]
    assert capsys.readouterr().out == ""
