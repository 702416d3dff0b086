"""Whole runs of tlbridge-verify, from the command line to the folder, over a design that is written in Python. No
simulator is needed."""

import json
import os
import re
import shutil
import subprocess
import sys
import xml.etree.ElementTree as tree
from pathlib import Path
from typing import Any, Callable, Dict, List, Mapping, Sequence, Tuple

import pytest
from project import ROOT

from tlbridge.verify import command
from tlbridge.verify import design as reader
from tlbridge.verify import play, session
from tlbridge.verify.bench import Bench, OverTimeError, Run, Simulation, _read_output, version_of
from tlbridge.verify.design import Design, DesignError, Link, Port, Signal, Source
from tlbridge.verify.explore import held_largest
from tlbridge.verify.judge import Judge, Model, Problem
from tlbridge.verify.options import arguments, choice_of, seeds_of, source_of, window_of
from tlbridge.verify.outcome import Folder, Outcome, written
from tlbridge.verify.seeds import junit, status_of, summary
from tlbridge.verify.session import Session, Voice
from tlbridge.verify.traffic import Message, Traffic

A = "opcode:3 param:3 size:{size} source:2 address:32 mask:4 data:32"
D = "opcode:3 size:{size} source:2 denied:1 data:32"
PERIOD = 10000
ANSWERS = (0, 0, 1, 1, 1, 2)  # to a message of A, by its opcode


def wire(sides: str = "cm", clocks: Sequence[str] = ("clock", "clock"), size: int = 2, more: str = "") -> Design:
    """A design with links of four bytes to a client (c) and a manager (m)."""
    ports = {name: Port("input", 1) for name in (*clocks, "reset", "mode")}
    links: Dict[str, Link] = {}
    for letter, clock in zip("cm", clocks):
        stem, receives = {"c": "up_", "m": "down_"}[letter], letter == "c"
        link = Link(stem, clock=clock, reset="reset")
        for channel, text, is_input in (("A", A + more, receives), ("D", D, not receives)):
            way, back = ("input", "output") if is_input else ("output", "input")
            fields = {"valid": Signal(f"{stem}{channel.lower()}_valid", 0, 1, way)}
            fields["ready"] = Signal(f"{stem}{channel.lower()}_ready", 0, 1, back)
            for name, bits in (word.split(":") for word in text.format(size=size).split()):
                fields[name] = Signal(f"{stem}{channel.lower()}_{name}", 0, int(bits), way)
            link.channels[channel] = fields
        if letter in sides:
            links[letter] = link
            ports.update({s.port: Port(s.direction, s.bits) for have in link.channels.values() for s in have.values()})
    return Design(Source("dut", ()), ports, links.get("c"), links.get("m"), tied={"mode": "1"})


Fault = Callable[[str, Message, Mapping[str, int]], str]


class Wire(Simulation):
    """The design above, in the place of a simulator: it passes each beat on after a cycle. `fault` returns for a
    message how its response is wrong, lost or a hang, or `late` if the run is to end by its time."""

    rounds: List[Tuple[str, List[Message], Dict[str, int]]] = []
    fault: Any = staticmethod(lambda *_: "")

    def __init__(self, design: Design, simulator: str, room: Path, bench: Bench, *_: Any, **__: Any):
        self.design, self.simulator, self.room, self.has_two = design, simulator, room, bench.has_two
        self.name, self.plusargs, self.program = room.name, [], room / "simulation"
        self._text = bench
        room.mkdir(parents=True, exist_ok=True)
        self.bench = room / "tl_verify_bench.sv"
        self.bench.write_text(bench.text())
        self.compile_words = ["iverilog", str(self.bench)]

    def run(self, script: Sequence[Message], settings: Mapping[str, int], folder: Path, *_: Any, **more: Any) -> Run:
        folder.mkdir(parents=True, exist_ok=True)
        if folder.name.startswith("run-"):
            Wire.rounds.append((self.name, list(script), dict(settings)))
            assert len(Wire.rounds) < 100, "the rounds do not end"
        beats: Dict[str, List[Tuple[int, str]]] = {"client": [], "manager": []}
        sent, hang, now = ["9 0"], "", 0
        for message in script:
            now += 4
            sent.append(f"0 {now}")
            wrong = Wire.fault(self.name, message, settings)
            if wrong == "late":
                raise OverTimeError("a run did not end")
            mask = ((1 << (1 << message.size)) - 1 << (message.address & 3)) & 0xF
            head = f"{message.size:x} {message.source:02x}"
            data = f"{0x01010101 * message.tag:08x}"
            asked = f"A {message.opcode} {message.param} {head} {message.address:016x} {mask:x} {data} 0"
            told = f"D {ANSWERS[message.opcode]} 0 {head} 00 0 {data} 0"
            count = max(1, (1 << message.size) // 4)
            for _beat in range(count if message.opcode < 4 else 1):
                beats["client"].append((now, asked))
                beats["manager"].append((now + 1, asked))
                now += 1
            now -= 1
            answers = [(now + 2 + at, told) for at in range(count if ANSWERS[message.opcode] == 1 else 1)]
            beats["manager"] += answers
            if wrong == "hang":
                hang = "no beat moves:"
                break
            if wrong != "lost":
                right = told if not wrong else told.replace(" 00 0 ", " 00 1 ")
                beats["client"] += [(time + 1, right) for time, _ in answers]
            now += len(answers) - 1
        for side, lines in beats.items():
            (folder / f"{side}.beats").write_text("".join(f"{line}\n" for _, line in lines))
            (folder / f"{side}.beats.times").write_text("".join(f"{PERIOD * time}\n" for time, _ in lines))
        (folder / "client.sent").write_text("\n".join(sent) + "\n")
        if more.get("waves"):
            (folder / "waves.vcd").write_text("")
        return Run(folder, "", hang=hang, time=PERIOD * (now + 200), cycles=now + 200)

    def with_waves(self, room: Path) -> "Wire":
        return self


@pytest.fixture(autouse=True)
def no_simulator(monkeypatch: pytest.MonkeyPatch, tmp_path: Path) -> None:
    (tmp_path / "dut.sv").write_text("module dut; endmodule\n")
    monkeypatch.chdir(tmp_path)
    monkeypatch.setattr(session, "Simulation", Wire)
    monkeypatch.setattr(session, "read_design", lambda source, choice: wire())
    monkeypatch.setattr("tlbridge.verify.judge.find_program", lambda name: None)
    monkeypatch.setattr(play, "find_program", lambda name: None)
    monkeypatch.setattr(shutil, "which", lambda name: f"/usr/bin/{name}")
    monkeypatch.setattr(Wire, "rounds", [])
    monkeypatch.setattr(Wire, "fault", lambda *_: "")
    for module, sizes in ((play, (20, 30, 40)), (session, (20, 30, 40))):
        for name, size in zip(("SHORT", "MIDDLE", "LONG"), sizes):
            monkeypatch.setattr(module, name, size)


def faulty(monkeypatch: pytest.MonkeyPatch, fault: Fault) -> None:
    monkeypatch.setattr(Wire, "fault", fault)


def run(*words: str, messages: int = 90, simulator: str = "icarus") -> int:
    return command.main(["dut.sv", "--simulator", simulator, "--messages", str(messages), *words])


def files_of(folder: str) -> List[str]:
    return sorted(path.name for path in Path(folder).iterdir())


def names() -> List[str]:
    """The benches of the rounds that were played."""
    return [name for name, _, _ in Wire.rounds]


# ---- whole runs


def test_a_right_design(capsys: pytest.CaptureFixture[str]) -> None:
    assert run() == 0
    out, err = capsys.readouterr()
    assert err == "" and out.startswith("design dut\n") and "  compiled for icarus in " in out
    assert re.search(r"\n  first verdict after \d+\.\d s: no mistake in 84 beats\n", out)
    assert "\nNO MISTAKE in 360 beats, 180 messages, " in out and "client link: messages by size in bytes\n" in out
    assert re.search(r"\n  A Get  .* \d+ +\d+ +\d+\n", out)
    assert "speed of A (put, 4 bytes): 4.00 cycles for each beat of the manager link (ideal 1.00); latency" in out
    assert "speed of D (get, 4 bytes): 4.00 cycles for each beat of the client link (ideal 1.00); latency of the" in out
    assert "of the first beat 1.0 to 1.0 cycles (ideal 0)" in out
    assert files_of(".") == ["dut.sv", "tlbridge-verify.out"]
    assert files_of("tlbridge-verify.out") == ["coverage.json", "report.txt", "verdict.json"]
    verdict = json.loads(Path("tlbridge-verify.out/verdict.json").read_text())
    assert (verdict["verdict"], verdict["beats"], verdict["seed"]) == ("right", 360, 1)
    assert out.endswith(Path("tlbridge-verify.out/report.txt").read_text())
    assert re.search(r"\n  No message was left for these styles: .* \(--messages\)\n", out)


def test_a_slow_measurement_of_speed(monkeypatch: pytest.MonkeyPatch, capsys: pytest.CaptureFixture[str]) -> None:
    """The verdict stands if the run that measures the speed does not end in time."""
    real = Wire.run

    def slow(
        wire: Wire, script: Sequence[Message], settings: Mapping[str, int], folder: Path, *_: Any, **more: Any
    ) -> Run:
        if folder.name == "speed":
            assert more["seconds"] == 20
            raise OverTimeError("a run did not end")
        return real(wire, script, settings, folder, **more)

    monkeypatch.setattr(Wire, "run", slow)
    assert run() == 0
    out = capsys.readouterr().out
    assert "\nNO MISTAKE in 360 beats" in out and "speed of " not in out


def test_a_mistake(monkeypatch: pytest.MonkeyPatch, capsys: pytest.CaptureFixture[str]) -> None:
    faulty(monkeypatch, lambda _, message, settings: "wrong" if message.opcode == 4 and settings["early"] else "")
    assert run("--out", "found/here", messages=300) == 1
    out, err = capsys.readouterr()
    assert err == "" and "\nMISTAKE: client link: AccessAckData of 1 bytes, source 00, beat 1 of D: denied is 1" in out
    assert "  shrinking ..\n" in out and "\nIt needs: a response before the last beat of its request.\n" in out
    assert re.search(r"\nThe shrunk run has 1 of \d+ messages \(\d+ runs, ", out) and "  <-- wrong\n" in out
    assert "--no-early (without a response before the last beat of its request)" in out and "Also:" not in out
    written_line = "Written: found/here: trace, client.beats, manager.beats, repeat.sh, waves.vcd. Judged by the"
    assert written_line in out
    made = {"client.beats", "manager.beats", "trace", "repeat.sh", "waves.vcd", "tl_verify_bench.sv", "verdict.json"}
    assert made <= set(files_of("found/here")) and "client.sent" not in files_of("found/here")
    assert Path("found/here/trace").read_text().startswith("tilelink-trace 1 client 4 manager 4\nA 4 0 0 00 ")
    assert Path("found/here/repeat.sh").stat().st_mode & 0o777 == 0o755
    verdict = json.loads(Path("found/here/verdict.json").read_text())
    assert (verdict["verdict"], verdict["messages"]) == ("mistake", 1) and verdict["words"] in out
    assert files_of("found") == ["here"]


def test_lost_beats_and_what_else_is_wrong(monkeypatch: pytest.MonkeyPatch, capsys: pytest.CaptureFixture[str]) -> None:
    faulty(monkeypatch, lambda _, message, settings: "lost" if message.opcode == 4 else "")
    assert run("--no-waves", messages=300) == 1
    out = capsys.readouterr().out
    assert "MISTAKE: client link: beat 1 of D never comes out: AccessAckData" in out and "nothing special: no" in out
    assert "--rules-only (it answers or makes messages itself" in out and "waves.vcd" not in out


def test_a_hang_has_to_last(monkeypatch: pytest.MonkeyPatch, capsys: pytest.CaptureFixture[str]) -> None:
    faulty(monkeypatch, lambda _, message, settings: "hang" if settings.get("idle", 2000) < 8000 else "")
    assert run() == 0 and "NO MISTAKE in" in capsys.readouterr().out
    faulty(monkeypatch, lambda *_: "hang")
    assert run() == 1
    out = capsys.readouterr().out
    assert (
        "MISTAKE: " in out and "does not come out, and nothing moves" in out and "\nAlso: hang: no beat moves\n" in out
    )


def test_what_never_arrives(capsys: pytest.CaptureFixture[str]) -> None:
    assert run(messages=2) == 1
    out = capsys.readouterr().out
    assert "NOT CALLED RIGHT: these never arrived: PutFullData on the client link; PutFullData on the manager" in out
    assert json.loads(Path("tlbridge-verify.out/verdict.json").read_text())["verdict"] == "incomplete"


def test_the_rounds_of_two_simulators(monkeypatch: pytest.MonkeyPatch, capsys: pytest.CaptureFixture[str]) -> None:
    numbers: List[int] = []
    made = Traffic.round

    def noted(self: Traffic, number: int, length: int) -> Tuple[List[Message], Dict[str, int]]:
        numbers.append(number)
        return made(self, number, length)

    monkeypatch.setattr(Traffic, "round", noted)
    assert run(messages=700, simulator="auto") == 0
    assert names().count("icarus") == session.FIRST_ROUNDS and set(names()) == {"icarus", "verilator"}
    assert 700 <= sum(len(script) for _, script, _ in Wire.rounds) < 740
    styles = [settings for name, _, settings in Wire.rounds if name == "icarus"]
    assert sum("reset_at" in settings for settings in styles) == 2
    assert numbers[13:16] == [6, 7, 8] and numbers.count(0) == 1  # the second one begins where Icarus may have ended
    out = capsys.readouterr().out
    assert "compiled for icarus" in out and "was left for these styles" not in out


def test_messages_above_64_bytes(monkeypatch: pytest.MonkeyPatch, capsys: pytest.CaptureFixture[str]) -> None:
    monkeypatch.setattr(session, "read_design", lambda source, choice: wire(size=3, more=" corrupt:1"))
    sizes: List[int] = []

    def fault(_: str, message: Message, settings: Mapping[str, int]) -> str:
        sizes.append(message.size)
        return ""

    faulty(monkeypatch, fault)
    assert run("--seconds", "600", "--only", "get", "--largest", "64", messages=400) == 0
    assert max(sizes) == 6 and "above" not in capsys.readouterr().out
    assert run("--seconds", "600", "--only", "get", messages=400) == 0
    out = capsys.readouterr().out
    assert max(sizes) == 7 and "  messages of up to 128 bytes are played\n" in out and "No message above" not in out
    assert run("--only", "get", messages=60) == 0
    assert "\n  No message above 64 bytes was tried (--largest)\n" in capsys.readouterr().out


TWO = ("clock_up", "clock_down")


def late(fault: Fault, monkeypatch: pytest.MonkeyPatch) -> int:
    """Plays a design with two clocks, of which there is a netlist with late bits."""
    monkeypatch.setattr(session, "read_design", lambda source, choice: wire(clocks=TWO))
    monkeypatch.setattr(session, "skewed", lambda design, room: (design, 3, []))
    faulty(monkeypatch, fault)
    return run("--no-waves", messages=1100, simulator="auto")


def test_late_bits(monkeypatch: pytest.MonkeyPatch, capsys: pytest.CaptureFixture[str]) -> None:
    assert late(lambda *_: "", monkeypatch) == 0
    assert names().count("verilator-late") > 2
    for name, _, settings in Wire.rounds:
        assert settings.get("skew", 0) == (name == "verilator-late")
    assert "clocks of any ratio (--one-clock" in capsys.readouterr().out


def test_a_mistake_of_late_bits(monkeypatch: pytest.MonkeyPatch, capsys: pytest.CaptureFixture[str]) -> None:
    assert late(lambda name, message, settings: "wrong" if settings.get("skew") else "", monkeypatch) == 1
    out = capsys.readouterr().out
    assert "It needs: bits that cross to another clock and arrive one edge late" in out and "--no-skew (without" in out


def test_a_netlist_that_differs_from_its_design(
    monkeypatch: pytest.MonkeyPatch, capsys: pytest.CaptureFixture[str]
) -> None:
    assert late(lambda name, message, _: "wrong" if "late" in name else "", monkeypatch) == 0
    assert "NO MISTAKE in" in capsys.readouterr().out and 1 <= names().count("verilator-late") <= 2


def test_a_mistake_that_needs_no_late_bits(monkeypatch: pytest.MonkeyPatch, capsys: pytest.CaptureFixture[str]) -> None:
    shown = []

    def fault(name: str, message: Message, _: Mapping[str, int]) -> str:
        shown.extend(["late"] if "late" in name else [])
        return "wrong" if shown and message.opcode == 4 else ""

    assert late(fault, monkeypatch) == 1
    assert "late" not in re.findall(r"It needs: .*", capsys.readouterr().out)[0]


def test_time_that_ends(monkeypatch: pytest.MonkeyPatch, capsys: pytest.CaptureFixture[str]) -> None:
    many: List[int] = []

    def fault(*_: object) -> str:
        many.append(0)
        return "late" if len(many) == 60 else ""

    faulty(monkeypatch, fault)
    assert run() == 0
    assert "NO MISTAKE in" in capsys.readouterr().out
    faulty(monkeypatch, lambda *_: "late")
    assert run() == 4


def test_several_seeds(capsys: pytest.CaptureFixture[str]) -> None:
    assert run("--seeds", "3-5", "--jobs", "2", "--junit", "all.xml", "--out", "out") == 0
    out = capsys.readouterr().out
    assert sorted(re.findall(r"^seed \d: .*$", out, re.M)) == [f"seed {seed}: right" for seed in (3, 4, 5)]
    assert "\n3 right of 3 seeds, " in out and files_of("out") == ["seed-3", "seed-4", "seed-5"]
    suite = tree.parse("all.xml").getroot()
    assert [suite.get("tests"), suite.get("failures"), suite.get("errors")] == ["3", "0", "0"]
    assert command.main(["merge", "out", "--json", "all.json", "--junit", "merged.xml"]) == 0
    out = capsys.readouterr().out
    assert out.startswith("3 right of 3 seeds, ") and re.search(r"\n  A Get .* \d+ +\d+ +\d+\n", out)
    assert "put of 8 bytes" not in out
    whole = json.loads(Path("all.json").read_text())["counts"]["beats"]
    assert whole == sum(json.loads(path.read_text())["beats"] for path in Path("out").glob("seed-*/verdict.json"))
    assert tree.parse("merged.xml").getroot().get("tests") == "3"


# ---- a host


class Host(Wire):
    """A host that writes six words, in the place of a simulator."""

    def run(self, script: Sequence[Message], settings: Mapping[str, int], folder: Path, *_: Any, **more: Any) -> Run:
        folder.mkdir(parents=True, exist_ok=True)
        if folder.name.startswith("run-"):
            Wire.rounds.append((self.name, list(script), dict(settings)))
        lines = []
        for number in range(6):
            message = Message("A", 0, 0, 2, 0, 4 * number)
            value = number + 0x40 * (Wire.fault(self.name, message, settings) == "wrong")
            lines += [f"A 0 0 2 00 {4 * number:016x} f {value:08x} 0", "D 0 0 2 00 00 0 00000000 0"]
        (folder / "manager.beats").write_text("".join(f"{line}\n" for line in lines))
        (folder / "manager.beats.times").write_text("".join(f"{PERIOD * (at + 30)}\n" for at in range(len(lines))))
        return Run(folder, "", time=PERIOD * 500, cycles=500)


def test_a_host(monkeypatch: pytest.MonkeyPatch, capsys: pytest.CaptureFixture[str]) -> None:
    monkeypatch.setattr(session, "read_design", lambda source, choice: wire("m"))
    monkeypatch.setattr(session, "Simulation", Host)
    made: List[Tuple[List[Message], Dict[str, int]]] = []  # in the order of the rounds, which are played two at a time
    host_round = play.Play.host_round

    def noted(self: play.Play, *words: Any) -> Tuple[List[Message], Dict[str, int]]:
        made.append(host_round(self, *words))
        return made[-1]

    monkeypatch.setattr(play.Play, "host_round", noted)
    assert run() == 0
    out = capsys.readouterr().out
    assert "  one link: a host\n" in out and "NO MISTAKE in" in out and "were not compared" not in out
    rounds = [settings for _, settings in made]
    assert len(rounds) == 23 == len(Wire.rounds) and all(script == [] for script, _ in made)
    references: List[Dict[str, int]] = [{}, {"slow": 25}, {"gather": 60}]
    for settings, own in zip(rounds, references):
        calm = dict(calm=0x3FF, in_order=1, denied=0, corrupt=0, patient=0, serial=0, most=3000, end=2500)
        assert {**settings, **calm, **own} == settings
        assert {name for name in ("slow", "gather") if settings.get(name)} == set(own)
    later = [settings for settings in rounds[3:] if "reset_at" not in settings]
    assert sum(settings["denied"] for settings in later) > 4 and not all(settings["denied"] for settings in later)
    assert not any(settings["denied"] or settings["corrupt"] for settings in rounds[4::2])
    assert sum("reset_at" in settings for settings in rounds) == 3 and all(s["most"] == 3000 for s in rounds)
    faulty(monkeypatch, lambda _, message, settings: "wrong" if settings.get("blocking") else "")
    assert run() == 1
    out = capsys.readouterr().out
    assert (
        "MISTAKE: manager link: PutFullData of 4 bytes, source 00 writes 40 at 0x0, but runs without stalls wr" in out
    )
    assert "It needs: a side that accepts nothing while it has work on a channel of higher priority" in out
    faulty(monkeypatch, lambda _, message, settings: "wrong" if settings.get("slow") == 25 else "")
    assert run() == 0
    assert "were not compared between the runs: it depends on the delay of responses" in capsys.readouterr().out


# ---- the command line


def test_what_the_program_reports(monkeypatch: pytest.MonkeyPatch, capsys: pytest.CaptureFixture[str]) -> None:
    def raises(error: BaseException) -> int:
        def fails(*_: object) -> int:
            raise error

        monkeypatch.setattr(command, "_verify", fails)
        return command.main(["dut.sv"])

    assert raises(DesignError("no clock", 3)) == 3 and raises(KeyboardInterrupt()) == 130
    closed: List[int] = []
    with monkeypatch.context() as patched:  # nobody reads the output: what is left of it goes nowhere
        patched.setattr(os, "dup2", lambda one, other: closed.append(other))
        assert raises(BrokenPipeError()) == 4 and closed == [1]
    assert raises(OSError(28, "No space left on device", "a/folder")) == 4 and raises(OSError(28, "No space")) == 4
    assert capsys.readouterr().err.splitlines() == [
        f"tlbridge-verify: {words}"
        for words in ("no clock", "interrupted", "a/folder: No space left on device", "a file: No space")
    ]
    monkeypatch.setattr("sys.argv", ["tlbridge-verify", "merge", "nowhere"])
    assert command.main() == 2 and "nowhere has no verdict.json" in capsys.readouterr().err


def test_the_words_of_the_command_line(tmp_path: Path) -> None:
    (tmp_path / "a").mkdir()
    words = "dut.sv x.sv --top t -P N=1 -P M=2 -D P -D Q=3 -I a -y a --client up --manager down --client-clock clk"
    words += " --manager-reset !rst --tie mode=1 --struct a_valid:1 --device"
    options = arguments().parse_args(words.split())
    parts = {"N": "1", "M": "2"}, ("P", "Q=3"), ("a",), ("a",)
    assert source_of(options) == Source("t", ("dut.sv", "x.sv"), *parts)
    choice = choice_of(options)
    assert (choice.client, choice.manager, choice.clocks) == ("up", "down", {"client": "clk"})
    assert (choice.resets, choice.ties, choice.structs) == ({"manager": "!rst"}, {"mode": "1"}, ("a_valid:1",))
    assert choice.only == "client" and choice_of(arguments().parse_args(["--host"])).only == "manager"
    assert choice_of(arguments().parse_args([])).only is None
    assert source_of(arguments().parse_args(["dut.sv"])).top == "dut"
    (tmp_path / "two.sv").write_text("module a; endmodule module b; endmodule")
    for files, said in ((["two.sv"], "a, b"), (["two.sv", "dut.sv"], "a, b, dut"), (["u.sv", "v.sv"], "none")):
        with pytest.raises(DesignError, match=f"--top MODULE is needed. Modules found: {said}$"):
            source_of(arguments().parse_args(files))
    switches = (
        "--one-clock --in-order --no-early --no-reuse --no-denied --no-blocking --no-reset --same-cycle --withdraw"
    )
    for word in (
        *switches.split(),
        "--skew",
        "--no-skew",
        "--rules-only",
        "--no-memory",
        "--may-withdraw",
        "--no-waves",
    ):
        name = word[2:].replace("-", "_")
        assert getattr(arguments().parse_args([word]), name) is True, word
        assert getattr(arguments().parse_args([]), name) is False
    options = arguments().parse_args(
        "--level UH --largest 8 --only get --plusarg a --plusarg b --shrink-seconds 2".split()
    )
    assert (options.level, options.largest, options.only) == ("UH", 8, "get")
    assert (options.plusarg, options.shrink_seconds) == (["a", "b"], 2)
    assert (options.simulator, options.seconds, options.out) == ("auto", None, Path("tlbridge-verify.out"))
    assert window_of("0x1000:256") == (0x1000, 256) and window_of(None) is None and window_of("0:1") == (0, 1)
    with pytest.raises(DesignError):
        window_of("0:0")


def test_the_seeds_of_the_command_line() -> None:
    def of(words: str) -> List[int]:
        return seeds_of(arguments().parse_args(words.split()))

    assert [of(""), of("--seed 0"), of("--seed 7"), of("--seeds 3-5"), of("--seeds 4-4")] == [
        [1],
        [0],
        [7],
        [3, 4, 5],
        [4],
    ]
    for words in ("--seed 1 --seeds 1-2", "--seeds 5-4", "--seeds 1"):
        with pytest.raises(DesignError):
            of(words)


def test_the_script_leaves_no_compiled_files(tmp_path: Path) -> None:
    package = tmp_path / "share" / "tlbridge" / "python" / "tlbridge"
    shutil.copytree(ROOT / "python" / "tlbridge", package, ignore=shutil.ignore_patterns("__pycache__"))
    (tmp_path / "bin").mkdir()
    script = shutil.copy(ROOT / "tlbridge-verify", tmp_path / "bin")
    environment = {name: value for name, value in os.environ.items() if name != "PYTHONDONTWRITEBYTECODE"}
    words = [sys.executable, str(script), "--help"]
    done = subprocess.run(words, env=environment, capture_output=True, text=True, check=False)
    assert done.returncode == 0 and done.stdout.startswith("usage: tlbridge-verify ") and done.stderr == ""
    assert [*tmp_path.rglob("__pycache__")] == []


# ---- a session


def session_of(design: Design, monkeypatch: pytest.MonkeyPatch, tmp_path: Path, words: str = "") -> Session:
    monkeypatch.setattr(session, "read_design", lambda source, choice: design)
    return Session(arguments().parse_args(["dut.sv", *words.split()]), tmp_path / "room")


def test_the_limits_of_a_session(monkeypatch: pytest.MonkeyPatch, tmp_path: Path) -> None:
    def of(design: Design, words: str = "") -> Session:
        return session_of(design, monkeypatch, tmp_path, words)

    bridge = of(wire())
    assert not bridge.has_memory and bridge.limits.window is None and not bridge.rules.is_memory
    rules = of(wire(), "--rules-only")
    assert rules.has_memory and rules.limits.window == (0, 4096) and rules.limits.has_pages
    device = of(wire("c"))
    assert device.has_memory and device.limits.window == (0, 256) and device.limits.atomic == 4
    assert of(wire("c"), "--window 0x1000:64").limits.window == (0x1000, 64)
    host = of(wire("m"))
    assert host.has_memory and not host.rules.is_memory and host.limits.window is None
    large = of(wire(size=4, more=" corrupt:1"))
    assert large.limits.largest == 64 and large.most_bytes == 4096 and large.limits.atomic == 4096
    assert of(wire(size=4, more=" corrupt:1"), "--largest 256").limits.largest == 256
    assert of(wire(), "--no-early --may-withdraw --in-order").forced == {"in_order": 1, "early": 0, "steady": 0}
    for words in ("--messages 0", "--seconds 0", "--jobs 2", "--seeds 1-2 --jobs 0", "--one-clock", "--skew"):
        with pytest.raises(DesignError):
            of(wire(), words)
    with pytest.raises(DesignError):
        of(wire("c"), "--window 0:64 --largest 128")
    assert of(wire("c"), "--seconds 0.5 --messages 1").limits.largest == 4


def test_the_largest_messages_that_a_design_holds(
    monkeypatch: pytest.MonkeyPatch, tmp_path: Path, capsys: pytest.CaptureFixture[str]
) -> None:
    for most, said in (
        (256, "256 bytes are played; it fails with those of 512 bytes, so add --largest 512 if it has to hold them"),
        (4096, "4096 bytes are played"),
    ):
        made = session_of(wire(size=4, more=" corrupt:1"), monkeypatch, tmp_path)
        wrong = "hang: no beat moves" if most == 256 else ""
        monkeypatch.setattr(session, "held_largest", lambda *_: (most, wrong))
        made.explore_sizes(made.simulation("icarus"), Voice())
        made.explore_sizes(made.simulation("icarus"), Voice())  # only once
        assert capsys.readouterr().out == f"  messages of up to {said}\n" and made.limits.largest == most
        conditions = [(one.line, one.option) for one in play.Play(made, 1, Voice(True), tmp_path).seen()]
        line = "unless messages above 256 bytes have to pass: hang: no beat moves"
        assert conditions == ([(line, "--largest 512")] if most == 256 else [])
    for size, expected in ((32, 32), (64, 64), (256, 256), (1000, 512)):  # a message has to fit into the window
        made = session_of(wire("c", size=4, more=" corrupt:1"), monkeypatch, tmp_path, f"--window 0:{size}")
        monkeypatch.setattr(session, "held_largest", lambda *words: (words[-1], ""))
        made.explore_sizes(made.simulation("icarus"), Voice())
        assert made.limits.largest == expected


def test_what_goes_wrong_with_larger_messages(monkeypatch: pytest.MonkeyPatch, tmp_path: Path) -> None:
    """The largest size that passes with stalls, too, and the first problem of the next one. A run that does not end in
    time tells nothing."""
    made = session_of(wire(size=4, more=" corrupt:1"), monkeypatch, tmp_path)
    seen: List[Tuple[int, int]] = []

    def problems(_: object, run: Run, *__: object) -> List[Problem]:
        return [Problem("hang", "", "hang: no beat moves", 1)] if seen[-1] == wrong else []

    def run(_: object, script: Sequence[Message], settings: Mapping[str, int], *__: object, **___: object) -> Run:
        seen.append((1 << script[0].size, settings["calm"]))
        if seen[-1] == wrong and is_late:
            raise OverTimeError("too late")
        return Run(tmp_path, "")

    simulation = made.simulation("icarus")
    monkeypatch.setattr(Judge, "problems", problems)
    monkeypatch.setattr(type(simulation), "run", run)
    traffic = Traffic(made.design, made.limits, 1, True, False, False)
    for is_late, wrong, expected in (
        (False, (512, 0), (256, "hang: no beat moves")),
        (False, (128, 0x3FF), (64, "hang: no beat moves")),
        (True, (512, 0), (256, "")),
        (False, (0, 0), (4096, "")),
    ):
        assert held_largest(traffic, simulation, made.judge, {}, tmp_path, 4096) == expected


def test_rounds_that_fit_into_the_time(monkeypatch: pytest.MonkeyPatch, tmp_path: Path) -> None:
    made = session_of(wire(), monkeypatch, tmp_path, "--seconds 70")
    script = [Message("A", 4, 0, 2, 0, 0)] * 200
    seed = play.Play(made, 1, Voice(True), tmp_path)
    monkeypatch.setattr("time.monotonic", lambda: seed.start + 20)
    seed.begun = seed.start
    assert seed.fitting(script) == script  # nothing was played yet
    seed.finished = 400  # in 20 seconds; 30 are left for nine styles
    assert len(seed.fitting(script)) == 60
    seed.finished = 40
    assert len(seed.fitting(script)) == 30
    seed.until = float("inf")
    assert seed.fitting(script) == script
    assert seed.not_played()[:2] == ["all sources", "any"] and len(seed.not_played()) == 9
    seed.styles = {"any"}
    assert "any" not in seed.not_played()


# ---- the ports


def test_the_ports_of_a_design_without_a_link(monkeypatch: pytest.MonkeyPatch) -> None:
    signals = [(f"p{number}", Signal(f"p{number}", 0, 1, "input")) for number in range(12)]
    ports = {name: Port("input", 1) for name, _ in signals}
    monkeypatch.setattr(reader, "read_ports", lambda source, structs: (ports, signals))
    with pytest.raises(DesignError) as caught:
        reader.read_design(Source("dut", ()))
    said = "no TileLink link found among the 12 ports of dut (p0, p1, p2, p3, p4, p5, p6, p7, ..). A link has ports"
    assert str(caught.value).startswith(said) and caught.value.status == 2


PORTS = """<verilator_xml><netlist>
<module name="dut" topModule="1"><var name="u" dir="input" dtype_id="1"/><var name="s" dir="output" dtype_id="3"/>
<var name="inside" dtype_id="2"/><var name="v" dir="input" dtype_id="4"/></module>
<typetable><uniondtype id="1"><memberdtype name="a" sub_dtype_id="2"/><memberdtype name="b" sub_dtype_id="2"/>
</uniondtype><basicdtype id="2" left="7" right="0"/><structdtype id="3"><memberdtype name="high" sub_dtype_id="2"/>
<memberdtype name="low" sub_dtype_id="1"/></structdtype><refdtype id="4" sub_dtype_id="5"/><packarraydtype id="5"
sub_dtype_id="2"><range><const name="32'h3"/><const name="32'h1"/></range></packarraydtype></typetable>
</netlist></verilator_xml>"""


def test_the_bits_of_structs_unions_and_arrays(monkeypatch: pytest.MonkeyPatch) -> None:
    monkeypatch.setattr(reader, "_verilator", lambda source, out: tree.fromstring(PORTS))
    ports, signals = reader.read_ports(Source("dut", ()), ("a:4,b:20",))
    assert ports == {"u": Port("input", 8), "s": Port("output", 16), "v": Port("input", 24)}
    assert signals == [
        ("u", Signal("u", 0, 8, "input")),
        ("s_low", Signal("s", 0, 8, "output")),
        ("s_high", Signal("s", 8, 8, "output")),
        ("v_b", Signal("v", 0, 20, "input")),
        ("v_a", Signal("v", 20, 4, "input")),
    ]
    with pytest.raises(DesignError, match="--struct: no port of dut has the 9 bits of that struct"):
        reader.read_ports(Source("dut", ()), ("a:9",))


# ---- the bench


def test_the_text_of_the_bench() -> None:
    text = Bench(wire(clocks=TWO), True, False, False).text()
    assert "always @(posedge client_clock) begin" in text and ".clock_down(manager_clock)" in text
    assert text.count("forever begin") == 2 and ".mode(1)" in text and "repeat (40) @(posedge manager_clock)" in text
    for name in ("param", "sink", "corrupt"):  # fields that the design does not have
        assert f"    assign client_d_{name} = 0;\n" in text and f"    assign manager_d_{name} = 0;\n" in text
    assert "    wire [1:0] client_d_param;\n" in text and "    wire [2:0] client_a_param;\n" in text
    assert "    assign port_up_a_ready" not in text and "    assign client_a_ready = port_up_a_ready[0+:1];\n" in text
    assert "assign port_up_a_data[0+:32] = client_a_data;" in text and "assign client_b_valid = 1'b0;" in text
    assert "tl_agent #(.MANAGER(1), .MEMORY(0), .BYTES(4), .SOURCE_BITS(2), .SINK_BITS(1), .CHANNELS(5'd9))" in text
    one = Bench(wire(clocks=TWO), True, True, False).text()
    assert ".clock_down(client_clock)" in one and "manager_clock" not in one and "repeat (5) @(posedge client" in one
    device = Bench(wire("c"), False, False, True).text()
    assert "always @(posedge client_clock) begin" in device and "manager" not in device and ".MEMORY(0)" in device
    host = Bench(wire("m"), False, False, True).text()
    assert ".MANAGER(1), .MEMORY(1)" in host and ".LEVEL(" not in host
    named = Bench(wire(), True, False, False)
    named.level = "UH"
    assert named.text().count('.RESPOND_TO_OFFERED(1), .LEVEL("UH")') == 1 and named.text().count('.LEVEL("UH")') == 2


def test_the_version_that_a_design_needs() -> None:
    assert version_of(wire()) == 1

    def of(name: str, bits: int) -> int:
        design = wire()
        assert design.client
        design.client.channels["D"][name] = Signal(f"up_d_{name}", 0, bits, "output")
        return version_of(design)

    assert [of("sink", 8), of("sink", 9), of("source", 8), of("source", 9)] == [1, 2, 1, 2]
    assert [of("data", 512), of("data", 1024)] == [1, 2]


OUTPUT = """1500: tb.client_checker.d: D beat 3: fault 3 Size: too large (here)
VERIFY reset 900
VERIFY 700 client 3 valid fell before ready
VERIFY hang 5000 cycles 41 moves 7
VERIFY state client A valid 1 ready 0 stalls 6
VERIFY state client D valid 0 ready 1 stalls 0
"""


def test_what_a_run_printed(tmp_path: Path) -> None:
    run = _read_output(tmp_path, OUTPUT)
    assert run.faults == [(1500, "client", "D", "fault 3 Size: too large")]
    assert run.complaints == [(700, "client", "D", "valid fell before ready")]
    assert (run.time, run.cycles, run.reset_time, run.offers) == (5000, 41, 900, True)
    assert run.stalls == {("client", "A"): 6} and run.hang == "no beat moves: client A has valid 1 and ready 0,"
    run = _read_output(tmp_path, OUTPUT.replace("hang", "end").replace("valid 1", "valid 0"))
    assert run.hang == "" and not run.offers and _read_output(tmp_path, "").reset_time == -1


def test_a_program_that_plays(tmp_path: Path) -> None:
    program = tmp_path / "simulation"
    program.write_text('#!/bin/sh\necho "VERIFY end 70 cycles 7 moves 2"\necho "$@" > words\n')
    program.chmod(0o755)
    simulation = Simulation.__new__(Simulation)
    simulation.design = wire()
    simulation._text = Bench(simulation.design, True, False, False)
    simulation.simulator, simulation.program, simulation.plusargs = "verilator", program, ["more"]
    made = simulation.run([Message("A", 4, 0, 2, 1, 0x10, tag=5)], {"seed": 3}, tmp_path / "run", waves=True)
    assert (made.time, made.cycles) == (70, 7)
    words = (tmp_path / "run" / "words").read_text().split()
    assert words[2:] == ["+nA=1", "+nB=0", "+nC=0", "+flood=1100", "+seed=3", "+more", "+vcd"]
    assert (tmp_path / "run" / "a.hex").read_text() == f"{0:08x}05{0:04x}{0:04x}4002{1:04x}{16:016x}\n"
    program.write_text('#!/bin/sh\necho "%Error: too bad"\nexit 3\n')
    with pytest.raises(DesignError, match="verilator ended with status 3 in the middle of a run: %Error: too bad"):
        simulation.run([], {}, tmp_path / "run")


def test_the_unverified_model_computes_far_beats() -> None:
    trace = "tilelink-trace 1 client 8 manager 4\nA 4 0 2 07 0000000000001004 f0 0000000000000000 0\n"
    model = Model()
    assert "unverified model" in model.name
    assert model.expected(trace)["A"] == ["A 4 0 2 07 0000000000001004 f 00000000 0"]


# ---- folders and files


def test_a_folder_appears_when_it_is_complete(tmp_path: Path) -> None:
    folder = Folder(tmp_path / "out")
    (folder.draft / "verdict.json").write_text("{}")
    assert folder.draft.stat().st_mode & 0o777 == 0o755 and not (tmp_path / "out").exists()
    folder.publish()
    assert files_of(str(tmp_path / "out")) == ["verdict.json"]
    again = Folder(tmp_path / "out")
    (again.draft / "verdict.json").write_text("[]")
    again.publish()
    assert (tmp_path / "out" / "verdict.json").read_text() == "[]" and files_of(str(tmp_path)) == ["dut.sv", "out"]
    Folder(tmp_path / "out").discard()
    assert files_of(str(tmp_path)) == ["dut.sv", "out"]
    (tmp_path / "empty").mkdir()
    Folder(tmp_path / "empty").discard()
    (tmp_path / "seeds" / "seed-3").mkdir(parents=True)
    (tmp_path / "seeds" / "seed-3" / "verdict.json").write_text("{}")
    Folder(tmp_path / "seeds").discard()
    for name in (".", "dut.sv", "seeds/seed-3/verdict.json"):
        with pytest.raises(DesignError):
            Folder(tmp_path / name)


def test_a_file_that_is_written_as_a_whole(tmp_path: Path) -> None:
    written(tmp_path / "made", "text")
    assert (tmp_path / "made").read_text() == "text"
    (tmp_path / "folder").mkdir()
    with pytest.raises(DesignError, match="folder cannot be written"):
        written(tmp_path / "folder", "text")
    assert files_of(str(tmp_path)) == ["dut.sv", "folder", "made"]


def test_the_verdicts_of_seeds(tmp_path: Path) -> None:
    verdicts = ["right", "mistake", "incomplete", "failed"]
    outcomes = [
        Outcome(seed, verdict, f"beat {seed} of D\x01", beats=7).as_json() for seed, verdict in enumerate(verdicts)
    ]
    junit(tmp_path / "made.xml", "dut", outcomes)
    suite = tree.parse(tmp_path / "made.xml").getroot()
    assert [suite.get(name) for name in ("tests", "failures", "errors")] == ["4", "2", "1"]
    assert [[child.tag for child in case] for case in suite] == [[], ["failure"], ["failure"], ["error"]]
    assert suite[1][0].get("message") == "beat 1 of D?" and suite[1].get("name") == "seed 1"
    assert summary(outcomes)[0] == "1 right, 1 mistake, 1 incomplete, 1 failed of 4 seeds, 28 beats"
    assert summary(outcomes)[1:] == ["  seeds 1, 2, 3: a beat of D\x01"]
    many = [Outcome(seed, "mistake", "lost").as_json() for seed in range(9)]
    assert summary(many)[1:] == ["  seeds 0, 1, 2, 3, 4, 5 and 3 more: lost"]
    assert [value for value in Outcome(3, "failed").as_json().values() if value] == [3, "failed"]
    different = [Outcome(seed, "mistake", "x" * (seed + 1)).as_json() for seed in range(30)]
    assert len(summary(different)) == 21 and summary(different)[1] == "  seeds 0: x"
    assert [status_of([verdict]) for verdict in verdicts] == [0, 1, 1, 4]
    assert [status_of(["mistake", "failed"]), status_of(["right", "failed"]), status_of([])] == [1, 4, 0]


def test_only_final_lines_of_several_seeds(capsys: pytest.CaptureFixture[str]) -> None:
    Voice(True)("nothing")
    Voice()("one", "two")
    assert capsys.readouterr() == ("one\ntwo\n", "")
    talks = Voice()
    talks.has_progress = True
    talks.progress("3 rounds")
    assert capsys.readouterr().err == "\r\x1b[K3 rounds"
