"""Runs of tlbridge-verify on small designs: the verdict, its folder, the exit status, and one message for each bad
input."""

import itertools
import json
import os
import subprocess
import sys
import xml.etree.ElementTree as tree
from dataclasses import replace
from pathlib import Path
from types import SimpleNamespace
from typing import Any, Callable, Dict, List, Mapping, Optional, Sequence, Tuple

import pytest
from project import EXAMPLES, ROOT, needs_tools

from tlbridge.verify import command, options, play, seeds, session, traffic
from tlbridge.verify.bench import Bench, Run, Simulation
from tlbridge.verify.design import Design, DesignError, Link, Port, Signal, Source
from tlbridge.verify.explore import Explorer, stated_bits
from tlbridge.verify.host import REFERENCES, Reference
from tlbridge.verify.judge import Beats, Judge, Problem, Rules
from tlbridge.verify.traffic import Limits, Message, Traffic

pytestmark = pytest.mark.simulator
START = str(EXAMPLES / "start" / "adapter.sv")
DESIGNS = Path(__file__).resolve().parent / "designs"
QUICK = ("--simulator", "icarus", "--messages", "500")


def verify(folder: Path, *words: str, path: str = os.environ["PATH"]) -> Tuple[int, str, str]:
    """Runs the program in this folder. Returns its status, its output and its messages."""
    needs_tools("verilator", "iverilog")
    environment = {**os.environ, "PATH": path}
    called = [sys.executable, str(ROOT / "tlbridge-verify"), *words]
    done = subprocess.run(called, capture_output=True, text=True, cwd=folder, env=environment)
    return done.returncode, done.stdout, done.stderr


def files_of(folder: Path) -> List[str]:
    return sorted(path.name for path in folder.iterdir())


def test_a_right_design(tmp_path: Path) -> None:
    status, out, err = verify(tmp_path, START, *QUICK)
    assert (status, err) == (0, "")
    assert "client link up: channels A D, 8 bytes" in out and "first verdict after" in out and "judged by the" in out
    assert "NO MISTAKE in" in out and "not covered: nothing" in out and "(ideal 1.00)" in out
    assert files_of(tmp_path) == ["tlbridge-verify.out"]
    folder = tmp_path / "tlbridge-verify.out"
    assert files_of(folder) == ["coverage.json", "report.txt", "verdict.json"]
    verdict = json.loads((folder / "verdict.json").read_text())
    assert verdict["verdict"] == "right" and verdict["beats"] > 1500 and "tl_checker" in verdict["judge"]
    messages = json.loads((folder / "coverage.json").read_text())["messages"]
    offsets = {
        offset for side, channel, name, size, offset, _ in messages if (side, name, size) == ("client", "Get", 0)
    }
    assert offsets == set(range(8))


LOOP = """module loop(input clock, reset, a_valid, output a_ready, input [2:0] a_opcode, a_param, input [1:0] a_size,
  input [1:0] a_source, input [7:0] a_address, input [3:0] a_mask, input [31:0] a_data, output d_valid, input d_ready,
  output [2:0] d_opcode, output [1:0] d_size, d_source, output [31:0] d_data, output d_denied);
    reg flips = 0;
    always @(flips or a_valid) if (a_valid === 1'b1) flips <= ~flips;
    assign a_ready = d_ready, d_valid = a_valid, d_opcode = 1, d_size = a_size, d_source = a_source, d_data = flips;
    assign d_denied = 0;
endmodule
"""


def test_a_combinational_loop(
    tmp_path: Path, monkeypatch: pytest.MonkeyPatch, capsys: pytest.CaptureFixture[str]
) -> None:
    needs_tools("verilator", "iverilog")
    (tmp_path / "loop.v").write_text(LOOP)
    monkeypatch.setattr(session, "_LOOP_SECONDS", 1)
    assert command.main([str(tmp_path / "loop.v"), "--simulator", "icarus", "--out", str(tmp_path / "out")]) == 3
    assert "the design has a combinational loop: icarus did not end 100 cycles" in capsys.readouterr().err
    assert files_of(tmp_path) == ["loop.v"]


def test_a_mistake_and_its_folder(tmp_path: Path) -> None:
    status, out, err = verify(tmp_path, START, "-D", "BUG", "--simulator", "icarus", "--out", "found/here")
    assert (status, err) == (1, "")
    assert "MISTAKE: client link: AccessAckData" in out and ".. .. .." in out and "<-- wrong" in out
    assert "several requests outstanding" in out
    folder = tmp_path / "found" / "here"
    verdict = json.loads((folder / "verdict.json").read_text())
    assert verdict["verdict"] == "mistake" and 1 <= verdict["messages"] <= 8
    assert {"client.beats", "manager.beats", "trace", "repeat.sh", "waves.vcd", "report.txt"} <= set(files_of(folder))
    beats = {name: (folder / name).read_text() for name in ("client.beats", "manager.beats")}
    assert (folder / "trace").read_text().startswith("tilelink-trace 1 client 8 manager 4\n")
    for name in ("client.beats", "waves.vcd"):
        (folder / name).unlink()
    subprocess.run([str(folder / "repeat.sh")], check=True, capture_output=True, cwd="/")
    assert {name: (folder / name).read_text() for name in beats} == beats and (folder / "waves.vcd").exists()


def test_the_same_seed_gives_the_same_run(tmp_path: Path) -> None:
    counts = []
    words = ("--simulator", "icarus", "--messages", "300")
    for name in ("a", "b"):
        verify(tmp_path, START, *words, "--seed", "7", "--out", name)
        counts.append((tmp_path / name / "coverage.json").read_text())
    verify(tmp_path, START, *words, "--seed", "8", "--out", "c")
    assert counts[0] == counts[1] != (tmp_path / "c" / "coverage.json").read_text()


def test_some_kind_never_arrives(tmp_path: Path) -> None:
    status, out, _ = verify(tmp_path, START, "--simulator", "icarus", "--messages", "2")
    assert status == 1 and "NOT CALLED RIGHT: these never arrived: PutFullData on the client link" in out
    assert json.loads((tmp_path / "tlbridge-verify.out" / "verdict.json").read_text())["verdict"] == "incomplete"


def test_a_design_in_reset_for_ever(tmp_path: Path) -> None:
    text = (DESIGNS / "registers.sv").read_text()
    (tmp_path / "registers.sv").write_text(
        text.replace("!rst_ni", "rst_ni").replace("negedge rst_ni", "posedge rst_ni")
    )
    status, out, _ = verify(tmp_path, "registers.sv", "--window", "0:128", *QUICK)
    assert status == 1 and "MISTAKE: hang: no beat moves" in out and "polarity of the reset" in out


@pytest.mark.gate  # test_verify_whole.py has the same without a simulator
def test_several_seeds_and_their_join(tmp_path: Path) -> None:
    words = ("--simulator", "icarus", "--messages", "150", "--shrink-seconds", "3", "--no-waves")
    status, out, err = verify(
        tmp_path, START, *words, "--seeds", "3-5", "--jobs", "2", "--out", "r", "--junit", "r.xml"
    )
    assert (status, err) == (0, "") and "3 right of 3 seeds" in out
    assert files_of(tmp_path / "r") == ["seed-3", "seed-4", "seed-5"]
    suite = tree.parse(tmp_path / "r.xml").getroot()
    assert [suite.get("tests"), suite.get("failures"), len(suite)] == ["3", "0", 3]
    status, out, _ = verify(tmp_path, START, *words, "--seeds", "3-4", "--out", "w", "-D", "BUG", "--junit", "w.xml")
    assert status == 1 and "2 mistake of 2 seeds" in out
    suite = tree.parse(tmp_path / "w.xml").getroot()
    failure = suite[0][0]
    assert (
        suite.get("failures") == "2" and failure.tag == "failure" and "AccessAckData" in (failure.get("message") or "")
    )
    status, out, _ = verify(tmp_path, "merge", "r", "w", "--json", "all.json", "--junit", "all.xml")
    assert status == 1 and "3 right, 2 mistake of 5 seeds" in out and "A Get" in out
    whole = json.loads((tmp_path / "all.json").read_text())["counts"]["beats"]
    parts = [json.loads(path.read_text())["beats"] for path in tmp_path.glob("[rw]/seed-*/verdict.json")]
    assert whole == sum(parts) and len(parts) == 5
    assert tree.parse(tmp_path / "all.xml").getroot().get("tests") == "5"
    assert verify(tmp_path, "merge", "nowhere")[::2] == (
        2,
        "tlbridge-verify: nowhere has no verdict.json, and no folder seed-N with one\n",
    )


# ---- conditions: what a right design need not hold


def test_an_answer_in_the_cycle_of_its_request(
    tmp_path: Path, monkeypatch: pytest.MonkeyPatch, capsys: pytest.CaptureFixture[str]
) -> None:
    """The adapter of the example does not hold it. That is a condition of its verdict, with its smallest run."""
    needs_tools("verilator", "iverilog")
    monkeypatch.setattr(play, "_LEAST_TRIED", 100)
    monkeypatch.setattr(play, "_UNLESS_SECONDS", 2)
    words = [START, "--simulator", "icarus", "--messages", "150", "--no-reset", "--out", str(tmp_path / "a")]
    assert command.main([*words, "--junit", str(tmp_path / "a.xml")]) == 0
    out = capsys.readouterr().out
    said = "unless an answer comes in the cycle of its request: client link: AccessAckData"
    assert "NO MISTAKE in" in out and f"\nRIGHT, {said}" in out and "With --same-cycle it is a mistake." in out
    verdict = json.loads((tmp_path / "a" / "verdict.json").read_text())
    (condition,) = verdict["conditions"]
    assert verdict["verdict"] == "right" and condition["option"] == "--same-cycle"
    folder = tmp_path / "a" / condition["folder"]
    assert {"client.beats", "manager.beats", "trace", "repeat.sh", "waves.vcd", "report.txt"} <= set(files_of(folder))
    report = (folder / "report.txt").read_text()
    assert report.startswith(f"RIGHT, {said}")
    assert f"The shrunk run has {condition['messages']} of " in report and "  <-- " in report
    beats = (folder / "client.beats").read_text()
    (folder / "client.beats").unlink()
    subprocess.run([str(folder / "repeat.sh")], check=True, capture_output=True, cwd="/")
    assert (folder / "client.beats").read_text() == beats
    case = tree.parse(tmp_path / "a.xml").getroot()[0]
    assert [found.tag for found in case] == ["system-out"] and said in (case[0].text or "")
    assert command.main(["merge", str(tmp_path / "a")]) == 0
    out = capsys.readouterr().out
    assert "1 right of 1 seeds" in out and "seeds 1: right, unless an answer comes in the cycle of its request" in out


def test_a_condition_that_is_none() -> None:
    """A folder whose conditions are no conditions is not merged, and one of an older version has none."""
    assert seeds.conditions_of({"verdict": "right"}) == []
    with pytest.raises(TypeError):
        seeds.conditions_of({"conditions": [{"name": "x"}]})


def fields(*names: str, direction: str = "input") -> Dict[str, Signal]:
    bits = {"address": 32, "data": 32, "mask": 4, "source": 2, "opcode": 3, "size": 3}
    return {name: Signal(name, 0, bits.get(name, 1), direction) for name in (*names, "valid")}


ON_A = ("opcode", "size", "source", "address", "mask", "data", "corrupt")
ON_D = ("opcode", "size", "source", "denied", "data", "corrupt")


def one_link(client: Optional[Link] = None, manager: Optional[Link] = None) -> Design:
    links = [made for made in (client, manager) if made]
    signals = [one for made in links for have in made.channels.values() for one in have.values()]
    ports = {one.port: Port(one.direction, one.bits) for one in signals}
    return Design(Source("dut", ()), ports, client, manager)


def link(without: str = "") -> Link:
    return Link("", {letter: fields(*set(names) - {without}) for letter, names in (("A", ON_A), ("D", ON_D))})


def get(address: int, source: int = 0, size: int = 2) -> str:
    return f"A 4 0 {size} {source:02x} {address:016x} f 00000000 0"


def put(address: int, data: str, source: int = 1, corrupt: int = 0, mask: str = "f") -> str:
    return f"A 0 0 2 {source:02x} {address:016x} {mask} {data} {corrupt}"


def answer(data: str, denied: int = 0, corrupt: int = 0, source: int = 0, opcode: int = 1) -> str:
    return f"D {opcode} 0 2 {source:02x} 00 {denied} {data} {corrupt}"


def broken(folder: Path, design: Design, lines: List[str]) -> Dict[str, str]:
    """What these beats do not hold, with what is said of it."""
    (side,) = design.links
    (folder / f"{side}.beats").write_text("".join(line + "\n" for line in lines))
    (folder / f"{side}.beats.times").write_text("".join(f"{10000 * at}\n" for at in range(len(lines))))
    beats = Beats(design, Run(folder, ""))
    judge = Judge(design, Rules(False, False))
    found = {name: problem.words for name, problem in judge.broken_rules(beats).items()}
    for name, words in found.items():  # an option makes it a mistake
        strict = Judge(design, Rules(False, False, (name,))).problems(Run(folder, ""), beats)
        assert [problem.words for problem in strict] == [words] and strict[0].beat
    assert judge.problems(Run(folder, ""), beats) == []
    return found


def test_denied_data_that_are_not_corrupt(tmp_path: Path) -> None:
    device = one_link(client=link())
    found = broken(tmp_path, device, [get(0), answer("00000000", denied=1)])
    assert found == {
        "denied-is-corrupt": "client link: AccessAckData of 4 bytes, source 00 is denied and not corrupt",
    }
    for lines in ([answer("00000000", 1, 1)], [answer("00000000")], [answer("00000000", 1, 0, opcode=0)]):
        assert broken(tmp_path, device, [get(0), *lines]) == {}
    assert broken(tmp_path, one_link(client=link("corrupt")), [get(0), answer("00000000", 1)]) == {}
    assert broken(tmp_path, one_link(client=link("denied")), [get(0), answer("00000000", 1)]) == {}


def test_corrupt_data_that_a_host_writes_as_good_data(tmp_path: Path) -> None:
    host = one_link(manager=link())
    bad = [get(0), answer("a1b2c3d4", corrupt=1)]
    found = broken(tmp_path, host, [*bad, put(64, "a1b2c3d4")])
    assert "writes a1b2c3d4 as good data, which it has read as corrupt data" in found["corrupt-stays"]
    right = (
        [*bad, put(64, "a1b2c3d4", corrupt=1)],
        [*bad, put(64, "00000000")],
        [*bad, get(0), answer("a1b2c3d4"), put(64, "a1b2c3d4")],
        [put(0, "a1b2c3d4"), answer("", source=1, opcode=0), *bad, put(64, "a1b2c3d4")],
        [*bad, put(64, "a1b2c3d4", mask="7")],
        [put(64, "a1b2c3d4"), *bad],
    )
    for lines in right:
        assert broken(tmp_path, host, lines) == {}
    assert broken(tmp_path, one_link(manager=link("corrupt")), [*bad, put(64, "a1b2c3d4")]) == {}


def copied(words: int, wrong: Dict[int, str], corrupt: Tuple[int, ...] = (), distance: int = 4096) -> List[str]:
    """A host that copies words: those of `wrong` get another value."""
    lines = []
    for at in range(words):
        value = f"{0xABCD0000 + 17 * at:08x}"
        lines += [get(4 * at), answer(value, corrupt=int(at in corrupt))]
        lines += [put(distance + 4 * at, wrong.get(at, value)), answer("", source=1, opcode=0)]
    return lines


def test_a_host_that_copies_and_writes_something_else(tmp_path: Path) -> None:
    host = one_link(manager=link())
    for at in (5, 19):  # in the middle, and at the end
        found = broken(tmp_path, host, copied(20, {at: f"{0xABCD0000 + 17 * (at - 1):08x}"}))
        due = f"{0xABCD0000 + 17 * at:08x}"
        assert list(found) == ["copies-all"]
        assert f"the data at 0x{4 * at:x}, as beside it, would have {due}" in found["copies-all"]
    right = (
        copied(20, {}),
        copied(8, {5: "00000001"}),  # too few to say so
        copied(20, {5: "00000001"}, corrupt=(5,)),
        copied(20, {5: "00000001", 6: "00000002"}),  # not one alone: something else is written there
        copied(20, {at: f"{at:08x}" for at in range(0, 20, 2)}),
    )
    for lines in right:
        assert broken(tmp_path, host, lines) == {}


def test_the_first_request_after_a_reset(tmp_path: Path) -> None:
    """A host begins after a reset as it began before, whatever source it takes."""
    host = one_link(manager=link())

    def run_of(lines: List[str], reset: int = -1) -> Tuple[Run, Beats]:
        (tmp_path / "manager.beats").write_text("".join(line + "\n" for line in lines))
        (tmp_path / "manager.beats.times").write_text("".join(f"{10000 * at + 1}\n" for at in range(len(lines))))
        run = Run(tmp_path, "", time=10000 * len(lines), reset_time=reset)
        return run, Beats(host, run)

    def said(calm: List[List[str]], lines: List[str], reset: int = 0) -> str:
        reference = Reference(host)
        for some in calm:
            reference.add(*run_of(some))
        return "".join(problem.words for problem in reference.problems(*run_of(lines, reset)))

    calm, later = [[get(0), get(4, 1)]] * len(REFERENCES), [get(8), get(12, 1)]
    expected = "manager link: the first request after a reset is Get of 4 bytes at 0x8, and in runs without one"
    assert said(calm, later).startswith(expected)
    assert said(calm, [get(0, 1)]) == "" and said(calm, []) == ""
    assert said(calm, later, reset=-1) == ""  # what a host does without a reset is compared byte by byte
    assert said(calm[1:], later) == ""  # there was no time for the calm runs
    assert said([*calm[1:], later], later) == ""  # no two runs begin alike


class Answers(Simulation):
    """A device that denies all but some addresses, in the place of a simulator."""

    def __init__(self, held: Callable[[int], bool]):
        self.held = held

    def run(self, script: Sequence[Message], settings: Mapping[str, int], folder: Path, *_: Any, **__: Any) -> Run:
        folder.mkdir(parents=True, exist_ok=True)
        lines = []
        for message in script:
            lines += [get(message.address, size=message.size), answer("00000000", int(not self.held(message.address)))]
        (folder / "client.beats").write_text("".join(line + "\n" for line in lines))
        (folder / "client.beats.times").write_text("".join(f"{at}\n" for at in range(len(lines))))
        return Run(folder, "")


def test_a_device_that_does_not_look_at_all_address_bits(tmp_path: Path) -> None:
    device = one_link(client=link())
    for mask, far in ((0xFFFF, 0x10000), (0xFFFFFFFF, 0), (0x3F, 0)):

        def held(address: int, mask: int = mask) -> bool:
            return address & mask < 64

        explorer = Explorer(device, Answers(held), tmp_path)
        window = explorer.window()
        assert explorer.far == far and (window == ((0, 128), 64) if mask > 64 else window is None)


# ---- rounds


def play_of(design: Design, *words: str) -> play.Play:
    """A run of a design whose rounds are made, and not played."""
    made = options.arguments().parse_args(list(words))
    bench = SimpleNamespace(has_two=False)
    names: Dict[str, Any] = dict(design=design, options=made, is_bridge=False, has_memory=True, bench=bench, start=0.0)
    names.update(
        limits=Limits(("get", "put"), 4, (0, 4096)), forced={}, compiled={}, explore_sizes=lambda *_: None, too_large=""
    )
    names.update(simulation=lambda _: None, rules=Rules(False, True), judge=Judge(design, Rules(False, True)))
    made_session: Any = SimpleNamespace(**names)
    return play.Play(made_session, 1, session.Voice(), Path())


def test_more_rounds_with_a_reset() -> None:
    """The second simulator plays three short ones beside each in the list of styles; with --after-reset, none has a
    pause after the reset."""
    device = one_link(client=link())
    assert device.client
    device.client.reset = "reset"
    for words, value in (((), 0), (("--after-reset",), 1)):
        made = play_of(device, "--messages", "90000", *words)
        rounds = list(itertools.islice(made.sequence("verilator", 1, session.MIDDLE, 90000), 30))
        styles = [found.style for found in rounds]
        at = styles.index("reset")
        assert styles[at : at + 5].count("reset") == 4
        resets = [found for found in rounds if found.style == "reset"]
        assert all(found.settings.get("at_once", 0) == value and found.settings["reset_at"] for found in resets)
        assert len({found.settings["seed"] for found in resets}) == len(resets)
    rounds = list(
        itertools.islice(play_of(device, "--messages", "90000").sequence("icarus", 0, session.SHORT, 90000), 13)
    )
    assert sum(found.style == "reset" for found in rounds) == 2


@pytest.mark.parametrize("fails_without", [False, True])
def test_what_fails_under_a_condition(monkeypatch: pytest.MonkeyPatch, fails_without: bool) -> None:
    """A run that fails only with the setting is a condition. One that also fails without it is a mistake."""
    design = one_link(client=link(), manager=link())
    made = play_of(design, "--messages", "90000")
    made.session.compiled["icarus"] = Answers(bool)
    monkeypatch.setattr(made.session, "long_simulator", lambda first: first, raising=False)
    problem = Problem("hang", "", "hang", 1)

    def judged(_: play.Play, found: play.Round, simulation: Simulation, folder: Path) -> play.Played:
        fails = len(seen) > 1 and (found.settings["same_cycle"] == 1 or fails_without)
        seen.append(found.settings["same_cycle"])
        return play.Played(found, simulation, None, Beats.none(design), [problem] if fails else [])

    seen: List[int] = []
    monkeypatch.setattr(play.Play, "judged_as_all", judged)
    failing = made.failing_with(play.UNLESS["same-cycle"])
    assert seen == [1, 1, 1, 0] and failing
    assert failing.round.settings["same_cycle"] == int(not fails_without)


def maker(design: Design, seed: int = 1, **limits: Any) -> Traffic:
    return Traffic(
        design, replace(Limits(("get", "put"), 4, (0, 4096), has_pages=True), **limits), seed, False, False, True
    )


def test_the_higher_bits_of_a_round() -> None:
    """In some rounds of a design that is no plain bridge, many addresses have the same higher bit: one that its source
    names, or a low one."""
    design = one_link(client=link(), manager=link())
    traffic_made = maker(design, page_bits=(20,))
    shares = []
    for _ in range(200):
        script, _ = traffic_made.styled("any", 60)
        high = [message.address >> 12 for message in script if message.address >> 12]
        assert all(bits & (bits - 1) == 0 for bits in high)
        if len(set(high)) == 1:
            shares.append((high[0] << 12, len(high)))
    many = {bit for bit, number in shares if number > 20}
    assert {1 << 12, 1 << 20} <= many and max(many) == 1 << 20 and 80 < len(shares) < 160


def test_addresses_at_the_end_of_a_window() -> None:
    """Some accesses are just below the end, and near other places that each round draws."""
    made = maker(one_link(client=link()), window=(0x2000, 4096), has_pages=False)
    rounds = [[message.address - 0x2000 for message in made.styled("any", 200)[0]] for _ in range(5)]
    assert all(sum(place >= 4096 - 36 for place in places) > 3 for places in rounds)
    far = [{place >> 5 for place in places if 512 <= place < 4064 and place & 0x300} for places in rounds]
    assert all(far) and len(set.union(*far)) > max(map(len, far))


def test_addresses_just_above_what_a_device_holds() -> None:
    """They are denied, and more of them come in rounds with a reset, so that one may be under way. There, few sources
    come twice in a row, so that many requests are under way."""
    device = one_link(client=link())
    assert device.client
    device.client.reset = "reset"
    made = maker(device, window=(0x2000, 4096), held=2048, has_pages=False)
    shares, twice = {}, {}
    for style in ("any", "reset"):
        scripts = [made.styled(style, 150)[0] for _ in range(60)]
        places = [message.address - 0x2000 for script in scripts for message in script]
        shares[style] = sum(2048 <= place < 2048 + 256 for place in places) / len(places)
        pairs = [pair for script in scripts for pair in zip(script, script[1:])]
        twice[style] = sum(one.source == other.source for one, other in pairs) / len(pairs)
        assert max(places) < 4096
    assert 0.08 < shares["any"] < 0.18 < shares["reset"] < 0.4
    assert twice["reset"] < 0.4 < 0.45 < twice["any"]


def test_a_round_without_stalls_is_near() -> None:
    """Almost each read of a long round meets a write, so that one wrong value of a thousand shows."""
    made = maker(one_link(client=link()), window=(0x2000, 4096), has_pages=False)
    for style, least, most in (("full", 0.75, 1), ("any", 0, 0.6)):
        places = [message.address - 0x2000 for message in made.styled(style, 200)[0]]
        assert least <= sum(place < 64 for place in places) / len(places) <= most


@pytest.mark.parametrize("word", ["--no-same-cycle", "--same-cycle", "--seeds=5-6", "--messages=1999"])
def test_what_is_not_tried(monkeypatch: pytest.MonkeyPatch, word: str) -> None:
    """These options leave out what is tried under a condition."""
    made = play_of(one_link(client=link(), manager=link()), *([] if "messages" in word else ["--messages=2000"]), word)
    tried: List[str] = []
    monkeypatch.setattr(play.Play, "failing_with", lambda _, kind: tried.append(kind.name))
    is_all = "--seeds" in word or "--messages" in word  # all is left out, and not only one
    assert not list(made.under_conditions()) and tried == ([] if is_all else ["withdraw"])
    tried.clear()
    made.session.options.seeds, made.most = None, 2000
    made.session.options.same_cycle = made.session.options.no_same_cycle = False
    assert not list(made.under_conditions()) and tried == ["same-cycle", "withdraw"]  # the links have no reset
    made.session.options.withdraw = True
    assert not list(made.under_conditions()) and tried[2:] == ["same-cycle"]


def test_conditions_that_no_run_shows(monkeypatch: pytest.MonkeyPatch) -> None:
    """They are named also if there was no time to play the netlist, and if yosys reads no netlist."""
    made = play_of(one_link(client=link(), manager=link()), "--messages", "2000")
    made.session.limits = Limits(("get",), 4, (0, 128), held=64, far=0x10000)
    monkeypatch.setattr(made.session, "has_late", True, raising=False)
    monkeypatch.setattr(made.session, "late", None, raising=False)
    made_netlist: Any = SimpleNamespace(single=["q1", "q2", "q3", "q4"])
    monkeypatch.setattr(made.session, "netlist", lambda: made_netlist, raising=False)
    far, lone = made.seen()
    assert far.line.startswith("unless all bits of an address count: it answers at 0x10000, and denies")
    assert "has to pass two flip-flops: logic reads q1, q2, q3 and 1 more after one" in lone.line

    def refused() -> None:
        raise DesignError("yosys cannot read it")

    monkeypatch.setattr(made.session, "netlist", refused)
    assert [one.unless for one in made.seen()] == ["all bits of an address count"]


def test_the_address_bits_that_a_source_names(tmp_path: Path) -> None:
    source = tmp_path / "design.v"
    source.write_text("wire far = a_address[12] | up_addr [ 31 ] & a_address[3] & data[13] & a_address[15:12];")
    assert stated_bits([str(source), str(tmp_path / "none.v")]) == (12, 31)


def test_rounds_after_a_reset() -> None:
    """With two clocks, one of them is slow in many rounds with a reset; only the part at the end has no pause."""
    client, manager = link(), link()
    client.reset = manager.reset = "reset"
    client.clock, manager.clock = "fast", "slow"
    made = Traffic(one_link(client=client, manager=manager), Limits(("get",), 4), 1, True, True, False)
    for style, value in (("after reset", 1), ("reset", 0)):
        drawn = [made.styled(style, 60)[1] for _ in range(40)]
        assert all(settings.get("at_once", 0) == value and settings["reset_at"] > 0 for settings in drawn)
        far = [settings["client_half"] / settings["manager_half"] for settings in drawn]
        assert {0.1, 10.0} <= {round(ratio, 1) for ratio in far}
    text = Bench(one_link(client=client, manager=manager), True, False, False).text()
    assert text.count("if (at_once == 0) begin") == 4 and traffic.STYLES.count("reset") >= 3


BAD: Dict[str, Tuple[List[str], int, str]] = {
    "no file": (["missing.sv"], 2, "there is no file missing.sv"),
    "no files": ([], 2, "name the files of the design"),
    "two files without top": ([START, START], 2, "--top MODULE is needed"),
    "no such module": ([START, "--top", "bridge"], 2, "Modules found: adapter"),
    "no such link": ([START, "--client", "left"], 2, "has the prefix left. Links found: up, down"),
    "no such clock": ([START, "--client-clock", "clk"], 2, "--client-clock clk: the design has no input of one bit"),
    "unknown parameter": ([START, "-P", "WIDTH=3"], 2, "the module adapter has no parameter WIDTH"),
    "a parameter without a value": ([START, "-P", "WIDTH"], 2, "-P WIDTH: it has to be NAME=VALUE"),
    "a kind that is none": ([START, "--only", "get,fetch"], 2, "'fetch' is no kind of message"),
    "a kind of another level": ([START, "--only", "acquire"], 2, "acquire needs the channels A to E"),
    "too large": ([START, "--largest", "16"], 2, "--largest 16: the size of the links says at most 8 bytes"),
    "no power of 2": ([START, "--largest", "3"], 2, "a power of 2 is needed"),
    "one clock": ([START, "--one-clock"], 2, "--one-clock: the design has one clock"),
    "skew of one clock": ([START, "--skew"], 2, "--skew: the design has one clock"),
    "memory of a bridge": ([START, "--no-memory"], 2, "--no-memory is for a design with one link"),
    "same cycle, and not": ([START, "--same-cycle", "--no-same-cycle"], 2, "--same-cycle and --no-same-cycle exclude"),
    "denied data of a bridge": ([START, "--denied-is-corrupt"], 2, "--denied-is-corrupt is for a device"),
    "corrupt data of a bridge": ([START, "--corrupt-stays"], 2, "--corrupt-stays is for a host or a device"),
    "a bridge that copies": ([START, "--copies-all"], 2, "--copies-all is for a host"),
    "denied requests of a bridge": ([START, "--denied-alike"], 2, "are for a device, or with --rules-only"),
    "reads of a bridge": ([START, "--reads-accepted"], 2, "--reads-accepted and --reads-no-later are for a device"),
    "later writes of a bridge": (
        [START, "--reads-no-later"],
        2,
        "--reads-accepted and --reads-no-later are for a device",
    ),
    "what nobody writes": ([START, "--reads-alike"], 2, "are for a device, or with --rules-only"),
    "what a plain bridge did": ([START, "--done-not-denied"], 2, "--done-not-denied is for --rules-only"),
    "after no reset": ([START, "--after-reset", "--no-reset"], 2, "--after-reset and --no-reset exclude each other"),
    "jobs of one seed": ([START, "--jobs", "2"], 2, "--jobs is for --seeds"),
    "seeds": ([START, "--seeds", "5-1"], 2, "--seeds 5-1: it has to be FIRST-LAST"),
    "window": ([START, "--window", "16"], 2, "--window 16: it has to be BASE:BYTES"),
    "a file list": (["-f", "none.f"], 2, "the file list none.f cannot be read"),
    "a folder": ([START, "-I", "none"], 2, "there is no folder none"),
    "a folder of somebody else": ([START, "--out", "."], 2, "--out . exists and is no folder of tlbridge-verify"),
    "a folder in a file": ([START, "--out", "file/out"], 4, "file/out cannot be written"),
    "does not compile": (["broken.sv"], 3, "the design does not compile: "),
}


@pytest.mark.parametrize("case", BAD)
def test_bad_input(tmp_path: Path, case: str) -> None:
    (tmp_path / "file").write_text("")
    (tmp_path / "broken.sv").write_text("module broken(input clk; endmodule\n")
    words, status, said = BAD[case]
    got, out, err = verify(tmp_path, *words)
    assert (got, out) == (status, "") and said in err and err.startswith("tlbridge-verify: ") and err.count("\n") == 1
    assert files_of(tmp_path) == ["broken.sv", "file"]


def test_no_simulator(tmp_path: Path) -> None:
    needs_tools("verilator", "iverilog")
    empty = tmp_path / "bin"
    empty.mkdir()
    assert verify(tmp_path, START, path=str(empty))[::2] == (
        4,
        (
            "tlbridge-verify: verilator was not found, which reads the ports of a design: install Verilator 5 (`apt"
            " install verilator`)\n"
        ),
    )


def test_a_simulator_that_dies(tmp_path: Path) -> None:
    text = Path(START).read_text()
    fatal = '    initial #100 $fatal(1, "out of order");\nendmodule'
    (tmp_path / "adapter.sv").write_text(text.replace("endmodule", fatal))
    status, _, err = verify(tmp_path, "adapter.sv", *QUICK)
    assert status == 4 and err.startswith("tlbridge-verify: icarus ended with status 1 in the middle of a run: ")
    assert files_of(tmp_path) == ["adapter.sv"]


def test_every_option_is_read() -> None:
    """Each option of the command line is used somewhere in the program."""
    text = "".join(path.read_text() for path in Path(command.__file__).parent.glob("*.py"))
    for action in options.arguments()._actions:
        if action.dest not in ("help",) and action.option_strings:
            uses = text.count(f"options.{action.dest}") + text.count(f'"{action.dest}"')
            is_pair = action.dest.endswith(("_clock", "_reset")) and action.dest.split("_")[0] in ("client", "manager")
            assert uses or is_pair, action.dest


def test_the_pages_name_every_option() -> None:
    guide = (ROOT / "docs" / "VERIFY.md").read_text()
    manual = (ROOT / "packaging" / "tlbridge-verify.1").read_text().replace("\\-", "-")
    completion = (ROOT / "packaging" / "completion.bash").read_text()
    for action in options.arguments()._actions:
        for option in action.option_strings:
            if option.startswith("--") and option != "--help":
                assert option in manual and option in completion, option
    for option in (
        "--rules-only",
        "--skew",
        "--same-cycle",
        "--no-same-cycle",
        "--after-reset",
        "--denied-is-corrupt",
        "--corrupt-stays",
        "--copies-all",
        "--withdraw",
        "--seeds",
        "--junit",
        "--window",
        "--no-reset",
    ):
        assert option in guide
