"""The agents of the bench (sv/tl_agent.sv) in Icarus, around a design that passes each beat on in its cycle: what each
setting does to the beats, and what the agents complain of."""

from pathlib import Path
from typing import Dict, Iterator, List, Mapping, NamedTuple, Sequence, Tuple

import pytest
from project import needs_tools

from tlbridge.protocol import CHANNELS, FROM_CLIENT, beat_count
from tlbridge.verify.bench import Bench, Run, Simulation
from tlbridge.verify.design import Design, Link, Port, Signal, Source, read_design
from tlbridge.verify.judge import Beats, Judge, Rules, values_of
from tlbridge.verify.memory import memory_problems
from tlbridge.verify.traffic import Limits, Message, Traffic

pytestmark = pytest.mark.simulator
COMMON = "opcode:3 param:3 size:3 source:2"
FIELDS = {
    "A": COMMON + " address:32 mask:4 data:32 corrupt:1",
    "B": COMMON + " address:32 mask:4 data:32 corrupt:1",
    "C": COMMON + " address:32 data:32 corrupt:1",
    "D": COMMON.replace("param:3", "param:2") + " sink:2 denied:1 data:32 corrupt:1",
    "E": "sink:2",
}
PERIOD = 10000
# With +bug=1, valid of D falls sometimes. With 2 its data change, with 3 ready of A is x, and with 4 valid of D. With
# 5, D never ends.
BUGS = """    integer bug, n = 0;
    initial if (!$value$plusargs("bug=%d", bug)) bug = 0;
    always @(posedge clock) n = n + 1;
    wire falls = bug == 1 && n % 3 == 1;
    assign down_d_ready = up_d_ready && !falls;
    assign up_d_valid = bug == 4 && n / 8 == 9 ? 1'bx : bug == 5 ? n > 50 : down_d_valid && !falls;
    assign up_d_data = bug == 2 ? down_d_data ^ n : down_d_data;
    assign up_a_ready = bug == 3 && n / 8 == 9 ? 1'bx : down_a_ready;
    reg seen = 0;
    always @(posedge clock) if (!reset && !up_a_valid && ^up_a_address === 1'bx && !seen) begin
        seen = 1;
        $display("NOTE x");
    end
"""


def wires(folder: Path, channels: str) -> Design:
    """A design whose two links are the same wires."""
    ports = {name: Port("input", 1) for name in ("clock", "reset")}
    links, assigned = {}, []
    for stem, receives in (("up_", True), ("down_", False)):
        links[stem] = Link(stem, clock="clock", reset="reset")
        for channel, text in ((letter, FIELDS[letter]) for letter in channels):
            is_input = (channel in FROM_CLIENT) == receives
            have = {}
            for name, bits in (word.split(":") for word in f"valid:1 ready:1 {text}".split()):
                way = "input" if is_input != (name == "ready") else "output"
                have[name] = Signal(f"{stem}{channel.lower()}_{name}", 0, int(bits), way)
                ports[have[name].port] = Port(way, int(bits))
                if way == "output":
                    other = have[name].port.replace(stem, {"up_": "down_", "down_": "up_"}[stem])
                    assigned.append(f"    assign {have[name].port} = {other};\n")
            links[stem].channels[channel] = have
    said = ", ".join(f"{port.direction} [{port.bits - 1}:0] {name}" for name, port in ports.items())
    mine = [line for line in assigned if line.split()[1] not in BUGS.replace("=", " = ").split()]
    path = folder / "wires.sv"
    path.write_text(f"`timescale 1ps / 1ps\nmodule wires({said});\n{''.join(mine)}{BUGS}endmodule\n")
    return Design(Source("wires", (str(path),)), ports, links["up_"], links["down_"])


class Bridge:
    """The bench of a design, compiled once. `is_memory`: the manager is a memory."""

    def __init__(self, folder: Path, is_memory: bool, channels: str = "AD"):
        needs_tools("iverilog")
        self.design, self.is_memory, self.folder = wires(folder, channels), is_memory, folder
        bench = Bench(self.design, not is_memory, False, is_memory)
        self.simulation = Simulation(self.design, "icarus", folder / "bench", bench)
        self.judge = Judge(self.design, Rules(not is_memory, False))

    def script(self, count: int, kinds: Sequence[str], largest: int = 16, seed: int = 1) -> List[Message]:
        window = (0, 64) if self.is_memory else None
        limits = Limits(tuple(kinds), largest, window, atomic=4 if self.is_memory else largest)
        traffic = Traffic(self.design, limits, seed, not self.is_memory, False, self.is_memory)
        return traffic.drawn(count, 4, "mixed", 0.4)

    def run(self, script: Sequence[Message], **settings: int) -> Tuple[Run, Beats]:
        run = self.simulation.run(script, {"seed": 3, **settings}, self.folder / "run")
        return run, Beats(self.design, run)


@pytest.fixture(scope="module")
def bridge(tmp_path_factory: pytest.TempPathFactory) -> Bridge:
    return Bridge(tmp_path_factory.mktemp("bridge"), False)


@pytest.fixture(scope="module")
def coherent(tmp_path_factory: pytest.TempPathFactory) -> Bridge:
    return Bridge(tmp_path_factory.mktemp("coherent"), False, "ABCDE")


@pytest.fixture(scope="module")
def memory(tmp_path_factory: pytest.TempPathFactory) -> Bridge:
    return Bridge(tmp_path_factory.mktemp("memory"), True)


class Talk(NamedTuple):
    """A request on A or C with its response on D: the cycles of its first and last beat, and of those of the
    response."""

    values: Mapping[str, str]
    asked: List[int]
    told: List[int]
    answer: List[Dict[str, str]]


def talks(beats: Beats) -> List[Talk]:
    """The requests of the client's link, in the order of their first beats."""
    found: List[Talk] = []
    left = {channel: 0 for channel in CHANNELS}
    now: Dict[str, Talk] = {}
    waiting: Dict[Tuple[bool, str], List[Talk]] = {}
    for time, line in zip(beats.times["client"], beats.lines["client"]):
        channel = line[0]
        if channel not in "ACD":
            continue
        values = values_of(line)
        opcode = int(values["opcode"])
        if left[channel] == 0:
            left[channel] = beat_count(channel, opcode, int(values["size"]), 4)
            if channel == "D":
                now["D"] = waiting[opcode == 6, values["source"]].pop(0)
            else:
                now[channel] = Talk(values, [], [], [])
                if channel == "A" or opcode in (6, 7):
                    found.append(now[channel])
                    waiting.setdefault((channel == "C", values["source"]), []).append(now[channel])
        left[channel] -= 1
        if channel == "D":
            now["D"].told.append(time // PERIOD)
            now["D"].answer.append(values)
        else:
            now[channel].asked.append(time // PERIOD)
    return found


UH = ("get", "put", "partial", "arithmetic", "logical", "intent")
ALL = (*UH, "acquire", "acquireperm", "release", "probe")
CALM = dict(calm=0x3FF, patient=0)


def outstanding(done: List[Talk]) -> int:
    """The most requests between their first beat and that of their response."""
    moments = sorted([(talk.asked[0], 1) for talk in done] + [(talk.told[0], -1) for talk in done])
    most = now = 0
    for _, step in moments:
        now += step
        most = max(most, now)
    return most


def again(done: List[Talk]) -> int:
    """The requests that begin before the last beat of the response to the one before of their source."""
    last: Dict[str, int] = {}
    found = 0
    for talk in done:
        found += talk.asked[0] <= last.get(talk.values["source"], -1)
        last[talk.values["source"]] = talk.told[-1]
    return found


def test_all_messages_arrive(coherent: Bridge) -> None:
    script = coherent.script(70, ALL, 8)
    cases: List[Dict[str, int]] = [{}, {"blocking": 1}]
    for settings in cases:
        run, beats = coherent.run(script, **settings)
        assert coherent.judge.problems(run, beats) == [] and not run.hang and run.stalls
        done = talks(beats)
        assert len(done) == sum(message.channel != "B" for message in script) and all(talk.told for talk in done)
        assert len(beats.of("client", "B")) == sum(message.channel == "B" for message in script) > 0
        grants = sum(talk.answer[-1]["opcode"] in "45" for talk in done)
        assert len(beats.of("manager", "E")) == grants > 2
        answers = [line for line in beats.of("manager", "C") if line[2] in "45"]
        assert len(answers) >= len(beats.of("client", "B"))
        assert set("0124") < {line[2] for line in beats.of("client", "D")}


def test_stalls(bridge: Bridge) -> None:
    script = bridge.script(100, UH, 8)
    run, beats = bridge.run(script, **CALM)
    assert bridge.judge.problems(run, beats) == [] and run.stalls == {} and outstanding(talks(beats)) > 1
    run, beats = bridge.run(script, calm=0x3FD)  # ready of A
    assert set(run.stalls) == {("client", "A"), ("manager", "A")}
    run, beats = bridge.run(script, calm=0x3BF)  # valid of D
    assert run.stalls == {}
    run, beats = bridge.run(script[:20], calm=0x3FE, long_stalls=1, idle=9000, seed=9)  # valid of A
    assert 500 < min(beats.times["client"]) // PERIOD < 600


def test_the_order_and_the_moments_of_responses(bridge: Bridge) -> None:
    script = bridge.script(50, UH)

    def of(**settings: int) -> List[Talk]:
        run, beats = bridge.run(script, **settings)
        assert bridge.judge.problems(run, beats) == []
        return talks(beats)

    def first_beats(done: List[Talk]) -> List[int]:
        return [talk.told[0] for talk in done]

    done = of(in_order=1, early=0, reuse=0, denied=0, corrupt=0)
    assert first_beats(done) == sorted(first_beats(done)) and outstanding(done) > 2 and again(done) == 0
    assert all(talk.told[0] > talk.asked[-1] for talk in done)
    assert not any(values[name] != "0" for talk in done for values in talk.answer for name in ("denied", "corrupt"))
    done = of(gather=30)
    assert first_beats(done) != sorted(first_beats(done)) and again(done) > 0
    answers = [values for talk in done for values in talk.answer]
    done = of()
    assert any(talk.told[0] < talk.asked[-1] for talk in done)
    answers += [values for talk in done for values in talk.answer]
    assert 0 < sum(talk.answer[0]["denied"] == "1" for talk in done) < 15
    assert any(values["corrupt"] == "1" and values["denied"] == "0" for values in answers)
    done = of(serial=1, denied=0)
    assert all(values["denied"] == "0" for talk in done for values in talk.answer)
    assert outstanding(done) == 1
    assert all(after.asked[0] > before.told[0] for before, after in zip(done, done[1:]))


def test_responses_that_wait(bridge: Bridge) -> None:
    script = bridge.script(40, ("get",), 4)
    waits = {}
    for name in ("gather", "slow"):
        run, beats = bridge.run(script, **CALM, **{name: 60}, reuse=1)
        assert bridge.judge.problems(run, beats) == []
        done = talks(beats)
        waits[name] = [talk.told[0] - talk.asked[-1] for talk in done]
        assert outstanding(done) >= 3
    assert max(waits["slow"]) > 60 and 60 < max(waits["gather"]) < 90
    run, beats = bridge.run(script, **CALM, same_cycle=1)
    assert sum(talk.told[0] == talk.asked[0] for talk in talks(beats)) > 10
    run, beats = bridge.run(script, **CALM)
    assert all(1 <= talk.told[0] - talk.asked[0] < 9 for talk in talks(beats))


def test_a_message_waits_for_its_cycle(bridge: Bridge) -> None:
    script = [Message("A", 4, 0, 2, at % 4, 4 * at, at=50 + 30 * at) for at in range(5)]
    _, beats = bridge.run(script, **CALM)
    asked = [talk.asked[0] for talk in talks(beats)]
    assert [cycle - asked[0] for cycle in asked] == [0, 30, 60, 90, 120]
    _, beats = bridge.run(script, **CALM, client_offset=20, manager_offset=20)
    assert talks(beats)[0].asked[0] == asked[0] - 20
    sent = (bridge.folder / "run" / "client.sent").read_text().split("\n")
    assert sent[1] == "0 50" and len([line for line in sent if line.startswith("0 ")]) == 5


def test_a_reset_in_the_middle(bridge: Bridge) -> None:
    script = bridge.script(60, UH, 8)
    held = dict(reset_at=130, held=0x80, client_held=110, manager_held=110)
    run, beats = bridge.run(script, **CALM, **held)
    assert bridge.judge.problems(run, beats) == [] and run.reset_time > 130 * PERIOD and not run.hang
    times = [int(time) for time in (bridge.folder / "run" / "client.beats.times").read_text().split()]
    lines = (bridge.folder / "run" / "client.beats").read_text().split("\n")
    before = [time // PERIOD for time, line in zip(times, lines) if time < run.reset_time and line[0] == "D"]
    assert 100 < max(before) < 112  # from then on, ready of D is 0
    assert min(beats.times["client"]) > run.reset_time and 5 < len(talks(beats)) < 60
    run, beats = bridge.run(script, **CALM, held=0x80)
    assert run.reset_time < 0 and len(talks(beats)) == 60


def test_a_reset_of_the_other_link(tmp_path: Path) -> None:
    """Either reset of this crossing resets both sides. So a valid falls on one link before the reset of that link
    comes, up to a clock period after the other one."""
    needs_tools("iverilog", "verilator")
    design = read_design(Source("ul_handshake", (str(Path(__file__).parent / "fresh" / "ul_handshake.sv"),)))
    simulation = Simulation(design, "icarus", tmp_path / "bench", Bench(design, True, False, False))
    script = Traffic(design, Limits(("get", "put", "partial"), 4), 1, True, False, False).drawn(40, 4, "mixed", 0.4)
    clocks = dict(client_half=3000, manager_half=15000)
    held = dict(held=0x2, client_held=560, manager_held=112)  # ready of A is 0 at the manager, so a request waits there
    for reset_at in range(700, 740, 4):
        run = simulation.run(script, {"seed": 3, "reset_at": reset_at, **held, **clocks}, tmp_path / "run")
        assert run.reset_time > 0 and run.complaints == [], reset_at


def test_a_design_that_never_stops(bridge: Bridge) -> None:
    """A run ends if more beats come than its script can bring about, and has a mistake."""
    script = bridge.script(4, UH, 8)
    bridge.simulation.plusargs = ["bug=5"]
    run, beats = bridge.run(script)
    bridge.simulation.plusargs = []
    most = 1000 + 20 * sum(4 + (1 << message.size) // 4 for message in script)
    assert not run.hang and most < len(beats.lines["client"]) + len(beats.lines["manager"]) < most + 10
    assert bridge.judge.problems(run, beats) != []


def test_what_the_agents_complain_of(bridge: Bridge) -> None:
    script = bridge.script(40, UH, 8)
    for bug, words in (
        (1, "valid fell before ready"),
        (2, "beat changed before ready"),
        (3, "ready is x"),
        (4, "valid is x"),
    ):
        bridge.simulation.plusargs = [f"bug={bug}"]
        run, _ = bridge.run(script, calm=0x37F, idle=200)
        channel = "A" if bug == 3 else "D"
        complaints = {tuple(row[1:]) for row in run.complaints}
        assert ("client", channel, words) in complaints and (bug == 4 or len(complaints) == 1), bug
        assert len(run.complaints) <= 5
        run, _ = bridge.run(script, calm=0x37F, steady=0, idle=200)
        assert bool(run.complaints) == (bug > 2)
    bridge.simulation.plusargs = []
    run, beats = bridge.run(script, withdraw=1, steady=0)
    assert bridge.judge.problems(run, beats) == []
    run, beats = bridge.run(script, withdraw=1)
    assert {row[3] for row in run.complaints} == {"valid fell before ready"}


def test_fields_without_a_valid_beat(bridge: Bridge) -> None:
    script = bridge.script(10, UH, 8)
    assert "NOTE x" in bridge.run(script, quiet=0)[0].output
    assert "NOTE x" not in bridge.run(script, quiet=1)[0].output


def written(beats: Beats) -> Iterator[str]:
    for line in beats.lines["manager"]:
        if line[0] == "D" and line[2] == "1":
            yield line


def test_the_manager_as_a_memory(memory: Bridge) -> None:
    script = memory.script(100, UH[:-1], 8)
    for settings in (dict(calm=0x3FF, denied=0, corrupt=0), dict(calm=0x3BF, same_cycle=1)):
        run, beats = memory.run(script, **settings)
        assert memory.judge.problems(run, beats) == [] and not run.hang
        assert memory_problems(memory.design, beats) == []
        done = talks(beats)
        denied = sum(talk.answer[0]["denied"] == "1" for talk in done)
        assert len(done) == 100 and (denied == 0 if settings.get("denied") == 0 else 0 < denied < 25)
        assert len(set(written(beats))) > 30
