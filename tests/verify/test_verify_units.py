"""The parts of tlbridge-verify, each on its own: scripts, settings, exploring, judging, shrinking and coverage. No
simulator is needed."""

from dataclasses import replace
from pathlib import Path
from typing import Any, Dict, List, Mapping, Optional, Sequence

import pytest

from tlbridge.verify import play
from tlbridge.verify.bench import Run, Settings, Simulation
from tlbridge.verify.design import Design, DesignError, Link, Signal, Source, modules_of
from tlbridge.verify.explore import Explorer, Pair, rules_out_atomics, stated_largest, stated_level
from tlbridge.verify.judge import Beat, Beats, Judge, Problem, Rules, differing, homes_of, name_of, picture_of, trace_of
from tlbridge.verify.report import Coverage, not_compared
from tlbridge.verify.shrink import CALM, Shrinker, needs_of, options_of
from tlbridge.verify.traffic import MOST_MESSAGES, STYLES, Limits, Message, Traffic, limits_of, style_of

UL = {
    "A": "opcode:3 param:3 size:2 source:2 address:32 mask:{lanes} data:{bits}",
    "D": "opcode:3 size:2 source:2 denied:1 data:{bits}",
}
UH = {"A": UL["A"].replace("size:2", "size:4") + " corrupt:1", "D": UL["D"].replace("size:2", "size:4") + " corrupt:1"}
C = {
    **UH,
    "B": "opcode:3 param:2 size:4 source:2 address:32 mask:{lanes} data:{bits}",
    "C": "opcode:3 param:3 size:4 source:2 address:32 data:{bits} corrupt:1",
    "E": "sink:3",
}


def link(name: str, width: int, fields: Mapping[str, str], clock: str = "clock") -> Link:
    channels: Dict[str, Dict[str, Signal]] = {}
    for letter, said in fields.items():
        pairs = [field.split(":") for field in said.format(lanes=width, bits=8 * width).split()]
        channels[letter] = {name: Signal(f"{letter}_{name}", 0, int(bits), "input") for name, bits in pairs}
        channels[letter]["valid"] = Signal(f"{letter}_valid", 0, 1, "input")
    return Link(name, channels, clock=clock, reset="reset")


def bridge(client: int = 8, manager: int = 4, fields: Mapping[str, str] = UL, clock: str = "clock") -> Design:
    return Design(Source("dut", ()), {}, link("up", client, fields), link("down", manager, fields, clock))


def traffic_of(design: Design, seed: int = 1, has_two: bool = False, **limits: Any) -> Traffic:
    made = replace(limits_of(design, design.is_bridge, None, None, None, None), **limits)
    return Traffic(design, made, seed, design.is_bridge, has_two, not design.is_bridge)


# ---- scripts and settings


def test_the_directed_round_has_each_kind_size_and_offset() -> None:
    made = {(m.opcode, m.size, m.address % 8) for m in traffic_of(bridge()).directed()}
    assert made == {(op, size, at) for op in (0, 1, 4) for size in range(3) for at in range(0, 8, 1 << size)}
    large = [m.size for m in traffic_of(bridge(fields=UH)).directed()]
    assert max(large) == 6 and all(m.address % (1 << m.size) == 0 for m in traffic_of(bridge(fields=UH)).directed())


def test_the_limits_follow_from_the_ports() -> None:
    def of(design: Design, *words: Optional[str], largest: Optional[int] = None) -> Limits:
        return limits_of(design, design.is_bridge, words[0], largest, words[1], None)

    assert of(bridge(), None, None) == Limits(("get", "put", "partial"), 4)
    assert of(bridge(8, 8), None, None).largest == 8
    assert of(bridge(fields=UH), None, None).largest == 4096
    assert "arithmetic" in of(bridge(fields=UH), None, None).kinds
    assert of(bridge(fields=UH), None, None, largest=64).largest == 64
    assert of(bridge(fields=C), None, None).kinds[-2:] == ("release", "probe")
    assert of(bridge(fields=C), "UL", "get").kinds == ("get",)
    for design, words in ((bridge(), ("C", None)), (bridge(), (None, "acquire")), (bridge(), (None, "fetch"))):
        with pytest.raises(DesignError):
            of(design, *words)
    without_mask = {**UL, "A": UL["A"].replace(" mask:{lanes}", "")}
    assert of(bridge(fields=without_mask), None, None).kinds == ("get", "put")
    assert Limits(("get", "logical"), 64, atomic=8).largest_of("logical") == 8
    assert Limits(("get", "logical"), 64, atomic=8).largest_of("get") == 64


@pytest.mark.parametrize("fields", [UL, UH, C])
def test_each_round_is_lawful(fields: Mapping[str, str]) -> None:
    traffic = traffic_of(bridge(fields=fields), has_two=True)
    for number in range(2 + 2 * len(STYLES)):
        script, settings = traffic.round(number, 150)
        assert 0 < len(script) <= MOST_MESSAGES
        for message in script:
            size = 1 << message.size
            assert message.address % size == 0 and message.address < 1 << 32 and size <= traffic.limits.largest
            assert message.source < 4 and message.channel in "ABC" and len(message.word()) == 43
            assert message.opcode in {"A": range(8), "B": (6, 7), "C": (6, 7)}[message.channel]
            if message.channel == "A" and message.opcode not in (2, 3, 5, 6, 7):
                assert message.param == 0
            if message.mask_seed:
                assert message.channel == "A" and message.opcode == 1
        # a hang is waited for longer than any wait that the settings make
        period = {side: 2 * settings[f"{side}_half"] for side in ("client", "manager")}
        waits = (settings.get("gather", 0) + settings.get("slow", 0)) * period["manager"] + (
            1024 * max(period.values()) if settings.get("long_stalls") else 0
        )
        assert settings["idle"] * period["client"] > 1.9 * waits
    assert {message.channel for number in (0, 1) for message in traffic.round(number, 1)[0]} <= set("ABC")


def test_the_permissions_of_a_release() -> None:
    traffic = traffic_of(bridge(fields=C))
    made = [traffic.message("release", 2, 0) for _ in range(200)]
    assert {message.param for message in made if message.opcode == 7} == {0, 1, 3}  # with data: from T, or B to N
    assert {message.param for message in made if message.opcode == 6} == set(range(6))


def test_rounds_depend_on_the_seed_only() -> None:
    made = [traffic_of(bridge(fields=UH), seed).round(5, 100) for seed in (3, 3, 4)]
    assert made[0] == made[1] != made[2]


def test_each_style_comes_once_before_any_is_repeated() -> None:
    kinds = len(set(STYLES))
    assert [style_of(number) for number in (0, 1, 2, 2 + len(STYLES))] == ["directed", "directed", STYLES[0], STYLES[0]]
    assert len({style_of(number) for number in range(2, 2 + kinds)}) == kinds


def test_the_outer_module_is_found(tmp_path: Path) -> None:
    made = tmp_path / "made.sv"
    made.write_text(
        "// module old; endmodule\nmodule part #(parameter N = 1) (input a); endmodule\n"
        "module whole(input a); part #(.N(2)) one (.a(a)); endmodule : whole\n"
    )
    assert modules_of([str(made)]) == (["part", "whole"], ["whole"])
    assert modules_of([str(tmp_path / "none.sv")]) == ([], [])


def test_the_styles_have_their_settings() -> None:
    traffic = traffic_of(bridge(fields=UH))
    script, settings = traffic.styled("slow", 200)
    assert settings["slow"] >= 140 and settings["idle"] > 2 * settings["slow"] and 16 <= len(script) <= 40
    assert all(traffic.styled("again", 60)[1]["reuse"] == 1 for _ in range(5))
    assert traffic.styled("full", 60)[1]["calm"] == 0x3FF
    assert traffic.styled("blocking", 60)[1]["blocking"] == 1
    assert traffic.styled("long stalls", 60)[1]["long_stalls"] == 1
    taken_back = [traffic.styled("withdraw", 60)[1] for _ in range(9)]
    assert all(made["steady"] == 0 == made["patient"] and made["calm"] & 0x2AA == 0 for made in taken_back)
    made = [traffic.styled("reset", 600) for _ in range(60)]
    assert all(40 <= settings["reset_at"] <= 400 and len(script) == 150 for script, settings in made)
    assert min(settings["reset_at"] for _, settings in made) < 60 and max(s["reset_at"] for _, s in made) > 300
    assert all(20 <= s["client_held"] == s["manager_held"] < s["reset_at"] for _, s in made)
    assert {0, 0x2, 0x80, 0x82} == {s["held"] for _, s in made}  # ready of A and of D
    script, settings = traffic.styled("all sources", 40)
    assert settings["gather"] >= 40 and {message.source for message in script[:4]} == {0, 1, 2, 3}
    assert settings["calm"] == 0x15F  # all but the readies of C, D and E
    assert max(1 << message.size for message in traffic.styled("large", 200)[0]) > 64
    sources = [message.source for message in traffic.styled("again", 200)[0]]
    assert sum(a == b for a, b in zip(sources, sources[1:])) > 120
    no_reset = replace(traffic.design, client=replace(traffic.design.links["client"], reset=""))
    assert "reset_at" not in traffic_of(no_reset).styled("reset", 60)[1]


def test_a_reset_with_two_clocks_comes_after_the_first_one() -> None:
    traffic = traffic_of(bridge(fields=UH, clock="other"), has_two=True)
    for client, manager in ((5000, 5000), (2000, 20000), (20000, 2000), (3000, 7000)):
        for _ in range(20):
            made = traffic.reset({"client_half": client, "manager_half": manager})
            begin = 2 * (40 + 40 * manager // client)  # the cycles of the client in the reset at the beginning
            assert begin <= made["client_held"] < made["reset_at"]
            assert 20 <= made["reset_at"] - begin <= 380 * max(1, manager // client)
            assert abs(made["manager_held"] * manager - made["client_held"] * client) < manager
    fields = {**C, "B": C["B"]}
    held = [traffic_of(bridge(fields=fields), seed).reset({})["held"] for seed in range(60)]
    assert {0x2, 0x8, 0x20, 0x80, 0x200, 0x2AA} <= set(held)


def test_addresses_of_a_window() -> None:
    design = replace(bridge(fields=UH), manager=None)
    traffic = traffic_of(design, window=(0x2000, 4096), held=2048, atomic=4)
    places = [traffic.message("get", 2, 0).address for _ in range(600)]
    assert all(0x2000 <= place < 0x3000 and place % 4 == 0 for place in places)
    assert sum(place < 0x2100 for place in places) > 200
    for bit in range(8, 12):
        assert any(place >> bit & 1 for place in places)
    assert sum(place >= 0x2800 for place in places) < 150
    assert max(traffic.message("logical", 6, 0).size for _ in range(9)) == 2
    traffic = traffic_of(design, window=(0, 4096), has_pages=True)
    pages = {traffic.message("get", 2, 0).address >> 12 for _ in range(600)}
    assert pages == {0, *(1 << bit for bit in range(20))}


# ---- exploring


STATED = {
    "// Messages of up to 256 bytes.": 256,
    "// TL-UH, bursts up to 4,096 bytes": 4096,
    "/* Get and Put of\n * at most 32 bytes. */": 32,
    "// sizes up to 1 KiB": 1024,
    "// Cuts messages of up to 32 bytes into beats\n// of at most 4 bytes": 32,
    "// Level TL-UL. Largest message 4 bytes.": 4,
    "// A memory of up to 4096 bytes": None,
    "// messages up to 48 bytes": None,
    "localparam n = 1; // a burst": None,
    "wire up; // messages\nassign bytes = 16;": None,
}


@pytest.mark.parametrize("text", STATED)
def test_the_largest_message_that_a_comment_states(tmp_path: Path, text: str) -> None:
    (tmp_path / "design.sv").write_text(text + "\nmodule dut; endmodule\n")
    assert stated_largest([str(tmp_path / "design.sv"), str(tmp_path / "none.sv")]) == STATED[text]


@pytest.mark.parametrize(
    "text,highest,level",
    [
        ("// A narrower for TL-UL, one beat a message.", "UH", "UL"),
        ("/* TL_UH\n * buffer */", "C", "UH"),
        ("// a buffer for TL-UL\nmodule m; // TL-UL", "C", "UL"),
        ("// TL-UH above, TL-UL below: a fragmenter", "UH", None),
        ("// a TL-UH buffer", "UH", None),  # the ports say it
        ("// a TL-C buffer", "UH", None),  # more than the ports have
        ('localparam string NAME = "TL-UL";', "UH", None),
        ("// no level", "UH", None),
    ],
)
def test_the_level_that_comments_state(tmp_path: Path, text: str, highest: str, level: Optional[str]) -> None:
    (tmp_path / "design.sv").write_text(text + "\nmodule dut; endmodule\n")
    assert stated_level([str(tmp_path / "design.sv"), str(tmp_path / "none.sv")], highest) == level


@pytest.mark.parametrize(
    "text,is_said",
    [
        ("// TL-UH without atomics", True),
        ("// no\n// atomics here", True),
        ("// TL-UH with atomics", False),
        ("wire no_atomics;", False),
    ],
)
def test_whether_a_comment_rules_out_atomics(tmp_path: Path, text: str, is_said: bool) -> None:
    (tmp_path / "design.sv").write_text(text + "\nmodule dut; endmodule\n")
    assert rules_out_atomics([str(tmp_path / "design.sv")]) == is_said


def pair(opcode: int, data: str, told: str, answer: int = 1, denied: str = "0", param: int = 0) -> Pair:
    asked = {"opcode": str(opcode), "param": str(param), "data": data}
    return asked, {"opcode": str(answer), "data": told, "denied": denied}


@pytest.mark.parametrize(
    "atomic,read,is_computed",
    [
        (pair(3, "00000005", "00000003"), "00000006", True),  # xor
        (pair(3, "00000005", "00000003"), "00000003", False),  # nothing changed
        (pair(3, "00000005", "00000003"), "00000007", False),  # something else
        (pair(3, "00000005", "00000003", denied="1"), "00000006", False),
        (pair(3, "00000005", "00000003", answer=0), "00000006", False),
        (pair(2, "00000005", "00000003", param=4), "00000008", True),  # add
    ],
)
def test_whether_a_device_computes(atomic: Pair, read: str, is_computed: bool) -> None:
    done = [pair(0, "00000003", "00000000", 0), atomic, pair(4, "00000000", read)]
    assert Explorer.is_computed(done, 2) == is_computed


class Device(Simulation):
    """A device that answers at some addresses, in the place of a simulator."""

    def __init__(self, design: Design, base: int, held: int, computes: bool):
        self.design, self.base, self.held, self.computes = design, base, held, computes
        self.bytes: Dict[int, int] = {}

    def run(self, script: Sequence[Message], settings: Mapping[str, int], folder: Path, *_: Any, **more: Any) -> Run:
        assert "seconds" not in more, "a slow machine would find another window"
        folder.mkdir(parents=True, exist_ok=True)
        lines = []
        for message in script:
            is_held = self.base <= message.address < self.base + self.held
            held = self.bytes.get(message.address, 0x01020304)
            operand = 0x01010101 * message.tag
            if message.opcode == 3 and self.computes:
                self.bytes[message.address] = (held ^ operand, held | operand, held & operand, operand)[message.param]
            if message.opcode == 0:
                self.bytes[message.address] = operand
            lines.append(
                f"A {message.opcode} {message.param} {message.size} 00 {message.address:016x} f {operand:08x} 0"
            )
            answer = 0 if message.opcode == 0 else 1
            lines.append(f"D {answer} 0 {message.size} 00 00 {int(not is_held)} {held:08x} 0")
        (folder / "client.beats").write_text("\n".join(lines) + "\n")
        (folder / "client.beats.times").write_text("\n".join(map(str, range(len(lines)))) + "\n")
        return Run(folder, "")


def test_the_window_and_the_atomics_of_a_device(tmp_path: Path) -> None:
    source = tmp_path / "design.v"
    source.write_text("localparam BASE = 32'h1234_0000;")
    design = replace(bridge(4, 4), manager=None, source=Source("dut", (str(source),)))

    def explorer(base: int, held: int, computes: bool = True) -> Explorer:
        return Explorer(design, Device(design, base, held, computes), tmp_path / "run")

    assert explorer(0x2000, 0x800).window() == ((0x2000, 0x1000), 0x800)
    assert explorer(0x12340000, 64).window() == ((0x12340000, 128), 64)
    assert explorer(0, 64).window() == ((0, 128), 64)
    assert explorer(0, 1 << 32).window() is None
    assert explorer(0x20, 1 << 32).window() == ((0x20, 256), 0)
    assert explorer(3, 1).window() is None
    files = (str(tmp_path / "none.v"), str(source))
    places = list(Explorer(replace(design, source=Source("dut", files)), explorer(0, 0).simulation, tmp_path).places())
    assert places[:2] == [0, 4] and places[-1] == 0x12340000 and max(places) < 1 << 32
    source.write_text("localparam BASE = 'h12, NONE = 8'h2;")
    assert list(explorer(0, 0).places())[31:] == [0x12, 0x1200, 0x12000, 0x120000, 0x200, 0x2000, 0x20000]
    source.write_text("")
    assert explorer(0x2000, 0x800).atomics(0x2000) == ["logical"]
    assert explorer(0x2000, 0x800, False).atomics(0x2000) == []


# ---- judging


def test_fields_that_differ() -> None:
    get = "D 1 0 0 00 00 0 00000000000000c9 0"
    other_lane = "D 1 0 0 00 00 0 ff000000000000c9 0"
    assert differing("D", other_lane, get, 8, set(), 0) == []
    assert differing("D", other_lane, get, 8, set(), 7) == ["data"]
    assert differing("D", get.replace("D 1 0 0 00 00", "D 1 0 0 01 05"), get, 8, set(), 0) == ["source"]
    assert differing("D", "D 5 0 0 00 05 0 00 0", "D 5 0 0 00 04 0 00 0", 1, set(), 0) == ["sink"]
    assert differing("D", "D 1 0 0 00 00 1 c9 1", "D 1 0 0 00 00 0 c9 0", 1, {"corrupt"}, 0) == ["denied"]
    assert differing("A", "A 1 0 2 00 0 5 11223344 0", "A 1 0 2 00 0 5 ff22ff44 0", 4, set(), 0) == []
    assert differing("A", "A 0 0 2 00 0 f 11223344 0", "A 0 0 2 00 0 f ff223344 0", 4, set(), 0) == ["data"]


def test_the_address_that_places_a_response() -> None:
    near = ["A 4 0 0 00 0000000000000003 8 00000000 0", "A 4 0 0 01 0000000000000001 2 00000000 0"]
    near += ["A 4 0 0 00 0000000000000002 4 00000000 0"]
    far = ["D 1 0 0 01 00 0 00 0", "D 1 0 0 00 00 0 00 0", "D 6 0 0 00 00 0 00 0", "D 1 0 0 00 00 0 00 0"]
    assert homes_of("D", far, 8, near, 4) == [1, 3, 3, 2]
    assert homes_of("A", near, 4, near, 4) == [3, 1, 2] and homes_of("E", ["E 1"], 8, [], 4) == [0]


def test_the_picture_of_a_wrong_beat() -> None:
    lines = picture_of("D", "D 1 0 0 00 00 0 00c90000 0", "D 1 0 0 00 00 0 000000c9 0", 4, 0)
    assert lines[1:] == ("expected .. .. .. c9", "got      00 c9 00 00", "                  ^^")
    assert name_of("E 3") == "GrantAck" and name_of("A 4 0 3 0f 0") == "Get of 8 bytes, source 0f"
    assert name_of("A x 0 x 0f 0") == "a beat"


def beats_of(folder: Path, design: Design, lines: Mapping[str, Sequence[str]], run: Optional[Run] = None) -> Beats:
    folder.mkdir(exist_ok=True)
    for side, said in lines.items():
        (folder / f"{side}.beats").write_text("".join(line.partition(" ")[2] + "\n" for line in said))
        (folder / f"{side}.beats.times").write_text("".join(line.partition(" ")[0] + "\n" for line in said))
    return Beats(design, run or Run(folder, ""))


def get(time: int, address: int, lanes: int, source: int = 0, data: str = "") -> str:
    return (
        f"{time} A 4 0 0 {source:02x} {address:016x} {1 << address % lanes:0{max(1, lanes // 4)}x} {'0' * 2 * lanes} 0"
    )


ASKED = {"client": [get(10, 5, 8)], "manager": [get(20, 5, 4)]}
ANSWER = "D 1 0 0 00 00 0 {} 0"


def problems_of(folder: Path, client: Sequence[str] = (), manager: Sequence[str] = (), **run: Any) -> List[Problem]:
    design = bridge()
    made = Run(folder, "", **run)
    lines = {"client": [*ASKED["client"], *client], "manager": [*ASKED["manager"], *manager]}
    return Judge(design, Rules(True, False)).problems(made, beats_of(folder, design, lines, made))


def test_what_a_bridge_may_do_wrong(tmp_path: Path) -> None:
    right = "30 " + ANSWER.format("0000c900")
    assert problems_of(tmp_path, ["40 " + ANSWER.format("0000c90000000000")], [right]) == []
    (wrong,) = problems_of(tmp_path, ["40 " + ANSWER.format("000000000000c900")], [right])
    assert (wrong.kind, wrong.channel, wrong.time) == ("wrong", "D", 40)
    assert "data is 000000000000c900, expected 0000c90000000000" in wrong.words and wrong.picture
    (lost,) = problems_of(tmp_path, [], [right])
    assert lost.kind == "lost" and "beat 1 of D never comes out" in lost.words
    (hang, also) = problems_of(tmp_path, [], [right], hang="no beat moves:")
    assert (hang.kind, also.kind) == ("hang", "hang") and "nothing moves" in hang.words
    twice = ["40 " + ANSWER.format("0000c90000000000"), "50 " + ANSWER.format("0000c90000000000")]
    (more,) = problems_of(tmp_path, twice, [right])
    assert more.kind == "invented" and more.time == 50 and "no more is expected" in more.words
    (unknown,) = problems_of(tmp_path, ["40 " + ANSWER.format("0000xx0000000000")], [right])
    assert unknown.kind == "unknown"


def test_the_order_of_problems(tmp_path: Path) -> None:
    complaints = [(5, "client", "D", "valid fell before ready"), (6, "client", "A", "ready is x")]
    faults = [(7, "client", "D", "fault 3 Size: ..."), (4, "client", "A", "fault 8 SourceBusy: ...")]
    found = problems_of(tmp_path, complaints=complaints, faults=faults)
    kinds = [problem.kind for problem in found]
    assert kinds == ["unknown", "rule", "unsteady", "follow"] and "--may-withdraw" in found[2].words
    assert "this tool sent it" in found[3].words


def test_beats_before_a_reset_are_left_out(tmp_path: Path) -> None:
    design = bridge()
    lines = {"client": [get(10, 5, 8), get(90, 6, 8)], "manager": [get(20, 5, 4), get(95, 6, 4)]}
    beats = beats_of(tmp_path, design, lines, Run(tmp_path, "", reset_time=50))
    assert beats.times == {"client": [90], "manager": [95]} and len(beats) == 2 and len(beats.near()) == 1
    whole = beats_of(tmp_path, design, lines)
    assert [beat.time for beat in whole.all()] == [10, 20, 90, 95] and whole.times_of("manager", "A") == [20, 95]
    assert trace_of(design, whole.near()).splitlines()[0] == "tilelink-trace 1 client 8 manager 4"
    assert len(Beats.none(design)) == 0


# ---- shrinking


class Fails(Simulation):
    """A simulation that fails if some messages and settings are there, in the place of a simulator."""

    def __init__(self, design: Design, folder: Path, tags: Sequence[int], needs: Mapping[str, int]):
        self.design, self.folder, self.tags, self.needs = design, folder, set(tags), dict(needs)
        self.has_two, self.simulator, self.runs = False, "icarus", 0

    def run(self, script: Sequence[Message], settings: Mapping[str, int], folder: Path, *_: Any, **__: Any) -> Run:
        self.runs += 1
        held = all(settings.get(name, 0) == value for name, value in self.needs.items())
        fails = held and self.tags <= {message.tag for message in script}
        return Run(self.folder, "", complaints=[(100, "client", "D", "valid fell before ready")] if fails else [])


def shrunk(
    folder: Path, tags: Sequence[int], needs: Mapping[str, int], faster: Optional[Simulation] = None
) -> Shrinker:
    """Shrinks a run of 40 messages, which begin one after the other. Returns the shrinker."""
    design = bridge()
    beats_of(folder, design, {"client": [], "manager": []})
    (folder / "client.sent").write_text("9 3\n" + "".join(f"0 {10 + at}\n" for at in range(40)))
    script = [Message("A", 0, 0, 2, 1, 4 * at, tag=at + 1, mask_seed=0, corrupt_seed=1) for at in range(40)]
    settings: Settings = dict(
        seed=7, calm=0, in_order=0, early=1, reuse=1, denied=1, corrupt=1, patient=1, serial=0, gather=40
    )
    simulation = Fails(design, folder, tags, needs)
    problem = Problem("unsteady", "D", "valid fell", 490000)
    shrinker = Shrinker(simulation, Judge(design, Rules(False, False)), folder / "shrink", 20, problem)
    if faster:
        shrinker.faster = lambda: faster
    shrinker.best = shrinker.shrink(script, settings, folder)
    return shrinker


def test_a_run_shrinks_to_what_it_needs(tmp_path: Path) -> None:
    shrinker = shrunk(tmp_path, [12, 30], {"reuse": 1, "gather": 40})
    script, settings = shrinker.best
    assert [message.tag for message in script] == [12, 30] and not shrinker.ended_early
    assert all((message.size, message.source, message.corrupt_seed) == (0, 0, 0) for message in script)
    calm = {name: settings.get(name, value) for name, value in CALM.items()}
    assert {name for name, value in calm.items() if value != CALM[name]} == {"reuse", "gather"}
    assert settings["calm"] == 0x3FF
    words = needs_of(settings, bridge(), False)
    assert words == [
        "a source that is used again before the last beat of its response",
        "many requests outstanding before the first response",
    ]
    assert options_of(settings, script, bridge(), False, "wrong")[0].startswith("--no-reuse (without a source")
    assert shrinker.runs < 90


def test_shrinking_goes_on_in_a_faster_simulation(tmp_path: Path) -> None:
    fast = Fails(bridge(), tmp_path, [12], {})
    assert shrunk(tmp_path, [12], {}, fast).simulation is fast and fast.runs > 5
    other = Fails(bridge(), tmp_path, [99], {})
    assert shrunk(tmp_path, [12], {}, other).simulation is not other and other.runs == 1


def test_the_messages_keep_their_cycles(tmp_path: Path) -> None:
    design = bridge(fields=C)
    (tmp_path / "client.sent").write_text("9 3\n0 10\n2 12\n0 14\n")
    (tmp_path / "manager.sent").write_text("9 5\n1 11\n")
    (tmp_path / "dut").mkdir()
    (tmp_path / "dut" / "manager.sent").write_text("9 6\n1 11\n")
    script = [Message("A", 0, 0, 0, 0, 0), Message("C", 7, 0, 0, 0, 0), Message("B", 6, 0, 0, 0, 0)]
    script += [Message("A", 4, 0, 0, 0, 0), Message("A", 4, 0, 0, 0, 0)]

    def of(design: Design, folder: Path) -> Shrinker:
        judge = Judge(design, Rules(False, False))
        made = Shrinker(
            Fails(design, tmp_path, [], {}), judge, tmp_path / "shrink", 9, Problem("lost", "D", "", 495000)
        )
        made.best = made.pinned(script, folder), {}
        return made

    both = of(design, tmp_path)
    assert both.begin == 3 and [message.at for message in both.best[0]] == [10, 12, 11, 14]  # the last was never sent
    assert of(replace(design, client=None), tmp_path / "dut").begin == 6
    # a run that begins later, by the client's cycles
    assert both.cycle({}, "A") == 50 and both.moved({"seed": 1}, 24)["manager_offset"] == 20
    assert both.moved({"reset_at": 30}, 24)["client_offset"] == 7
    both.has_two = True
    clocks = {"client_half": 2000, "manager_half": 5000, "client_phase": 3000, "manager_phase": 5000}
    assert [both.cycle(clocks, channel) for channel in "ABC"] == [124, 50, 124]
    moved = both.moved(clocks, 24)
    assert [moved[name] for name in ("client_offset", "manager_offset", "skipped")] == [20, 8, 80000]


def test_a_run_begins_shortly_before_its_mistake(tmp_path: Path) -> None:
    shrinker = shrunk(tmp_path, [99], {})
    script = [Message("A", 0, 0, 2, 1, 0, tag=at + 1, at=10 + at) for at in range(40)]
    settings: Settings = dict(seed=7, calm=0)
    for tags, count in (([40], 9), ([30, 40], 17), ([1, 40], 40)):
        shrinker.simulation = Fails(bridge(), tmp_path, tags, {})
        kept, found = shrinker.window(script, settings, script)
        assert len(kept) == count and found.get("client_offset", 0) == max(0, 50 - count - 3 - 1) * (count < 40)


def test_the_options_that_a_failure_names() -> None:
    calm = {**CALM, "calm": 0x3FF}

    def of(sizes: Sequence[int], kind: str = "wrong", opcode: int = 0, more: Mapping[str, int] = {}) -> List[str]:
        script, has_two = [Message("A", opcode, 0, size, 0, 0) for size in sizes], "client_half" in more
        return [words.partition(" (")[0] for words in options_of({**calm, **more}, script, bridge(), has_two, kind)]

    assert of([7, 8]) == ["--largest 64"] and of([6, 8]) == ["--largest 4"] and of([2, 8]) == [] == of([])
    assert of([0], opcode=2) == ["--only get,put,partial"] == of([0], opcode=3)
    assert of([0], "lost") == of([0], "invented") == ["--rules-only"] and of([0], "memory") == ["--no-memory"]
    clocks = {"client_half": 5000, "manager_half": 3000}
    assert of([0], more=clocks) == ["--one-clock"]
    named = dict(in_order=0, early=1, reuse=1, denied=1, reset_at=50, blocking=1, skew=1)
    words = "--in-order --no-early --no-reuse --no-denied --no-reset --no-blocking --no-skew"
    assert of([0], more=named) == words.split()
    settings = {**calm, **clocks, "client_half": 2000}
    assert needs_of(settings, bridge(), True) == ["clock periods of 4000 and 6000 ps"]
    assert needs_of({**calm, "calm": 0x3FF & ~0xC3}, bridge(), False) == [
        "pauses on valid of A, ready of A, valid of D, ready of D"
    ]


def test_nothing_special() -> None:
    calm = {**CALM, "calm": 0x3FF}
    assert needs_of(calm, bridge(), False) == ["nothing special: no pauses, one request at a time"]
    assert needs_of({**calm, "calm": 0x3FF & ~0x40}, bridge(), False) == ["pauses on valid of D"]
    assert options_of(calm, [Message("A", 0, 0, 3, 0, 0)], bridge(), False, "lost")[0].startswith("--largest 4")


# ---- coverage


def test_a_release_changes_no_order_of_requests(tmp_path: Path) -> None:
    design = bridge(fields=C)
    released = "30 D 6 0 0 01 00 0 0000000000000000 0"
    answers = [f"{time} D 1 0 0 {source:02x} 00 0 0000000000000000 0" for time, source in ((50, 2), (60, 1))]
    client = [get(10, 5, 8, 1), released, get(40, 6, 8, 2), *answers, "90 E 1"]
    coverage = Coverage(design)
    coverage.add(beats_of(tmp_path, design, {"client": client, "manager": []}), Run(tmp_path, ""), {}, False)
    assert coverage.counts["most outstanding"] == 2 and coverage.counts["responses out of order"] == 1
    assert coverage.counts["back to back, client A"] == 0
    rows = [row for row in coverage.table(Limits(("get",), 1)) if row.startswith("  E ")]
    assert rows == ["  E GrantAck              1", "  E GrantAck              0"]  # of both links
    assert coverage.holes(Limits(("probe", "release"), 1)) == [("release", 0, offset) for offset in range(8)]


def test_beats_with_unknown_bits_are_not_counted(tmp_path: Path) -> None:
    design = bridge()
    lines = {"client": [get(10, 5, 8), get(20, 5, 8).replace("A 4", "A x")], "manager": [get(20, 5, 4)]}
    coverage = Coverage(design)
    coverage.add(beats_of(tmp_path, design, lines), Run(tmp_path, ""), {}, False)
    assert sorted(coverage.messages.values()) == [1, 1] and coverage.messages_sent() == 1
    rows = coverage.table(Limits(("get",), 1))
    assert rows[1:4] == ["client link: messages by size in bytes", " " * 20 + "      1", "  A Get                   1"]
    assert rows[4] == "manager link: messages by size in bytes"


def test_what_was_covered(tmp_path: Path) -> None:
    design = bridge()
    client = [get(10000, 5, 8), get(20000, 6, 8, 1), "30000 " + ANSWER.format("0" * 16).replace(" 00 00 ", " 01 00 ")]
    client += ["40000 " + ANSWER.format("0" * 16), get(50000, 0, 8)]
    manager = [get(15000, 5, 4), get(25000, 6, 4, 1), get(55000, 0, 4)]
    run = Run(tmp_path, "", cycles=7, stalls={("client", "A"): 3})
    coverage = Coverage(design)
    coverage.add(beats_of(tmp_path, design, {"client": client, "manager": manager}), run, {"gather": 40}, False)
    counts = coverage.counts
    assert coverage.messages["client", "A", "Get", 0, 5] == 1 and coverage.number("client", "A", "Get") == 3
    assert [counts["beats"], counts["cycles"], counts["runs"], counts["runs with gather"]] == [8, 7, 1, 1]
    assert [counts["most outstanding"], counts["responses out of order"]] == [2, 1]
    assert [counts["sources used again at once"], counts["back to back, client A"]] == [1, 1]
    assert counts["stalled cycles, client A"] == 3 and coverage.messages_sent() == 3
    limits = Limits(("get", "put"), 2)
    assert coverage.unseen(limits, True) == ["PutFullData on the client link", "PutFullData on the manager link"]
    holes = coverage.holes(limits)
    assert ("get", 0, 5) not in holes and ("get", 0, 4) in holes and ("put", 1, 6) in holes
    assert len(holes) == 2 * (8 + 4) - 3
    assert coverage.table(limits)[0].startswith("not covered: get of 1 bytes at offset 1; ")
    twice = Coverage()
    for _ in range(2):
        twice.merge(coverage.as_json())
    assert twice.counts["beats"] == 16 and twice.counts["most outstanding"] == 2
    assert twice.number("client", "A", "Get") == 6
    with pytest.raises(ValueError):
        Coverage(bridge(8, 8)).merge(coverage.as_json())


def test_what_is_not_compared() -> None:
    only = Design(Source("dut", ()), {}, link("up", 8, UH), link("down", 4, UL))
    assert not_compared(only) == ["A corrupt", "D corrupt"] and not_compared(bridge()) == []
    assert Beat(1, "client", "A 4 0 0 00 0").values()["opcode"] == "4"


def test_a_design_that_seems_to_split() -> None:
    """A request of the manager link has a smaller size than it has to have. An unknown size tells nothing."""

    def seems(words: str) -> bool:
        return play.seems_to_split([Problem("wrong", "A", words, 1)])

    assert seems("manager link: Get of 4 bytes, source 01, beat 3 of A: size is 2, expected 3")
    assert seems("manager link: Get of 4 bytes, source 01, beat 3 of A: size is 2, expected a")
    for words in ("manager link: size is 3, expected 2", "client link: size is 2, expected 3"):
        assert not seems(words)
    assert not seems("manager link: a beat, beat 3 of A: size is x, expected 3")
    assert not seems("manager link: a beat, beat 3 of A: size is X, expected 3")
