"""The monitor, the checker and the SystemVerilog scoreboard, by the table of cases of tests/lib/link_cases.py, which
the tests of the scoreboard's C
engine also use.

Icarus: on each pair of widths, with ids of 8 bits and of 16, the monitors write the beats, and the checkers report the
faults of the rules.
Verilator: for each case, the scoreboard prints its lines and counts, and fails if there is a difference. It is linked
with the scoreboard's C
engine over the plain bridge of tests/lib.
"""

import re
from collections import defaultdict
from dataclasses import replace
from pathlib import Path
from typing import Dict, List, Optional, Sequence, Tuple

import lawful
import link_cases
import pytest
from board_library import PLAIN_BRIDGE, compile_object
from checker_model import Beat, Checker, Settings
from commands import BRIEF, Word, run, succeed
from lawful import Event
from link_cases import Case
from once import made_once
from project import SCOREBOARD, SV, compiler, needs_tools
from tables import FIELDS

pytestmark = pytest.mark.simulator

HERE = Path(__file__).resolve().parent
LIMIT = 1200  # seconds, of one run
MONITORED = ((8, 4, 8), (4, 8, 16), (1, 32, 8), (16, 2, 8), (128, 128, 16), (2, 64, 8))
JUDGED = ((8, 4, 0), (128, 128, 3))  # and how many differences end the simulation
# What is reported only at the end.
AT_END = ("expected but missing", ": unexpected", ": waits: ", ": 8 SourceBusy", "no beat was accepted")
PARTS = [SV / "tl_trace_monitor.sv", SV / "tl_checker.sv", HERE / "links.sv"]
Pair = Tuple[int, int]
Fields = Dict[str, str]


def line_of(event: Event) -> str:
    """A line for links.sv."""
    head = event.head
    words = [
        event.link,
        "f" if event.channel == "R" else event.channel.lower(),
        *(head.get(name, 0) for name in ("opcode", "param", "size", "source", "sink", "address", "denied")),
        event.corrupt,
        event.mask,
        int.from_bytes(event.data, "little"),
    ]
    return " ".join([str(event.time), *(word if isinstance(word, str) else f"{word:x}" for word in words)])


def write(events: Sequence[Event], path: Path) -> None:
    """Writes the events for links.sv."""
    path.write_text("".join(line_of(event) + "\n" for event in events))


def digits_of(width: int, id_bits: int) -> int:
    """The digits of an id in a monitor's file."""
    return 2 if id_bits == 8 and width <= 64 else 4


def monitored(
    events: Sequence[Event], link: int, width: int, id_bits: int, zero: bool = True
) -> Tuple[List[str], List[str]]:
    """Returns the lines and the times that the monitor of a link writes."""
    digits = digits_of(width, id_bits)
    lines: List[str] = []
    times: List[str] = []
    in_reset = False
    for event in sorted(
        (event for event in events if event.link == link), key=lambda event: (event.time, event.channel)
    ):
        if event.channel == "R":
            in_reset = bool(event.head["opcode"])
        elif not in_reset:
            lines.append(trace_line(event, width, digits, zero))
            times.append(shown(event.time))
    return lines, times


def shown(time: int) -> str:
    """A time as the simulators print it: half a unit later, in units of the precision."""
    return str(10 * time + 5) if time else "0"


def trace_line(event: Event, width: int, digits: int, zero: bool) -> str:
    """The line of a monitor about a beat."""
    head, words = event.head, [event.channel]
    for name in ("opcode", "param", "size", "source", "sink", "address", "denied"):
        if name in head:
            words.append(f"{head[name]:0{ {'source': digits, 'sink': digits, 'address': 16}.get(name, 1)}x}")
    if event.channel == "E":
        return " ".join(words)
    if event.channel in "AB":
        words.append(f"{event.mask:0{(width + 3) // 4}x}")
    data = bytes(byte if event.active >> lane & 1 or not zero else 0 for lane, byte in enumerate(event.data))
    return " ".join([*words, data[::-1].hex(), str(event.corrupt)])


def faults(events: Sequence[Event], link: int, width: int, id_bits: int) -> int:
    """How many faults the rules have on a link since its last reset."""
    checker = Checker(Settings(DATA_BYTES=width, SOURCE_BITS=id_bits, SINK_BITS=id_bits))
    cycles: Dict[int, Dict[str, Event]] = defaultdict(dict)
    count = 0
    for event in events:
        if event.link == link and event.channel != "E":
            cycles[event.time][event.channel] = event
    in_reset = False
    for time in sorted(cycles):
        in_reset = bool(cycles[time].pop("R").head["opcode"]) if "R" in cycles[time] else in_reset
        beats = {
            channel: Beat(mask=event.mask, corrupt=event.corrupt, **event.head)
            for channel, event in cycles[time].items()
        }
        count = checker.cycle(in_reset, beats, set(beats))[1]
    return count


def said_of_faults(events: Sequence[Event], pair: Pair, id_bits: int = 16) -> str:
    """What links.sv prints of the checkers' counts."""
    counts = [faults(events, link, width, id_bits) for link, width in enumerate(pair)]
    return f"faults: {counts[0]} on the client's link, {counts[1]} on the manager's"


WORDS = "opcode param size source sink address denied corrupt mask data".split()


class Unknowns:
    """Beats with unknown bits, each after a reset of its link: lines for links.sv, and the expected lines of each
    monitor.
    """

    def __init__(self, pair: Pair, id_bits: int) -> None:
        self.pair, self.id_bits = pair, id_bits
        self.time = 0
        self.lines: List[str] = []
        self.expected: Tuple[List[str], List[str]] = ([], [])

    def fields(self, link: int, channel: str) -> Fields:
        """A lawful beat that fills all lanes, the first of two if it carries data, in digits."""
        width = self.pair[link]
        ids = digits_of(width, self.id_bits)
        opcode = {"A": "0", "B": "2", "C": "7", "D": "5", "E": "0"}[channel]
        return dict(
            opcode=opcode,
            param="0",
            size=f"{width.bit_length():x}",
            source="35".rjust(ids, "0"),
            sink="5a".rjust(ids, "0"),
            address=f"{0x123456789abc0000 + 2 * width:016x}",
            denied="1",
            corrupt="1",
            mask="f" * (width // 4) if width >= 4 else f"{(1 << width) - 1:x}",
            data="".join(f"{17 * (i % 15 + 1):02x}" for i in range(width)),
        )

    def put(self, link: int, letter: str, fields: Fields, kind: int = 0) -> None:
        self.time += 20
        self.lines.append(" ".join([str(self.time), f"{link + kind:x}", letter, *(fields[name] for name in WORDS)]))

    def reset(self, link: int) -> None:
        for asserted in "10":
            self.put(link, "f", dict.fromkeys(WORDS, "0") | {"opcode": asserted})

    def beat(self, link: int, channel: str, fields: Fields, written: Optional[Fields] = None, kind: int = 0) -> None:
        """A beat, and the line about it: with its own fields, except those of `written`; with a kind, there is no
        line.
        """
        self.put(link, channel.lower(), fields, kind)
        if not kind:
            shown = {**fields, **(written or {})}
            self.expected[link].append(" ".join([channel, *(shown[name] for name in FIELDS[channel])]))

    def of_fields(self, link: int, channel: str, digit: str) -> None:
        """Each field, at both ends, in a first beat and in a later one."""
        lawful = self.fields(link, channel)
        for name in FIELDS[channel]:
            value = lawful[name]
            for changed in {digit + value[1:], value[:-1] + digit}:
                if name in ("source", "sink") and len(value) == 4 and self.id_bits == 8:
                    changed = "00" + changed[2:] if changed[0] == digit else changed
                for is_later in (False, True) if channel != "E" else (False,):
                    self.reset(link)
                    if is_later:
                        self.beat(link, channel, lawful)
                    # (a bit more is read of a digit than the field has: it is x as a whole)
                    self.beat(link, channel, {**lawful, name: changed})

    def of_lanes(self, link: int, channel: str, digit: str) -> None:
        """Lanes without a byte, and bytes without a mask bit, are 0; a byte that is written is as it is."""
        width, lawful = self.pair[link], self.fields(link, channel)
        opcodes = {"A": "0145", "B": "13", "C": "56", "D": "01"}[channel]
        for opcode in opcodes if width > 1 else "":
            carries = opcode in {"A": "01", "B": "13", "C": "5", "D": "1"}[channel]
            for lane in {0, width // 2, width - 1}:
                address = int(lawful["address"], 16) + lane
                mask = 1 << lane if opcode != "1" or channel == "D" else 0
                data = [f"{digit}1" if i % 2 else digit * 2 for i in range(width)]
                own = f"{digit * 2 if mask else '00'}" if carries else "00"
                if carries and mask:
                    data[lane] = own
                self.reset(link)
                if channel == "D":  # its lane is that of its request
                    self.beat(
                        link,
                        "A",
                        {
                            **self.fields(link, "A"),
                            "opcode": "4",
                            "size": "0",
                            "address": f"{address:016x}",
                            "mask": f"{1 << lane:0{len(lawful['mask'])}x}",
                            "data": "00" * width,
                        },
                    )
                fields = {
                    **lawful,
                    "opcode": opcode,
                    "size": "0",
                    "address": f"{address:016x}",
                    "mask": f"{mask:0{len(lawful['mask'])}x}",
                    "data": "".join(reversed(data)),
                }
                self.beat(
                    link,
                    channel,
                    fields,
                    {"data": "".join(own if i == lane and carries else "00" for i in reversed(range(width)))},
                )

    def of_sinks(self, link: int, digit: str) -> None:
        """The sink of a response that is not a Grant is 0 if a bit of it is unknown."""
        lawful = self.fields(link, "D")
        for opcode in "012456":
            for sink in (digit + lawful["sink"][1:], lawful["sink"][:-1] + digit):
                sink = (
                    sink
                    if len(lawful["sink"]) == 2 or self.id_bits == 16
                    else "00" + (digit + lawful["sink"][3:] if sink[0] == digit else sink[2:])
                )
                self.reset(link)
                fields = {**lawful, "opcode": opcode, "sink": sink, "data": "00" * self.pair[link]}
                self.beat(link, "D", fields, None if opcode in "45" else {"sink": "0" * len(sink)})

    def of_signals(self, link: int, channel: str) -> None:
        for kind in (2, 4, 8):
            self.beat(link, channel, self.fields(link, channel), None, kind)
        self.reset(link)
        self.beat(link, channel, self.fields(link, channel))


# ---- in Icarus


class Links:
    """The bench in Icarus, compiled once in a run for each setting, and a folder for what it reads and writes."""

    def __init__(self, factory: pytest.TempPathFactory, folder: Path) -> None:
        self.factory, self.folder = factory, folder

    def compile(self, pair: Pair, id_bits: int, zero: bool, flags: Sequence[str]) -> Path:
        """The compiled bench with these parameters."""
        values = dict(CLIENT=pair[0], MANAGER=pair[1], ID_BITS=id_bits, ZERO_UNUSED_LANES=int(zero))
        given = [*(f"-Plinks.{name}={value}" for name, value in values.items()), *flags]

        def make(folder: Path) -> None:
            succeed(["iverilog", "-g2012", *given, "-s", "links", "-o", folder / "links.vvp", *PARTS], timeout=LIMIT)

        name = re.sub(r"\W+", "_", f"links {pair} {id_bits} {zero} {' '.join(flags)}")
        return made_once(self.factory, name, make) / "links.vvp"

    def run(self, pair: Pair, id_bits: int, zero: bool = True, flags: Sequence[str] = ()) -> str:
        """Runs the events of the folder. Returns what is printed."""
        done = run(["vvp", "-n", self.compile(pair, id_bits, zero, flags), "+events=events"], self.folder, LIMIT)
        return done.stdout

    def has_written(self, name: str, expected: List[str]) -> None:
        """A file has these lines."""
        got = (self.folder / name).read_text().splitlines()
        wrong = [(at + 1, *lines) for at, lines in enumerate(zip(got, expected)) if lines[0] != lines[1]]
        assert wrong[:3] == [], name
        assert len(got) == len(expected), name

    def counts_faults(
        self, events: Sequence[Event], pair: Pair, id_bits: int, zero: bool = True, flags: Sequence[str] = ()
    ) -> None:
        """The checkers count the faults that the rules have."""
        write(events, self.folder / "events")
        assert said_of_faults(events, pair, id_bits) in self.run(pair, id_bits, zero, flags)

    def sees(
        self, events: Sequence[Event], pair: Pair, id_bits: int, zero: bool = True, flags: Sequence[str] = ()
    ) -> None:
        """The monitors write the beats and their times, and the checkers count the faults."""
        self.counts_faults(events, pair, id_bits, zero, flags)
        for link, width in enumerate(pair):
            lines, times = monitored(events, link, width, id_bits, zero)
            name = "link.beats" if flags and link == 0 else f"{lawful.NAMES[link]}.beats"
            self.has_written(name, lines)
            self.has_written(f"{name}.times", times)


@pytest.fixture
def links(tmp_path_factory: pytest.TempPathFactory, tmp_path: Path) -> Links:
    """Two links with a monitor and a checker each, in Icarus."""
    needs_tools("iverilog", "vvp")
    return Links(tmp_path_factory, tmp_path)


def monitored_traffic(client: int, manager: int, id_bits: int, far_first: bool = False) -> List[Event]:
    """Messages of up to 256 bytes."""
    made = lawful.exchange(client, manager, id_bits=id_bits, far_first=far_first, most=8)
    events = link_cases.started(made)
    # only the scoreboard gets a response before its request
    return [event for event in events if event.channel not in "AD"] if far_first else events


# Each pair as parameters. All but the first take long.
PAIRS = [
    pytest.param(*row, marks=[pytest.mark.long] * (row != MONITORED[0]), id=f"{row[0]}:{row[1]} {row[2]} bits")
    for row in MONITORED
]


@pytest.mark.parametrize("far_first", [False, True], ids=["near first", "far first"])
@pytest.mark.parametrize("client, manager, id_bits", PAIRS)
def test_monitors_write_the_beats_and_checkers_see_no_fault(
    client: int, manager: int, id_bits: int, far_first: bool, links: Links
) -> None:
    """Of lawful traffic on all channels."""
    links.sees(monitored_traffic(client, manager, id_bits, far_first), (client, manager), id_bits)


def writes_unknown_bits(links: Links, pair: Pair, id_bits: int, zero: bool = True) -> None:
    made = Unknowns(pair, id_bits)
    for link in (0, 1):
        for channel in "ABCDE":
            made.of_signals(link, channel)
            for digit in "xz":
                made.of_fields(link, channel, digit)
                if channel != "E":
                    made.of_lanes(link, channel, digit)
        for digit in "xz":
            made.of_sinks(link, digit)
    (links.folder / "events").write_text("".join(line + "\n" for line in made.lines))
    links.run(pair, id_bits, zero)
    for link in (0, 1):
        links.has_written(f"{lawful.NAMES[link]}.beats", made.expected[link])


@pytest.mark.parametrize("client, manager, id_bits", PAIRS)
def test_monitors_write_unknown_bits_as_they_are(client: int, manager: int, id_bits: int, links: Links) -> None:
    """In each field at both ends; on lanes without a byte they are 0."""
    writes_unknown_bits(links, (client, manager), id_bits)


def test_monitors_write_unknown_bits_of_unused_lanes_without_zero_unused_lanes(links: Links) -> None:
    """ZERO_UNUSED_LANES = 0."""
    writes_unknown_bits(links, (8, 4), 8, False)


def test_monitors_write_unused_lanes_as_they_are_without_zero_unused_lanes(links: Links) -> None:
    """ZERO_UNUSED_LANES = 0."""
    links.sees(monitored_traffic(8, 4, 8), (8, 4), 8, False)


def test_the_defaults_of_the_parameters_of_a_monitor(links: Links) -> None:
    """Its file, its width and its ids."""
    links.sees(monitored_traffic(8, 4, 8), (8, 4), 8, True, ("-DDEFAULTS",))


GET, WITH_DATA, RELEASE_ACK = (
    {"opcode": opcode, "param": 0, "source": 5, "sink": 0, "denied": 0} for opcode in (4, 1, 6)
)


def beat_at(time: int, link: int, channel: str, head: Dict[str, int], active: int = 0) -> Event:
    """A beat of a link of 8 bytes, with its number in each byte; a request of one byte, or of all lanes."""
    mask = (1 << (head["address"] % 8) if head["size"] == 0 else 255) if channel == "A" else 0
    return lawful.Event(
        time,
        link,
        channel,
        {name: value for name, value in head.items() if name not in ("sink", "denied") or channel == "D"},
        mask,
        bytes(range(1, 9)),
        active=active,
    )


def test_each_response_is_on_the_lanes_of_its_own_request_though_its_source_is_used_again(links: Links) -> None:
    """A source is used again amid its response, and once more in the cycle of the next response."""
    events = [
        beat_at(10, 0, "A", {**GET, "size": 4, "address": 0x1000}),
        beat_at(20, 0, "D", {**WITH_DATA, "size": 4}, 255),
        beat_at(30, 0, "A", {**GET, "size": 0, "address": 0x1007}),
        beat_at(30, 0, "D", {**WITH_DATA, "size": 4}, 255),
        beat_at(40, 0, "A", {**GET, "size": 0, "address": 0x2001}),
        beat_at(40, 0, "D", {**WITH_DATA, "size": 0}, 128),
        beat_at(50, 0, "D", {**WITH_DATA, "size": 0}, 2),
    ]
    links.sees(link_cases.started(events), (8, 4), 8)


def test_a_response_is_on_the_upper_lanes_of_a_bus_of_128_bytes(links: Links) -> None:
    """Its lane is that of its request, by seven bits of the address."""
    ask = beat_at(10, 0, "A", {**GET, "size": 0, "address": 0x1040})
    response = beat_at(20, 0, "D", {**WITH_DATA, "size": 0}, 1 << 64)
    data = bytes(range(1, 129))
    events = [replace(ask, mask=1 << 64, data=data), replace(response, data=data)]
    links.sees(link_cases.started(events), (128, 128), 16)


def test_a_release_ack_is_no_response_to_a_request_of_its_source(links: Links) -> None:
    """One comes while a request waits, one in the cycle of a request."""
    ack = {**RELEASE_ACK, "size": 3}
    events = [
        beat_at(10, 0, "A", {**GET, "size": 0, "address": 0x1007}),
        beat_at(20, 0, "D", ack),
        beat_at(30, 0, "A", {**GET, "size": 0, "address": 0x2001}),
        beat_at(30, 0, "D", {**WITH_DATA, "size": 0}, 128),
        beat_at(40, 0, "D", {**WITH_DATA, "size": 0}, 2),
        beat_at(50, 0, "A", {**GET, "size": 0, "address": 0x1006}),
        beat_at(50, 0, "D", ack),
        beat_at(60, 0, "A", {**GET, "size": 0, "address": 0x2002}),
        beat_at(60, 0, "D", {**WITH_DATA, "size": 0}, 64),
        beat_at(70, 0, "D", {**WITH_DATA, "size": 0}, 4),
    ]
    links.sees(link_cases.started(events), (8, 4), 8)


@pytest.mark.long
@pytest.mark.parametrize("opcode, response", [(0, 0), (4, 1)], ids=["a request", "a response"])
def test_after_a_message_of_4096_bytes_comes_the_next_one(opcode: int, response: int, links: Links) -> None:
    """On 2 lanes: a request that begins with its last beat, or after it, is the next one; and so is a response."""
    made = lawful.Exchange(2, 64)
    for _ in range(2):  # the second burst shows that the first one has ended
        made.ask(opcode, 12, response, source=5, address=0x10000)
        for address in (0x1001, 0x2000, 0x3001):
            made.ask(4, 0, 1, source=5, address=address)
    links.sees(link_cases.started(lawful.packed(made.events)), (2, 64), 16)


def test_beats_of_all_channels_in_one_cycle(links: Links) -> None:
    """The same traffic in few cycles."""
    links.sees(lawful.packed(monitored_traffic(8, 4, 8)), (8, 4), 8)


@pytest.mark.parametrize("channel", "ABCD")
def test_a_reset_of_both_links_amid_a_burst(channel: str, links: Links) -> None:
    """A link that is not reset would have a burst that is cut."""
    found = [case for case in link_cases.of_resets_amid(8, 4, channel) if "of 2 links" in case.name]
    assert found
    for case in found:
        links.sees(case.events, (8, 4), 16)


@pytest.mark.parametrize("fault", link_cases.FAULTS, ids=link_cases.FAULTS.values())
def test_checkers_count_a_near_beat_that_breaks_a_rule(fault: int, links: Links) -> None:
    """On each channel that can have the fault. (The lanes of a faulty message are the monitor's own matter.)"""
    found = list(link_cases.of_refused_beats(4, 8, fault))
    assert found
    for case in found:
        links.counts_faults(case.events, (4, 8), 16)


# ---- the scoreboard in Verilator


def beats_of(events: Sequence[Event]) -> int:
    """How many beats are accepted outside of resets."""
    in_reset, count = [False, False], 0
    for event in events:
        if event.channel == "R":
            in_reset[event.link] = bool(event.head["opcode"])
        else:
            count += not in_reset[event.link]
    return count


class Board:
    """The bench in Verilator with the scoreboard's C engine, for a pair of widths. `stop` differences end a simulation;
    0 is no limit.
    """

    def __init__(self, program: Path, pair: Pair, stop: int, folder: Path) -> None:
        self.program, self.pair, self.stop, self.folder = program, pair, stop, folder

    def run(self, *words: str, **environment: str) -> "tuple[int, str]":
        """Runs the events of the folder. Returns the exit status and what was printed."""
        done = run([self.program, *words], self.folder, LIMIT, environment)
        return done.returncode, f"{done.stdout}{done.stderr}"

    def run_events(self, events: Sequence[Event], *words: str) -> "tuple[int, str]":
        write(events, self.folder / "events")
        return self.run("+events=events", *words)


def build(folder: Path, pair: Pair, stop: int) -> None:
    """The simulation, whose object files are compiled without optimization."""
    pairs = [f"{client}:{manager}" for client, manager in dict.fromkeys((pair, (8, 4)))]
    sources = (*SCOREBOARD, PLAIN_BRIDGE, HERE / "boards.c")
    objects = [compile_object(path, folder, pairs) for path in sources]
    wrapped = "-Wl," + ",".join(f"--wrap=tlbridge_scoreboard_{name}" for name in ("open", "free"))
    words: List[Word] = [
        "verilator",
        "--binary",
        "-j",
        1,
        "-Wno-fatal",
        "-Wno-lint",
        "-DBOARD",
        "--top-module",
        "links",
    ]
    words += ["--Mdir", folder / "built", "-o", "links", *(["-DDEFAULTS"] if pair == (8, 4) else [])]
    words += [f"-GCLIENT={pair[0]}", f"-GMANAGER={pair[1]}", f"-GSTOP={stop}"]
    words += [f"-GALLOW_NO_BEATS={int(pair != (8, 4))}", "-MAKEFLAGS", BRIEF, "-LDFLAGS", wrapped]
    succeed([*words, *PARTS, SV / "tlbridge_scoreboard.sv", *objects], folder, LIMIT)


def board_of(pair: Pair, stop: int, factory: pytest.TempPathFactory, folder: Path) -> Board:
    """A board, built once in a run."""
    needs_tools("verilator", "g++", "make")
    compiler()
    made = made_once(factory, f"board_{pair[0]}_{pair[1]}", lambda place: build(place, pair, stop))
    return Board(made / "built" / "links", pair, stop, folder)


CASES = [
    pytest.param(
        client,
        manager,
        stop,
        case,
        id=f"{client}:{manager} {case.name}",
        marks=[pytest.mark.long] * ((client, manager) != (8, 4)),
    )
    for client, manager, stop in JUDGED
    for case in link_cases.cases(client, manager)
]


@pytest.mark.parametrize("client, manager, stop, case", CASES)
def test_the_scoreboard_prints_the_lines_of_a_case(
    client: int,
    manager: int,
    stop: int,
    case: Case,
    tmp_path_factory: pytest.TempPathFactory,
    tmp_path: Path,
) -> None:
    """With the time of each beat and its counts; it fails if there is a difference, and ends after STOP of them."""
    board = board_of((client, manager), stop, tmp_path_factory, tmp_path)
    if (client, manager) != (8, 4) and not beats_of(case.events):  # which is allowed there
        case = replace(case, differences=0, lines=[])
    stops = bool(stop) and case.differences >= stop
    status, printed = board.run_events(case.events, *([] if stops else ["+verilator+error+limit+100000"]))
    lines = re.findall(r"^board: (time .*)$", printed, re.M)
    if stops:
        assert status != 0
        assert f"board: {stop} differences" in printed
        assert len(lines) == stop
        return
    # a reset is seen at the edge before its time
    expected = [
        re.sub(
            r"^time (\d+)(: reset)?",
            lambda found: f"time {shown(int(found[1]) - (5 if found[2] else 0))}{str(found[2] or '')}",
            line,
        )
        for line in case.lines or []
    ]
    assert link_cases.fits(lines, expected), f"{lines}, expected {expected}"
    counts_fit(board, case, printed)
    errors_fit(board, case, printed)


def counts_fit(board: Board, case: Case, printed: str) -> None:
    """The counts at the end and before it, and how many boards were opened and freed."""
    is_small, beats = board.pair == (8, 4), beats_of(case.events)
    at_end = sum(any(words in line for words in AT_END) for line in case.lines or [])
    boards = 4 if is_small else 2
    wanted = [f"board: {case.differences} differences, {beats} beats\n", f"boards: {boards} opened, {boards} freed\n"]
    if is_small and (case.is_lawful or not beats):
        wanted.append(f"tlbridge_scoreboard: {case.differences} differences, {beats} beats\n")
    assert [words for words in wanted if f"\n{words}" not in printed] == [], printed[-600:]
    before = rf"^before the end: {case.differences - at_end}, \d+ differences, {beats} beats$"
    assert re.search(before, printed, re.M), f"{printed[-600:]}, expected {before}"
    if case.is_lawful:
        assert said_of_faults(case.events, board.pair) in printed
        assert "\nunmasked: 0 differences" in printed


def errors_fit(board: Board, case: Case, printed: str) -> None:
    """There is an $error if there is a difference, also of a board with the default parameters."""
    error = f"Assertion failed in TOP.links.board: board: {case.differences} differences"
    assert (error in printed) == (case.differences > 0)
    assert "in TOP.links.unmasked" not in printed
    if not beats_of(case.events):
        assert "unmasked: 1 differences, 0 beats" in printed
        if board.pair == (8, 4):
            assert "in TOP.links.by_default: tlbridge_scoreboard: 1 differences" in printed


@pytest.fixture
def small_board(tmp_path_factory: pytest.TempPathFactory, tmp_path: Path) -> Board:
    """The board of links of 8 and 4 bytes, whose simulations end with status 0 if there is no difference."""
    return board_of((8, 4), 0, tmp_path_factory, tmp_path)


def test_the_exit_status_and_finish_say_whether_there_is_a_difference(small_board: Board) -> None:
    """finish() returns the count, twice the same, and sets the output, also if it is a beat that is missing."""
    events = link_cases.started(lawful.exchange(8, 4))
    at = lawful.of(events, "E")[-1]
    wrong = [*events[:at], lawful.flipped(events[at], "sink", 15), *events[at + 1 :]]
    missing = [*events[:at], *events[at + 1 :]]
    for own, count in ((events, 0), (wrong, 1), (missing, 1)):
        status, printed = small_board.run_events(own, "+ends")
        assert (status != 0) == (count != 0), printed[-600:]
        assert f"at the end: {count} differences of {len(own) - 4} beats\non the output: {count}\n" in printed
        assert printed.count("\nboard: time") == count
        assert ("differences: 1, 1\n" in printed) == (own is wrong)  # before the end


@pytest.mark.parametrize("count", range(4))
def test_the_simulation_ends_after_as_many_differences_as_its_scoreboard_allows(count: int, small_board: Board) -> None:
    """After two, by the scoreboard that has clocks only with +stops. With fewer it does not end the simulation."""
    events = link_cases.started(lawful.exchange(8, 4))
    far = [at for at in lawful.of(events, "E") if events[at].is_far]
    for at in far[-4 : count - 4]:
        events[at] = lawful.flipped(events[at], "sink", 0)
    status, printed = small_board.run_events(events, "+stops", *["+verilator+error+limit+100"] * (count < 2))
    assert printed.count("\nstopping: time") == min(count, 2), printed[-600:]
    # (with that limit, a difference at the end is no error)
    assert (status != 0) == (count > 1)
    if count < 2:
        assert f"\nstopping: {count} differences, {len(events) - 4} beats\n" in printed, printed[-600:]


def test_a_simulation_without_beats_fails(small_board: Board) -> None:
    """Since nothing was compared."""
    status, printed = small_board.run()
    assert status != 0
    assert "board: 1 differences, 0 beats" in printed


def test_without_memory_for_a_board_the_simulation_ends(small_board: Board) -> None:
    """With the pairs that the library has."""
    status, printed = small_board.run(NO_BOARD="1")
    assert status != 0
    assert "board: the library has no pair of 8 and 4 bytes, or there is no memory; it has 8:4\n" in printed


def test_a_byte_without_a_mask_bit_is_compared_only_by_the_scoreboard_that_was_asked_to(small_board: Board) -> None:
    """Of PutPartialData, on A and on B."""
    events = link_cases.started(lawful.exchange(8, 4))
    lines = []
    for channel in "AB":
        at = next(
            i
            for i in lawful.of(events, channel, opcode=1, data=True)
            if not all(events[i].lanes) and events[i].head["size"] >= 3
        )
        whole = replace(events[at], lanes=(True,) * len(events[at].lanes))
        came = lawful.flipped(whole, "data", 8 * events[at].lanes.index(False))
        events[at] = came
        line = f"unmasked: {lawful.reported(whole, came)}"
        lines.append(line.replace(f"time {came.time}", f"time {shown(came.time)}"))
    status, printed = small_board.run_events(events)
    assert [line for line in printed.splitlines() if line.startswith("unmasked: time")] == lines
    assert "\nboard: 0 differences" in printed
    assert status == 0
