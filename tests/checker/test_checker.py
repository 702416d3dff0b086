"""sv/tl_checker.sv in Icarus Verilog against the plain rules of tests/lib/checker_model.py: the fault of each beat and
the assertion that it fails,
in each of the checker's settings, the counts, and each report word for word. In Verilator, which parameters are
refused.

test_checker_long.py has the tests by the proved library, a million random beats, planted bugs and bounded proofs.
"""

import hashlib
import re
from pathlib import Path
from typing import Any, Callable, Collection, Dict, Iterable, List, Sequence, Set, Tuple

import pytest
from checker_model import CHANNELS, FAULTS, Beat, Checker, Settings
from commands import Word, run, said
from directed import CASES, LIMITS, NO_BEAT, REFUSED, UNKNOWN
from link_cycles import Cycles, in_flight, judged, lanes, messages, pairs_of_faults
from once import made_once
from project import SV, needs_tools

pytestmark = pytest.mark.simulator

HERE = Path(__file__).resolve().parent
CHECKER = SV / "tl_checker.sv"
RANDOM_CYCLES = 1500
# One cycle: whether there is a reset, the beats that are offered, the channels whose beat is accepted, and what the
# rules say of it.
Script = Iterable[Tuple[int, Dict[str, Beat], Collection[str], Any]]
SETTINGS = [
    Settings(),
    Settings(RESYNC_AFTER_FAULT=0),
    Settings(DATA_BYTES=1, RESPOND_TO_OFFERED=1, RESYNC_AFTER_FAULT=0),
    Settings(DATA_BYTES=16, JUDGE_OFFERED=1, SINK_BITS=16),
    Settings(DATA_BYTES=128, MATCH_OPCODES=1, SOURCE_BITS=5, MAX_OUTSTANDING=4),
    Settings(DATA_BYTES=4, ALLOW_SAME_CYCLE_RESPONSE=0, SOURCE_BITS=2, SINK_BITS=1),
    Settings(DATA_BYTES=2, ALLOW_SAME_CYCLE_REUSE=0, SOURCE_BITS=4, ADDRESS_BITS=13, MAX_OUTSTANDING=8),
    Settings(DATA_BYTES=32, SIZE_BITS=8, ADDRESS_BITS=12, MAX_REPORTS=5),
    Settings(DATA_BYTES=64, RESPOND_TO_OFFERED=1, MATCH_OPCODES=1, JUDGE_OFFERED=1, SOURCE_BITS=9, ADDRESS_BITS=40),
    Settings(RESPOND_TO_OFFERED=1, MATCH_OPCODES=1, SOURCE_BITS=3, MAX_OUTSTANDING=16, MAX_REPORTS=1000),
    Settings(
        DATA_BYTES=8,
        RESPOND_TO_OFFERED=1,
        JUDGE_OFFERED=1,
        ALLOW_SAME_CYCLE_RESPONSE=0,
        ALLOW_SAME_CYCLE_REUSE=0,
        SIZE_BITS=3,
        SOURCE_BITS=2,
        RESYNC_AFTER_FAULT=0,
    ),
    Settings(ASSUME_CLIENT=1, ASSUME_OFFERED=1, SOURCE_BITS=2),
    Settings(ASSUME_MANAGER=1, JUDGE_OFFERED=1, MATCH_OPCODES=1, SOURCE_BITS=3, DATA_BYTES=4),
    Settings(
        ASSUME_CLIENT=1,
        ASSUME_MANAGER=1,
        ASSUME_OFFERED=1,
        ALLOW_SAME_CYCLE_REUSE=0,
        SOURCE_BITS=2,
        DATA_BYTES=2,
        MAX_OUTSTANDING=3,
    ),
    Settings(DATA_BYTES=1, ADDRESS_BITS=1, SIZE_BITS=1, SOURCE_BITS=1, SINK_BITS=1, JUDGE_OFFERED=1, ASSUME_MANAGER=1),
    Settings(DATA_BYTES=128, SIZE_BITS=8, SOURCE_BITS=16, SINK_BITS=16, MAX_OUTSTANDING=5, ASSUME_CLIENT=1),
]
# Each width, with the smallest and the largest of the other parameters.
TABLES = [
    Settings(
        DATA_BYTES=width,
        MAX_REPORTS=1000 if width == 8 else 1,
        RESYNC_AFTER_FAULT=int(width in (1, 4, 16, 64)),
        SOURCE_BITS=3 if width == 16 else 16 if width == 32 else 8,
        SIZE_BITS=8 if width == 4 else 4,
        SINK_BITS=16 if width == 2 else 8,
        ADDRESS_BITS=16 if width == 1 else 64,
        MAX_OUTSTANDING=20 if width >= 32 else 0,
        MATCH_OPCODES=int(width == 64),
    )
    for width in (1, 2, 4, 8, 16, 32, 64, 128)
]
# An assertion that fails is silent; here it prints its place.
PRINTED = {
    "assume (holds) `TL_CHECKER_SILENT": 'if ((holds) !== 1\'b1) $display("- %m assumed");',
    "assert (holds) `TL_CHECKER_SILENT": 'if ((holds) !== 1\'b1) $display("- %m asserted");',
}


def line_of(reset: int, beats: Dict[str, Beat], accepted: Collection[str]) -> str:
    """A line for cycles.sv. On a channel without a beat, fields have other bits than 0."""
    idle = dict(opcode=5, param=6, size=3, source=1, address=8, mask=3, corrupt=1, sink=1, denied=1)
    words = [f"{reset:x}", f"{sum(1 << i for i, x in enumerate(CHANNELS) if x in beats):x}"]
    words.append(f"{sum(1 << i for i, x in enumerate(CHANNELS) if x in accepted or x not in beats):x}")
    for channel in CHANNELS:
        fields = {name: getattr(beats[channel], name) for name in idle} if channel in beats else idle
        words += [value if isinstance(value, str) else f"{value:x}" for value in fields.values()]
    return " ".join(words)


def name_of(settings: Settings) -> str:
    """The settings that are not the default, as the name of a test."""
    default = vars(Settings())
    return " ".join(f"{key}={value}" for key, value in vars(settings).items() if default[key] != value) or "defaults"


class Bench:
    """The checker in Icarus, compiled once in a run for each setting."""

    def __init__(self, factory: pytest.TempPathFactory, folder: Path) -> None:
        self.factory, self.folder = factory, folder
        self.checker = CHECKER.read_text()
        for words, printed in PRINTED.items():
            assert self.checker.count(words) == 1, f"`{words}` is not in {CHECKER.name} exactly once"
            self.checker = self.checker.replace(words, printed)

    def compile(self, parameters: Dict[str, int]) -> Path:
        """The compiled bench with these parameters, or DEFAULTS with no words about them."""
        words = [
            f"-D{name}" if name == "DEFAULTS" else f"-Pcycles.{name}={value}"
            for name, value in sorted(parameters.items())
        ]

        def make(folder: Path) -> None:
            (folder / "checker.sv").write_text(self.checker)
            command: List[Word] = ["iverilog", "-g2012", "-s", "cycles", *words, "-o", folder / "cycles.vvp"]
            done = run([*command, folder / "checker.sv", HERE / "cycles.sv"])
            assert done.returncode == 0, said(done)

        name = hashlib.sha1(" ".join(words).encode()).hexdigest()[:12]
        return made_once(self.factory, f"checker_{name}", make) / "cycles.vvp"

    def run(self, settings: Settings, lines: Sequence[str], **more: int) -> Tuple[List[Any], List[Any], int]:
        """Of each cycle the faults, count, `overflow`, and the assertions that fail; all reports, without time and
        place; and the exit status.
        """
        compiled = self.compile({**vars(settings), **more})
        (self.folder / "lines").write_text("\n".join([*lines, "?"]) + "\n")
        done = run(["vvp", "-n", compiled, f"+cycles={self.folder}/lines"])
        cycles: List[Any] = []
        found: List[str] = []
        for mark, words in re.findall(r"^([-=]) (.*)$", done.stdout, re.M):
            if mark == "-":
                found.append(words.removeprefix("cycles.check."))
            else:
                cycles.append((*map(int, words.split()), sorted(found)))
                found = []
        reports = re.findall(r"^ERROR: \S+: (\d+): (\S+): (.*)$", done.stdout, re.M)
        return cycles, sorted((int(time), place, words) for time, place, words in reports), done.returncode


@pytest.fixture
def bench(tmp_path_factory: pytest.TempPathFactory, tmp_path: Path) -> Bench:
    """The checker in Icarus."""
    needs_tools("iverilog", "vvp")
    return Bench(tmp_path_factory, tmp_path)


def failing(settings: Settings, faults: Iterable[int]) -> List[str]:
    """The assertions that fail in a cycle with these faults of A to D."""
    return sorted(
        f"{channel.lower()}.{FAULTS[fault]} {'assumed' if settings.is_assumed(channel) else 'asserted'}"
        for channel, fault in zip(CHANNELS, faults)
        if fault
    )


def compare(bench: Bench, settings: Settings, script: Script, **more: int) -> None:
    """The checker has to say of each cycle of a script what the rules say."""
    lines: List[str] = []
    expected: List[Any] = []
    words: List[Any] = []
    for number, (reset, beats, accepted, (faults, count, overflow, told)) in enumerate(script):
        lines.append(line_of(reset, beats, accepted))
        expected.append((*faults.values(), count, int(overflow), failing(settings, faults.values())))
        words += [(5 + 10 * number, f"cycles.check.{line[0].lower()}", line) for line in told]
    cycles, reports, _ = bench.run(settings, lines, **more)
    wrong = [
        f"cycle {number}: faults of A to D, count, overflow {got}, expected {want}: {lines[number]}"
        for number, (got, want) in enumerate(zip(cycles, expected))
        if got != want
    ]
    assert wrong[:5] == []
    assert len(cycles) == len(expected)
    words.sort()
    assert [pair for pair in zip(reports, words) if pair[0] != pair[1]][:5] == []
    assert len(reports) == len(words)


DIRECTED = {settings: [case for case in CASES if case.settings == settings] for settings in (x.settings for x in CASES)}


@pytest.mark.parametrize("settings", DIRECTED, ids=name_of)
def test_cases_whose_faults_are_written_down(settings: Settings, bench: Bench) -> None:
    """Each case begins with a reset. The rules have to give what is written, and the checker what the rules give."""
    script: List[Any] = []
    checker = Checker(settings)
    for case in DIRECTED[settings]:
        script.append((1, {}, set(), checker.cycle(1, {}, set())))
        for number, (beats, accepted, faults, count) in enumerate(case.cycles):
            of_rules = checker.cycle(0, beats, accepted)
            assert (tuple(of_rules[0].values()), of_rules[1]) == (faults, count), f"{case.name}: cycle {number}"
            script.append((0, beats, accepted, of_rules))
    compare(bench, settings, script)


WITH_UNKNOWN = {settings: [x for x in UNKNOWN if x.settings == settings] for settings in (x.settings for x in UNKNOWN)}


@pytest.mark.parametrize("settings", WITH_UNKNOWN, ids=name_of)
def test_unknown_bits_are_faults_of_their_channel(settings: Settings, bench: Bench) -> None:
    """The fault of each channel, and reports."""
    cases = WITH_UNKNOWN[settings]
    lines: List[str] = []
    ends = []
    for case in cases:
        lines += [NO_BEAT[1], *case.lines]
        ends.append(len(lines))
    cycles, reports, _ = bench.run(settings, lines, MAX_REPORTS=1000)
    by_time = {time: words for time, _, words in reports}
    wrong = []
    for case, end in zip(cases, ends):
        got = [cycle[:4] for cycle in cycles[end - len(case.lines) : end]]
        report, assertions = by_time.get(10 * (end - 1) + 5, ""), failing(settings, case.faults[-1])
        if got != case.faults or (case.report and case.report not in report) or cycles[end - 1][6] != assertions:
            wrong.append((case.name, got, case.faults, report, case.report, cycles[end - 1][6], assertions))
    assert wrong == []
    assert len(cycles) == len(lines)


def test_stop_on_fault_ends_the_simulation_at_the_first_fault(bench: Bench) -> None:
    """With one report and a status other than 0."""
    wrong = line_of(0, {"A": Beat(4, 7, 2, 1, 0, 0xF)}, {"A"})
    _, reports, status = bench.run(Settings(), [NO_BEAT[1], wrong, wrong], STOP_ON_FAULT=1)
    assert status != 0
    assert len(reports) == 1


@pytest.mark.parametrize("assumed", [0, 1], ids=["asserted", "assumed"])
def test_without_room_for_a_request_a_line_says_so_once(assumed: int, bench: Bench) -> None:
    """A response makes room for a request of its cycle."""
    first, client = NO_BEAT[1], "assumed" if assumed else "asserted"
    gets = [line_of(0, {"A": Beat(4, 0, 2, source, 0, 0xF)}, {"A"}) for source in range(5)]
    answers = [line_of(0, {"D": Beat(1, 0, 2, source)}, {"D"}) for source in (4, 1, 1)]
    swapped = line_of(0, {"A": Beat(4, 0, 2, 3, 0, 0xF), "D": Beat(1, 0, 2, 0)}, {"A", "D"})
    lines = [first, *gets, *answers, gets[0], first, *gets, first, answers[0], first, *gets[:3], swapped, answers[2]]
    cycles, reports, _ = bench.run(Settings(MAX_OUTSTANDING=3, ASSUME_CLIENT=assumed), [*lines, swapped])
    room = (
        "more than 3 requests in flight, raise MAX_OUTSTANDING: from now on, SourceBusy, NoRequest and SizeMismatch are"
        " checked only for the requests still tracked"
    )
    nothing: List[str] = []
    full, busy, unasked = [f"Room {client}"], f"a.SourceBusy {client}", "d.NoRequest asserted"
    wanted = [(0, 0, nothing)] * 4 + [(0, 1, full)] * 2 + [(0, 1, nothing)] * 3 + [(8, 1, [busy])]
    wanted += [(0, 0, nothing)] * 4 + [(0, 1, full)] * 2 + [(0, 0, nothing), (9, 0, [unasked])]
    wanted += [(0, 0, nothing)] * 6 + [(8, 0, sorted([busy, unasked]))]
    assert [(cycle[0] or cycle[3], *cycle[5:]) for cycle in cycles] == wanted
    assert [(time, words) for time, place, words in reports if place == "cycles.check"] == [(45, room), (145, room)]


def test_the_fault_of_an_offered_beat_is_counted_again_after_a_reset(bench: Bench) -> None:
    """The beat is offered without end and never accepted."""
    settings, wrong = Settings(JUDGE_OFFERED=1), {"A": Beat(4, 7, 2, 1, 0, 0xF)}
    checker = Checker(settings)
    cycles: List[Tuple[int, Dict[str, Beat]]]
    cycles = [(1, {}), (0, wrong), (0, wrong), (1, {}), (0, wrong), (1, wrong), (0, wrong)]
    nobody: Set[str] = set()
    script = [(reset, beats, nobody, checker.cycle(reset, beats, nobody)) for reset, beats in cycles]
    assert [of_rules[1] for *_, of_rules in script] == [0, 1, 1, 0, 1, 0, 1]
    compare(bench, settings, script)


def long_if_wide(of_all: List[Settings], widest: int) -> List[Any]:
    """The settings as parameters; those of wider links take long."""
    return [pytest.param(x, marks=[pytest.mark.long] * (x.DATA_BYTES > widest), id=name_of(x)) for x in of_all]


@pytest.mark.parametrize("settings", long_if_wide(SETTINGS, 64))
def test_random_cycles_lawful_and_faulty(settings: Settings, bench: Bench) -> None:
    """Beats follow the state of the link's rules."""
    compare(bench, settings, Cycles(settings, 1).cycles(RANDOM_CYCLES))


def test_the_defaults_of_the_parameters(bench: Bench) -> None:
    """Without any parameter the checker is as the page says."""
    compare(bench, Settings(), Cycles(Settings(), 2).cycles(RANDOM_CYCLES), DEFAULTS=1)


@pytest.mark.parametrize("name, value", [*REFUSED, *LIMITS])
def test_a_parameter_is_refused_just_outside_its_range(name: str, value: int) -> None:
    """With the range, in Verilator; at both ends of the range it is allowed."""
    needs_tools("verilator")
    done = run(["verilator", "--lint-only", "--top-module", "tl_checker", f"-G{name}={value}", CHECKER])
    words = REFUSED.get((name, value), "")
    assert (done.returncode != 0) == bool(words), said(done)
    assert words in done.stderr, said(done)


@pytest.mark.parametrize("table", [messages, pairs_of_faults, in_flight, lanes], ids=lambda table: str(table.__name__))
@pytest.mark.parametrize("settings", long_if_wide(TABLES, 32))
def test_tables_of_messages_at_each_width(
    settings: Settings, table: Callable[[Settings], Iterable[Any]], bench: Bench
) -> None:
    """With the smallest and the largest of the other parameters."""
    compare(bench, settings, judged(settings, table(settings)))


def test_bursts_of_4096_beats_on_all_channels_at_once(bench: Bench) -> None:
    """In the last beat, another head is HeadChanged; behind it, it begins a message."""
    settings = Settings(DATA_BYTES=1, RESYNC_AFTER_FAULT=0, ADDRESS_BITS=20)
    checker = Checker(settings)
    heads = {
        "A": Beat(0, size=12, source=3, address=0x4000, mask=1),
        "B": Beat(2, size=12, source=3, address=0x8000, mask=1),
        "C": Beat(7, size=12, source=3, address=0x3000),
        "D": Beat(1, size=12, source=9),
    }
    asked = {"A": Beat(4, size=12, source=9, address=0x4000, mask=1)}
    others = {channel: Beat(**{**vars(beat), "source": 200}) for channel, beat in heads.items()}
    cycles: List[Tuple[int, Dict[str, Beat]]] = [(1, {}), (0, asked)]
    cycles += [(0, heads)] * 4095 + [(0, others), (0, heads), (0, {x: heads[x] for x in "ABC"})]
    script = [(reset, beats, set(beats), checker.cycle(reset, beats, set(beats))) for reset, beats in cycles]
    faults = [tuple(of_rules[0].values()) for *_, of_rules in script]
    assert faults == [(0, 0, 0, 0)] * 4097 + [(7, 7, 7, 7), (0, 0, 0, 0), (8, 0, 0, 0)]
    compare(bench, settings, script)
