"""rtl/, the bridge in SystemVerilog, against the model: each far beat has to be that of `tlbridge run --sync`, byte for
byte.

Each configuration is a test, and so is each planted mistake: all pairs of widths with two clocks, corners of each
parameter, one clock, no FIFO,
no B, C and E; resets at random, in mid-burst, of either side or both; Icarus, with X on all that is not valid; cycles
for each far beat against
the ideal; and lines that no run reaches. TLBRIDGE and BEATS are those of rtl_simulations.py; `-k` picks configurations.
"""

import os
import re
from pathlib import Path
from typing import Any, Dict, List, Tuple

import pytest
from configurations import BUDGET, CORNERS, COVERED, ICARUS, LINT_CORNERS, REFUSED, RESETS
from planted import Planted, mistakes
from project import ROOT, RTL, needs_tools
from rtl_checks import played_in_icarus, reads_without_a_warning, refuses_value, simulate, simulated_in_icarus
from rtl_simulations import BEATS, DEFAULTS, HERE, PAIRS, Config, Room, Scenario, named, scenarios, sources

pytestmark = [pytest.mark.long, pytest.mark.simulator]

MUTANTS = [planted for planted in mistakes(HERE / "bugs.txt") if planted.seen == "simulation"]
LONG_IDS: Dict[str, int] = dict(SOURCE_BITS=16, SINK_BITS=16)  # with which each beat of a trace is one of its kind


# ---- what reads it

READ = {
    "verilator": LINT_CORNERS + [{**pair, "ASYNC": clocks} for pair in PAIRS for clocks in (1, 0)],
    "iverilog": LINT_CORNERS + PAIRS[9::16],
    "yosys": LINT_CORNERS + PAIRS[9::16],
}


@pytest.mark.parametrize("tool", READ)
def test_each_configuration_is_read_without_a_warning(tool: str) -> None:
    """All pairs of widths, with one clock and with two, and corners of the parameters."""
    wrong = []
    for config in READ[tool]:
        try:
            reads_without_a_warning(tool, config)
        except AssertionError as error:
            wrong.append(f"{named(config)}: {error}")
    assert wrong == []


# yosys' chparam takes no negative value
VALUES = [
    (tool, config, words) for tool in READ for config, words in REFUSED if tool != "yosys" or min(config.values()) >= 0
]


@pytest.mark.parametrize("tool, config, words", VALUES, ids=[f"{x[0]} {' '.join(x[1])} {x[2]}" for x in VALUES])
def test_each_wrong_value_is_refused_by_a_message_that_names_the_parameter(
    tool: str, config: Config, words: str
) -> None:
    """By each tool."""
    refuses_value(tool, config, words)


# ---- simulations in Verilator


@pytest.mark.parametrize("config", PAIRS, ids=named)
def test_each_pair_of_widths_with_two_clocks(config: Config, room: Room) -> None:
    """In each scenario: clocks that wander, that are alike, far apart; with stalls and without; few sources."""
    simulate(room, config)


@pytest.mark.parametrize("config", CORNERS, ids=named)
def test_corners_of_the_parameters(config: Config, room: Room) -> None:
    """In each scenario that the configuration has."""
    simulate(room, config)


def words_of_resets(config: Config) -> List[List[str]]:
    """The clocks of the runs with resets."""
    if not config.get("ASYNC", 1):
        return [["single"], ["single", "stalls=0"]]
    return [[], ["manager=300"], ["client=9000", "stalls=0"], ["client=1000", "manager=1000", "drift=0"]]


@pytest.mark.parametrize("config", RESETS, ids=named)
def test_resets_at_random(config: Config, room: Room) -> None:
    """No far beat is doubled, replayed or invented, and none is lost without a reset."""
    needs_tools("verilator", "g++")
    config = {**LONG_IDS, **config}
    program = room.build(config, synchronizer="one edge")
    resets = far = 0
    for number, words in enumerate(words_of_resets(config) * 2):
        trace, answer = room.trace(config, 50 + number % 2, 4 * BEATS, unique=True, sources=4096)
        more = [] if config.get("FIFO_DEPTH", 8) else ["through", "steady"]
        ran = room.play(program, trace, answer, [*words, *more, f"seed={number + 1}", f"resets={answer}"])
        assert not ran.wrong, f"{ran.wrong} ({trace} {' '.join(words)} seed={number + 1})"
        found = re.search(r"resets (\d+)", ran.printed)
        resets, far = resets + int(found[1] if found else 0), far + ran.far
    print(f"{2 * len(words_of_resets(config))} simulations, {far} far beats, {resets} resets")
    assert resets > 0 and far > 0


# ---- planted mistakes


def config_of(text: str) -> Dict[str, int]:
    """A configuration as bugs.txt writes it: `8:4 MAX_OUTSTANDING=4`."""
    pair, *more = text.split()
    client, manager = map(int, pair.split(":"))
    values = {key: int(value) for key, value in (word.split("=") for word in more)}
    return dict(CLIENT_BYTES=client, MANAGER_BYTES=manager, **values)


def hunted(planted: Planted, room: Room, folder: Path) -> str:
    """The run that saw the mistake; empty if none did."""
    rtl = planted.plant(ROOT, folder)
    with_resets = planted.more.get("resets") == "yes"
    for text in planted.more["configs"].split(";"):
        config = config_of(text)
        runs: List[Scenario] = scenarios(config)
        if with_resets:
            config = {**LONG_IDS, **config}
            clocks: List[List[str]] = [[], ["manager=300"], ["client=9000", "stalls=0"]]
            runs = [(f"resets {number}", 50, 4, {"unique": True}, words) for number, words in enumerate(clocks)]
        program = room.build(config, rtl=rtl, synchronizer="one edge" if with_resets else "late")
        for name, seed, length, traffic, words in runs:
            trace, answer = room.trace(config, seed, int(BEATS * length), **traffic)
            more = [f"resets={answer}"] if with_resets else []
            ran = room.play(program, trace, answer, [*words, *more, f"seed={seed}"])
            if ran.wrong:
                return f"{named(config)}, {name}: {ran.wrong}"
    return ""


@pytest.mark.parametrize("planted", MUTANTS, ids=str)
def test_a_planted_mistake_is_seen(planted: Planted, room: Room, tmp_path: Path) -> None:
    """By a simulation of one of its configurations, unless it is named as one that no simulation sees."""
    needs_tools("verilator", "g++")
    seen = hunted(planted, room, tmp_path)
    print(seen or "not seen")
    assert bool(seen) != ("unseen" in planted.more), seen or "not seen"


# ---- throughput

CLOCKS = {"single": 1.0, "manager=1000": 1.0, "manager=2000": 2.0, "manager=500": 0.5}  # and the manager's period
DEPTHS = [
    (pair, depth)
    for pair in ((8, 8), (8, 4), (4, 8), (16, 64), (64, 16))
    for depth in ((2, 4, 8, 16) if max(pair) == 8 else (8,))
]


@pytest.mark.parametrize("clocks", CLOCKS)
@pytest.mark.parametrize("pair, depth", DEPTHS, ids=[f"{pair[0]}:{pair[1]} {depth}" for pair, depth in DEPTHS])
def test_cycles_for_each_far_beat(pair: Tuple[int, int], depth: int, clocks: str, room: Room) -> None:
    """Without stalls, for messages of 64 bytes on A and B; the ideal is that of the slower link, and a FIFO of BUDGET
    words reaches it.

    A source is used once: else a request waits for the response to the last one with its source, which the bridge
    cannot help.
    """
    needs_tools("verilator", "g++")
    config = dict(CLIENT_BYTES=pair[0], MANAGER_BYTES=pair[1], FIFO_DEPTH=depth, SOURCE_BITS=12)
    puts = dict(sizes=(6,), mix={"A": 1, "B": 1}, continuing=0, opcodes={"A": (0,), "B": (0,), "D": (0,)})
    trace, answer = room.trace(config, 1, 3000, unique=True, sources=4096, **puts)
    program = room.build(config, synchronizer="plain")
    ran = room.play(program, trace, answer, [clocks, "client=1000", "drift=0", "stalls=0"])
    assert not ran.wrong
    got = {channel: float(cycles) for channel, cycles in re.findall(r" ([AB]) (\d+\.\d+)", ran.printed)}
    # far beats of that width, near beats in their own clock, in cycles of the far clock
    ratio = CLOCKS[clocks]
    ideal = {"A": max(1, pair[1] / pair[0] / ratio), "B": max(1, pair[0] / pair[1] * ratio)}
    print(f"{got}, ideal {ideal}")
    assert set(got) == {"A", "B"}
    if depth >= BUDGET:
        assert all(got[channel] <= 1.02 * ideal[channel] for channel in "AB"), (got, ideal)


# ---- coverage


def test_no_line_is_unreached(room: Room, tmp_path: Path) -> None:
    """By Verilator's line coverage of rtl/ over some runs."""
    needs_tools("verilator", "g++")
    hits: Dict[Tuple[str, int], int] = {}
    for number, config in enumerate(COVERED):
        program = room.build(config, coverage=True)
        for name, seed, length, traffic, words in scenarios(config)[:4]:
            trace, answer = room.trace(config, seed, int(BEATS * length), **traffic)
            data = tmp_path / f"coverage{number}"
            room.play(program, trace, answer, [*words, f"seed={seed}"], {"COVERAGE": str(data)})
            for line in data.read_text().splitlines():
                at = re.search(r"\x01f\x02([^\x01]*)\x01l\x02(\d+).*' (\d+)$", line)
                if at and Path(at[1]).resolve().parent == RTL:
                    place = Path(at[1]).name, int(at[2])
                    hits[place] = hits.get(place, 0) + int(at[3])
    assert hits
    assert sorted(place for place, count in hits.items() if not count) == []


# ---- Icarus


@pytest.mark.parametrize("config", ICARUS, ids=named)
def test_icarus_with_x_on_all_that_is_not_valid(config: Config, room: Room, tmp_path: Path) -> None:
    """The far beats are those of the model."""
    assert simulated_in_icarus(config, room.trace(config, 7, 600), sources(), tmp_path) == ""


# The simulations that test_rtl.py compares without a simulator. With RECORD in the environment they are made again.
RECORDED: List[Any] = [
    dict(CLIENT_BYTES=8, MANAGER_BYTES=4),
    dict(CLIENT_BYTES=4, MANAGER_BYTES=16),
    dict(CLIENT_BYTES=8, MANAGER_BYTES=8, MAX_OUTSTANDING=4),
    dict(CLIENT_BYTES=2, MANAGER_BYTES=1, FIFO_DEPTH=2),
]


@pytest.mark.parametrize("config", RECORDED, ids=named)
def test_a_recorded_simulation_is_that_of_the_rtl(config: Config, room: Room, tmp_path: Path) -> None:
    """In Icarus."""
    more = [f"{key.lower()}_{value}" for key, value in config.items() if key not in ("CLIENT_BYTES", "MANAGER_BYTES")]
    name = "_".join([str(config["CLIENT_BYTES"]), str(config["MANAGER_BYTES"]), *more])
    trace = HERE / "recorded" / f"{name}.trace"
    if "RECORD" in os.environ:
        trace.write_text(room.trace({**DEFAULTS, **config}, 5, 160, largest=6)[0].read_text())
    far, faults, printed = played_in_icarus(config, trace, sources(), tmp_path)
    assert faults == 0, printed
    if "RECORD" in os.environ:
        trace.with_suffix(".far").write_text(far)
    assert far == trace.with_suffix(".far").read_text()
