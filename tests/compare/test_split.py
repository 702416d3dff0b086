"""tlbridge-compare --split and --level, over the adapter of splitter.sv and over beats that are written by hand.

The adapter splits accesses of 8 bytes in front of a link of 4, as TL-UL asks. It is right, its bursting twin is wrong
at level TL-UL, and each planted mistake is found. The rule is section 15 of docs/SPECIFICATION.md.
"""

import subprocess
import sys
from dataclasses import dataclass
from pathlib import Path
from typing import Dict, List, Optional, Tuple

import pytest
import starter
from project import MODEL, ROOT, SV, needs_tools

BENCH = ROOT / "tests" / "compare" / "splitter.sv"
SOURCES = [SV / name for name in ("tl_checker.sv", "tl_checker_ad.sv", "tl_trace_monitor.sv", "tl_trace_monitor_ad.sv")]
LIMIT = 300  # seconds, of one run of a tool


@dataclass
class Ended:
    status: int
    lines: List[str]
    error: str


def compare(folder: Path, *words: str, widths: Tuple[int, int] = (8, 4)) -> Ended:
    """Runs tlbridge-compare with the unverified model over client.beats and manager.beats of a folder."""
    command: List[starter.Word] = [SV / "compare", *widths, "client.beats", "manager.beats"]
    command += ["--program", MODEL, *words]
    done = starter.run_text(command, folder, LIMIT)
    return Ended(done.returncode, done.stdout.splitlines(), done.stderr)


@pytest.fixture(scope="module")
def simulated(tmp_path_factory: pytest.TempPathFactory) -> Dict[str, Path]:
    """The folders with the beats of each adapter: `right`, `burst`, and a number for each planted mistake."""
    needs_tools("iverilog", "vvp")
    folders = {}
    for name in ("right", "burst", *map(str, range(1, 8))):
        folder = folders[name] = tmp_path_factory.mktemp(f"adapter_{name}")
        values = {"BURST": int(name == "burst"), "MISTAKE": int(name) if name.isdigit() else 0}
        words = ["iverilog", "-g2012", "-s", "split_bench", "-o", "bench"]
        words += [f"-Psplit_bench.{key}={value}" for key, value in values.items()]
        subprocess.run([*words, *map(str, SOURCES), str(BENCH)], cwd=folder, check=True, timeout=LIMIT)
        done = subprocess.run(["vvp", "-n", "bench"], cwd=folder, capture_output=True, text=True, timeout=LIMIT)
        (folder / "printed").write_text(done.stdout)
    return folders


@pytest.mark.simulator
def test_right_adapter(simulated: Dict[str, Path]) -> None:
    """The splitting adapter is right with --split, at level TL-UL, with and without times."""
    folder = simulated["right"]
    ended = compare(folder, "--split", "--level", "ul")
    assert (ended.status, len(ended.lines)) == (0, 2), ended
    assert ended.lines[0].startswith("A: 200 near messages, split into ")
    assert "faults 0 0" in (folder / "printed").read_text()
    for side in ("client", "manager"):
        (folder / f"{side}.beats.times").rename(folder / f"{side}.times")
    try:
        assert compare(folder, "--split").lines == ended.lines
    finally:
        for side in ("client", "manager"):
            (folder / f"{side}.times").rename(folder / f"{side}.beats.times")


@pytest.mark.simulator
def test_without_the_option(simulated: Dict[str, Path]) -> None:
    """Without --split the same adapter is wrong, and the message names the option."""
    ended = compare(simulated["right"])
    assert ended.status == 1 and any("SizeMismatch" in line for line in ended.lines), ended
    assert (
        ended.lines[-1].startswith("this design seems to split messages: 8 bytes at ") and "--split" in ended.lines[-1]
    )


@pytest.mark.simulator
def test_bursting_twin(simulated: Dict[str, Path]) -> None:
    """The bursting twin is as the model expects, and wrong at level TL-UL. The checker reports the same fault.
    With --split, its messages are too large."""
    folder = simulated["burst"]
    assert compare(folder).status == 0
    ended = compare(folder, "--level", "ul")
    assert ended.status == 1 and ended.lines[-1].startswith(
        "level TL-UL: manager.beats line 1, time 55: 26 BurstNotInLevel: "
    )
    assert "fault 26 BurstNotInLevel" in (folder / "printed").read_text()
    assert compare(folder, "--level", "uh").status == 0
    ended = compare(folder, "--split")
    assert ended.status == 1 and "it has 8 bytes, and at most 4 are expected" in ended.lines[0]
    assert compare(folder, "--split", "--largest", "8").status == 0


@pytest.mark.simulator
@pytest.mark.parametrize(
    "mistake, words",
    (
        ("1", "the next byte"),
        ("2", "mask bit"),
        ("3", "denied is 0, expected 1"),
        ("4", "lane 0 is"),
        ("5", "the next byte"),
        ("6", "corrupt is 0, expected 1"),
        ("7", "the next byte"),
    ),
)
def test_planted_mistakes(simulated: Dict[str, Path], mistake: str, words: str) -> None:
    """Each planted mistake is the first fault, with its time."""
    ended = compare(simulated[mistake], "--split")
    assert ended.status == 1 and ended.lines[0].startswith("first fault: channel ") and words in ended.lines[0], ended
    assert ", time " in ended.lines[0]


# ---- beats that are written by hand

PUT = "A 0 0 3 01 0000000000001000 ff 7766554433221100 0"
GET = "A 4 0 3 02 0000000000001008 ff 0000000000000000 0"
ACK, DATA = "D 0 0 3 01 00 0 0000000000000000 0", "D 1 0 3 02 00 0 ddccbbaa44332211 0"
CLIENT = [PUT, ACK, GET, DATA]
PIECES = [
    "A 0 0 2 01 0000000000001000 f 33221100 0",
    "D 0 0 2 01 00 0 00000000 0",
    "A 0 0 2 01 0000000000001004 f 77665544 0",
    "D 0 0 2 01 00 0 00000000 0",
    "A 4 0 2 02 0000000000001008 f 00000000 0",
    "A 4 0 2 03 000000000000100c f 00000000 0",
    "D 1 0 2 03 00 0 ddccbbaa 0",
    "D 1 0 2 02 00 0 44332211 0",
]
CLIENT_TIMES, MANAGER_TIMES = [10, 60, 70, 130], [20, 30, 40, 50, 80, 90, 100, 110]


def changed(lines: List[str], at: int, old: str, new: str) -> List[str]:
    assert lines[at].count(old) == 1, (lines[at], old)
    return [*lines[:at], lines[at].replace(old, new), *lines[at + 1 :]]


def judged(
    folder: Path,
    client: List[str],
    manager: List[str],
    *words: str,
    times: Optional[Tuple[List[int], List[int]]] = None,
) -> Ended:
    for at, (side, lines) in enumerate((("client", client), ("manager", manager))):
        (folder / f"{side}.beats").write_text("".join(line + "\n" for line in lines))
        if times:
            (folder / f"{side}.beats.times").write_text("".join(f"{time}\n" for time in times[at]))
    return compare(folder, "--split", *words)


def test_by_hand(tmp_path: Path) -> None:
    """Pieces with other sources, answered in another order, are right."""
    assert judged(tmp_path, CLIENT, PIECES).status == 0
    assert judged(tmp_path, CLIENT, PIECES, times=(CLIENT_TIMES, MANAGER_TIMES)).status == 0


def test_smaller_pieces(tmp_path: Path) -> None:
    """A message may have more and smaller pieces than needed, and --largest forbids larger ones."""
    manager = [
        "A 4 0 1 02 0000000000001008 3 00000000 0",
        "D 1 0 1 02 00 0 00002211 0",
        "A 4 0 1 02 000000000000100a c 00000000 0",
        "D 1 0 1 02 00 0 44330000 0",
        "A 4 0 2 02 000000000000100c f 00000000 0",
        "D 1 0 2 02 00 0 ddccbbaa 0",
    ]
    assert judged(tmp_path, CLIENT[2:], manager).status == 0
    ended = judged(tmp_path, CLIENT[2:], manager, "--largest", "2")
    assert ended.status == 1 and any("it has 4 bytes, and at most 2 are expected" in line for line in ended.lines)


@pytest.mark.parametrize(
    "at, old, new, words",
    (
        (2, "77665544", "77665500", "lane 0 is 00, expected 44"),
        (2, "1004", "1008", "address is 0000000000001008, expected 0000000000001004"),
        (2, " 0 0 2 ", " 1 0 2 ", "opcode is 1, expected 0"),
        (2, "77665544 0", "77665544 1", "corrupt is 1, expected 0"),
        (3, "00 0 0", "00 1 0", "denied is 0, expected 1 as of the piece at manager.beats line 4"),
        (7, "44332211 0", "44332211 1", "corrupt is 0, expected 1"),
        (7, "44332211", "44332210", "lane 0 is 11, expected 10 from manager.beats line 8"),
        (7, "00 0 4", "00 1 4", "denied is 0, expected 1"),
    ),
)
def test_each_field(tmp_path: Path, at: int, old: str, new: str, words: str) -> None:
    """A piece or the response to one with another value is a mistake."""
    ended = judged(tmp_path, CLIENT, changed(PIECES, at, old, new))
    assert ended.status == 1 and any(words in line for line in ended.lines), ended


@pytest.mark.parametrize(
    "denied, corrupt, near, status",
    (
        (0, 0, "1 ddccbbaa44332211 1", 1),  # nothing was denied
        (1, 1, "1 0000000000000000 1", 0),  # denied data are corrupt, and their bytes do not count
        (1, 1, "1 ddccbbaa44332211 0", 1),  # they have to be corrupt
        (1, 0, "1 ddccbbaa44332211 0", 0),  # unless the far link has no corrupt
        (0, 1, "0 ddccbbaa44332211 1", 0),
        (0, 1, "0 ddccbbaa44332211 0", 1),
        (0, 0, "0 ddccbbaa44332211 1", 1),
    ),
)
def test_denied_and_corrupt(tmp_path: Path, denied: int, corrupt: int, near: str, status: int) -> None:
    """Denied and corrupt of the response to a Get, by those of its second piece."""
    manager = changed(PIECES, 6, "00 0 ddccbbaa 0", f"00 {denied} ddccbbaa {corrupt}")
    client = changed(CLIENT, 3, "0 ddccbbaa44332211 0", near)
    ended = judged(tmp_path, client, manager)
    assert ended.status == status, ended


def test_wide_response(tmp_path: Path) -> None:
    """If the denied piece comes after the first beat of the response, corrupt on its beat is enough."""
    get = "A 4 0 4 02 0000000000001000 ff 0000000000000000 0"
    first = "D 1 0 4 02 00 0 1111111100000000 0"
    manager = []
    for piece, data in enumerate(("00000000", "11111111", "22222222", "33333333")):
        manager += [
            f"A 4 0 2 02 00000000000010{4 * piece:02x} f 00000000 0",
            f"D 1 0 2 02 00 {piece // 3} {data} {piece // 3}",
        ]
    assert judged(tmp_path, [get, first, "D 1 0 4 02 00 0 3333333322222222 1"], manager).status == 0
    assert judged(tmp_path, [get, first, "D 1 0 4 02 00 0 3333333322222222 0"], manager).status == 1
    manager[1] = "D 1 0 2 02 00 1 00000000 1"
    assert judged(tmp_path, [get, first, "D 1 0 4 02 00 0 3333333322222222 1"], manager).status == 1


def test_early_response(tmp_path: Path) -> None:
    """With times, a response comes no sooner than those of its pieces."""
    ended = judged(tmp_path, CLIENT, PIECES, times=([10, 45, 70, 130], MANAGER_TIMES))
    assert ended.status == 1 and ended.lines[0].startswith(
        "first fault: channel D, client.beats line 2, time 45: early"
    )


@pytest.mark.parametrize("times, early", (([10, 40, 60], None), ([10, 35, 60], 35), ([10, 40, 55], 55)))
@pytest.mark.parametrize("pieces", (1, 2))
def test_early_beat(tmp_path: Path, pieces: int, times: List[int], early: Optional[int]) -> None:
    """With times, a beat of a response comes no sooner than the last far beat that has some of its bytes."""
    client = ["A 4 0 4 02 0000000000001000 ff 0000000000000000 0"]
    client += [f"D 1 0 4 02 00 0 {data} 0" for data in ("1111111100000000", "3333333322222222")]
    size = 5 - pieces
    manager = [f"A 4 0 {size} 0{piece} 00000000000010{8 * piece:02x} f 00000000 0" for piece in range(pieces)]
    manager += [f"D 1 0 {size} 0{beat * pieces // 4} 00 0 {8 * str(beat)} 0" for beat in range(4)]
    asked = [15, 20][:pieces]
    ended = judged(tmp_path, client, manager, "--largest", "16", times=(times, [*asked, 30, 40, 50, 60]))
    assert ended.status == (early is not None), ended
    assert early is None or f", time {early}: early: " in ended.lines[0], ended


def test_unknown_bits(tmp_path: Path) -> None:
    """A beat with an unknown bit ends the judgement, and is named."""
    ended = judged(tmp_path, CLIENT, changed(PIECES, 2, " f 7", " x 7"))
    assert ended.status == 1, ended
    assert any("manager.beats line 3: the beat has unknown bits: " in line for line in ended.lines), ended


def test_missing(tmp_path: Path) -> None:
    """A missing piece, a missing response and a surplus piece are mistakes."""
    for client, manager, words in (
        (CLIENT, PIECES[:5] + PIECES[7:], "bytes 4 to 7 are missing"),
        (CLIENT[:3], PIECES, "the response is missing"),
        (CLIENT[:2], PIECES, "no request of the client's link calls for this message"),
    ):
        ended = judged(tmp_path, client, manager)
        assert ended.status == 1 and any(words in line for line in ended.lines), ended


def test_stray_response(tmp_path: Path) -> None:
    """The rules of each link are judged as well, in time."""
    stray = [*CLIENT[:2], "D 0 0 2 00 00 0 0000000000000000 0", *CLIENT[2:]]
    ended = judged(tmp_path, stray, PIECES, times=([10, 60, 65, 70, 130], MANAGER_TIMES))
    assert ended.status == 1
    assert ended.lines[0].startswith("first fault: channel D, client.beats line 3, time 65: NoRequest: ")


def test_atomics_and_other_channels(tmp_path: Path) -> None:
    """An atomic operation cannot be split, and channels B, C and E do not belong here."""
    ended = judged(
        tmp_path,
        ["A 2 4 3 01 0000000000001000 ff 7766554433221100 0"],
        ["A 2 4 2 01 0000000000001000 f 33221100 0"],
    )
    assert ended.status == 1 and any("ArithmeticData cannot be split" in line for line in ended.lines), ended
    ended = judged(tmp_path, [*CLIENT, "E 07"], PIECES)
    assert ended.status == 2 and "--split judges links that have the channels A and D only" in ended.error


def test_command_line(tmp_path: Path) -> None:
    """--largest needs --split and a power of two."""
    judged(tmp_path, CLIENT, PIECES)
    assert compare(tmp_path, "--largest", "4").error == "tlbridge-compare: --largest needs --split\n"
    assert compare(tmp_path, "--split", "--largest", "3").status == 2
    assert compare(tmp_path, "--split", "--write-trace", "x").status == 2


def test_six_hundred_messages(tmp_path: Path) -> None:
    """A long run of pieces is judged in order, and a mistake in its middle is found there."""
    client, manager = [], []
    for number in range(600):
        address, source = 0x1000 + 8 * number, number % 16
        client += [
            f"A 4 0 3 {source:02x} {address:016x} ff {0:016x} 0",
            f"D 1 0 3 {source:02x} 00 0 {2 * number + 1:08x}{2 * number:08x} 0",
        ]
        for half in (0, 1):
            manager += [
                f"A 4 0 2 {source:02x} {address + 4 * half:016x} f 00000000 0",
                f"D 1 0 2 {source:02x} 00 0 {2 * number + half:08x} 0",
            ]
    assert judged(tmp_path, client, manager).status == 0
    manager[601] = manager[601][:-1] + "1"
    ended = judged(tmp_path, client, manager)
    assert ended.status == 1 and "manager.beats line 602" not in ended.lines[0]
    assert any("client.beats line 302: corrupt is 0, expected 1" in line for line in ended.lines), ended


def verify(folder: Path, *words: str, burst: int = 0, mistake: int = 0) -> Ended:
    """Runs tlbridge-verify, in Icarus only, over the adapter of splitter.sv."""
    source = BENCH.read_text().partition("module split_bench;")[0]
    for name, value in (("BURST", burst), ("MISTAKE", mistake)):
        source = source.replace(f"parameter {name} = 0", f"parameter {name} = {value}")
    (folder / "adapter.sv").write_text(source)
    command = [sys.executable, str(ROOT / "tlbridge-verify"), "adapter.sv", "--top", "splitter", "--no-waves", *words]
    command += ["--simulator", "icarus", "--shrink-seconds", "1"]
    done = subprocess.run(command, cwd=folder, capture_output=True, text=True, timeout=LIMIT)
    return Ended(done.returncode, done.stdout.splitlines(), done.stderr)


@pytest.mark.simulator
@pytest.mark.parametrize("burst, status", ((1, 1), (0, 0)))
def test_the_level_of_verify(tmp_path: Path, burst: int, status: int) -> None:
    """tlbridge-verify --rules-only --level UL calls the bursting twin wrong, and the splitting adapter right."""
    needs_tools("verilator", "iverilog")
    ended = verify(tmp_path, "--rules-only", "--level", "UL", "--messages", "50", burst=burst)
    assert ended.status == status, ended
    assert any("26 BurstNotInLevel" in line for line in ended.lines) == (status == 1), ended


@pytest.mark.simulator
@pytest.mark.long
@pytest.mark.parametrize("mistake", range(2, 8))
def test_planted_mistakes_in_verify(tmp_path: Path, mistake: int) -> None:
    """It finds each planted mistake, also those that break no rule of a link: reads return what was written. Mistake 1,
    the order of the pieces, is against the rule of --split only: TileLink does not order messages.
    """
    needs_tools("verilator", "iverilog")
    ended = verify(tmp_path, "--rules-only", "--level", "UL", "--messages", "2000", mistake=mistake)
    assert (ended.status, any(line.startswith("MISTAKE: ") for line in ended.lines)) == (1, True), ended


@pytest.mark.simulator
def test_verify_names_the_options(tmp_path: Path) -> None:
    """At TL-UH the adapter is compared with a bridge that keeps messages whole, and at TL-UL no access is split by
    default. Both are said, with the options that judge such an adapter.
    """
    needs_tools("verilator", "iverilog")
    ended = verify(tmp_path, "--level", "UH", "--messages", "50")
    assert ended.status == 1 and any(line.startswith("This design seems to split messages.") for line in ended.lines)
    ended = verify(tmp_path, "--level", "UL", "--messages", "50")
    words = "  no access of more than 4 bytes is played: at TL-UL an adapter splits it (--rules-only --level UL"
    assert ended.status == 0 and any(line.startswith(words) for line in ended.lines), ended
