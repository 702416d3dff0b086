"""What a host writes, compared with its calm runs, over beats that are written by hand. No simulator is needed."""

from pathlib import Path
from typing import List, Sequence

import pytest

from tlbridge.verify.bench import Run
from tlbridge.verify.design import Design, Link, Signal, Source
from tlbridge.verify.host import REFERENCES, Reference
from tlbridge.verify.judge import Beats

PERIOD = 10000


def get(source: int, address: int, size: int = 2) -> str:
    return f"A 4 0 {size} {source:02x} {address:016x} f 00000000 0"


def put(source: int, address: int, data: str, mask: str = "f", size: int = 2) -> str:
    return f"A {0 if mask == 'f' else 1} 0 {size} {source:02x} {address:016x} {mask} {data} 0"


def atomic(source: int, address: int, operand: str) -> str:
    return f"A 2 4 2 {source:02x} {address:016x} f {operand} 0"


def ack(source: int, denied: int = 0) -> str:
    return f"D 0 0 2 {source:02x} 00 {denied} 00000000 0"


def data(source: int, value: str, denied: int = 0, corrupt: int = 0, size: int = 2) -> str:
    return f"D 1 0 {size} {source:02x} 00 {denied} {value} {corrupt}"


def design() -> Design:
    link = Link("", {"A": {"data": Signal("a_data", 0, 32, "output"), "valid": Signal("a_valid", 0, 1, "output")}})
    return Design(Source("host", ()), {}, manager=link)


def words_of(folder: Path, calm: Sequence[List[str]], lines: List[str], silence: int = 0, offers: bool = False) -> str:
    """What is said of `lines` after these calm runs, none of which the host ended. An empty text: nothing."""

    def run_of(lines: List[str], silence: int) -> Run:
        (folder / "manager.beats").write_text("".join(line + "\n" for line in lines))
        (folder / "manager.beats.times").write_text("".join(f"{PERIOD * at}\n" for at in range(len(lines))))
        return Run(folder, "", time=PERIOD * (len(lines) - 1 + silence), offers=offers)

    reference = Reference(design())
    for some in calm:
        run = run_of(some, 1)
        reference.add(run, Beats(design(), run))
    run = run_of(lines, silence)
    problems = reference.problems(run, Beats(design(), run))
    assert len(problems) <= 1
    return problems[0].words if problems else ""


WRITES = [get(0, 0), data(0, "44332211"), put(0, 64, "44332211"), ack(0), put(1, 68, "0000beef", "3"), ack(1)]
CALM = [WRITES] * len(REFERENCES)
OTHER = [*WRITES[:4], put(1, 68, "0000beee", "3"), ack(1)]

RIGHT = {
    "the same": WRITES,
    "a part of it": WRITES[:4],
    "in another order": [put(1, 68, "1234beef", "3"), *WRITES[:4], ack(1)],
    "once more": [*WRITES[:4], put(0, 64, "44332211"), ack(0)],
    "more": [*WRITES, put(0, 64, "ffffffff"), ack(0), put(0, 72, "01010101"), ack(0)],
    "bytes without a mask": [*WRITES[:4], put(1, 68, "7777beef", "3"), ack(1)],
    "after a denied response": [get(0, 0), data(0, "00000000", denied=1), put(0, 64, "00000000"), ack(0)],
    "after corrupt data": [get(0, 0), data(0, "00000000", corrupt=1), put(0, 64, "00000000"), ack(0)],
    "after an overlap": [put(0, 0, "01010101"), get(1, 0), data(1, "44332211"), put(1, 64, "09332211"), ack(0), ack(1)],
    "after the memory had no room": [
        *(put(0, 0x2000, "01010101"), ack(0), put(0, 0x27000, "01010101"), ack(0)),
        *(get(1, 0x2000), data(1, "99999999"), put(1, 64, "99999999"), ack(1)),
    ],
}
WRONG = {
    "another value": (OTHER, "PutPartialData of 4 bytes, source 01 writes ee at 0x44, but runs without stalls"),
    "the first of two": ([put(0, 65, "00007700", "2", 0), *OTHER], "writes 77 at 0x41, but runs without"),
    "an atomic": ([*WRITES[:4], atomic(1, 68, "0000beef")], "ArithmeticData of 4 bytes, source 01 writes 2 4 at 0x44"),
    "after a read that was not dropped": (
        [put(0, 0x2000, "01010101"), ack(0), put(0, 0x2000, "02020202"), ack(0), get(1, 0x2000), *OTHER[1:]],
        "writes ee",
    ),
    "above an outstanding one": ([put(0, 64, "44332211"), put(1, 68, "0000beee", "3"), ack(0), ack(1)], "writes ee"),
    "below an outstanding one": ([put(1, 72, "00000000"), put(2, 68, "0000beee", "3"), ack(1), ack(2)], "writes ee"),
    "after a read of another page": (
        [put(0, 0x2000, "01010101"), ack(0), put(0, 0x3000, "02020202"), ack(0), get(1, 0x2000), *OTHER[1:]],
        "writes ee",
    ),
    "two reads at once": ([get(2, 0), get(3, 0), data(3, "44332211"), data(2, "44332211"), *OTHER], "writes ee"),
}


@pytest.mark.parametrize("case", RIGHT)
def test_right(tmp_path: Path, case: str) -> None:
    assert words_of(tmp_path, CALM, RIGHT[case]) == ""


@pytest.mark.parametrize("case", WRONG)
def test_wrong(tmp_path: Path, case: str) -> None:
    lines, words = WRONG[case]
    said = words_of(tmp_path, CALM, lines)
    assert words in said and said


def test_a_burst_is_compared_byte_by_byte(tmp_path: Path) -> None:
    burst = [put(0, 64, "44332211", size=3), put(0, 64, "88776655", size=3), ack(0)]
    words = [put(0, 64, "44332211"), ack(0), put(0, 68, "88776655"), ack(0)]
    assert words_of(tmp_path, [burst] * 3, words) == ""
    words[2] = put(0, 68, "88776656")
    assert "writes 56 at 0x44, but runs without stalls write 55" in words_of(tmp_path, [burst] * 3, words)
    many = [get(0, 0, 3), data(0, "44332211", size=3), put(0, 4, "00000001"), data(0, "88776655", size=3), *OTHER]
    assert words_of(tmp_path, [WRITES] * 3, many) == ""  # a put that overlaps a burst that is under way


def test_only_calm_runs_that_agree_count(tmp_path: Path) -> None:
    assert words_of(tmp_path, CALM[:-1], OTHER) == ""
    assert words_of(tmp_path, [WRITES, OTHER, WRITES], OTHER) == ""
    assert words_of(tmp_path, [WRITES[:4], WRITES, WRITES[:2]], OTHER) != ""
    assert words_of(tmp_path, [[get(0, 0), data(0, "44332211")]] * 3, WRITES, silence=900) == ""


def test_a_host_that_stops(tmp_path: Path) -> None:
    stopped = "the host has stopped, with nothing outstanding, and goes on in runs without stalls"
    assert words_of(tmp_path, CALM, WRITES, silence=801) == stopped
    assert words_of(tmp_path, CALM, WRITES, silence=800) == "" == words_of(tmp_path, CALM, WRITES, silence=799)
    assert words_of(tmp_path, CALM, WRITES, silence=801, offers=True) == ""
    assert words_of(tmp_path, CALM, WRITES[:-1], silence=801) == ""  # a response is missing
    assert words_of(tmp_path, CALM, [*WRITES, get(0, 0), data(0, "0", denied=1)], silence=801) == ""
    assert words_of(tmp_path, CALM, [*WRITES, put(0, 64, "44332211", size=3)], silence=801) == ""
    assert words_of(tmp_path, CALM, [*WRITES, get(0, 0), data(0, "xxxxxxxx")], silence=801) == ""


def test_a_host_that_ends_by_itself(tmp_path: Path) -> None:
    reference = Reference(design())
    for name in ("manager.beats", "manager.beats.times"):
        (tmp_path / name).write_text("")
    (tmp_path / "manager.beats").write_text("".join(line + "\n" for line in WRITES))
    (tmp_path / "manager.beats.times").write_text("".join(f"{PERIOD * at}\n" for at in range(len(WRITES))))
    run = Run(tmp_path, "", time=PERIOD * 2000)
    for _ in REFERENCES:
        reference.add(run, Beats(design(), run))
    assert reference.is_used and not reference.goes_on and reference.values[64] == ["11"]
    assert not reference.problems(run, Beats(design(), run))


def test_why_nothing_is_compared(tmp_path: Path) -> None:
    reference = Reference(design())
    run = Run(tmp_path, "", time=PERIOD)
    assert not reference.is_used and reference.why_not == "there was no time for the calm runs"
    for _ in REFERENCES:
        reference.add(run, Beats(design(), run))
    assert not reference.is_used and reference.why_not == "it writes nothing"
    reference.is_steady = False
    assert reference.why_not == "it depends on the delay of responses"
