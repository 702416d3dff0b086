"""The judge of memories, over beats that are written by hand. No simulator is needed."""

from pathlib import Path
from typing import List

import pytest

from tlbridge.verify.bench import Run
from tlbridge.verify.design import Design, Link, Signal, Source
from tlbridge.verify.judge import Beats
from tlbridge.verify.memory import computed, memory_problems


def get(source: int, address: int, size: int = 2) -> str:
    return f"A 4 0 {size} {source:02x} {address:016x} f 00000000 0"


def put(source: int, address: int, data: str, mask: str = "f", size: int = 2, corrupt: int = 0) -> str:
    return f"A {0 if mask == 'f' else 1} 0 {size} {source:02x} {address:016x} {mask} {data} {corrupt}"


def atomic(source: int, address: int, opcode: int, param: int, data: str) -> str:
    return f"A {opcode} {param} 2 {source:02x} {address:016x} f {data} 0"


def ack(source: int, denied: int = 0) -> str:
    return f"D 0 0 2 {source:02x} 00 {denied} 00000000 0"


def data(source: int, value: str, size: int = 2, denied: int = 0, corrupt: int = 0) -> str:
    return f"D 1 0 {size} {source:02x} 00 {denied} {value} {corrupt}"


def words_of(tmp_path: Path, lines: List[str]) -> str:
    """What the judge says of these beats; an empty text: nothing."""
    (tmp_path / "client.beats").write_text("".join(line + "\n" for line in lines))
    (tmp_path / "client.beats.times").write_text("".join(f"{10 * at}\n" for at in range(len(lines))))
    link = Link("", {"A": {"data": Signal("a_data", 0, 32, "input"), "valid": Signal("a_valid", 0, 1, "input")}})
    design = Design(Source("ram", ()), {}, client=link)
    problems = memory_problems(design, Beats(design, Run(tmp_path, "")))
    return problems[0].words if problems else ""


RIGHT = {
    "beats with an unknown head": [
        *(put(0, 16, "00000001"), ack(0), get(1, 16).replace("A 4", "A x"), data(1, "00000009").replace("D 1", "D X")),
        *(get(0, 16), data(0, "00000001")),
    ],
    "after a corrupt atomic": [
        *(put(0, 16, "00000001"), ack(0), atomic(1, 16, 2, 4, "00000001")[:-1] + "1", data(1, "00000001")),
        *(get(2, 16), data(2, "12345678")),
    ],
    "an atomic that is offered": [
        *(put(0, 16, "00000001"), ack(0), get(1, 16), data(1, "00000003")),
        *(atomic(2, 16, 2, 4, "00000002"), data(2, "00000001")),
    ],
    "read back": [put(0, 16, "44332211"), ack(0), get(1, 16), data(1, "44332211")],
    "one byte of it": [put(0, 16, "44332211"), ack(0), get(1, 18, 0), data(1, "00330000", 0)],
    "never written": [get(0, 16), data(0, "xx33xxxx"), get(0, 16), data(0, "00000000")],
    "masked": [put(0, 16, "44332211"), ack(0), put(0, 16, "88776655", "3"), ack(0), get(1, 16), data(1, "44336655")],
    "overlapping writes": [
        put(0, 16, "11111111"),
        put(1, 16, "22222222"),
        ack(1),
        ack(0),
        get(2, 16),
        data(2, "22112211"),
    ],
    "read before its write is acknowledged": [
        put(0, 16, "11111111"),
        ack(0),
        put(0, 16, "22222222"),
        get(1, 16),
        data(1, "22221111"),
        ack(0),
    ],
    "denied write": [
        put(0, 16, "11111111"),
        ack(0),
        put(0, 16, "22222222"),
        ack(0, 1),
        get(1, 16),
        data(1, "11111111"),
    ],
    "denied write that was done": [
        put(0, 16, "11111111"),
        ack(0),
        put(0, 16, "22222222"),
        ack(0, 1),
        get(1, 16),
        data(1, "22222222"),
    ],
    "corrupt byte next to a good one": [
        put(0, 16, "11111111", corrupt=1),
        ack(0),
        put(0, 16, "22222222", "1"),
        ack(0),
        get(1, 16),
        data(1, "11111122", corrupt=1),
    ],
    "corrupt write": [put(0, 16, "11111111", corrupt=1), ack(0), get(1, 16), data(1, "99999999")],
    "corrupt and denied reads": [
        put(0, 16, "11111111"),
        ack(0),
        get(1, 20),
        data(1, "00000000", corrupt=1),
        get(1, 16),
        data(1, "00000000", denied=1),
    ],
    "burst": [
        put(0, 16, "11111111", size=3),
        put(0, 16, "22222222", size=3),
        ack(0),
        get(1, 16, 3),
        data(1, "11111111", 3),
        data(1, "22222222", 3),
    ],
    "add": [
        put(0, 16, "ffffffff"),
        ack(0),
        atomic(0, 16, 2, 4, "00000002"),
        data(0, "ffffffff"),
        get(1, 16),
        data(1, "00000001"),
    ],
    "signed minimum": [
        put(0, 16, "ffffffff"),
        ack(0),
        atomic(0, 16, 2, 0, "00000002"),
        data(0, "ffffffff"),
        get(1, 16),
        data(1, "ffffffff"),
    ],
    "unsigned minimum": [
        put(0, 16, "ffffffff"),
        ack(0),
        atomic(0, 16, 2, 2, "00000002"),
        data(0, "ffffffff"),
        get(1, 16),
        data(1, "00000002"),
    ],
    "swap": [
        put(0, 16, "12345678"),
        ack(0),
        atomic(0, 16, 3, 3, "00000002"),
        data(0, "12345678"),
        get(1, 16),
        data(1, "00000002"),
    ],
    "denied atomic": [
        put(0, 16, "12345678"),
        ack(0),
        atomic(0, 16, 3, 3, "00000002"),
        data(0, "00000000", denied=1),
        get(1, 16),
        data(1, "12345678"),
    ],
    # the source's next request comes before its response has ended
    "source used again": [
        put(0, 16, "11111111", size=3),
        put(0, 16, "22222222", size=3),
        ack(0),
        get(1, 16, 3),
        data(1, "11111111", 3),
        get(1, 16),
        data(1, "22222222", 3),
        data(1, "11111111"),
    ],
    # an atomic before the acknowledgement of a put to the same bytes
    "atomic beside a put": [
        put(0, 16, "11111111"),
        ack(0),
        put(0, 16, "22222222"),
        atomic(1, 16, 2, 4, "00000001"),
        data(1, "11111111"),
        ack(0),
        get(1, 16),
        data(1, "22222222"),
    ],
    "atomic after that put": [
        put(0, 16, "11111111"),
        ack(0),
        put(0, 16, "22222222"),
        atomic(1, 16, 2, 4, "00000001"),
        ack(0),
        data(1, "22222222"),
        get(1, 16),
        data(1, "22222223"),
    ],
    # the response comes after the first beat of the put
    "early acknowledgement": [
        put(0, 16, "11111111", size=3),
        ack(0),
        put(0, 16, "22222222", size=3),
        get(1, 16, 3),
        data(1, "11111111", 3),
        data(1, "22222222", 3),
    ],
    "a write that is only offered": [
        put(0, 16, "11111111"),
        ack(0),
        get(1, 16),
        data(1, "22222222"),
        put(0, 16, "22222222"),
        ack(0),
    ],
}
WRONG = {
    "other byte": (
        [put(0, 16, "44332211"), ack(0), get(1, 16), data(1, "44332212")],
        "reads 12 at 0x10, which holds 11",
    ),
    "unknown": ([put(0, 16, "44332211"), ack(0), get(1, 16), data(1, "xx332211")], "reads xx at 0x13, which holds 44"),
    "older value": (
        [put(0, 16, "11111111"), ack(0), put(0, 16, "22222222"), ack(0), get(1, 16), data(1, "11111111")],
        "which holds 22",
    ),
    "mask ignored": (
        [put(0, 16, "44332211"), ack(0), put(0, 16, "88776655", "3"), ack(0), get(1, 16), data(1, "88776655")],
        "reads 77 at 0x12",
    ),
    "second beat": (
        [put(0, 16, "11111111", size=3), put(0, 16, "22222222", size=3), ack(0), get(1, 20), data(1, "11111111")],
        "at 0x14, which holds 22",
    ),
    "atomic result": (
        [
            put(0, 16, "00000005"),
            ack(0),
            atomic(0, 16, 2, 4, "00000002"),
            data(0, "00000005"),
            get(1, 16),
            data(1, "00000008"),
        ],
        "reads 08 at 0x10, which holds 07",
    ),
    "corrupt for ever": (
        [
            put(0, 16, "11111111", corrupt=1),
            ack(0),
            put(0, 16, "22222222"),
            ack(0),
            get(1, 16),
            data(1, "22222222", corrupt=1),
        ],
        "is corrupt at 0x10, and good puts wrote all its bytes",
    ),
    "after an early acknowledgement": (
        [
            put(0, 16, "11111111", size=3),
            ack(0),
            put(0, 16, "22222222", size=3),
            get(1, 20),
            data(1, "11111111"),
        ],
        "at 0x14, which holds 22",
    ),
    "atomic returns the new value": (
        [put(0, 16, "00000005"), ack(0), atomic(0, 16, 2, 4, "00000002"), data(0, "00000007")],
        "reads 07 at 0x10",
    ),
    "neither of two": (
        [put(0, 16, "11111111"), put(1, 16, "22222222"), ack(1), ack(0), get(2, 16), data(2, "33222222")],
        "which holds 11 or 22",
    ),
}


@pytest.mark.parametrize("case", RIGHT)
def test_right(tmp_path: Path, case: str) -> None:
    assert words_of(tmp_path, RIGHT[case]) == ""


@pytest.mark.parametrize("case", WRONG)
def test_wrong(tmp_path: Path, case: str) -> None:
    lines, words = WRONG[case]
    assert words in words_of(tmp_path, lines)


def test_what_an_atomic_leaves() -> None:
    """MIN, MAX, MINU, MAXU and ADD, then XOR, OR, AND and SWAP, of bytes."""

    def signed(value: int) -> int:
        return value - 256 if value > 127 else value

    for old in (0, 1, 2, 3, 126, 127, 128, 129, 254, 255):
        for new in (0, 1, 2, 3, 126, 127, 128, 129, 254, 255):
            least, most = sorted((old, new), key=signed)
            left = [least, most, min(old, new), max(old, new), (old + new) % 256]
            assert [computed(2, param, 0, old, new) for param in range(5)] == left
            left = [old ^ new, old | new, old & new, new]
            assert [computed(3, param, 0, old, new) for param in range(4)] == left
    assert computed(2, 4, 3, 1 << 63, 1 << 63) == 0
