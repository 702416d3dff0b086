"""The judge of corrupt bytes, over beats of two links that are written by hand. No simulator is needed."""

from pathlib import Path
from typing import List

import pytest

from tlbridge.verify.bench import Run
from tlbridge.verify.corrupt import corrupt_problems
from tlbridge.verify.design import Design, Link, Signal, Source
from tlbridge.verify.judge import Beats


def get(source: int, address: int) -> str:
    return f"A 4 0 2 {source:02x} {address:016x} f 00000000 0"


def put(source: int, address: int, data: str, corrupt: int = 0) -> str:
    return f"A 0 0 2 {source:02x} {address:016x} f {data} {corrupt}"


def data(source: int, value: str, corrupt: int = 0, denied: int = 0) -> str:
    return f"D 1 0 2 {source:02x} 00 {denied} {value} {corrupt}"


def link() -> Link:
    signals = {"data": Signal("data", 0, 32, "input"), "corrupt": Signal("corrupt", 0, 1, "input")}
    return Link("", {"A": dict(signals), "D": dict(signals)})


def words_of(folder: Path, client: List[str], manager: List[str]) -> str:
    """What the judge says of these beats; an empty text: nothing."""
    for side, lines in (("client", client), ("manager", manager)):
        (folder / f"{side}.beats").write_text("".join(line + "\n" for line in lines))
        (folder / f"{side}.beats.times").write_text("".join(f"{10 * at}\n" for at in range(len(lines))))
    design = Design(Source("remapper", ()), {}, client=link(), manager=link())
    problems = corrupt_problems(design, Beats(design, Run(folder, "")))
    assert len(problems) == len({problem.channel for problem in problems})  # the first one of each direction
    return problems[0].words if problems else ""


# By case, the beats of the client's link, and of the manager's.
RIGHT = {
    "a corrupt response stays corrupt": (
        [get(5, 16), data(5, "44332211", 1)],
        [get(0, 16), data(0, "44332211", 1)],
    ),
    # the response with unknown data is that of the first request, also if the source of the other link differs
    "unknown data in a corrupt response": (
        [get(5, 16), data(5, "xx332211", 1, 1), get(6, 32), data(6, "88776655"), get(7, 64), data(7, "99999999", 1)],
        [get(0, 16), data(0, "xx332211", 1, 1), get(0, 32), data(0, "88776655"), get(0, 64), data(0, "99999999", 1)],
    ),
    "unknown data of several requests of one source": (
        [
            *(get(5, 16), data(5, "xxxxxxxx", 1), get(6, 64), data(6, "11111111")),
            *(get(7, 32), data(7, "22222222", 1), get(8, 96), data(8, "22222222")),
        ],
        [
            *(get(0, 16), data(0, "xxxxxxxx", 1), get(0, 64), data(0, "11111111")),
            *(get(0, 32), data(0, "22222222", 1), get(0, 96), data(0, "22222222")),
        ],
    ),
    "bytes outside a mask": (
        [put(5, 32, "44332211", 1), put(6, 32, "00000099").replace("A 0", "A 1").replace(" f ", " 1 ")],
        [put(0, 32, "44332211", 1), put(1, 32, "44332299").replace("A 0", "A 1").replace(" f ", " 1 ")],
    ),
    "one value as good data and as corrupt data": (
        [get(5, 16), data(5, "44332211"), get(6, 16), data(6, "44332211", 1)],
        [get(0, 16), data(0, "44332211"), get(1, 16), data(1, "44332211", 1)],
    ),
    "an atomic that is computed": (
        [put(5, 16, "44332211", 1), get(5, 16).replace("A 4", "A 3"), data(5, "44332200")],
        [put(0, 16, "44332211", 1), get(0, 16), data(0, "44332200"), put(0, 16, "44332211")],
    ),
    "a byte that was read before": (
        [put(5, 16, "44332211", 1)],
        [put(0, 16, "44332211", 1), get(0, 16), data(0, "44332211"), put(0, 16, "44332211")],
    ),
    "corrupt spreads": ([put(5, 16, "44332211"), get(6, 16)], [put(0, 16, "44332211", 1), get(1, 16)]),
}
WRONG = {
    "a response loses corrupt": (
        [get(5, 16), data(5, "44332211")],
        [get(0, 16), data(0, "44332211", 1)],
        "has 11 at 0x10 as a good byte, which is corrupt on the manager link",
    ),
    "a put loses corrupt": (
        [put(5, 32, "44332211", 1)],
        [put(0, 32, "44332211")],
        "has 11 at 0x20 as a good byte, which is corrupt on the client link",
    ),
    "a put loses corrupt before it is read": (
        [put(5, 32, "44332211", 1)],
        [put(0, 32, "44332211"), get(0, 32), data(0, "44332211")],
        "has 11 at 0x20 as a good byte, which is corrupt on the client link",
    ),
    "a put loses corrupt after corrupt data": (
        [put(5, 32, "44332211", 1)],
        [get(0, 32), data(0, "44332211", 1), put(0, 32, "44332211")],
        "has 11 at 0x20 as a good byte, which is corrupt on the client link",
    ),
    "a put with a mask loses corrupt": (
        [put(5, 32, "44332211", 1).replace("A 0", "A 1").replace(" f ", " 8 ")],
        [put(0, 32, "44332211").replace("A 0", "A 1").replace(" f ", " 8 ")],
        "has 44 at 0x23 as a good byte, which is corrupt on the client link",
    ),
    "beside an atomic that is passed on": (
        [get(6, 32).replace("A 4", "A 3"), put(5, 32, "44332211", 1), get(7, 16).replace("A 4", "A 2")],
        [get(0, 32).replace("A 4", "A 3"), put(0, 32, "44332211")],
        "has 11 at 0x20 as a good byte, which is corrupt on the client link",
    ),
    "behind a response with unknown data": (
        [get(5, 16), data(5, "xxxxxxxx", 1), get(6, 64), data(6, "44332211")],
        [get(0, 16), data(0, "xxxxxxxx", 1), get(0, 64), data(0, "44332211", 1)],
        "has 11 at 0x40 as a good byte, which is corrupt on the manager link",
    ),
}


@pytest.mark.parametrize("case", RIGHT)
def test_right(tmp_path: Path, case: str) -> None:
    assert words_of(tmp_path, *RIGHT[case]) == ""


@pytest.mark.parametrize("case", WRONG)
def test_wrong(tmp_path: Path, case: str) -> None:
    client, manager, words = WRONG[case]
    assert words in words_of(tmp_path, client, manager)
