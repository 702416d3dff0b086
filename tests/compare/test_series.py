"""Judges two blocks in a row as one, by the monitor files of the two outer links, as docs/CONNECT.md says.

Each block is a bridge of the model. The near beats of a random lawful conversation go through both: the far beats of
the first one are the near beats of the second one, and the other way round for B and D. Then `sv/compare` judges the
outer links as those of one bridge. The far beats are computed by the unverified model, and by the verified program if
it is built.
"""

import subprocess
from pathlib import Path
from typing import Any, Dict, List, Tuple

import pytest
from project import MODEL, ROOT, needs_program
from random_traces import lawful_trace, model

COMPARE = ROOT / "sv" / "compare"
TO_MANAGER, TO_CLIENT = "ACE", "BD"
# Bytes of the client's link, of the link between both blocks, and of the manager's link. The link between is wider than
# both others, or not.
NOT_WIDER = ((8, 4, 4), (4, 4, 16), (32, 8, 2), (8, 1, 4), (4, 16, 16))
WIDER = ((4, 8, 4), (8, 32, 4), (1, 64, 2))

Lines = Dict[str, List[str]]  # by channel


@pytest.fixture(params=["model", pytest.param("program", marks=pytest.mark.program)])
def tlbridge(request: Any) -> Path:
    """The program that computes what comes out."""
    return MODEL if request.param == "model" else needs_program("tlbridge")


def by_channel(lines: List[str]) -> Lines:
    return {channel: [line for line in lines if line[0] == channel] for channel in "ABCDE"}


def part(lines: Lines, channels: str) -> Lines:
    return {channel: lines[channel] for channel in channels}


def far_beats(tlbridge: Path, client: int, manager: int, near: Lines) -> Lines:
    """What one bridge gives. It may keep beats waiting, but refuses none."""
    lines = [f"tilelink-trace 1 client {client} manager {manager}", *(line for some in near.values() for line in some)]
    text = "\n".join([*lines, ""]).encode()
    if tlbridge == MODEL:
        answer = model.answer(text).output()
    else:
        answer = subprocess.run([tlbridge, "run"], input=text, stdout=subprocess.PIPE, timeout=60, check=False).stdout
    header, *came = answer.decode().splitlines()
    assert header.startswith("tilelink-far ") and not [line for line in came if " refused " in line]
    return by_channel([line for line in came if line[0] != "="])


def in_series(tlbridge: Path, widths: Tuple[int, int, int], near: Lines) -> Tuple[Lines, Lines]:
    """The beats of all channels on the link between two bridges, and those that come out on the outer links.

    A response comes back to the link between only after its request has gone over it, so this goes on until nothing
    more comes.
    """
    client, middle, manager = widths
    back: Lines = {channel: [] for channel in TO_CLIENT}
    while True:
        first = far_beats(tlbridge, client, middle, {**part(near, TO_MANAGER), **back})
        second = far_beats(tlbridge, middle, manager, {**part(first, TO_MANAGER), **part(near, TO_CLIENT)})
        if part(second, TO_CLIENT) == back:
            return {**part(first, TO_MANAGER), **back}, {**part(second, TO_MANAGER), **part(first, TO_CLIENT)}
        back = part(second, TO_CLIENT)


class Links:
    """The three links of two blocks in a row, and a folder with the file that a monitor writes at each."""

    def __init__(self, tlbridge: Path, folder: Path, widths: Tuple[int, int, int], corrupt: float) -> None:
        client, middle, manager = widths
        text = lawful_trace(client, manager, 120, middle, sizes=range(5), corrupt=corrupt, denied=corrupt)
        near = by_channel(text.decode().splitlines()[1:])
        self.tlbridge, self.folder, self.widths = tlbridge, folder, dict(zip(("client", "middle", "manager"), widths))
        self.between, self.out = in_series(tlbridge, widths, near)
        self.one = far_beats(tlbridge, client, manager, near)
        assert all(self.one.values())
        self.write("client", {**part(near, TO_MANAGER), **part(self.out, TO_CLIENT)})
        self.write("middle", self.between)
        self.write("manager", {**part(self.out, TO_MANAGER), **part(near, TO_CLIENT)})

    def write(self, link: str, lines: Lines) -> None:
        (self.folder / f"{link}.beats").write_text(
            "".join(f"{line}\n" for channel in "ABCDE" for line in lines[channel])
        )

    def change(self, link: str, old: str, new: str) -> None:
        """Replaces one beat in the file of a link."""
        path = self.folder / f"{link}.beats"
        assert old in path.read_text()
        path.write_text(path.read_text().replace(old, new, 1))

    def judge(self, client: str, manager: str) -> Tuple[int, List[str]]:
        """The status of a comparison of two links, and its lines on beats that differ."""
        words = [str(self.widths[client]), str(self.widths[manager]), f"{client}.beats", f"{manager}.beats"]
        done = subprocess.run(
            [COMPARE, "--program", self.tlbridge, *words],
            cwd=self.folder,
            stdout=subprocess.PIPE,
            stderr=subprocess.DEVNULL,
            text=True,
            timeout=60,
            check=False,
        )
        return done.returncode, [line for line in done.stdout.splitlines() if "far beat " in line]


def named(widths: Tuple[int, int, int]) -> str:
    return "-".join(map(str, widths))


@pytest.mark.parametrize("widths", NOT_WIDER, ids=named)
def test_two_blocks_are_judged_as_one(tlbridge: Path, tmp_path: Path, widths: Tuple[int, int, int]) -> None:
    """If the link between is not wider than both outer ones, with corrupt beats too."""
    links = Links(tlbridge, tmp_path, widths, 0.5)
    assert links.out == links.one
    assert links.judge("client", "manager") == (0, [])


@pytest.mark.parametrize("widths", WIDER, ids=named)
def test_a_wider_link_between_makes_no_difference_without_corrupt_beats(
    tlbridge: Path, tmp_path: Path, widths: Tuple[int, int, int]
) -> None:
    links = Links(tlbridge, tmp_path, widths, 0.0)
    assert links.out == links.one
    assert links.judge("client", "manager") == (0, [])


@pytest.mark.parametrize("widths", WIDER, ids=named)
def test_a_wider_link_between_gathers_corrupt(tlbridge: Path, tmp_path: Path, widths: Tuple[int, int, int]) -> None:
    """Then two right blocks differ from one bridge in `corrupt` alone, and each block by itself is right."""
    links = Links(tlbridge, tmp_path, widths, 0.9)
    for channel in "ABCDE":
        for came, one in zip(links.out[channel], links.one[channel]):
            assert came[:-1] == one[:-1] and came[-1] >= one[-1]
        assert len(links.out[channel]) == len(links.one[channel])
    status, said = links.judge("client", "manager")
    assert status == 1 and said and all("corrupt is 1, expected 0" in line for line in said)
    assert links.judge("client", "middle") == (0, [])
    assert links.judge("middle", "manager") == (0, [])


def test_a_mistake_of_either_block_is_seen(tlbridge: Path, tmp_path: Path) -> None:
    """As a far beat of the outer links that differs. A comparison with the link between names the block."""
    links = Links(tlbridge, tmp_path, (8, 4, 16), 0.0)
    line = next(line for line in links.out["C"] if line.split(" ")[1] == "7")
    *words, data, corrupt = line.split(" ")
    inverted = int(data, 16) ^ (16 ** len(data) - 1)
    links.change("manager", line, " ".join([*words, f"{inverted:0{len(data)}x}", corrupt]))
    status, (said,) = links.judge("client", "manager")
    assert status == 1 and said.startswith("C: far beat ") and ": data is " in said
    assert links.judge("client", "middle") == (0, [])
    status, (again,) = links.judge("middle", "manager")
    assert status == 1 and again.partition("; ")[0] == said.partition("; ")[0]


def test_a_wider_link_between_keeps_the_end_of_a_burst_that_is_cut_off(tlbridge: Path, tmp_path: Path) -> None:
    """Three beats of 4 bytes out of four fill one beat of 8."""
    put = "A 0 0 4 01 0000000000001000 f 33221100 0"
    near = {**by_channel([]), "A": [put] * 3}
    between, out = in_series(tlbridge, (4, 8, 4), near)
    assert [len(lines["A"]) for lines in (between, out, far_beats(tlbridge, 4, 4, near))] == [1, 2, 3]
