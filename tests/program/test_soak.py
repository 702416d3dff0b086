"""Sends random traces through the verified program, and compares each answer with that of the unverified model.

Each case is one text (tests/lib/random_traces.py). The program gets it five times. Standard output, standard error and
the exit status have to be those of the unverified model, ./tlbridge-model. So the five runs also agree with each other.
A case depends only on the seed and its number, which each disagreement names: `Maker(SEED, NUMBER).text()` makes it
again.

The variable SOAK_SECONDS is how long each seed is tried, 60 by default, and SOAK_SEEDS how many there are, 4 by
default, which run side by side.
"""

import os
import subprocess
import time
from collections import Counter
from pathlib import Path
from typing import Any, List, Sequence, Tuple

import pytest
from differences import Differences
from project import needs_program
from random_traces import CHANNELS, OPCODES, PAIRS, Maker, model

SECONDS = float(os.environ.get("SOAK_SECONDS", "60"))
SEEDS = range(1, 1 + int(os.environ.get("SOAK_SEEDS", "4")))
ORDERS = (
    ("run",),
    ("run", "--sync"),
    ("run", "--ring", "1", "--turns", "1"),
    ("run", "--ring", "4096", "--turns", "1000"),
    ("check",),
)
# One round of all pairs of widths, for the quick test.
FEW = len(PAIRS)


def run(program: Path, order: Sequence[str], text: bytes) -> Tuple[Any, bytes, bytes]:
    """How a run ends: its status and both outputs."""
    try:
        ended = subprocess.run([program, *order], input=text, capture_output=True, timeout=120)
    except subprocess.TimeoutExpired:
        return "it does not end", b"", b""
    return ended.returncode, ended.stdout, ended.stderr


def judge(differences: Differences, program: Path, seed: object, number: int) -> "Counter[Any]":
    """Compares one case by each kind of run. Returns what is counted of it."""
    maker = Maker(seed, number)
    text = maker.text()
    wanted = model.answer(text, responses_first=number % 2 == 1)
    for order in ORDERS:
        expected = wanted.status, wanted.output(order == ("check",)), wanted.error("tlbridge")
        differences.same(f"case {seed}/{number} by {' '.join(order)}", run(program, order, text), expected)
    return Counter([maker.kind, f"version {maker.version}", (maker.client, maker.manager), *ends_of(wanted)])


def ends_of(wanted: Any) -> List[str]:
    """What is counted of an answer: its status, the fault of the text or the verdict of each channel, and what has
    arrived."""
    ends = [f"status {wanted.status}"]
    if wanted.fault:
        place, _, fault = str(wanted.fault).partition(": ")
        return [*ends, f"{fault}, {'line 1' if place == 'line 1' else 'a later line'}"]
    for channel, words in zip(CHANNELS, wanted.verdicts):
        kind, near, *rest = words.split()
        verdict = kind if near != "0" or kind != "done" else "without beats"
        fault = "" if kind in ("done", "cut") else rest[0]
        ends.append(f"{channel} {verdict} {fault}".strip())
    for line in wanted.far_lines:
        ends.append(f"far beats: {line[0]} {'GrantAck' if line[0] == 'E' else OPCODES[line[0]][int(line[2])][0]}")
    return ends


def test_a_case_of_each_pair_of_widths(tlbridge: Path, differences: Differences) -> None:
    """A short run of the same, for each change."""
    seen: "Counter[Any]" = Counter()
    for number in range(FEW):
        seen += judge(differences, tlbridge, "quick", number)
    differences.same("pairs of widths that no case had", {*PAIRS} - {*seen}, set())


@pytest.mark.long
@pytest.mark.parametrize("seed", SEEDS)
def test_random_traces(differences: Differences, seed: int, capsys: pytest.CaptureFixture[str]) -> None:
    """Random cases for some time. How many there were of each kind, end and message is printed."""
    program, until, number = needs_program("tlbridge"), time.monotonic() + SECONDS, 0
    seen: "Counter[Any]" = Counter()
    while time.monotonic() < until or number < FEW:
        seen += judge(differences, program, seed, number)
        number += 1
    pairs = [seen.pop(pair, 0) for pair in PAIRS]
    with capsys.disabled():
        print(f"\nseed {seed}: {number} cases, {min(pairs)} of the rarest pair of widths")
        for what, count in sorted(seen.items()):
            print(f"{count:9d} {what}")
