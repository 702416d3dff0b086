"""Connects a second bridge after the first one, and checks that it refuses nothing.

The traffic is every readable trace of examples/, lawful traces of tlbridge.traffic, and as many random cases of
tests/lib/random_traces.py, which also have denied responses, corrupt beats and faults. From each answer the test takes
the beats that were accepted on each channel and those that arrived, and asks the program three more questions:

- the manager's link: are the far beats of A, C and E lawful there, together with the near beats of B and D that were
  accepted?
- the client's link: are the far beats of B and D lawful there, together with the near beats of A, C and E that were
  accepted?
- a second bridge from the manager's link, of M bytes, to one of K bytes, where K is 1, 4, 32 and the client's width:
  does it accept everything, and do B and D return from K bytes as they were, or marked corrupt if a beat of K bytes
  was? If A or D ends within a burst, K is at most M.

None may refuse a beat or keep one waiting, and far beats that are offered again at their own width come out unchanged.
"""

import subprocess
from pathlib import Path
from typing import Any, Dict, List, Sequence

import pytest
from differences import Differences
from project import EXAMPLES, ROOT, needs_program
from random_traces import Maker, lawful_trace

TO_MANAGER, TO_CLIENT = "ACE", "BD"
SECOND_WIDTHS = (1, 4, 32)
SPREAD = 27  # has no factor in common with the number of pairs of widths
MOST = 24  # random traces of each kind
PAIRS = ((8, 4), (4, 8), (8, 8), (1, 64), (64, 1), (16, 2), (2, 32), (128, 16), (16, 128))


class UnreadableError(Exception):
    """The program gave no answer: the text is not a trace."""


class Link:
    """The widths and the version of a trace, and its near beats: lines by channel."""

    def __init__(self, version: int, client: int, manager: int, beats: Dict[str, List[str]]) -> None:
        self.version, self.client, self.manager, self.beats = version, client, manager, beats

    @classmethod
    def of_text(cls, text: str) -> "Link":
        first, *lines = text.splitlines()
        _, version, _, client, _, manager = first.split(" ")
        return cls(
            int(version),
            int(client),
            int(manager),
            {channel: [line for line in lines if line[0] == channel] for channel in "ABCDE"},
        )

    def text(self) -> str:
        lines = [line for channel in "ABCDE" for line in self.beats.get(channel, [])]
        return "\n".join([f"tilelink-trace {self.version} client {self.client} manager {self.manager}", *lines, ""])


class Answer:
    """The program's answer: the far beats as lines by channel, and each channel's verdict and number of accepted
    beats."""

    def __init__(self, program: Path, text: str) -> None:
        done = subprocess.run(
            [program, "run", "--sync"], input=text.encode("latin-1"), capture_output=True, timeout=60, check=False
        )
        if done.returncode not in (0, 1):
            raise UnreadableError(done.stderr)
        lines = done.stdout.decode().splitlines()[1:]
        self.far = {channel: [line for line in lines if line[0] == channel] for channel in "ABCDE"}
        reports = [line.split(" ") for line in lines if line[0] == "="]
        if [words[1] for words in reports] != list("ABCDE"):
            raise ValueError(f"the answer has {len(reports)} report lines")
        self.verdicts = {words[1]: words[2] for words in reports}
        self.accepted = {words[1]: int(words[3]) for words in reports}

    def stopped(self) -> List[str]:
        return [f"{channel} {kind}" for channel, kind in self.verdicts.items() if kind in ("refused", "waiting")]


def accepted(link: Link, answer: Answer, channels: str) -> Dict[str, List[str]]:
    return {channel: link.beats[channel][: answer.accepted[channel]] for channel in channels}


def arrived(answer: Answer, channels: str) -> Dict[str, List[str]]:
    return {channel: answer.far[channel] for channel in channels}


def link_fails(program: Path, link: Link, sent_again: Any) -> List[str]:
    """What is wrong with a history of one link: beats that are refused, or far beats of a first bridge that change at
    their own width."""
    answer = Answer(program, link.text())
    changed = [channel for channel in sent_again if answer.far[channel] != link.beats[channel]]
    return answer.stopped() + [f"{channel} changed" for channel in changed]


def second_bridge(program: Path, version: int, middle: int, last: int, beats: Any) -> Answer:
    """Two bridges in a row. A, C and E go on from `middle` to `last` bytes. B and D begin with `middle` bytes and are
    laid out at `last` bytes first, by a bridge the other way round, as far as the requests that came have it, until
    nothing more comes."""
    responses: Dict[str, List[str]] = {"B": [], "D": []}
    while True:
        there = Link(version, middle, last, {**{channel: beats[channel] for channel in TO_MANAGER}, **responses})
        answer = Answer(program, there.text())
        back = Link(version, last, middle, {"A": answer.far["A"], **{channel: beats[channel] for channel in TO_CLIENT}})
        came = arrived(Answer(program, back.text()), TO_CLIENT)
        if came == responses:
            return answer
        responses = came


def comes_back(far: Sequence[str], sent: Sequence[str]) -> bool:
    """Whether the far beats that arrived are the first ones of those that were sent. A wider link between marks all of
    its beat corrupt, so more may be corrupt."""
    return all(came[:-1] == beat[:-1] and came[-1] >= beat[-1] for came, beat in zip(far, sent))


def second_fails(program: Path, version: int, middle: int, last: int, beats: Any) -> List[str]:
    answer = second_bridge(program, version, middle, last, beats)
    sent = arrived(Answer(program, Link(version, middle, middle, beats).text()), TO_CLIENT)
    found = answer.stopped()
    for channel in TO_CLIENT:
        far = answer.far[channel]
        is_short = len(far) != len(sent[channel]) and answer.verdicts[channel] != "cut"
        if is_short or not comes_back(far, sent[channel]):
            found.append(f"{channel} did not come back as it was")
    return found


def fails(program: Path, text: str) -> List[str]:
    """Each error after the bridge of this trace, in words."""
    answer = Answer(program, text)
    link = Link.of_text(text)
    at_manager = {**arrived(answer, TO_MANAGER), **accepted(link, answer, TO_CLIENT)}
    at_client = {**accepted(link, answer, TO_MANAGER), **arrived(answer, TO_CLIENT)}
    found = [
        f"manager's link: {what}"
        for what in link_fails(program, Link(link.version, link.manager, link.manager, at_manager), TO_MANAGER)
    ]
    found += [
        f"client's link: {what}"
        for what in link_fails(program, Link(link.version, link.client, link.client, at_client), TO_CLIENT)
    ]
    own = Answer(program, Link(link.version, link.manager, link.manager, at_manager).text())
    is_cut = "cut" in (own.verdicts["A"], own.verdicts["D"])
    for last in sorted({*SECOND_WIDTHS, link.client}):
        if is_cut and last > link.manager:
            continue  # a burst that ends early may fill no beat of a wider link, so its source stays busy
        found += [
            f"second bridge to {last}: {what}"
            for what in second_fails(program, link.version, link.manager, last, at_manager)
        ]
    return found


def random_trace(number: int) -> str:
    client, manager = PAIRS[number % len(PAIRS)]
    return lawful_trace(client, manager, 150, number, sources=(1, 3, 8)[number % 3], sizes=range(9)).decode()


def soaked(number: int) -> str:
    """The text of a random case, every second one with faults. The pairs of widths are spread
    over all of them."""
    case = Maker("chain", SPREAD * number)
    case.kind = ("lawful", "faulty")[number % 2]
    return case.text().decode()


EXAMPLE_TRACES = sorted(EXAMPLES.rglob("*.trace"))


def test_the_examples(differences: Differences) -> None:
    """Each readable trace of examples/. Most of them are."""
    program, count = needs_program("tlbridge"), 0
    for path in EXAMPLE_TRACES:
        try:
            found = fails(program, path.read_text(encoding="latin-1"))
        except UnreadableError:
            continue
        count += 1
        differences.same(str(path.relative_to(ROOT)), found, [])
    differences.holds("most examples are traces", count > len(EXAMPLE_TRACES) // 2, count)


@pytest.mark.parametrize("number", range(MOST))
def test_a_random_trace(number: int) -> None:
    assert fails(needs_program("tlbridge"), random_trace(number)) == []


@pytest.mark.parametrize("number", range(MOST))
def test_a_random_case(number: int) -> None:
    """Every second one with faults."""
    assert fails(needs_program("tlbridge"), soaked(number)) == []
