"""Requests and responses of one link, matched in time: each rule of python/tlbridge/matching.py by a few messages, on
each pair of channels.
"""

from typing import List, Optional, Tuple

import pytest
from tlbridge.levels import fault_of, lowest_level
from tlbridge.matching import LinkMatcher, Message

Event = Tuple[str, int, int]  # a kind of message, its source or sink, and its time
# The channel and the opcode of each kind: request, response, probe, ProbeAck, Release, ReleaseAck, GrantAck. A Grant
# responds to a request, so it has source 00 here.
LINES = {
    "A": "A 4 0 2 {:02x} 0000000000001000 f 00000000 0",
    "D": "D 1 0 2 {:02x} 00 0 00000000 0",
    "B": "B 6 0 2 {:02x} 0000000000001000 f 00000000 0",
    "K": "C 4 0 2 {:02x} 0000000000001000 00000000 0",
    "C": "C 6 1 2 {:02x} 0000000000001000 00000000 0",
    "R": "D 6 0 2 {:02x} 00 0 00000000 0",
    "G": "D 4 0 2 00 {:02x} 0 00000000 0",
    "E": "E {:02x}",
}
PAIRS = ("AD", "BK", "CR", "GE")


def message(kind: str, name: int, time: Optional[int], size: int = 2) -> Message:
    words = LINES[kind].format(name).split(" ")
    opcode, source = (0, "") if kind == "E" else (int(words[1]), words[4])
    return Message(words[0], opcode, size, source, time, str(time), " ".join(words))


def found(events: List[Event], end: int = 1000, matcher: Optional[LinkMatcher] = None) -> List[Tuple[str, str, int]]:
    """The findings of these messages: kind, channel and time."""
    matcher = matcher or LinkMatcher(4)
    moment = None
    for channel, source, time in events:
        if time != moment:
            matcher.flush()
        moment = time
        matcher.message(message(channel, source, time))
    matcher.finish(end)
    return [(finding.kind, finding.at.channel, finding.at.time or 0) for finding in matcher.findings]


def found_on(pair: str, events: List[Event]) -> List[Tuple[str, str, int]]:
    """The findings of these messages, in which A and D stand for the request and the response of this pair. Grants
    respond to requests of one source, which come first."""
    moved = [(pair["AD".index(kind)], name, time) for kind, name, time in events]
    asked = [("A", 0, time) for kind, _, time in moved if kind == "G"]
    return found(sorted([*asked, *moved], key=lambda event: event[2]))


@pytest.mark.parametrize("pair", PAIRS)
def test_right(pair: str) -> None:
    """Several sources, a response in the cycle of its request, and a request in the cycle that frees its source."""
    assert found_on(pair, [("A", 1, 10), ("A", 2, 20), ("D", 2, 30), ("D", 1, 40), ("A", 1, 50), ("D", 1, 60)]) == []
    assert found_on(pair, [("A", 1, 10), ("D", 1, 10)]) == []
    assert found_on(pair, [("D", 1, 10), ("A", 1, 10)]) == []
    assert found_on(pair, [("A", 1, 10), ("A", 1, 20), ("D", 1, 20), ("D", 1, 30)]) == []


def test_pairs_do_not_mix() -> None:
    """A ReleaseAck is no response to a request, and a Release none to a probe."""
    assert found([("A", 1, 10), ("R", 1, 20), ("D", 1, 30)]) == [("stray", "D", 20)]
    assert found([("C", 1, 10), ("D", 1, 20), ("R", 1, 30)]) == [("stray", "D", 20)]
    assert found([("B", 1, 10), ("C", 1, 20), ("B", 1, 30), ("R", 1, 40)]) == [("lost", "B", 10)]
    assert found([("A", 0, 10), ("G", 5, 20), ("E", 0, 30)]) == [("stray", "E", 30)]


@pytest.mark.parametrize("pair", PAIRS[1:])
def test_each_pair(pair: str) -> None:
    """A stray, a doubled, a lost and an early response on B and C, C and D, D and E."""
    ask, come = (LINES[kind][0] for kind in pair)
    assert found_on(pair, [("D", 1, 10), ("A", 1, 20), ("D", 1, 30)]) == [("stray", come, 10)]
    assert found_on(pair, [("A", 1, 10), ("D", 1, 20), ("D", 1, 30)]) == [("doubled", come, 30)]
    assert found_on(pair, [("A", 1, 10), ("A", 1, 20), ("D", 1, 30)]) == [("lost", ask, 10)]
    assert found_on(pair, [("A", 1, 10), ("A", 2, 20), ("D", 2, 30)])[-1:] == [("lost", ask, 10)]
    assert found_on(pair, [("D", 1, 10), ("A", 1, 20), ("A", 1, 30), ("D", 1, 40)]) == [("early", come, 10)]


def test_probes_of_two_addresses() -> None:
    """Probes of one source differ in their address."""
    matcher = LinkMatcher(4)
    other = message("B", 1, 20)
    for sent in (message("B", 1, 10), other._replace(line=other.line.replace("1000", "2000")), message("K", 1, 30)):
        matcher.message(sent)
        matcher.flush()
    assert not matcher.findings and [asked.time for asked in matcher.outstanding()] == [20]


def test_stray() -> None:
    assert found([("D", 1, 10), ("A", 1, 20), ("D", 1, 30)]) == [("stray", "D", 10)]
    assert found([("A", 1, 10), ("D", 2, 20), ("D", 1, 30)]) == [("stray", "D", 20)]


def test_doubled() -> None:
    assert found([("A", 1, 10), ("D", 1, 20), ("D", 1, 30), ("A", 1, 40), ("D", 1, 50)]) == [("doubled", "D", 30)]
    assert found([("A", 1, 10), ("D", 1, 10), ("D", 1, 10)]) == [("doubled", "D", 10)]


def test_lost() -> None:
    """The request is named. It is seen when its source is used again, or at the end, after later ones."""
    matcher = LinkMatcher(4)
    assert found([("A", 1, 10), ("A", 1, 20), ("D", 1, 30)], matcher=matcher) == [("lost", "A", 10)]
    assert (matcher.findings[0].seen, matcher.findings[0].other and matcher.findings[0].other.time) == (20, 20)
    matcher = LinkMatcher(4)
    assert found([("A", 1, 10), ("A", 2, 20), ("D", 2, 30)], 100, matcher) == [("lost", "A", 10)]
    assert matcher.findings[0].seen == 100


def test_outstanding_at_the_end() -> None:
    """A request is not lost if no later one was answered, or if another one waited as long."""
    assert found([("A", 1, 10), ("D", 1, 20), ("A", 2, 30)]) == []
    assert found([("A", 1, 10), ("A", 2, 20), ("D", 2, 40)], 30) == []
    assert found([("A", 3, 0), ("D", 3, 90), ("A", 1, 100), ("A", 2, 110), ("D", 2, 120)], 190) == []
    assert found([("A", 3, 0), ("D", 3, 90), ("A", 1, 100), ("A", 2, 110), ("D", 2, 120)], 191) == [("lost", "A", 100)]


def test_early() -> None:
    """A response that came before its request is one finding; the request has no other response."""
    assert found([("D", 1, 10), ("A", 1, 20), ("A", 1, 30), ("D", 1, 40)]) == [("early", "D", 10)]
    assert found([("D", 1, 10), ("A", 1, 20)]) == [("early", "D", 10)]
    matcher = LinkMatcher(4)
    found([("A", 1, 5), ("D", 1, 6), ("D", 1, 10), ("A", 1, 20)], matcher=matcher)
    other = matcher.findings[0].other
    assert other and other.time == 20 and "before its request" in matcher.findings[0].words


def test_size() -> None:
    matcher = LinkMatcher(4)
    for sent in (message("A", 1, 10, size=3), message("D", 1, 20, size=2)):
        matcher.message(sent)
        matcher.flush()
    assert [(finding.kind, finding.at.time) for finding in matcher.findings] == [("SizeMismatch", 20)]


def test_unsure_beginning() -> None:
    """After a gap each source may have one request from before."""
    matcher = LinkMatcher(4)
    matcher.restart(is_unsure=True)
    assert found([("D", 1, 10), ("D", 2, 20), ("D", 1, 30), ("A", 1, 40), ("D", 1, 50)], matcher=matcher) == [
        ("stray", "D", 30)
    ]
    matcher = LinkMatcher(4)
    matcher.message(message("A", 1, 10))
    matcher.restart(is_unsure=False)
    assert found([("D", 1, 20)], matcher=matcher) == [("stray", "D", 20)]


def test_offered_request() -> None:
    """A response may come while the design has a part of its request, if that request is accepted next."""
    assert found([("D", 1, 10), ("A", 1, 20)], matcher=LinkMatcher(4, is_offered=lambda channel: channel == "A")) == []
    matcher = LinkMatcher(4, is_offered=lambda channel: channel == "A")
    assert found([("D", 1, 10), ("A", 2, 20), ("D", 2, 30)], matcher=matcher) == [("stray", "D", 10)]
    assert found([("D", 1, 10)], matcher=LinkMatcher(4, is_offered=lambda channel: channel == "A")) == [
        ("stray", "D", 10)
    ]


@pytest.mark.parametrize("level, names", (("ul", ["BurstNotInLevel"]), ("uh", []), ("c", []), (None, [])))
def test_level(level: Optional[str], names: List[str]) -> None:
    """A level is judged with and without times, and counted."""
    matcher = LinkMatcher(4, level)
    for time in (None, 10):
        matcher.message(message("A", 1, time, size=3))
    assert list(matcher.level_findings) == names
    assert list(matcher.level_counts.values()) == [2] * len(names)
    assert matcher.lowest_level() == "uh"


def test_lowest_level() -> None:
    """A message has the lowest level of its opcode and of its size. An opcode without a message needs none, and is no
    fault of a level.
    """
    assert [lowest_level("A", opcode, 3, 8) for opcode in (4, 2, 6)] == ["ul", "uh", "c"]
    assert [lowest_level("A", 4, size, 4) for size in (2, 3)] == ["ul", "uh"]
    assert lowest_level("E", 0, 0, 4) == "c"
    assert lowest_level("D", 3, 2, 4) == "ul" and fault_of("ul", "D", 3, 2, 4) is None


def test_many_findings() -> None:
    """Findings are kept up to a limit, and counted above it."""
    matcher = LinkMatcher(4)
    found([("D", 1, 10 * number) for number in range(1500)], matcher=matcher)
    assert (len(matcher.findings), matcher.left_out) == (1000, 500)
