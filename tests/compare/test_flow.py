"""Which messages are outstanding on a link, by its accepted beats: no simulator and no program is needed."""

import pytest

from tlbridge.flow import LinkFlow
from tlbridge.protocol import CHANNELS

DIGITS = (2, 4)  # of an id, in traces of version 1 and 2


def line_of(digits: int, channel: str, opcode: int, size: int = 2, source: int = 0x17, sink: int = 0x25) -> str:
    """A beat of 4 lanes without data that count."""
    if channel == "E":
        return f"E {sink:0{digits}x}"
    place = f"{sink:0{digits}x} 0" if channel == "D" else f"{0x1000:016x}" + (" f" if channel in "AB" else "")
    return f"{channel} {opcode:x} 0 {size:x} {source:0{digits}x} {place} 00000000 0"


@pytest.mark.parametrize("digits", DIGITS)
def test_a_link_is_quiet_after_each_answer(digits: int) -> None:
    """A request of each kind, and the message that answers it: by its source, a Grant by its sink."""
    flow = LinkFlow(4, digits)
    assert flow.is_quiet() and flow.outstanding() == [] and flow.messages == dict.fromkeys(CHANNELS, 0)
    source, sink = f"{0x17:0{digits}x}", f"{0x25:0{digits}x}"
    for request, answer, said in (
        (("A", 4), ("D", 1), f"A source {source}"),
        (("B", 6), ("C", 4), f"B source {source}"),
        (("C", 6), ("D", 6), f"C source {source}"),
    ):
        assert not flow.beat(line_of(digits, *request)) and not flow.is_quiet(), request
        assert flow.outstanding() == [said] and flow.began == (request[1], 2, source)
        assert not flow.beat(line_of(digits, *answer)) and flow.is_quiet() and flow.outstanding() == [], answer
        assert flow.beat(line_of(digits, *answer)) and flow.is_quiet(), f"{answer} without a request"
    flow.beat(line_of(digits, "A", 6))
    assert not flow.beat(line_of(digits, "D", 4)) and flow.outstanding() == [f"D sink {sink}"]
    assert flow.beat(line_of(digits, "E", 0, sink=0x26)) and not flow.is_quiet()
    assert not flow.beat(line_of(digits, "E", 0)) and flow.is_quiet() and flow.began == (0, 0, "")
    assert flow.messages == {"A": 2, "B": 1, "C": 3, "D": 5, "E": 2}


@pytest.mark.parametrize("digits", DIGITS)
def test_a_burst_is_outstanding_until_its_last_beat(digits: int) -> None:
    """Also one that another message cuts short. A beat with unknown bits makes the link unclear for good."""
    flow = LinkFlow(4, digits)
    put = line_of(digits, "A", 0, size=4)
    for left in (3, 2, 1, 0):
        assert not flow.beat(put) and flow.beats_left["A"] == left
        assert ("a burst on A" in flow.outstanding()) == (left > 0) and (flow.began is None) == (left < 3)
    assert not flow.beat(line_of(digits, "D", 0, size=4)) and flow.is_quiet()
    flow.beat(put)
    flow.beat(line_of(digits, "A", 4, source=0x18))
    for source in (0x17, 0x18):
        assert not flow.is_quiet() and not flow.beat(line_of(digits, "D", 0, source=source))
    assert flow.is_quiet()
    assert not flow.beat("A x" + put[3:]) and not flow.is_quiet() and flow.outstanding() == []
    flow.restart()
    assert flow.is_quiet() and flow.messages["A"] == 0


def test_a_source_that_is_used_twice_has_two_answers() -> None:
    """Each response answers one of its requests."""
    flow = LinkFlow(4, 2)
    for _ in range(2):
        flow.beat(line_of(2, "A", 4))
    assert [flow.beat(line_of(2, "D", 1)) for _ in range(3)] == [False, False, True]
