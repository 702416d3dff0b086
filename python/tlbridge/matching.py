"""Matches requests with responses on one link, in time, and names the beats that do not fit: requests on A and their
responses on D, on B and C, Releases on C and their ReleaseAcks on D, Grants on D and their GrantAcks on E.

A trace has no order between its channels, so the model pairs the first response of a source with its first request,
the second with the second, and so on. After a stray, lost or doubled response all later pairs of that source are
shifted, and the model reports the last one. With times, a response belongs to the request of its source that is
outstanding at that moment, so the beat itself can be named.

Rule: SiFive TileLink Specification 1.8, "Source and Sink Identifiers": a source has at most one request without a
response. The same holds for the sink of a Grant, and on B for a source and an address. The beats of one moment have no
order: a response may come in the cycle of its request, and a request in the cycle that frees its source.
"""
from __future__ import annotations

import functools
from collections import deque
from typing import Callable, Deque, Dict, List, NamedTuple, Optional, Set, Tuple

from .levels import LEVELS, fault_of, lowest_level
from .protocol import GRANTS, RELEASE_ACK, RELEASES

MOST_FINDINGS = 1000  # that are kept of a link; later ones are only counted


class Pair(NamedTuple):
    """Two kinds of messages of which the second responds to the first, in words; `id` is what they have in common."""

    request: str
    requests: str
    response: str
    id: str


# By the channel of the request.
PAIRS = {
    "A": Pair("request", "requests", "response", "source"),
    "B": Pair("request on B", "requests on B", "response on C", "source"),
    "C": Pair("Release", "Releases", "ReleaseAck", "source"),
    "D": Pair("Grant", "Grants", "GrantAck", "sink"),
}


class Message(NamedTuple):
    """The first beat of a message: its time, its place as the run names it, and its line."""

    channel: str
    opcode: int
    size: int
    source: str
    time: Optional[int]
    place: str
    line: str


def asked_on(at: Message) -> str:
    """Returns the channel of the request to which this message responds; an empty string if it responds to none."""
    if at.channel == "D":
        return "C" if at.opcode == RELEASE_ACK else "A"
    if at.channel == "C":
        return "" if at.opcode in RELEASES else "B"
    return "D" if at.channel == "E" else ""


def asks_on(at: Message) -> str:
    """Returns the channel of a message that needs a response; an empty string if it needs none."""
    needs_one = at.channel in "AB" or at.opcode in {"C": RELEASES, "D": GRANTS}.get(at.channel, ())
    return at.channel if needs_one else ""


def name_of(channel: str, at: Message) -> str:
    """Returns the name by which a message and its response are matched, if the request is on this channel. It is the
    source or, for a Grant, the sink. On B it has the address also."""
    if channel in "AC":
        return at.source
    words = at.line.split(" ")
    return f"{at.source} at {words[5]}" if channel == "B" else words[1] if at.channel == "E" else words[5]


class Finding:
    """A beat that does not fit. `words` says why, with `{}` for the place of the other beat, if there is one. `seen`
    is the time from which it cannot be right: that of the beat or, for a lost response, the time at which its source
    is used again or the record ends.
    """

    def __init__(self, kind: str, at: Message, words: str, other: Optional[Message] = None, seen: Optional[int] = None):
        self.kind, self.at, self.words, self.other = kind, at, words, other
        self.seen: int = seen if seen is not None else at.time or 0
        self.pair = ""  # the channel of the request, one of PAIRS

    def __repr__(self) -> str:
        return f"{self.kind} at {self.at.time}: {self.at.line}"


class PairMatcher:
    """Matches the requests on one channel with their responses, in the order of time. `find` is called with each
    finding. `is_offered` says whether the design has sent on a part of a request that this link has not accepted yet; a
    response may come then, if that request is the next one accepted.
    """

    def __init__(self, channel: str, find: Callable[[Finding], None], is_offered: Callable[[], bool]):
        self.channel, self._find_on_link, self._is_offered = channel, find, is_offered
        self._words = PAIRS[channel]
        self.restart(False)

    def restart(self, is_unsure: bool) -> None:
        self._is_unsure = is_unsure
        self._requests: Deque[Message] = deque()  # of the moment at hand
        self._responses: Deque[Message] = deque()
        self.outstanding: Dict[str, Message] = {}
        self._answered: Dict[str, Tuple[Message, Message]] = {}  # the last request of a name and its response
        self._strays: Dict[str, Finding] = {}  # of names without a request since
        self._early: Dict[str, Finding] = {}  # strays whose name has a request now
        self._offered: Optional[Tuple[str, Finding]] = None  # a response while its request is offered, and its fault
        self.longest = 0  # time from a request to its response
        self._last_answered: Optional[int] = None  # the time of the latest request that has its response

    def ask(self, at: Message) -> None:
        self._requests.append(at)

    def respond(self, at: Message) -> None:
        self._responses.append(at)

    def flush(self) -> None:
        """The moment is over. Its requests and responses are matched in an order that is legal, if there is one."""
        requests, responses = self._requests, self._responses
        while requests or responses:
            if responses and self._name(responses[0]) in self.outstanding:
                self._respond(responses.popleft())
            elif requests and self._name(requests[0]) not in self.outstanding:
                self._ask(requests.popleft())
            elif responses:
                self._stray(responses.popleft())
            else:
                self._lost(requests[0])

    def finish(self, time: Optional[int]) -> None:
        """The record ends. A request that waits longer than any other did, and that later ones have overtaken, has
        lost its response.
        """
        words = self._words
        for asked in sorted(self.outstanding.values(), key=lambda asked: asked.time or 0):
            waited = 0 if time is None or asked.time is None else time - asked.time
            overtaken = self._last_answered is not None and asked.time is not None and asked.time < self._last_answered
            if overtaken and waited > self.longest:
                said = f"this {words.request} has no {words.response}, and later {words.requests} have theirs"
                self._find(Finding("lost", asked, said, seen=time))

    def settle(self) -> None:
        """Decides what is left open: a stray whose name then has a request without a response was early."""
        self.flush()
        self._withdraw_offered()
        for name, found in self._early.items():
            self._is_early(found, self.outstanding.pop(name))
        self._early.clear()

    # ---- one message after the other

    def _find(self, found: Finding) -> None:
        found.pair = self.channel
        self._find_on_link(found)

    def _name(self, at: Message) -> str:
        return name_of(self.channel, at)

    def _in_words(self, at: Message) -> str:
        return f"{self._words.id} {self._name(at)}"

    def _ask(self, asked: Message) -> None:
        name = self._name(asked)
        if self._offered and self._offered[0] == name:
            self._offered = None  # it had its response before
            return
        self._withdraw_offered()
        self.outstanding[name] = asked
        stray = self._strays.pop(name, None)
        if stray:
            self._early[name] = stray

    def _respond(self, came: Message) -> None:
        name = self._name(came)
        asked = self.outstanding.pop(name)
        self._early.pop(name, None)
        self._answered[name] = asked, came
        if asked.time is not None and came.time is not None:
            self.longest = max(self.longest, came.time - asked.time)
            self._last_answered = max(self._last_answered or 0, asked.time)
        if self.channel == "A" and asked.size != came.size:
            words = f"the size of the response is {came.size}, and that of its request at {{}} is {asked.size}"
            self._find(Finding("SizeMismatch", came, words, asked))

    def _stray(self, came: Message) -> None:
        name, words = self._name(came), self._words
        if self._is_unsure and name not in self._answered and name not in self._strays:
            self._answered[name] = came, came  # its request may have come before
            return
        before = self._answered.get(name)
        if before and before[0] is not before[1]:
            said = f"a second {words.response} to {self._in_words(came)}: its last {words.request} has one, at {{}}"
            found = Finding("doubled", came, said, before[1])
        else:
            said = f"a {words.response} to {self._in_words(came)}, which has no {words.request}"
            found = Finding("stray", came, said)
        if self._offered is None and self._is_offered():
            self._offered = name, found
            return
        self._add_stray(name, found)

    def _add_stray(self, name: str, found: Finding) -> None:
        self._find(found)
        self._strays[name] = found

    def _withdraw_offered(self) -> None:
        """Another request than the offered one was accepted, so the response to it had no request."""
        if self._offered:
            offered, self._offered = self._offered, None
            self._add_stray(*offered)

    def _lost(self, again: Message) -> None:
        """A name is used again without a response to its last request."""
        name, words = self._name(again), self._words
        asked = self.outstanding.pop(name)
        early = self._early.pop(name, None)
        if early:
            self._is_early(early, asked)
        else:
            said = f"this {words.request} has no {words.response} before its {self._in_words(again)} is used again"
            self._find(Finding("lost", asked, f"{said}, at {{}}", again, again.time))

    def _is_early(self, found: Finding, asked: Message) -> None:
        words = self._words
        found.kind, found.other = "early", asked
        found.words = f"a {words.response} to {self._in_words(asked)} before its {words.request}, which comes at {{}}"


def never(channel: str) -> bool:
    """No request is offered, as far as is known."""
    return False


class LinkMatcher:
    """Follows the messages of one link in the order of time. `is_offered` says of a channel whether the design has sent
    on a part of a request on it that this link has not accepted yet.
    """

    def __init__(self, width: int, level: Optional[str] = None, is_offered: Callable[[str], bool] = never):
        self.width, self.level, self.is_offered = width, level, is_offered
        self.findings: List[Finding] = []
        self.left_out = 0  # findings above MOST_FINDINGS
        self.level_findings: Dict[str, Finding] = {}  # the first of each fault of the level
        self.level_counts: Dict[str, int] = {}
        self._kinds: Set[Tuple[str, int, int]] = set()  # of the messages so far: channel, opcode and size
        self.pairs = {
            channel: PairMatcher(channel, self._find, functools.partial(self._offers, channel)) for channel in PAIRS
        }

    def restart(self, is_unsure: bool) -> None:
        """Forgets the requests, as after a reset. If it is unsure, requests from before may be outstanding, at most
        one of a source.
        """
        self.settle()
        for pair in self.pairs.values():
            pair.restart(is_unsure)

    def message(self, at: Message) -> None:
        """Adds the first beat of a message. Those of one moment are matched by `flush`, in any order."""
        self._kinds.add(at[:3])
        if self.level is not None:
            self._judge_level(self.level, at)
        if at.time is None:
            return
        asked, asks = asked_on(at), asks_on(at)
        if asked:
            self.pairs[asked].respond(at)
        if asks:
            self.pairs[asks].ask(at)

    def lowest_level(self) -> str:
        """Returns the lowest level that has all messages so far."""
        needed = [lowest_level(channel, opcode, size, self.width) for channel, opcode, size in self._kinds]
        return max(needed, key=LEVELS.index, default=LEVELS[0])

    def flush(self) -> None:
        """The moment is over."""
        for pair in self.pairs.values():
            pair.flush()

    def finish(self, time: Optional[int]) -> None:
        """The record ends. A request that waits longer than any other did, and that later ones have overtaken, has
        lost its response.
        """
        self.settle()
        for pair in self.pairs.values():
            pair.finish(time)

    def settle(self) -> None:
        """Decides what is left open: a stray whose source then has a request without a response was early."""
        for pair in self.pairs.values():
            pair.settle()

    def outstanding(self) -> List[Message]:
        """Returns the requests that have no response, the first one first."""
        waiting = [asked for pair in self.pairs.values() for asked in pair.outstanding.values()]
        return sorted(waiting, key=lambda asked: asked.time or 0)

    def _offers(self, channel: str) -> bool:
        return self.is_offered(channel)

    def _find(self, found: Finding) -> None:
        if len(self.findings) < MOST_FINDINGS:
            self.findings.append(found)
        else:
            self.left_out += 1

    def _judge_level(self, level: str, at: Message) -> None:
        fault = fault_of(level, at.channel, at.opcode, at.size, self.width)
        if fault:
            self.level_counts[fault.name] = self.level_counts.get(fault.name, 0) + 1
            self.level_findings.setdefault(
                fault.name, Finding(fault.name, at, f"{fault.number} {fault.name}: {fault.words}")
            )
