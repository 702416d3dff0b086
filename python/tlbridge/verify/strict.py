"""Strict rules for a design that is no plain bridge, which many right designs do not keep.

Denied data are corrupt. A device denies equal requests alike, and a read of it sees each write that it accepted before,
and none that it accepted later. A byte that nobody writes stays the same. Corrupt data stay corrupt in a device and in
a host. A host that copies memory writes nothing else, and adjacent data to adjacent places. A design between two links
does not deny what was done behind it.

A right design that does not keep one stays right, and the verdict names the condition. An option makes it a mistake.
"""
from __future__ import annotations

from bisect import bisect_left, bisect_right
from collections import Counter
from dataclasses import dataclass
from types import MappingProxyType
from typing import (
    Callable,
    Dict,
    Generic,
    Iterable,
    Iterator,
    List,
    Mapping,
    NamedTuple,
    Optional,
    Sequence,
    Set,
    Tuple,
    TypeVar,
)

from ..protocol import CARRIES_DATA, beat_count
from .design import Design
from .judge import Beat, Beats, Problem, is_unknown, name_of, values_of
from .memory import changed_alone, later_read, lost_corrupt, stale_read

DENIED_ALIKE = "denied-alike"
OF_MEMORIES = ("reads-accepted", "reads-no-later", "reads-alike", "corrupt-stays")
_LEAST_COPIED, _SHARE_COPIED = 12, 0.6  # beats, and their share of what a host that copies writes
_SHARE_JUMPS = 0.05  # of the adjacent beats that may go elsewhere
_RECENT = 64  # beats that count as just before
_PUTS, _DATA = ("0", "1"), "1"
_LEAST_BYTES = 4  # of a value that tells where it comes from
# By the opcode of a request, the opcodes of those behind a design that do it.
_DOES = {0: (0, 1), 1: (0, 1), 2: (0, 1, 2, 3), 3: (0, 1, 2, 3), 4: (4,)}


def broken_rules(
    design: Design, beats: Beats, names: Sequence[str], known: Mapping[Key, bool] = MappingProxyType({})
) -> Dict[str, Problem]:
    """Returns the first beat that breaks one of these strict rules, by the name of the rule. `known` has requests that
    have to be denied, and others that must not."""
    found = {name: RULES[name](design, beats) for name in names if name != DENIED_ALIKE}
    if DENIED_ALIKE in names:
        found[DENIED_ALIKE] = denied_unlike(design, beats, known)
    return {name: problem for name, problem in found.items() if problem is not None}


# ---- what is denied


def _denied_good(design: Design, beats: Beats) -> Optional[Problem]:
    """A response with data on the link to the client that is denied and not corrupt."""
    if design.client is None or not design.client.has("D", "corrupt") or not design.client.has("D", "denied"):
        return None
    data = [f"{opcode:x}" for opcode in CARRIES_DATA["D"]]
    for at, line in enumerate(beats.lines["client"]):
        if line[0] == "D" and line[2] in data and line[-1] == "0" and values_of(line)["denied"] == "1":
            words = f"client link: {name_of(line)} is denied and not corrupt"
            time = beats.times["client"][at]
            return Problem("rule", "D", words, time, beat=Beat(time, "client", line))
    return None


class Key(NamedTuple):
    """All that a design knows of a request before its data."""

    opcode: int
    param: str
    size: int
    address: int
    masks: Tuple[str, ...]
    is_corrupt: bool


@dataclass
class _Exchange:
    """A request, and its response. Places are lines of the beats of its link, and -1 if nothing came."""

    opcode: int
    param: str
    size: int
    address: int
    at: int
    masks: List[str]
    is_corrupt: bool = False  # a beat of the request
    response: int = -1
    end: int = -1
    is_denied: bool = False

    @property
    def key(self) -> Key:
        return Key(self.opcode, self.param, self.size, self.address, tuple(self.masks), self.is_corrupt)

    @property
    def places(self) -> range:
        return range(self.address, self.address + (1 << self.size))

    def overlaps(self, other: "_Exchange") -> bool:
        return self.places.start < other.places.stop and other.places.start < self.places.stop


def _exchanges(lines: List[str], width: int) -> List[_Exchange]:
    """Returns the accesses of a link, in the order of their requests. Beats with an unknown head are left out."""
    found: List[_Exchange] = []
    waiting: Dict[str, _Exchange] = {}
    a_left = d_left = 0
    answered: Optional[_Exchange] = None
    for at, line in enumerate(lines):
        channel = line[0]
        values = values_of(line) if channel in "AD" else {}
        if not values or any(is_unknown(values.get(name, "")) for name in ("opcode", "size", "source", "address")):
            continue
        opcode, size = int(values["opcode"], 16), int(values["size"], 16)
        if channel == "A":
            if a_left == 0:
                a_left = beat_count("A", opcode, size, width)
                found.append(_Exchange(opcode, values["param"], size, int(values["address"], 16), at, []))
                waiting[values["source"]] = found[-1]
            a_left -= 1
            found[-1].masks.append(values["mask"])
            found[-1].is_corrupt |= values["corrupt"] != "0"
            continue
        if d_left == 0:
            d_left = beat_count("D", opcode, size, width)
            answered = waiting.pop(values["source"], None) if opcode != 6 else None
        d_left -= 1
        if answered is not None:
            if answered.response < 0:
                answered.response, answered.is_denied = at, values["denied"] != "0"
            answered.end = at
    return found


def _has_denied(design: Design) -> bool:
    return all(link.has("D", "denied") for link in design.links.values())


def answered(design: Design, beats: Beats) -> Iterator[Tuple[Key, bool, int]]:
    """Yields each request that was answered by itself: all that a design knows of it before its data, whether it was
    denied, and the line of its response. Left out are those with an error behind the design meanwhile."""
    if design.client is None or not _has_denied(design):
        return
    times, errors = beats.times["client"], _errors(beats)
    for found in sorted(_exchanges(beats.lines["client"], design.client.width), key=lambda one: one.response):
        if found.response < 0 or found.opcode > 4:
            continue
        if not (found.is_denied and _is_within(errors, times[found.at], times[found.response])):
            yield found.key, found.is_denied, found.response


def denied_unlike(design: Design, beats: Beats, known: Mapping[Key, bool]) -> Optional[Problem]:
    """A response that is denied while one to an equal request is not, or the other way round. `known` has the
    requests that other runs denied, and those that they did not."""
    before: Dict[Key, bool] = {}
    for key, is_denied, at in answered(design, beats):
        expected = known[key] if key in known else before.setdefault(key, is_denied)
        if expected != is_denied:
            beat = Beat(beats.times["client"][at], "client", beats.lines["client"][at])
            how = ("is denied", "was not") if is_denied else ("is not denied", "was")
            words = f"client link: {name_of(beat.line)} at 0x{key.address:x} {how[0]}, and an equal request {how[1]}"
            return Problem("rule", "D", words, beat.time, beat=beat)
    return None


R = TypeVar("R")


class Denials(Generic[R]):
    """The rounds in which each request was denied, and in which it was not."""

    def __init__(self) -> None:
        self.rounds: Dict[Key, Tuple[List[R], List[R]]] = {}  # not denied, and denied
        self.known: Dict[Key, bool] = {}

    def add(self, design: Design, beats: Beats, played: R) -> None:
        """Adds a round."""
        for key, is_denied, _ in answered(design, beats):
            self.rounds.setdefault(key, ([], []))[is_denied].append(played)

    def unlike(self) -> Optional[R]:
        """Returns a round in which a request was treated otherwise than equal ones mostly are, and `known` then has how
        they mostly are. The request with the clearest majority counts. None: all were treated alike."""
        both = [(key, rounds) for key, rounds in self.rounds.items() if all(rounds)]
        if not both:
            return None
        key, (granted, denied) = max(both, key=lambda item: max(map(len, item[1])) / min(map(len, item[1])))
        self.known = {key: len(denied) > len(granted)}
        return (granted if self.known[key] else denied)[0]


def _errors(beats: Beats) -> List[int]:
    """Returns the times of the responses behind a design that are denied or corrupt, or may be."""
    errors = []
    for time, line in zip(beats.times.get("manager", []), beats.lines.get("manager", [])):
        if line[0] == "D":
            values = values_of(line)
            if values["denied"] != "0" or values["corrupt"] != "0":
                errors.append(time)
    return errors


def _is_within(times: List[int], begin: int, end: int) -> bool:
    """Whether one of these times is in an interval, ends included."""
    return bisect_left(times, begin) < bisect_right(times, end)


def _denied_done(design: Design, beats: Beats) -> Optional[Problem]:
    """A response that is denied, though all that was asked for was done behind the design, without an error there."""
    if design.client is None or design.manager is None or not _has_denied(design):
        return None
    lines, times = beats.lines["client"], beats.times["client"]
    far_lines, far_times = beats.lines["manager"], beats.times["manager"]
    asked = _exchanges(lines, design.client.width)
    done = _exchanges(far_lines, design.manager.width)
    starts = [far_times[one.at] for one in done]
    errors = _errors(beats)
    for found in asked:
        if not found.is_denied or found.is_corrupt or found.opcode not in _DOES:
            continue
        begin, end = times[found.at], times[found.response]
        if _is_within(errors, begin, end):
            continue
        behind = [
            one
            for one in done[bisect_left(starts, begin) : bisect_right(starts, end)]
            if one.end >= 0 and far_times[one.end] <= end and one.opcode in _DOES[found.opcode]
        ]
        if _covers(behind, found.places) and not _is_disturbed(found, asked, times):
            beat = Beat(end, "client", lines[found.response])
            words = (
                f"client link: {name_of(beat.line)} at 0x{found.address:x} is denied, and was done behind the design"
            )
            return Problem("rule", "D", words, beat.time, beat=beat)
    return None


def _covers(some: Iterable[_Exchange], places: range) -> bool:
    """Whether these accesses have all these bytes."""
    return set(places) <= {place for one in some for place in one.places}


def _is_disturbed(found: _Exchange, asked: Iterable[_Exchange], times: List[int]) -> bool:
    """Whether another request with some of these bytes was outstanding at the same time."""
    begin, end = times[found.at], times[found.response]
    return any(
        one is not found and one.overlaps(found) and times[one.at] <= end and (one.end < 0 or times[one.end] >= begin)
        for one in asked
    )


# ---- what is corrupt, and what is copied


def _corrupt_lost(design: Design, beats: Beats) -> Optional[Problem]:
    """Data that a host or a device got as corrupt, and gives away as good data."""
    return _corrupt_written(design, beats) or lost_corrupt(design, beats)


def _corrupt_written(design: Design, beats: Beats) -> Optional[Problem]:
    """A write of a host, as good data, of what it has read as corrupt only, and never wrote before."""
    if design.client is not None or design.manager is None or design.manager.width < _LEAST_BYTES:
        return None
    if not (design.manager.has("A", "corrupt") and design.manager.has("D", "corrupt")):
        return None
    good: Set[str] = set()
    bad: Dict[str, int] = {}
    lines: List[str] = beats.lines["manager"]
    for at, line in enumerate(lines):
        if line[0] not in "AD" or is_unknown(line):
            continue
        values = values_of(line)
        data = values["data"]
        if line[0] == "D":
            if line[2] == "1" and values["corrupt"] == "0":
                good.add(data)
            elif line[2] == "1":
                bad.setdefault(data, at)
        elif line[2] in _PUTS and int(values["mask"], 16) + 1 == 1 << design.manager.width:
            if data in bad and data not in good and values["corrupt"] == "0":
                words = f"manager link: {name_of(line)} writes {data} as good data, which it has read as corrupt data"
                time = beats.times["manager"][at]
                return Problem("rule", "A", words, time, beat=Beat(time, "manager", line))
            good.add(data)
    return None


class _Copy(NamedTuple):
    """A beat that was written."""

    at: int
    address: int
    data: str
    distance: Optional[int]  # from where this value was first read


def _copies(lines: List[str], width: int) -> Tuple[List[_Copy], Dict[int, Set[str]]]:
    """Returns the whole beats that a host wrote as good data, and the good data that it read at each address."""
    copies: List[_Copy] = []
    asked: Dict[str, int] = {}  # of each source, the address of its next beat
    first_at: Dict[str, int] = {}
    read: Dict[int, Set[str]] = {}
    address, left = 0, 0
    for at, line in enumerate(lines):
        if line[0] not in "AD" or is_unknown(line):
            continue
        values = values_of(line)
        size, opcode = int(values["size"], 16), int(values["opcode"], 16)
        if line[0] == "D":
            if line[2] == _DATA and values["source"] in asked and 1 << size >= width:
                place = asked[values["source"]]
                asked[values["source"]] = place + width
                if values["corrupt"] == "0" and values["denied"] == "0":
                    first_at.setdefault(values["data"], place)
                    read.setdefault(place, set()).add(values["data"])
            continue
        if left == 0:
            address, left = int(values["address"], 16), beat_count("A", opcode, size, width)
            asked[values["source"]] = address
        left -= 1
        if line[2] in _PUTS and int(values["mask"], 16) + 1 == 1 << width and values["corrupt"] == "0":
            source = first_at.get(values["data"])
            copies.append(_Copy(at, address, values["data"], None if source is None else address - source))
        address += width
    return copies, read


def _not_copied(design: Design, beats: Beats) -> Optional[Problem]:
    """A write of something else than what was read, while all beside it is copied; or a copy at another place than
    beside the copy of what is adjacent."""
    if design.client is not None or design.manager is None or design.manager.width < _LEAST_BYTES:
        return None
    lines, width = beats.lines["manager"], design.manager.width
    copies, read = _copies(lines, width)
    found = _elsewhere(copies, read, width) or _jump(copies, read, width)
    if found is None:
        return None
    copy, why = found
    words = f"manager link: {name_of(lines[copy.at])} writes {copy.data} at 0x{copy.address:x}, and {why}"
    time = beats.times["manager"][copy.at]
    return Problem("rule", "A", words, time, beat=Beat(time, "manager", lines[copy.at]))


def _elsewhere(copies: List[_Copy], read: Dict[int, Set[str]], width: int) -> Optional[Tuple[_Copy, str]]:
    """Returns a write of something else than what was read, while both beside it are copied over the usual distance."""
    distances = Counter(copy.distance for copy in copies if copy.distance is not None)
    usual, number = max(distances.items(), key=lambda item: item[1], default=(0, 0))
    if number < max(_LEAST_COPIED, _SHARE_COPIED * len(copies)):
        return None
    distance_at = {copy.address: copy.distance for copy in copies}
    for copy in copies:
        beside = {distance_at[place] for place in (copy.address - width, copy.address + width) if place in distance_at}
        due = read.get(copy.address - usual, {copy.data})
        if copy.distance != usual and beside == {usual} and copy.data not in due:
            place = copy.address - usual
            return copy, f"a copy of the data at 0x{place:x}, as beside it, would have {min(due)}"
    return None


def _jump(copies: List[_Copy], read: Dict[int, Set[str]], width: int) -> Optional[Tuple[_Copy, str]]:
    """Returns a copy that is not beside the copy of the data before it, which was written shortly before. Data that was
    read at several places may come from each of them, so it does not count. A host that often does so has its own
    order, and none is returned."""
    places = Counter(data for values in read.values() for data in values)
    last: Dict[int, Tuple[int, int]] = {}  # by the place of the data, the number of its copy, and the distance
    pairs, jumps = 0, []
    for number, copy in enumerate(copies):
        if copy.distance is None or places[copy.data] > 1:
            continue
        source = copy.address - copy.distance
        before, distance = last.get(source - width, (-1, 0))
        last[source] = number, copy.distance
        if before >= 0 and number - before <= _RECENT:
            pairs += 1
            if distance != copy.distance:
                place = source - width
                jumps.append((copy, f"the data before it, of 0x{place:x}, went to 0x{place + distance:x}"))
    is_copier = len(last) >= _SHARE_COPIED * len(copies) and pairs >= _LEAST_COPIED
    return jumps[0] if jumps and is_copier and len(jumps) <= max(1, _SHARE_JUMPS * pairs) else None


RULES: Dict[str, Callable[[Design, Beats], Optional[Problem]]] = {
    "denied-is-corrupt": _denied_good,
    DENIED_ALIKE: lambda design, beats: denied_unlike(design, beats, {}),
    "done-not-denied": _denied_done,
    "reads-accepted": stale_read,
    "reads-no-later": later_read,
    "reads-alike": changed_alone,
    "corrupt-stays": _corrupt_lost,
    "copies-all": _not_copied,
}
