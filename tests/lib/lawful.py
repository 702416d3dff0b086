"""Lawful traffic of two links at once with its times, drawn by tlbridge.traffic, and mistakes in it.

An event is a beat that a link accepts at a time, or a change of a link's reset. `exchange` makes lawful traffic of all
five channels, with the
far beats that tlbridge-model gives; `flipped` and others plant a mistake in it, and `reported` says in which words a
scoreboard has to report the
difference, by nothing but the rules of docs/SCOREBOARD.md.
"""
import random
from dataclasses import dataclass, field, replace
from functools import lru_cache
from typing import Any, Dict, List, Optional, Sequence, Set, Tuple

from project import MODEL, script
from tables import FIELDS, FROM_CLIENT, NUMBERS, OPCODES
from tlbridge.traffic import Draws, Head

model = script(MODEL)
# A message and a beat of the model, whose module is loaded when the tests run.
Message = Any
Beat = Any

CLIENT, MANAGER = 0, 1
NAMES = {CLIENT: "client", MANAGER: "manager"}
DIGITS = {"opcode": 1, "param": 1, "size": 1, "source": 4, "sink": 4, "address": 16, "denied": 1, "corrupt": 1}


def is_partial(message: Message) -> bool:
    """Whether each beat's mask says which of its bytes are written."""
    return message.channel in "AB" and bool(message.head["opcode"] == NUMBERS["A", "PutPartialData"])


@dataclass(frozen=True)
class Event:
    """A beat that a link accepts. `number` counts those of its channel on this link; `active` are the lanes with a byte
    of the message; and of
    a far beat, `lanes` says which of them are compared."""

    time: int
    link: int
    channel: str
    head: Dict[str, int] = field(default_factory=dict)
    mask: int = 0
    data: bytes = b""
    corrupt: int = 0
    number: int = 0
    lanes: Tuple[bool, ...] = ()
    active: int = 0
    place: str = "only"  # first, middle, last or only beat of its message
    opcode: int = 0

    @property
    def is_far(self) -> bool:
        return self.link != near_link(self.channel)

    def value(self, name: str) -> Any:
        return getattr(self, name) if name in ("mask", "data", "corrupt") else self.head[name]


def reset(time: int, link: int, asserted: bool) -> Event:
    return Event(time, link, "R", {"opcode": int(asserted)})


def near_link(channel: str) -> int:
    return CLIENT if channel in FROM_CLIENT else MANAGER


def place_of(at: int, count: int) -> str:
    return "only" if count == 1 else "first" if at == 0 else "last" if at == count - 1 else "middle"


class Exchange:
    """Makes the events of messages, one after the other; each beat is later than the one before, unless `step` is 0."""

    def __init__(self, client: int, manager: int, seed: int = 1, step: int = 10, id_bits: int = 16) -> None:
        self.widths = {CLIENT: client, MANAGER: manager}
        self.draws = Draws(random.Random(f"{client} {manager} {seed}"), id_bits, id_bits)
        self.step, self.time = step, 10
        self.numbers = {(link, channel): 0 for link in NAMES for channel in "ABCDE"}
        self.events: List[Event] = []

    def tick(self, least: int = 0) -> None:
        self.time += max(self.step, least)

    def head(self, channel: str, opcode: int, size: int, **more: int) -> Head:
        return self.draws.head(channel, opcode, size, **more)

    def message(self, channel: str, head: Head, home: Optional[int] = None) -> Message:
        """A lawful message with bytes, mask and corrupt bits at random, on all lanes."""
        width = self.widths[near_link(channel)]
        made = model.Message(channel, head, home=head.get("address", 0) if home is None else home)
        for beat in self.draws.beats(channel, head, width, made.home, corrupt=0.6):
            lanes = beat.data.to_bytes(width, "little") if channel != "E" else b""
            made.beats.append(model.Beat(head, beat.mask, lanes, beat.corrupt))
        return made

    def add(self, link: int, channel: str, beat: Beat, at: int, message: Message, count: int) -> None:
        width = self.widths[link]
        lanes: Tuple[bool, ...] = ()
        active = 0
        if channel != "E" and message.has_data:
            active = message.active_lanes(at, width)
        if link != near_link(channel) and channel != "E":
            lanes = tuple(
                bool(active >> lane & 1) and (not is_partial(message) or bool(beat.mask >> lane & 1))
                for lane in range(width)
            )
        self.events.append(
            Event(
                self.time,
                link,
                channel,
                beat.head,
                beat.mask,
                beat.lanes,
                beat.corrupt,
                self.numbers[link, channel],
                lanes,
                active,
                place_of(at, count),
                beat.head.get("opcode", 0),
            )
        )
        self.numbers[link, channel] += 1

    def send(self, channel: str, head: Head, home: Optional[int] = None, far_first: bool = False) -> Head:
        """The near beats of a message, and each far beat once it is due (or before its near beats)."""
        near = near_link(channel)
        made = self.message(channel, head, home)
        came = model.far_beats(made, self.widths[near], self.widths[1 - near]) if channel != "E" else [model.Beat(head)]
        count = len(made.beats)
        sent = 0
        for at, beat in enumerate(made.beats):
            due = (
                len(came)
                if far_first
                else made.far_count(at + 1, self.widths[near], self.widths[1 - near])
                if channel != "E"
                else 1
            )
            order = [("near", at, beat)] + [("far", i, came[i]) for i in range(sent, due)]
            sent = due
            for where, i, one in order[1:] + order[:1] if far_first else order:
                self.tick()
                self.add(
                    near if where == "near" else 1 - near,
                    channel,
                    one,
                    i,
                    made,
                    count if where == "near" else len(came),
                )
        return head

    def ask(self, opcode: int, size: int, response: int, far_first: bool = False, **more: int) -> Head:
        """A request on A and its response on D."""
        head = self.send("A", self.head("A", opcode, size, **more), far_first=far_first)
        self.tick()
        answer = self.head("D", response, size, source=head["source"])
        self.send("D", answer, home=head["address"], far_first=far_first)
        return head


REQUESTS = ((0, 0), (1, 0), (2, 1), (3, 1), (4, 1), (5, 2), (6, 5), (7, 4), (6, 4))
OTHERS = {"B": (0, 1, 2, 3, 4, 5, 6, 7), "C": (0, 1, 2, 4, 5, 6, 7)}


def exchange(client: int, manager: int, **more: Any) -> List[Event]:
    """Each message of each channel, of sizes around both widths, up to `most`."""
    return list(made_exchange(client, manager, **more))


@lru_cache(maxsize=None)
def made_exchange(
    client: int,
    manager: int,
    seed: int = 1,
    step: int = 10,
    far_first: bool = False,
    rounds: int = 1,
    most: Optional[int] = None,
    id_bits: int = 16,
) -> List[Event]:
    made = Exchange(client, manager, seed, step, id_bits)
    low, high = sorted((client.bit_length() - 1, manager.bit_length() - 1))
    most = min(high + 2, 12) if most is None else most
    sizes = sorted({0, max(low - 1, 0), low, min(low + 2, 12), high, most})
    for _ in range(rounds):
        for at, (request, response) in enumerate(REQUESTS):
            for size in sizes if OPCODES["A"][request].has_data or response in (1, 5) else sizes[at % len(sizes) :][:1]:
                made.ask(request, min(size, most), response, far_first)
        for channel, opcodes in OTHERS.items():
            for at, opcode in enumerate(opcodes):
                carries = OPCODES[channel][opcode].has_data
                for size in sizes if carries else sizes[at % len(sizes) :][:1]:
                    made.send(channel, made.head(channel, opcode, min(size, most)), far_first=far_first)
        made.send("D", made.head("D", 6, 3), home=0, far_first=far_first)
        for _ in range(4):
            made.send("E", made.head("E", 0, 0), far_first=far_first)
    return made.events


def with_value(event: Event, name: str, value: Any) -> Event:
    if name in ("mask", "data", "corrupt"):
        return replace(event, **{name: value})
    return replace(event, head={**event.head, name: value})


def bits_of(event: Event, name: str) -> List[int]:
    """The bits of a field, lowest first, of those that may be changed so that the field still fits."""
    if name == "data":
        return [8 * lane + bit for lane, compared in enumerate(event.lanes) if compared for bit in (0, 7)]
    if name == "mask":
        return list(range(len(event.data)))
    most = {"opcode": 3, "param": 2 if event.channel == "D" else 3, "size": 4, "source": 16, "sink": 16, "address": 64}
    return list(range(most.get(name, 1)))


def flipped(event: Event, name: str, bit: int) -> Event:
    """The event with one bit of a field changed."""
    if name != "data":
        return with_value(event, name, event.value(name) ^ 1 << bit)
    data = bytearray(event.data)
    data[bit // 8] ^= 1 << bit % 8
    return with_value(event, name, bytes(data))


def shown(event: Event, name: str, value: Any) -> str:
    """A value as a scoreboard prints it: of data, the highest lane first, and `..` for a lane that is not compared."""
    if name == "data":
        return "".join(
            f"{byte:02x}" if compared else ".." for byte, compared in reversed(list(zip(value, event.lanes)))
        )
    digits = max(len(event.data) + 3, 4) // 4 if name == "mask" else DIGITS[name]
    return f"{value:0{digits}x}"


def reported(was: Event, came: Event) -> str:
    """Returns the line about a far beat that arrived as `came`, and was expected unchanged."""
    order = "opcode param size source sink address mask denied corrupt data".split()
    names = [name for name in order if name in FIELDS[was.channel] and was.value(name) != came.value(name)]
    said = "".join(
        f"; {name} got {shown(was, name, came.value(name))}, expected {shown(was, name, was.value(name))}"
        for name in names
    )
    return f"time {came.time}: far {was.channel} beat {was.number}{said}"


def of(
    events: Sequence[Event],
    channel: str,
    far: bool = True,
    place: Optional[str] = None,
    opcode: Optional[int] = None,
    data: Optional[bool] = None,
) -> List[int]:
    """The numbers of the events that are such beats."""
    return [
        i
        for i, event in enumerate(events)
        if event.channel == channel
        and event.is_far == far
        and place in (None, event.place)
        and opcode in (None, event.opcode)
        and (data is None or any(event.lanes) == data)
    ]


def far_of(events: Sequence[Event], at: int) -> List[int]:
    """The numbers of the far beats of the message of a near beat."""
    channel = events[at].channel
    message = sum(events[i].place in ("first", "only") for i in of(events, channel, far=False) if i <= at)
    far, count = [], 0
    for i in of(events, channel):
        count += events[i].place in ("first", "only")
        if count == message:
            far.append(i)
    return far


def spoilt(event: Event, fault: int) -> Optional[Event]:
    """The near beat with this fault, by its number; None if it cannot have it."""
    head, channel = event.head, event.channel
    if fault == 1:
        return with_value(event, "opcode", 3) if channel in "CD" else None
    if fault == 2:
        return with_value(event, "param", 3 if channel == "D" else 7)
    if fault == 3:
        return with_value(event, "size", 13)
    if fault == 4:
        return with_value(event, "address", head["address"] | 1) if channel != "D" and head["size"] > 0 else None
    if fault == 5:
        return with_wrong_mask(event) if channel in "AB" else None
    if fault == 6:
        return with_value(event, "corrupt", 1) if not event.active else None
    if fault == 10:
        return with_value(event, "size", head["size"] + 1) if channel == "D" and head["opcode"] != 6 else None
    return flipped(event, "denied", 0) if channel == "D" else flipped(event, "address", 60)


def with_wrong_mask(event: Event) -> Optional[Event]:
    """PutPartialData may have any active lane, so a lane next to them is set if there is one."""
    width, size = len(event.data), event.head["size"]
    if event.head["opcode"] != 1:
        return with_value(event, "mask", event.mask ^ 1)
    if 1 << size >= width:
        return None
    return with_value(event, "mask", event.mask ^ 1 << (event.head["address"] % width ^ (1 << size)))


def broken(
    events: Sequence[Event], channel: str, fault: int, place: str, whole: bool = False
) -> Optional[Tuple[List[Event], int]]:
    """The traffic with this fault in a near beat (or in each beat of its message), and the number of that beat; None if
    none can have it.
    """
    for at in of(events, channel, far=False, place=place):
        if spoilt(events[at], fault) is not None and (events[at].active or place == "only" or fault == 6):
            break
    else:
        return None
    message = [at]
    if whole:
        message += [i for i in of(events, channel, far=False) if at < i and far_of(events, i) == far_of(events, at)]
    made = list(events)
    for i in message:
        wrong = spoilt(events[i], fault)
        assert wrong
        made[i] = wrong
    return made, at


def head_said(event: Event) -> str:
    """The head of a beat in the words of a scoreboard."""
    head = event.head
    if event.channel == "E":
        return f"sink {head['sink']:04x}"
    last = f", sink {head['sink']:04x}" if event.channel == "D" else f", address {head['address']:x}"
    return f"opcode {head['opcode']}, size {head['size']}, source {head['source']:04x}{last}"


def moved(events: Sequence[Event], by: int) -> List[Event]:
    return [replace(event, time=event.time + by) for event in events]


def renumbered(events: Sequence[Event]) -> List[Event]:
    """The events, each with its number on its channel and link."""
    counts: Dict[Tuple[int, str], int] = {}
    made = []
    for event in events:
        key = event.link, event.channel
        counts[key] = counts.get(key, -1) + 1
        made.append(replace(event, number=counts[key]))
    return made


def packed(events: Sequence[Event]) -> List[Event]:
    """The same traffic in few cycles: a beat has the time of the one before, unless its channel has a beat of its link
    at this time. So a response may
    come in the cycle of its request, a request in the cycle in which its source becomes free, and a far beat in the
    cycle of its near beat.
    """
    time, made = events[0].time, []
    seen: Set[Tuple[int, str]] = set()
    for event in events:
        if (event.link, event.channel) in seen or (event.channel != "R" and "R" in {channel for _, channel in seen}):
            time, seen = time + 10, set()
        seen.add((event.link, event.channel))
        made.append(replace(event, time=time))
    return made
