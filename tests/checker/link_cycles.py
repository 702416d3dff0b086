"""Cycles of a link: by tables of messages and of lanes, and at random, lawful and faulty, that follow the state of its
rules.
"""
import random
from dataclasses import replace
from typing import Dict, Iterable, Iterator, List, Optional, Set, Tuple

from checker_model import CHANNELS, NAMES, Beat, Checker, Settings, answers_a_request, has_data
from tlbridge.traffic import Draws

# A reset or not, the beats that are offered, the channels whose beats are accepted, and what the checker has to say.
Cycle = Tuple[int, Dict[str, Beat], Set[str], Tuple[Dict[str, int], int, bool, List[str]]]
Offered = Optional[Dict[str, Beat]]


def judged(settings: Settings, cycles: Iterable[Offered]) -> Iterator[Cycle]:
    """A script of cycles, each with beats that are all accepted: what the checker has to say of each. None is a
    reset.
    """
    checker = Checker(settings)
    for offered in cycles:
        reset, beats = int(offered is None), offered or {}
        yield reset, beats, set(beats), checker.cycle(reset, beats, set(beats))


def messages(settings: Settings) -> Iterator[Offered]:
    """Each opcode of each channel: each param, a corrupt bit, a size that is too large, each bit of a head that
    changes, and a burst of two beats.
    """
    size = settings.DATA_BYTES.bit_length()
    for channel in CHANNELS:
        for opcode in range(8):
            head = Beat(
                opcode,
                0,
                size,
                5,
                0 if channel == "D" else 0x8000,
                (1 << settings.DATA_BYTES) - 1 if channel in "AB" else 0,
            )
            asked = [{"A": Beat(4, 0, size, 5, 0x8000, (1 << settings.DATA_BYTES) - 1)}] if channel == "D" else []
            changes: List[Dict[str, int]] = [
                {},
                {"corrupt": 1},
                {"size": 12},
                {"size": 13},
                *({"param": param} for param in range(1, 4 if channel == "D" else 8)),
            ]
            for change in changes:
                yield from [None, *asked, {channel: replace(head, **change)}, {channel: head}, {channel: head}]
            if has_data(channel, head):
                bits = {
                    "opcode": 3,
                    "param": 2 if channel == "D" else 3,
                    "size": settings.SIZE_BITS,
                    "source": settings.SOURCE_BITS,
                }
                bits.update(
                    {"sink": settings.SINK_BITS, "denied": 1} if channel == "D" else {"address": settings.ADDRESS_BITS}
                )
                for name, bit in ((name, bit) for name, count in bits.items() for bit in {0, count // 2, count - 1}):
                    yield from [
                        None,
                        *asked,
                        {channel: head},
                        {channel: replace(head, **{name: getattr(head, name) ^ 1 << bit})},
                        {channel: head},
                    ]


def pairs_of_faults(settings: Settings) -> Iterator[Offered]:
    """Beats with two faults at once: the first rule counts."""
    mask = (1 << settings.DATA_BYTES) - 1
    for channel in CHANNELS:
        for opcode in range(8):
            size = settings.DATA_BYTES.bit_length() - 1
            head = Beat(opcode, 0, size, 5, 0 if channel == "D" else 0x8000, mask if channel in "AB" else 0)
            changes = [
                {"param": 3 if channel == "D" else 7},
                {"size": 13},
                {"corrupt": 1},
                {"size": size + 1},
                {"source": 6},
            ]
            changes += [] if channel == "D" else [{"address": 0x8001}, {"address": 0x8001, "size": 1}]
            changes += [{"mask": 1 << settings.DATA_BYTES - 1}, {"mask": 0}] if channel in "AB" else []
            yield from [None, {"A": Beat(4, 0, size, 6, 0x8000, mask)}]
            for one in changes:
                for other in changes:
                    yield {channel: replace(head, **{**one, **other})}
                    if settings.RESYNC_AFTER_FAULT:
                        yield from [None, {"A": Beat(4, 0, size, 6, 0x8000, mask)}]


def lanes(settings: Settings) -> Iterator[Offered]:
    """On A and B: each aligned block of lanes of each size, with its mask, and with one bit more or less at each end;
    and each bit of an address.
    """
    width = settings.DATA_BYTES
    for size in range(width.bit_length() + 1):
        wide = min(1 << size, width)
        for at in range(0, width, wide) if width <= 32 or size > 1 else (0, 1 << size, width // 2, width - wide):
            mask = ((1 << wide) - 1) << at
            ends = {1 << at, 1 << at + wide - 1, 1 << (at + wide) % width, 1 << (at - 1) % width}
            for opcode in (4, 1):
                for wrong in (0, *ends):
                    beat = Beat(opcode, 0, size, 5, 0xF000 + (at if size < width.bit_length() else 0), mask ^ wrong)
                    yield from [None, {"A": beat, "B": beat}]
    for size in range(min(13, 1 << settings.SIZE_BITS)):
        for bit in (*range(14), settings.ADDRESS_BITS - 1):
            yield from [None, {"C": Beat(6, 0, size, 5, 1 << bit), "B": Beat(6, 0, size, 5, 1 << bit, 0)}]


def in_flight(settings: Settings) -> Iterator[Offered]:
    """A request of each source in turn is answered later than the next one: with its size, another one, and once
    more.
    """
    sizes = range(min(13, 1 << settings.SIZE_BITS))
    sources = [1 << bit for bit in range(settings.SOURCE_BITS)] + [0, (1 << settings.SOURCE_BITS) - 1]
    mask = (1 << settings.DATA_BYTES) - 1
    asked = [
        Beat(5, 0, max(size, settings.DATA_BYTES.bit_length() - 1) if size in sizes else sizes[-1], source, 0, mask)
        for source, size in zip(sources, [*sizes] * 2)
    ]
    for change in (0, 1, 8):
        yield None
        for now, before in zip([*asked, None], [None, *asked]):
            answers = [{"D": Beat(2, 0, before.size ^ change, before.source)}] if before else []
            yield from [*([{"A": now}] if now else []), *answers, *answers]


class Cycles:
    def __init__(self, settings: Settings, seed: object) -> None:
        self.settings, self.random = settings, random.Random(f"{seed} {settings}")
        self.draws = Draws(self.random, settings.SOURCE_BITS, settings.SINK_BITS, settings.ADDRESS_BITS)
        self.checker = Checker(settings)
        bits = settings.SOURCE_BITS
        self.sources = sorted(
            {0, 1, (1 << bits) - 1, 1 << (bits - 1), *(self.random.getrandbits(bits) for _ in range(2))}
        )
        self.offered: Dict[str, Beat] = {}  # beats that were not accepted yet

    def chance(self, percent: int) -> bool:
        return self.random.randrange(100) < percent

    def first(self, channel: str) -> Beat:
        choose, settings, link = self.random, self.settings, self.checker.link
        opcode = choose.choice([i for i, name in enumerate(NAMES[channel]) if name != "-"])
        beat = (settings.DATA_BYTES - 1).bit_length()
        size = min(
            choose.randrange(13) if self.chance(4) else choose.randrange(beat + 3), 12, (1 << settings.SIZE_BITS) - 1
        )
        made = Beat(**self.draws.head(channel, opcode, size, source=choose.choice(self.sources)))
        if channel == "A" and self.chance(80):
            free = [source for source in self.sources if source not in link.in_flight]
            made = replace(made, source=choose.choice(free or self.sources))
        if answers_a_request(channel, made):
            asked = list(link.in_flight.values())
            asked += [self.offered["A"]] * 2 if "A" in self.offered else []
            if asked:
                request = choose.choice(asked)
                made = replace(made, source=request.source, size=request.size)
                if has_data(channel, made) and made.size > 9 and self.chance(90):
                    made = replace(made, opcode=0, param=0)
        return made

    def beat(self, channel: str) -> Beat:
        link = self.checker.link
        begun = link.open[channel]
        made = begun[0] if begun and not self.chance(3) else self.first(channel)
        if channel in "AB":
            active = link.active(made)
            made = replace(
                made,
                mask=(
                    active & self.random.getrandbits(self.settings.DATA_BYTES)
                    if NAMES[channel][made.opcode] == "PutPartialData"
                    else active
                ),
            )
        made = replace(made, corrupt=int(has_data(channel, made) and self.chance(20)))
        return self.spoilt(channel, made) if self.chance(20) else made

    def spoilt(self, channel: str, made: Beat) -> Beat:
        settings, choose = self.settings, self.random
        bits = {
            "opcode": 3,
            "param": 2 if channel == "D" else 3,
            "size": settings.SIZE_BITS,
            "source": settings.SOURCE_BITS,
            "corrupt": 1,
        }
        bits.update({"sink": settings.SINK_BITS, "denied": 1} if channel == "D" else {"address": settings.ADDRESS_BITS})
        if channel in "AB":
            bits["mask"] = settings.DATA_BYTES
        name = choose.choice(sorted(bits))
        return replace(made, **{name: getattr(made, name) ^ 1 << choose.randrange(bits[name])})

    def cycles(self, count: int) -> Iterator[Cycle]:
        """Each cycle: reset, the beats that are offered, and the channels whose beats are accepted; then what the
        checker has to say of it.
        """
        for number in range(count):
            reset = number < 2 or self.chance(1)
            for channel in CHANNELS:
                if channel in self.offered and self.chance(15):
                    del self.offered[channel]
                if channel not in self.offered and self.chance(60):
                    self.offered[channel] = self.beat(channel)
            beats = dict(self.offered)
            accepted = {channel for channel in beats if self.chance(65)}
            if "A" in accepted and not self.has_room(beats["A"]):
                accepted.discard("A")
            yield reset, beats, accepted, self.checker.cycle(reset, beats, accepted)
            if reset:
                self.offered = {}
            for channel in accepted:
                self.offered.pop(channel, None)

    def has_room(self, beat: Beat) -> bool:
        """A request without room is for the tests of `overflow`."""
        in_flight, most = self.checker.link.in_flight, self.settings.MAX_OUTSTANDING
        return not most or len(in_flight) < most or beat.source in in_flight
