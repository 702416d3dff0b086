"""Scripts and settings: what the client and the manager send of their own accord, and when. The agents make the
answers."""
from __future__ import annotations

import random
from dataclasses import dataclass, replace
from typing import Dict, List, NamedTuple, Optional, Sequence, Tuple

from ..protocol import CARRIES_DATA, NUMBERS
from ..traffic import Draws
from .design import Design, DesignError

# The kinds of requests that a script may have, with the message on A, and its opcode.
REQUESTS = {
    "put": "PutFullData",
    "partial": "PutPartialData",
    "arithmetic": "ArithmeticData",
    "logical": "LogicalData",
    "get": "Get",
    "intent": "Intent",
    "acquire": "AcquireBlock",
    "acquireperm": "AcquirePerm",
}
OPCODES = {kind: NUMBERS["A", name] for kind, name in REQUESTS.items()}
ATOMICS = ("arithmetic", "logical")
KINDS: Dict[str, Tuple[str, ...]] = {
    "UL": ("get", "put", "partial"),
    "UH": ("get", "put", "partial", "arithmetic", "logical", "intent"),
    "C": (*OPCODES, "release", "probe"),
}
MOST_MESSAGES = 8000  # of a script
PLAIN_LARGEST = 64  # bytes: larger messages come after the others
_MOST_BYTES = 4096
_FAR_CLOCKS = ((2000, 20000), (20000, 2000), (4000, 12000), (12000, 4000))  # half periods, for resets
_LONG_ROUND = 400  # messages, in a simulator for which a thousand cycles are nothing


class Message(NamedTuple):
    """A message of a script. Its mask and its corrupt beats follow from the seeds, and 0 is a full mask and none
    corrupt."""

    channel: str
    opcode: int
    param: int
    size: int
    source: int
    address: int
    tag: int = 0  # the first data byte follows from it
    mask_seed: int = 0
    corrupt_seed: int = 0
    at: int = 0  # not before this cycle of its sender

    def word(self) -> str:
        """Returns the message as a line for $readmemh."""
        _, opcode, param, size, source, address, tag, mask_seed, corrupt_seed, at = self
        line = "%08x%02x%04x%04x%x%x%02x%04x%016x\n"
        return line % (at, tag, mask_seed, corrupt_seed, opcode, param, size, source, address)


@dataclass(frozen=True)
class Limits:
    """The kinds, sizes and addresses of the traffic."""

    kinds: Tuple[str, ...]
    largest: int  # bytes
    window: Optional[Tuple[int, int]] = None  # first address and bytes, or None for all addresses
    held: int = 0  # bytes at the beginning of the window that a device does not deny, or 0 if that is unknown
    atomic: int = _MOST_BYTES  # bytes of the largest atomic
    has_pages: bool = False  # some addresses are in a window that is one higher address bit away
    page_bits: Tuple[int, ...] = ()  # of these, those that the source of the design names
    far: int = 0  # an address above the window at which a device answers, which denies what is between; or 0

    def largest_of(self, kind: str) -> int:
        return min(self.largest, self.atomic) if kind in ATOMICS else self.largest


def limits_of(
    design: Design,
    is_bridge: bool,
    level: Optional[str],
    largest: Optional[int],
    only: Optional[str],
    window: Optional[Tuple[int, int]],
) -> Limits:
    """Returns the limits by the ports, or as the user gave them. Errors: a kind is unknown, or the links cannot carry
    it.

    The traffic of a bridge has to fit both links, other traffic only the one to the client.
    """
    has_probes = design.manager is not None and "B" in design.manager.channels
    if not is_bridge and design.client is not None:
        design = replace(design, manager=None)
    level = level or design.level
    if level == "C" and design.level != "C":
        raise DesignError("--level C needs the channels A to E on each link")
    kinds = list(KINDS[level])
    if only is not None:
        kinds = only.split(",")
        unknown = [kind for kind in kinds if kind not in KINDS["C"]]
        if unknown:
            raise DesignError(f"--only: '{unknown[0]}' is no kind of message; the kinds are {', '.join(KINDS['C'])}")
        if design.level != "C":
            wrong = [kind for kind in kinds if kind not in KINDS["UH"]]
            if wrong:
                raise DesignError(f"--only: {wrong[0]} needs the channels A to E on each link")
    if "probe" in kinds and not has_probes:
        if only is not None:
            raise DesignError("--only: probe needs a link to the manager with B")
        kinds.remove("probe")
    if "partial" in kinds and not design.has("A", "mask"):
        if only is not None:
            raise DesignError("--only: partial needs a mask on A")
        kinds.remove("partial")
    narrow = min(link.width for link in design.links.values())
    most = min(1 << min(12, (1 << link.bits("size")) - 1) for link in design.links.values())
    if largest is not None and largest > most:
        raise DesignError(f"--largest {largest}: the size of the links says at most {most} bytes")
    if largest is not None and (largest < 1 or largest & (largest - 1)):
        raise DesignError(f"--largest {largest}: a power of 2 is needed")
    return Limits(tuple(kinds), largest or min(most, narrow if level == "UL" else _MOST_BYTES), window)


class Traffic:
    """Makes the rounds of a run. The same seed makes the same rounds on any machine."""

    def __init__(
        self, design: Design, limits: Limits, seed: int, is_bridge: bool, has_two_clocks: bool, is_memory: bool
    ):
        if not is_bridge and design.client is not None:
            design = replace(design, manager=None)  # the traffic is that of the link to the client
        self.design, self.limits, self.has_two, self.is_memory = (design, limits, has_two_clocks, is_memory)
        self.random = random.Random(seed)
        links = design.links.values()
        self.wide = max(link.width for link in links)
        self.narrow = min(link.width for link in links)
        self.address_bits = min(link.bits("address", 64) for link in links)
        self.draws = Draws(self.random, address_bits=self.address_bits)
        self.sources = 1 << min(link.bits("source", 1) for link in links)
        self.has_corrupt = {channel: design.has(channel, "corrupt") for channel in "ABC"}
        self.kinds = limits.kinds
        self.tag = 0
        self.share_held = 0.85  # of the addresses are those that a device does not deny
        self.spots: Tuple[float, ...] = (1.0,)  # of a window, as parts of it: some addresses are just below them
        self.share_near = 0.0  # are among the first of it, so that almost each read meets a write
        self.share_paged = 0.2  # of the addresses are a higher bit away
        self.page_bit: Optional[int] = None  # the only one of a round

    @property
    def largest_size(self) -> int:
        return min(self.limits.largest, PLAIN_LARGEST).bit_length() - 1

    def message(self, kind: str, size: int, source: int, address: Optional[int] = None) -> Message:
        """Returns a message of 2^size bytes, with a random address if none is given."""
        draw = self.random
        self.tag = (self.tag + 1) % 256
        size = min(size, self.limits.largest_of(kind).bit_length() - 1)
        if address is None:
            address = self.draws.address(size)
            if self.limits.window:
                address = self.offset()
        address = address % (1 << self.address_bits) >> size << size
        if self.limits.window:
            base, span = self.limits.window
            address = base + (address % span >> size << size)
            if self.limits.has_pages and self.address_bits > 12 and draw.random() < self.share_paged:
                bit = draw.randrange(12, self.address_bits)
                address ^= 1 << (bit if self.page_bit is None else self.page_bit)
        if kind == "release":
            channel, opcode, param = "C", 6 + draw.randrange(2), 1
            param = draw.choice((0, 1, 3)) if opcode == 7 else draw.randrange(6)
        elif kind == "probe":
            channel, opcode = "B", 6 + draw.randrange(2)
            param = self.draws.param(channel, opcode)
        else:
            channel, opcode = "A", OPCODES[kind]
            param = self.draws.param(channel, opcode)
        carries = opcode in CARRIES_DATA[channel]
        masked = kind == "partial" and draw.random() < 0.8
        spoilt = carries and self.has_corrupt[channel] and draw.random() < 0.15
        seeds = [draw.getrandbits(16) | 1 if wanted else 0 for wanted in (masked, spoilt)]
        return Message(channel, opcode, param, size, source, address, self.tag, *seeds)

    def offset(self) -> int:
        """An offset in the window: mostly near its beginning, so that reads meet writes, or one bit away from there, or
        near one of a few other places, of which one is the end."""
        draw = self.random
        assert self.limits.window
        span = self.limits.window[1]
        if self.limits.held and draw.random() < self.share_held:
            span = self.limits.held
        elif self.limits.held < span and self.limits.held and draw.random() < 0.5:  # just above what is not denied
            return self.limits.held + draw.getrandbits(draw.choice((5, 8))) % (span - self.limits.held)
        if draw.random() < self.share_near:
            return draw.getrandbits(6) % span
        if draw.random() < 0.2:
            return (int(span * draw.choice(self.spots)) - 1 - draw.getrandbits(5)) % span
        offset = draw.getrandbits(draw.choice((5, 8, 8))) % span
        if span > 256 and draw.random() < 0.35:
            offset ^= 1 << draw.randrange(8, (span - 1).bit_length())
        return offset

    def directed(self) -> List[Message]:
        """Each kind with each size at each lane offset of the wider link."""
        script: List[Message] = []
        draw = self.random
        for kind in self.kinds:
            for size in range(min(self.largest_size + 1, self.limits.largest_of(kind).bit_length())):
                step = 1 << size
                offsets: Sequence[int] = range(0, max(self.wide, step), step)
                if len(self.kinds) * self.wide >= 1500:
                    offsets = draw.sample(list(offsets), min(8, len(offsets)))
                for offset in offsets:
                    base = draw.getrandbits(64) & ~(max(self.wide, step) - 1)
                    script.append(self.message(kind, size, draw.randrange(self.sources), base + offset))
        return script

    def drawn(self, count: int, pool: int, sizes: str = "any", sticks: Optional[float] = None) -> List[Message]:
        """Random messages of `pool` sources. `sizes` is any, small, large (above 64 bytes too), width (about the
        widths) or mixed (both ends)."""
        draw = self.random
        sources = draw.sample(range(self.sources), min(pool, self.sources))
        sticks = draw.choice((0, 0, 0.5, 0.8)) if sticks is None else sticks  # how often a source comes twice in a row
        if sizes == "any":
            sizes = draw.choice(("any", "small", "width"))
        script: List[Message] = []
        while len(script) < count:
            again = script and draw.random() < sticks
            source = script[-1].source if again else draw.choice(sources)
            script.append(self.message(draw.choice(self.kinds), self.size(sizes), source))
        return script

    def size(self, sizes: str) -> int:
        draw, largest = self.random, self.largest_size
        size = draw.randint(0, largest)
        if sizes == "small":
            return min(size, draw.randint(0, largest))
        if sizes == "width":
            middle = (self.narrow if draw.random() < 0.5 else self.wide).bit_length() - 1
            return min(largest, max(0, middle + draw.randint(-1, 2)))
        if sizes == "mixed":
            return largest if draw.random() < 0.5 else draw.randint(0, min(2, largest))
        if sizes == "large" and draw.random() < 0.6:
            return draw.randint(largest, self.limits.largest.bit_length() - 1)
        return size

    def settings(self, calm: Optional[int] = None) -> Dict[str, int]:
        """Random settings of a round: clocks, stalls, and the order of the responses."""
        draw = self.random
        settings = dict(
            seed=draw.getrandbits(30),
            in_order=int(draw.random() < 0.3),
            early=int(draw.random() < 0.4),
            reuse=int(draw.random() < 0.6),
            denied=int(draw.random() < 0.8),
            corrupt=int(draw.random() < 0.8),
            patient=draw.randrange(2),
            serial=int(draw.random() < 0.08),
        )
        drawn = draw.choice([0, 0, 0, 0x3FF, draw.getrandbits(10), 0x2AA, 0x155])
        settings["calm"] = calm if calm is not None else drawn
        if self.has_two:
            ratios = [
                (5000, 5000),
                (5000, 10000),
                (10000, 5000),
                (3000, 7000),
                (7000, 3000),
                (5000, 5050),
                (5050, 5000),
            ]
            ratios += [(2000, 20000), (20000, 2000), (500 * draw.randint(4, 18), 500 * draw.randint(4, 18))]
            settings.update(self.clocks(*draw.choice(ratios)))
        return settings

    def clocks(self, client: int, manager: int) -> Dict[str, int]:
        """Settings of two clocks with these half periods in ps, and random phases."""
        draw, ratio = self.random, max(1, manager // client)
        phases = dict(client_phase=draw.randrange(2 * client), manager_phase=draw.randrange(2 * manager))
        return dict(client_half=client, manager_half=manager, **phases, idle=2000 * ratio, end=200 * ratio)

    def round(self, number: int, length: int) -> Tuple[List[Message], Dict[str, int]]:
        """Returns the script and the settings of a round. The first two are directed; the others repeat the list of
        styles."""
        if number < 2:
            return self.directed()[:MOST_MESSAGES], self.settings(0x3FF if number == 0 else 0)
        script, settings = self.styled(style_of(number), length)
        return script[:MOST_MESSAGES], settings

    def draw_page(self) -> None:
        """Chooses the higher bits of the addresses of a round. A design may treat all that have one of them in its own
        way, so in some rounds it is the same bit in many addresses: one that the source names, or a low one."""
        draw = self.random
        self.share_paged, self.page_bit = 0.2, None
        if self.limits.has_pages and self.address_bits > 12 and draw.random() < 0.6:
            low = min(12 + draw.choice((0, 0, 1, 2, 4)), self.address_bits - 1)
            stated = [bit for bit in self.limits.page_bits if bit < self.address_bits]
            self.page_bit = draw.choice(stated) if stated and draw.random() < 0.7 else low
            self.share_paged = draw.choice((0.2, 0.5, 0.5))

    def styled(self, name: str, length: int) -> Tuple[List[Message], Dict[str, int]]:
        """A round of one style."""
        all_sources = self.sources
        self.share_held = self.random.choice((0.95, 0.85, 0.85, 0.3))
        self.spots = (1.0, self.random.random(), self.random.random())
        self.share_near = 0.8 if name == "full" else 0.0
        self.draw_page()
        settings = self.settings()
        scale = settings.get("idle", 2000) // 2000
        if name == "any":
            return self.drawn(length, self.random.choice((2, 4, all_sources))), settings
        settings["serial"] = 0
        if name == "again":  # a source is used again while its response is under way
            settings.update(reuse=1, calm=self.random.choice((0x3FF, 0x55, 0x2AA, 0)))
            return (self.drawn(length, self.random.choice((1, 1, 2)), "mixed", 0.8), settings)
        if name == "full":  # no stalls at all, and long, so that counters run over, and near, so that it shows
            settings.update(calm=0x3FF, in_order=self.random.randrange(2))
            return self.drawn(3 * length, all_sources, "width", 0), settings
        if name == "all sources":  # as many outstanding as there are sources
            # in cycles of the manager, while `idle` is in those of the client
            slower = settings.get("client_half", 1) // settings.get("manager_half", 1)
            settings.update(gather=self.random.choice((40, 40, 300)) * max(1, slower), calm=0x3FF & ~0x2A0, in_order=0)
            settings["idle"] = settings.get("idle", 2000) + 2 * settings["gather"] * scale
            script = [message for _ in range(1 + length // all_sources) for message in self.each_source()]
            return script[: max(length, min(all_sources, 2 * length))], settings
        if name == "slow":  # a response comes long after its request, while another request waits
            slower = settings.get("client_half", 1) // settings.get("manager_half", 1)
            cycles = self.random.choice((140, 300, 600) if length < _LONG_ROUND else (140, 300, 600, 1100, 2200))
            settings.update(slow=cycles * max(1, slower), in_order=0)
            settings["idle"] = settings.get("idle", 2000) + 2 * settings["slow"] * scale
            return self.drawn(max(16, length // 10), self.random.choice((2, 3, all_sources)), "small"), settings
        if name == "blocking":  # ready waits for channels of higher priority
            settings.update(blocking=1, calm=self.random.choice((0x3FF, 0x3FF, 0)))
            return self.drawn(length, all_sources), settings
        if name == "long stalls":
            settings.update(long_stalls=1, idle=3 * settings.get("idle", 2000))
            return self.drawn(length, all_sources), settings
        if name == "large" and self.limits.largest > PLAIN_LARGEST:
            count = max(10, min(length, 60 * length // self.limits.largest))
            return self.drawn(count, all_sources, "large"), settings
        if name in ("reset", "after reset"):  # a denied request may be under way as well
            self.share_held = self.random.choice((0.85, 0.6, 0.3))
        if name in ("reset", "after reset") and all(link.reset for link in self.design.links.values()):
            if self.has_two and (name == "after reset" or self.random.random() < 0.3):
                settings.update(self.clocks(*self.random.choice(_FAR_CLOCKS)))
            settings.update(self.reset(settings, 60 if name == "after reset" else 0))
            if name == "after reset":
                settings.update(at_once=1, held=0, calm=self.random.choice((0x3FF, 0x3FF, 0)))
                return self.drawn(min(length, 60), all_sources), settings
            # a source that comes twice in a row waits for its response, and few requests are under way
            return self.drawn(min(length, 150), all_sources, sticks=self.random.choice((0, 0, 0.5))), settings
        if name == "withdraw":  # stalls on ready, so that there is time to take a valid back
            settings.update(calm=self.random.choice((0, 0x155)), patient=0, steady=0)
            return self.drawn(length, self.random.choice((1, 4, all_sources))), settings
        if name == "same cycle":
            settings["calm"] = self.random.choice((0x3FF, 0x2AA, 0))
        return self.drawn(length, self.random.choice((4, all_sources))), settings

    def reset(self, settings: Dict[str, int], cycles: int = 0) -> Dict[str, int]:
        """A reset in the middle, at most this number of cycles after the first request, or 120 or 380. Shortly before
        it, some readys fall, so that beats wait in the design."""
        draw = self.random
        client, manager = settings.get("client_half", 1), settings.get("manager_half", 1)
        first, second = (client, manager) if self.design.client is not None else (manager, manager)
        begin = 2 * (40 + 40 * second // first) if self.has_two else 20  # the cycles of the reset at the beginning
        slower = max(1, second // first)
        at = begin + draw.randint(20, cycles or draw.choice((120, 380))) * slower
        ready = [2 << 2 * number for number, channel in enumerate("ABCDE") if channel in self.design.channels]
        some = [draw.choice(ready), draw.choice(ready), draw.getrandbits(10) & sum(ready), sum(ready)]
        held = draw.choice([0, 0x80, *some])
        since = max(begin, at - draw.choice((12, 30)) * slower)
        return dict(reset_at=at, held=held, client_held=since, manager_held=since * first // second)

    def each_source(self) -> List[Message]:
        sources = list(range(self.sources))
        self.random.shuffle(sources)
        return [self.message(self.random.choice(self.kinds), self.size("small"), source) for source in sources]


# Each style once before any is repeated.
STYLES = (
    *("all sources", "any", "again", "blocking", "reset", "slow", "long stalls", "full", "large"),
    *("reset", "any", "reset"),
)
HOST_STYLES = ("any", "full", "reset", "blocking", "all sources", "long stalls", "slow")


def style_of(number: int) -> str:
    """The style of a round of a client, or `directed`."""
    return "directed" if number < 2 else STYLES[(number - 2) % len(STYLES)]
