"""The maker of random traffic, by a seed. The tests, `tools/make-trace` and tlbridge-verify draw from it.

`Draws` draws the parts of one legal message: params, addresses, ids, bytes, masks and corrupt bits. `Conversation`
draws the messages of both sides in an order of time, by its `Options`: kinds, sizes, ids, and how responses come out of
order. `Faults` plants mistakes in the beats of a conversation. The same seed makes the same traffic on any machine.

Addresses are aligned, and each mask is that of the layout (TileLink 1.8: 4.6 and the rules of each message). No message
interrupts another one of its channel. A conversation reuses a source only after the response to its last request.
"""
import random
from dataclasses import dataclass
from itertools import islice
from typing import Dict, Iterator, List, Mapping, NamedTuple, Optional, Sequence, Tuple, Union

from .protocol import (
    CHANNELS,
    FIELDS,
    FROM_MANAGER,
    ID_DIGITS,
    MASKED,
    MAX_SIZE,
    NUMBERS,
    OPCODES,
    PARAMS,
    RELEASE_ACK,
    WIDEST_OF_VERSION,
    active_lanes,
    beat_count,
)

Head = Dict[str, int]
_PUT_PARTIAL = NUMBERS["A", "PutPartialData"]
_BLOCK_SIZE = 6  # a cache block has 64 bytes
_MAX_MISSES = 100
_NOT_IN_HEAD = ("mask", "data", "corrupt")


class Transfer(NamedTuple):
    """A beat. `mask` has bit i for lane i, and `data` has 8 bits for each lane, lane 0 lowest."""

    head: Head
    mask: int = 0
    data: int = 0
    corrupt: int = 0


class Message(NamedTuple):
    """The near beats of a message. `home` is the address of its first byte, on D that of its request."""

    channel: str
    head: Head
    home: int
    beats: List[Transfer]


class Draws:
    """Draws the parts of legal messages from a generator of random numbers."""

    def __init__(self, source: random.Random, source_bits: int = 16, sink_bits: int = 16, address_bits: int = 64):
        self.random = source
        self.source_bits, self.sink_bits, self.address_bits = (source_bits, sink_bits, address_bits)

    def param(self, channel: str, opcode: int) -> int:
        """Returns any legal param of a message."""
        return self.random.randrange(OPCODES[channel][opcode].params)

    def address(self, size: int) -> int:
        """Returns an aligned address: anywhere, in the first 256 bytes, or in the last 64."""
        draw = self.random
        address = draw.choice([draw.getrandbits(64), draw.getrandbits(8), (1 << 64) - 1 - draw.getrandbits(6)])
        return address % (1 << self.address_bits) >> size << size

    def head(self, channel: str, opcode: int, size: int, **given: int) -> Head:
        """Returns the head of a message, in which the fields that are not given are drawn. E needs no opcode and no
        size."""
        draw = self.random
        if channel == "E":
            return {"sink": given["sink"] if "sink" in given else draw.getrandbits(self.sink_bits)}
        head = {"opcode": opcode, "size": size}
        for name in FIELDS[channel]:
            if name in given:
                head[name] = given[name]
            elif name == "param":
                head[name] = self.param(channel, opcode)
            elif name == "source":
                head[name] = draw.getrandbits(self.source_bits)
            elif name == "sink":
                head[name] = draw.getrandbits(self.sink_bits)
            elif name == "address":
                head[name] = self.address(size)
            elif name == "denied":
                head[name] = draw.randrange(2)
        return {name: head[name] for name in FIELDS[channel] if name in head}

    def beats(
        self, channel: str, head: Head, width: int, home: Optional[int] = None, corrupt: float = 0.3, noise: float = 1.0
    ) -> List[Transfer]:
        """Returns the beats of a message on a link of `width` bytes. `home` is the address of its request on D.

        Masks of PutPartialData are drawn. A message with data is spoilt with the chance `corrupt`, and then 2 of 5 of
        its beats are corrupt. Lanes without a byte of the message are 0, or with the chance `noise` drawn.
        """
        if channel == "E":
            return [Transfer(head)]
        draw = self.random
        opcode, size = head["opcode"], head["size"]
        place = head.get("address", 0) if home is None else home
        active = active_lanes(size, place, width)
        has_data = OPCODES[channel][opcode].has_data
        is_partial = channel in MASKED and opcode == _PUT_PARTIAL
        is_noisy = noise > 0 and draw.random() < noise
        is_spoilt = has_data and corrupt > 0 and draw.random() < corrupt
        bits, shift = (
            (8 * width, 0) if is_noisy else (8 * min(width, 1 << size), 8 * (active & -active).bit_length() - 8)
        )
        made = []
        for _ in range(beat_count(channel, opcode, size, width)):
            mask = active if channel in MASKED else 0
            if is_partial:
                mask &= draw.choice((active, 0, draw.getrandbits(width), draw.getrandbits(width)))
            data = draw.getrandbits(bits) << shift if has_data or is_noisy else 0
            made.append(Transfer(head, mask, data, int(is_spoilt and draw.random() < 0.4)))
        return made


# The kinds of exchanges: each is one of several, with the channel, name and param of each of its messages (0 by
# default). The params of an exchange fit each other, and the sinks of no two outstanding ones are equal.
EXCHANGES: Dict[str, Tuple[str, ...]] = {
    "get": ("A Get, D AccessAckData",),
    "put": ("A PutFullData, D AccessAck",),
    "partial": ("A PutPartialData, D AccessAck",),
    "arithmetic": ("A ArithmeticData any, D AccessAckData",),
    "logical": ("A LogicalData any, D AccessAckData",),
    "intent": ("A Intent any, D HintAck",),
    "acquire": (
        "A AcquireBlock NtoB, D GrantData toB, E GrantAck",
        "A AcquireBlock NtoT, D GrantData toT, E GrantAck",
        "A AcquireBlock BtoT, D Grant toT, E GrantAck",
        "A AcquirePerm NtoT, D Grant toT, E GrantAck",
    ),
    "probe": (
        "B ProbeBlock toN, C ProbeAckData TtoN",
        "B ProbeBlock toB, C ProbeAckData TtoB",
        "B ProbeBlock toN, C ProbeAck BtoN",
        "B ProbePerm toN, C ProbeAck NtoN",
    ),
    "release": ("C ReleaseData TtoN, D ReleaseAck", "C ReleaseData TtoB, D ReleaseAck", "C Release BtoN, D ReleaseAck"),
}
_OF_BLOCKS = ("acquire", "probe", "release")
# Messages with any param, of which the bridge needs no more: a request with any response to it, any message of B or C
# by itself, a ReleaseAck, a GrantAck.
LOOSE = CHANNELS


@dataclass
class _Exchange:
    """The source that an exchange frees at its end, if it has one, and its messages that are left."""

    source: Optional[int]
    messages: List[Message]


@dataclass(frozen=True)
class Options:
    """The contents and the length of a conversation.

    One of `lines`, `bytes` and `beats` limits its length. The first two count the text of the trace with its header.
    `beats` limits the near beats, and three times as many far ones.
    """

    client: int  # the width of each link, in bytes
    manager: int
    seed: object = 1
    lines: Optional[int] = None
    bytes: Optional[int] = None
    beats: Optional[int] = None
    mix: Optional[Mapping[str, float]] = None  # the share of each word; all EXCHANGES alike by default
    continuing: Optional[float] = None  # share of steps that continue one; half by default
    channels: str = CHANNELS  # messages of others are left out
    sizes: Sequence[int] = tuple(range(7))  # of which each is drawn alike
    opcodes: Optional[Mapping[str, Sequence[int]]] = None  # by channel, of loose messages; all by default
    sources: Union[int, Sequence[int]] = 8  # how many, or which
    unique: bool = False  # each source is used for one exchange only
    outstanding: int = 1 << 16  # the most exchanges at a time
    version: Optional[int] = None  # of the trace; the lowest that fits by default
    source_bits: int = 8
    sink_bits: int = 8
    address_bits: int = 64
    denied: float = 0.0  # the chance that a response is denied
    corrupt: float = 0.0  # the chance that a message with data has corrupt beats
    noise: float = 0.0  # the chance that a message has random bytes on lanes without a byte


class Conversation:
    """Messages of both sides in their order of time, as drawn with the options."""

    def __init__(self, options: Options) -> None:
        self.options = options
        self.random = random.Random(f"{options.client} {options.manager} {options.seed}")
        bits = max(options.source_bits, options.sink_bits)
        self.version = options.version or min(
            version
            for version, widest in WIDEST_OF_VERSION.items()
            if max(options.client, options.manager) <= widest and bits <= 4 * ID_DIGITS[version]
        )
        self.digits = ID_DIGITS[self.version]
        self.draws = Draws(self.random, options.source_bits, options.sink_bits, options.address_bits)
        shares = dict(options.mix if options.mix is not None else dict.fromkeys(EXCHANGES, 1.0))
        self._words: List[Optional[str]] = [*shares, None]
        total = sum(shares.values())
        self._shares = [*shares.values(), total if options.continuing is None else options.continuing]
        if total <= 0:
            raise ValueError("every share is 0")
        ids = 1 << options.source_bits
        if isinstance(options.sources, int):
            self.sources = self.random.sample(range(ids), min(options.sources, ids))
        else:
            self.sources = list(options.sources)
        self._free = list(self.sources)
        self._misses = 0  # exchanges in a row that did not fit
        self._costs: Dict[Tuple[str, int, int], float] = {}  # by channel, opcode and size
        self.header = f"tilelink-trace {self.version} client {options.client} manager {options.manager}\n"
        limits = [limit for limit in (options.lines, options.bytes, options.beats) if limit is not None]
        if len(limits) != 1:
            raise ValueError("one of lines, bytes and beats is needed")
        self._room: float = limits[0] - (len(self.header) if options.bytes is not None else options.lines is not None)

    def width(self, channel: str, is_far: bool = False) -> int:
        """Returns the width of the sender's link, or of the receiver's."""
        return self.options.manager if (channel in FROM_MANAGER) != is_far else self.options.client

    # ---- Exchanges

    def _exchange(self, word: str, source: int) -> List[Message]:
        """The messages of an exchange."""
        options, draw = self.options, self.random
        size = _BLOCK_SIZE if word in _OF_BLOCKS else draw.choice(options.sizes)
        if word in LOOSE:
            opcodes = (options.opcodes or {}).get(word, [*OPCODES[word]])
            opcode = 0 if word == "E" else RELEASE_ACK if word == "D" else draw.choice(opcodes)
            first = self._message(word, opcode, size, None, source=source)
            if word != "A":
                return [first]
            responses = (options.opcodes or {}).get("D", [opcode for opcode in OPCODES["D"] if opcode != RELEASE_ACK])
            return [first, self._message("D", draw.choice(responses), size, first.home, source=source)]
        address = self.draws.address(size)
        sink = (1 << options.sink_bits) - 1 - source % (1 << options.sink_bits)
        made = []
        for step in draw.choice(EXCHANGES[word]).split(", "):
            channel, name, *param = step.split()
            given = {"source": source, "address": address, "sink": sink if name.startswith("Grant") else 0}
            opcode = NUMBERS.get((channel, name), 0)
            if param != ["any"]:
                given["param"] = PARAMS[param[0]] if param else 0
            made.append(self._message(channel, opcode, size, address, **given))
        return made

    def _message(self, channel: str, opcode: int, size: int, home: Optional[int], **given: int) -> Message:
        options = self.options
        if channel == "D":
            given["denied"] = int(options.denied > 0 and self.random.random() < options.denied)
        head = self.draws.head(channel, opcode, size, **given)
        return Message(channel, head, head.get("address", 0) if home is None else home, [])

    def _cost(self, message: Message) -> float:
        """How much of the room the message takes."""
        channel, head = message.channel, message.head
        if channel not in self.options.channels:
            return 0
        opcode, size = (head["opcode"], head["size"]) if channel != "E" else (0, 0)
        key = channel, opcode, size
        if key not in self._costs:
            near, far = (
                beat_count(channel, opcode, size, self.width(channel, is_far)) if channel != "E" else 1
                for is_far in (False, True)
            )
            if self.options.bytes is not None:
                near *= len(self.text(message._replace(beats=[Transfer(head)])))
            self._costs[key] = near if self.options.beats is None else max(near, far / 3)
        return self._costs[key]

    def _word(self, outstanding: int) -> Optional[str]:
        """The kind of the exchange that begins now, or None if an outstanding one continues."""
        word = self.random.choices(self._words, self._shares)[0] if self._misses < _MAX_MISSES else None
        if word is None or not self._holds_source(word):
            return word
        if not self._free and self.options.unique:
            self._misses = _MAX_MISSES
        return word if self._free and outstanding < self.options.outstanding else None

    @staticmethod
    def _holds_source(word: str) -> bool:
        return word in EXCHANGES or word == "A"

    def _begin(self, word: str) -> Optional[_Exchange]:
        """An exchange that begins now, or None if it has no beat on these channels, or more than fit."""
        holds = self._holds_source(word)
        source = self._free[-1] if holds else self.random.choice(self.sources)
        messages = self._exchange(word, source)
        cost = sum(map(self._cost, messages))
        if not 0 < cost <= self._room:
            self._misses += 1
            return None
        self._misses = 0
        self._room -= cost
        if holds:
            self._free.pop()
        return _Exchange(source if holds and not self.options.unique else None, messages)

    def messages(self) -> Iterator[Message]:
        """Yields the messages with their beats.

        An exchange that does not fit is drawn again. After 100 such draws in a row, the outstanding exchanges end, and
        the conversation with them.
        """
        running: List[_Exchange] = []
        while running or self._misses < _MAX_MISSES:
            word = self._word(len(running))
            if word is not None:
                begun = self._begin(word)
                if begun is None:
                    continue
                running.append(begun)
            elif not running:
                continue
            at = self.random.randrange(len(running)) if word is None else len(running) - 1
            exchange = running[at]
            message = exchange.messages.pop(0)
            if not exchange.messages:
                running.pop(at)
                if exchange.source is not None:
                    self._free.insert(self.random.randint(0, len(self._free)), exchange.source)
            if message.channel in self.options.channels:
                yield self._with_beats(message)

    def _with_beats(self, message: Message) -> Message:
        channel, options = message.channel, self.options
        width = self.width(channel)
        made = self.draws.beats(channel, message.head, width, message.home, options.corrupt, options.noise)
        return message._replace(beats=made)

    # ---- The trace

    def text(self, message: Message) -> str:
        """Returns the lines of a message."""
        return "".join(line + "\n" for line in lines_of(message, self.width(message.channel), self.version))

    def texts(self) -> Iterator[str]:
        """Yields the header, and the lines of each message, in their order of time."""
        yield self.header
        for message in self.messages():
            yield self.text(message)


def lines_of(message: Message, width: int, version: int) -> List[str]:
    """Returns the lines of a trace for the beats of a message, which may have heads of their own."""
    channel, digits = message.channel, _digits_of(message.channel, version)
    found: List[str] = []
    last, text = None, ""
    for beat in message.beats:
        if beat.head is not last:
            last = beat.head
            text = " ".join([channel, *(f"{last[name]:0{count}x}" for name, count in digits)])
        mask = f" {beat.mask:0{(width + 3) // 4}x}" if channel in MASKED else ""
        found.append(f"{text}{mask} {beat.data:0{2 * width}x} {beat.corrupt}" if channel != "E" else text)
    return found


def _digits_of(channel: str, version: int) -> List[Tuple[str, int]]:
    """The fields of a head in the order of a line, with their hexadecimal digits."""
    digits = {"source": ID_DIGITS[version], "sink": ID_DIGITS[version], "address": 16}
    return [(name, digits.get(name, 1)) for name in FIELDS[channel] if name not in _NOT_IN_HEAD]


# ---- Mistakes


def faulty_texts(conversation: Conversation, count: int, source: random.Random) -> Iterator[str]:
    """Yields the header and the lines of a conversation in which `count` mistakes are planted.

    The channels take turns as in the conversation; beats that a mistake added come last.
    """
    lists: Dict[str, List[Transfer]] = {channel: [] for channel in CHANNELS}
    turns = []
    for message in conversation.messages():
        turns += [message.channel] * len(message.beats)
        lists[message.channel] += message.beats
    Faults(source, lists, conversation.options, conversation.version).plant(count)
    lines = {}
    for channel, beats in lists.items():
        whole = Message(channel, {}, 0, beats)
        lines[channel] = iter(lines_of(whole, conversation.width(channel), conversation.version))
    yield conversation.header
    for channel in turns:
        yield from (line + "\n" for line in islice(lines[channel], 1))
    for rest in lines.values():
        yield from (line + "\n" for line in rest)


class Faults:
    """Plants mistakes in the beats of each channel, which it changes. Some of them are faults of a beat, of a source or
    of a response. Others are bursts cut short, and beats that are lost, doubled or exchanged. A few change nothing that
    a rule sees."""

    def __init__(self, source: random.Random, lists: Dict[str, List[Transfer]], options: Options, version: int):
        self.random, self.lists, self.version = source, lists, version
        self.widths = {channel: options.manager if channel in FROM_MANAGER else options.client for channel in CHANNELS}

    def plant(self, count: int = 1) -> None:
        """Plants mistakes of `count` kinds, which are drawn."""
        kinds = (self.head, self.burst, self.beat, self.order, self.order, self.source, self.cut)
        for _ in range(count):
            self.random.choice(kinds)()

    def _place(self, channels: str = CHANNELS) -> Optional[Tuple[str, int]]:
        """A channel that has beats, and one of its places, or None."""
        filled = [channel for channel in channels if self.lists[channel]]
        if not filled:
            return None
        channel = self.random.choice(filled)
        return channel, self.random.randrange(len(self.lists[channel]))

    def _inside(self) -> Optional[Tuple[str, int]]:
        """A channel that has bursts, and the place of a beat in one, but not of its first beat, or None."""
        places = {}
        for channel, beats in self.lists.items():
            found = [i for i in range(1, len(beats)) if beats[i].head == beats[i - 1].head]
            if found and channel != "E":
                places[channel] = found
        if not places:
            return None
        channel = self.random.choice(list(places))
        return channel, self.random.choice(places[channel])

    def _most(self, channel: str, name: str) -> int:
        """The largest value of a field of the head."""
        bits = {"opcode": 3, "param": 2 if channel == "D" else 3, "denied": 1}
        return (1 << bits.get(name, 4 * dict(_digits_of(channel, self.version))[name])) - 1

    def _change(self, channel: str, at: int, until: Optional[int] = None, **fields: int) -> None:
        """Changes fields of the head of a beat, or of all beats from there on that have its head."""
        beats = self.lists[channel]
        head = beats[at].head
        other = {**head, **fields}
        for i in range(at, len(beats) if until is None else until):
            if beats[i].head != head:
                break
            beats[i] = beats[i]._replace(head=other)

    def head(self) -> None:
        """A fault of a head by itself, or of its burst."""
        place = self._place("ABCD")
        if not place:
            return
        channel, at = place
        draw, head, known = self.random, self.lists[channel][at].head, OPCODES[channel]
        until = draw.choice((None, at + 1))
        fault = draw.choice(("opcode", "param", "size", "address", "other"))
        if fault == "opcode" and len(known) < 8:
            self._change(channel, at, until, opcode=draw.choice([opcode for opcode in range(8) if opcode not in known]))
        elif fault == "param" and head["opcode"] in known:
            params = range(known[head["opcode"]].params, self._most(channel, "param") + 1)
            if params:
                self._change(channel, at, until, param=draw.choice(params))
        elif fault == "size":
            self._change(channel, at, until, size=draw.choice((13, 14, 15, draw.randrange(MAX_SIZE + 1))))
        elif fault == "address" and channel != "D":
            off = draw.randrange(1, 2 ** max(1, min(head["size"], MAX_SIZE)))
            self._change(channel, at, until, address=(head["address"] + off) % 2**64)
        else:
            name = draw.choice([*head])
            self._change(channel, at, at + 1, **{name: draw.randint(0, self._most(channel, name))})

    def beat(self) -> None:
        """Another mask, or the other corrupt bit."""
        place = self._place("ABCD")
        if not place:
            return
        channel, at = place
        beat = self.lists[channel][at]
        if channel in MASKED and self.random.random() < 0.6:
            beat = beat._replace(mask=beat.mask ^ 1 << self.random.randrange(self.widths[channel]))
        else:
            beat = beat._replace(corrupt=beat.corrupt ^ 1)
        self.lists[channel][at] = beat

    def order(self) -> None:
        """A beat that is lost, doubled or exchanged with another, a list that ends early, a whole message that is lost,
        or whole messages in another order."""
        place = self._place()
        if not place:
            return
        channel, at = place
        beats = self.lists[channel]
        how = self.random.choice(("lost", "doubled", "exchanged", "ends", "lost whole", "mixed"))
        if how == "lost":
            del beats[at]
        elif how == "doubled":
            beats.insert(at, beats[at])
        elif how == "exchanged":
            other = self.random.randrange(len(beats))
            beats[at], beats[other] = beats[other], beats[at]
        elif how == "ends":
            del beats[at:]
        else:
            messages = self._whole(channel)
            if messages and how == "mixed":
                self.random.shuffle(messages)
            elif messages:
                del messages[self.random.randrange(len(messages))]
            self.lists[channel][:] = [beat for message in messages for beat in message]

    def _whole(self, channel: str) -> List[List[Transfer]]:
        """The beats of each message of a channel, by the number of beats that its first one promises."""
        beats, found, at = self.lists[channel], [], 0
        while at < len(beats):
            count = self._beat_count(channel, beats[at].head)
            found.append(beats[at : at + count])
            at += count
        return found

    def _beat_count(self, channel: str, head: Head) -> int:
        if channel == "E":
            return 1
        return beat_count(channel, head["opcode"], min(head["size"], MAX_SIZE), self.widths[channel])

    def burst(self) -> None:
        """Another value of one field of the head inside a burst, in one beat or from there on."""
        place = self._inside()
        if not place:
            return
        channel, at = place
        name = self.random.choice([*self.lists[channel][at].head])
        most, value = self._most(channel, name), self.lists[channel][at].head[name]
        others = (value ^ 1, value ^ (most + 1) // 2, value ^ most, self.random.randint(0, most))
        self._change(channel, at, self.random.choice((None, at + 1)), **{name: self.random.choice(others)})

    def cut(self) -> None:
        """A list that ends inside a burst."""
        place = self._inside()
        if place:
            channel, at = place
            del self.lists[channel][at:]

    def source(self) -> None:
        """A request or a response with the source or the size of another one."""
        place = self._place("AD")
        if not place:
            return
        channel, at = place
        other = self.random.choice(self.lists[self.random.choice("AD")] or self.lists[channel]).head
        name = self.random.choice(("source", "size"))
        if self.lists[channel][at].head["opcode"] in OPCODES[channel]:
            self._change(channel, at, **{name: other[name]})
            if name == "size" and channel == "D":
                self._refit(at)

    def _refit(self, at: int) -> None:
        """Gives the response at a place as many beats as its size says."""
        beats = self.lists["D"]
        head = beats[at].head
        start, end = at, at
        while start > 0 and beats[start - 1].head == head:
            start -= 1
        while end < len(beats) and beats[end].head == head:
            end += 1
        if head["size"] <= MAX_SIZE:
            beats[start:end] = [beats[at]] * self._beat_count("D", head)
