"""Random traces: lawful ones, ones with planted faults, wild ones and broken ones.

A case depends only on a seed and its number. The cases go through the 64 pairs of widths up to 128 lanes. Half of them
are in each version of a trace, except that 128 lanes are only in version 2. These are their kinds:

    lawful    messages on all five channels, with bursts, partial masks, several sources in flight, and responses out of
    order faulty    the same, with one or two faults planted: each fault of a beat, of a source or of a response, bursts
    cut short,
              and beats lost, repeated or exchanged
    wild      lines that can be read, with random fields
    broken    the text of one of these with bytes replaced, inserted, removed or cut off, with lines lost, repeated or
    exchanged,
              with another version, or with another width in the header, such as 128 in version 1

In version 2 ids have 16 bits, and often all sources of a case are equal in their low 8 bits.
"""

import random
from itertools import islice
from typing import Any, Callable, Dict, List, Tuple

from project import MODEL, script
from tlbridge.traffic import Conversation, Faults, Message, Options, Transfer, lines_of

model: Any = script(MODEL)
CHANNELS, HEADS, ID_DIGITS, OPCODES = model.CHANNELS, model.HEADS, model.ID_DIGITS, model.OPCODES
WIDEST, WIDTHS = model.WIDEST, model.WIDTHS

PAIRS = [(client, manager) for client in WIDTHS for manager in WIDTHS]
KINDS = ("lawful", "lawful", "faulty", "faulty", "faulty", "wild", "broken", "broken")


def lawful_trace(client: int, manager: int, lines: int, seed: int, **more: Any) -> bytes:
    """The text of a lawful conversation, as tools/make-trace writes it."""
    return "".join(Conversation(Options(client, manager, seed, lines=lines, **more)).texts()).encode()


class Maker:
    """Makes the text of one case."""

    def __init__(self, seed: object, number: int) -> None:
        self.random = random.Random(f"{seed}/{number}")
        self.client, self.manager = PAIRS[number % len(PAIRS)]
        self.version = self.random.choice(
            [version for version in ID_DIGITS if max(self.client, self.manager) <= WIDEST[version]]
        )
        self.ids = 16 ** ID_DIGITS[self.version]
        self.heads = HEADS[self.version]
        self.kind = self.random.choice(KINDS)
        self.beats_left = self.random.choice((40, 200, 600, 5000) if self.chance(0.05) else (10, 40, 100))
        self.lists: Dict[str, List[Transfer]] = {channel: [] for channel in CHANNELS}

    def chance(self, share: float) -> bool:
        return self.random.random() < share

    def near(self, channel: str) -> int:
        return int(self.manager if channel in "BD" else self.client)

    # -- Kinds of cases

    def sources(self) -> List[int]:
        """Sources to take requests from: any, or in version 2 such as are alike in their low 8 bits."""
        alike = self.version == 2 and self.chance(0.5)
        all_sources = range(self.random.randrange(256), self.ids, 256) if alike else range(self.ids)
        return self.random.sample(all_sources, self.random.choice((1, 2, 4, 8, 256)))

    def sizes(self) -> List[int]:
        """Any size, more often one of few beats, and most often a small one."""
        few = [min(12, width.bit_length() - 1 + more) for width in (self.client, self.manager) for more in range(4)]
        return [*range(13), *15 * few, *16 * [0, 0, 1, 2, 2, 3, 3, 4, 5, 6, 6, 7, 8]]

    def lawful(self) -> None:
        """Up to 30 messages of a conversation. In half of the cases, it ends amid its exchanges."""
        favourite = self.random.choice((None, None, "A", "AD", "B", "C", "CD", "E"))
        mix = {"A": 3, "B": 1, "C": 2, "D": 1, "E": 1}
        self.options = Options(
            self.client,
            self.manager,
            self.random.getrandbits(64),
            lines=1 + self.beats_left,
            mix={**mix, **{channel: 15 for channel in favourite or ""}},
            sizes=self.sizes(),
            sources=self.sources(),
            version=self.version,
            source_bits=4 * ID_DIGITS[self.version],
            sink_bits=4 * ID_DIGITS[self.version],
            denied=0.2,
            corrupt=0.3,
            noise=0.5,
        )
        made = Conversation(self.options).messages()
        for message in islice(made, self.random.randint(0, 30)):
            self.lists[message.channel] += message.beats

    def faulty(self) -> None:
        """A conversation in which one or two mistakes are planted."""
        self.lawful()
        Faults(self.random, self.lists, self.options, self.version).plant(self.random.randint(1, 2))

    def wild(self) -> None:
        """Beats with fields drawn at random, of few sources, sizes and addresses."""
        for _ in range(self.random.randint(0, 20)):
            channel = self.random.choice(CHANNELS)
            width = self.near(channel)
            head = {
                name: self.random.choice((0, most, self.random.randint(0, most)))
                for name, _, most in self.heads[channel]
            }
            if channel != "E":
                head["source"] = self.random.choice((head["source"], 0, 1))
                head["size"] = self.random.choice((head["size"], 0, 1, 2, 3))
            if "address" in head:
                head["address"] = self.random.choice((head["address"], 0, 8 * self.random.randrange(16)))
            mask = self.random.choice((0, 2**width - 1, self.random.getrandbits(width)))
            beat = Transfer(head, mask, self.random.getrandbits(8 * width), int(self.chance(0.2)))
            self.lists[channel] += [beat] * self.random.choice((1, 1, 1, 2, 4))

    # -- The text

    def lines(self) -> List[str]:
        """The lines of the five lists, in an order that keeps the order of each."""
        left = {}
        for channel, beats in self.lists.items():
            left[channel] = lines_of(Message(channel, {}, 0, beats), self.near(channel), self.version)
        if self.chance(0.3):
            order = self.random.sample(CHANNELS, 5)
            return [line for channel in order for line in left[channel]]
        turns = [channel for channel, lines in left.items() for _ in lines]
        self.random.shuffle(turns)
        rest = {channel: iter(lines) for channel, lines in left.items()}
        return [next(rest[channel]) for channel in turns]

    def text(self) -> bytes:
        getattr(self, self.kind if self.kind != "broken" else self.random.choice(("lawful", "faulty", "wild")))()
        lines = [f"tilelink-trace {self.version} client {self.client} manager {self.manager}", *self.lines()]
        text = "".join(line + "\n" for line in lines).encode()
        if self.kind == "broken":
            for _ in range(self.random.choice((1, 1, 1, 2, 4))):
                text = self.random.choice(self.breaks())(text)
        return text

    def breaks(self) -> Tuple[Callable[[bytes], bytes], ...]:
        return (
            self.replaced,
            self.replaced,
            self.lengthened,
            self.shortened,
            self.moved,
            self.out_of_range,
            self.unended,
            self.of_another_version,
            self.of_another_width,
        )

    def byte(self) -> bytes:
        common = b"0123456789abcdefABCDEFG \n\r\t\0\xff-+_g"
        return bytes([self.random.choice(common) if self.chance(0.8) else self.random.randrange(256)])

    def at(self, text: bytes) -> int:
        """A place in a text: any, but the first and the last line more often than others."""
        first, last = text.find(b"\n") + 1, text.rfind(b"\n", 0, -1) + 1
        places = ((0, first), (last, len(text)), (first, len(text)), (first, len(text)), (first, len(text)))
        low, high = self.random.choice(places)
        return self.random.randint(low, max(low, high))

    def replaced(self, text: bytes) -> bytes:
        at = self.at(text)
        return text[:at] + self.byte() + text[at + 1 :]

    def lengthened(self, text: bytes) -> bytes:
        at = self.at(text)
        return text[:at] + b"".join(self.byte() for _ in range(self.random.choice((1, 1, 2, 5)))) + text[at:]

    def shortened(self, text: bytes) -> bytes:
        at = self.at(text)
        return text[:at] + (b"" if self.chance(0.4) else text[at + self.random.choice((1, 1, 2, 5, 40)) :])

    def moved(self, text: bytes) -> bytes:
        lines = text.splitlines(True)
        if not lines:
            return text
        at, to = self.random.randrange(len(lines)), self.random.randrange(len(lines))
        how = self.random.choice(("exchanged", "lost", "twice", "joined", "raised", "returned"))
        if how == "exchanged":
            lines[at], lines[to] = lines[to], lines[at]
        elif how == "lost":
            del lines[at]
        elif how == "twice":
            lines.insert(to, lines[at])
        elif how == "joined":
            lines[at] = lines[at].removesuffix(b"\n")
        elif how == "raised":
            lines[at] = lines[at].upper()
        else:
            lines[at] = lines[at].replace(b"\n", b"\r\n")
        return b"".join(lines)

    def of_another_version(self, text: bytes) -> bytes:
        """A header of another version, or an id with the digits of another one."""
        lines = text.splitlines(True)
        if not lines:
            return text
        at = self.random.choice((0, self.random.randrange(len(lines))))
        words = lines[at].split(b" ")
        if at == 0 and len(words) > 1:
            words[1] = self.random.choice((b"0", b"1", b"2", b"2", b"3", b"01", b"12", b""))
        elif words[0] == b"E":
            words[-1] = words[-1][2:] if self.version == 2 else b"00" + words[-1]
        elif len(words) > 4:
            words[4] = words[4][2:] if self.version == 2 else b"00" + words[4]
        lines[at] = b" ".join(words)
        return b"".join(lines)

    def of_another_width(self, text: bytes) -> bytes:
        """A header in which one width is another number, a width or none."""
        lines = text.splitlines(True)
        words = lines[0].rstrip(b"\n").split(b" ") if lines else []
        if len(words) != 6:
            return text
        words[self.random.choice((3, 5))] = self.random.choice(
            (b"128", b"128", b"64", b"256", b"0", b"3", b"12", b"0128", b"1280", b"")
        )
        return b" ".join(words) + b"\n" * lines[0].endswith(b"\n") + b"".join(lines[1:])

    def unended(self, text: bytes) -> bytes:
        return text.removesuffix(b"\n")

    def out_of_range(self, text: bytes) -> bytes:
        """A field of one digit, or a mask, that is too large."""
        lines = text.splitlines(True)
        if len(lines) < 2:
            return text
        at = self.random.randrange(1, len(lines))
        words = lines[at].split(b" ")
        field = self.random.choice((1, 2, 6, 7, -1))
        if -len(words) <= field < len(words) and len(words[field].strip()) == 1:
            words[field] = self.random.choice(b"23456789abcdef").to_bytes(1, "big") + words[field][1:]
        lines[at] = b" ".join(words)
        return b"".join(lines)
