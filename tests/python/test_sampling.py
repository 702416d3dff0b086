"""LinkSampler by tables: which unknown bits of a beat something reads, for each field, lane, opcode and channel, and by
which request's lanes a response is read. Expected lanes follow from docs/SPECIFICATION.md: byte i of a message is on
lane (address + i) mod width."""
import unittest
from typing import Any, Dict, Set, Tuple

from tlbridge.protocol import CARRIES_DATA, GRANTS
from tlbridge.sampling import LinkSampler, digits_of, is_known, number_of_bits

HEAD = {"opcode": 3, "param": 3, "size": 4, "source": 16}
FIELDS = {
    "A": {**HEAD, "address": 32, "mask": 0, "data": 0, "corrupt": 1},
    "B": {**HEAD, "address": 32, "mask": 0, "data": 0, "corrupt": 1},
    "C": {**HEAD, "address": 32, "data": 0, "corrupt": 1},
    "D": {**HEAD, "sink": 16, "denied": 1, "data": 0, "corrupt": 1},
    "E": {"sink": 16},
}
# The opcodes of each channel: with data, and without.
WITH_DATA = {channel: tuple(opcodes) for channel, opcodes in CARRIES_DATA.items() if channel != "E"}
WITHOUT = {"A": (4, 5, 6, 7), "B": (4, 5, 6, 7), "C": (0, 2, 4, 6), "D": (0, 2, 4, 6)}


def bits_of(channel: str, width: int, **values: Any) -> Dict[str, str]:
    """The bits of a beat: of each field its number, or its text."""
    wide = {"mask": width, "data": 8 * width}
    return {
        field: value if isinstance(value := values.get(field, 0), str) else f"{value:0{bits or wide[field]}b}"
        for field, bits in FIELDS[channel].items()
    }


def sampled(sampler: Any, **beats: Dict[str, str]) -> Dict[str, Any]:
    """The accepted beats of an edge, by channel: each beat, and the words about its unknown bits."""
    return {
        channel: (beat, unknown)
        for channel, beat, unknown in sampler.edge({channel: bits.__getitem__ for channel, bits in beats.items()})
    }


def lanes_of(address: int, size: int, width: int) -> Set[int]:
    return {(address + i) % width for i in range(min(1 << size, width))}


def unknown_in(lane: int, width: int, letter: str = "x") -> Tuple[str, str]:
    """Data with an unknown bit on a lane, and its digits."""
    bits = ["01011010"] * width
    bits[lane] = f"0{letter}011010"
    digits = ["5a"] * width
    digits[lane] = "xa"
    return "".join(reversed(bits)), "".join(reversed(digits))


class Numbers(unittest.TestCase):
    def test_each(self) -> None:
        for bits, number, digits in (
            ("0", 0, "0"),
            ("1", 1, "1"),
            ("x", 0, "x"),
            ("10", 2, "2"),
            ("1z", 2, "x"),
            ("1111", 15, "f"),
            ("10000", 16, "10"),
            ("x0000", 0, "x0"),
            ("1000U", 16, "1x"),
            ("101010101", 0x155, "155"),
            ("-0001111", 15, "xf"),
            ("z" * 9, 0, "xxx"),
        ):
            with self.subTest(bits):
                self.assertEqual(
                    (number_of_bits(bits), digits_of(bits), is_known(bits)), (number, digits, "x" not in digits)
                )


class Sampler(unittest.TestCase):
    def test_each_field(self) -> None:
        """Each bit of each field comes to its own field; an unknown bit is 0 and is told."""
        for channel, fields in FIELDS.items():
            for field, bits in fields.items():
                width = 4
                bits = bits or {"mask": 4, "data": 32}[field]
                for bit in range(bits):
                    if field == "data":
                        continue
                    for letter in "1xzZ":
                        text = "0" * (bits - 1 - bit) + letter + "0" * bit
                        beat, unknown = sampled(
                            LinkSampler(width), **{channel: bits_of(channel, width, **{"opcode": 4, field: text})}
                        )[channel]
                        with self.subTest(channel=channel, field=field, bit=bit, letter=letter):
                            opcode = {"opcode": 4} if channel != "E" else {}
                            wanted = {**opcode, field: 1 << bit if letter == "1" else 0}
                            self.assertEqual(
                                {
                                    name: int(getattr(beat, name))
                                    for name in fields
                                    if name != "data" and getattr(beat, name)
                                },
                                {name: value for name, value in wanted.items() if value},
                            )
                            reads = letter != "1"  # opcode 4 of D is Grant, so its sink is read
                            digits = "0" * (-(-bits // 4) - 1 - bit // 4) + "x" + "0" * (bit // 4)
                            if field == "opcode" and letter != "1":
                                digits = "x"
                            self.assertEqual(unknown, [f"{field} is {digits}"] if reads else [])

    def test_sinks(self) -> None:
        """The sink is read of Grant and GrantData, and on E."""
        for opcode in range(8):
            unknown = sampled(LinkSampler(4), D=bits_of("D", 4, opcode=opcode, sink="x" * 16))["D"][1]
            self.assertEqual(unknown, ["sink is xxxx"] if opcode in GRANTS else [])
        self.assertEqual(sampled(LinkSampler(4), E=bits_of("E", 4, sink="1" * 15 + "z"))["E"][1], ["sink is fffx"])

    def test_each_lane(self) -> None:
        """An unknown bit of data is told on the lanes of the message, and nowhere else."""
        for width in (1, 2, 8, 128):
            for size in range(0, width.bit_length() + 1):
                for address in {0, width // 2, 3 * width, (1 << 32) - width} | {width - 1 if size == 0 else 0}:
                    address = address >> size << size
                    for lane in {0, 1, width // 2, width - 1} & {*range(width)}:
                        self.check(width, size, address, lane)

    def check(self, width: int, size: int, address: int, lane: int) -> None:
        data, digits = unknown_in(lane, width)
        is_on = lane in lanes_of(address, size, width)
        for channel, opcodes in WITH_DATA.items():
            for opcode in (*opcodes, *WITHOUT[channel]):
                sampler, head = LinkSampler(width), dict(opcode=opcode, size=size, source=5, data=data)
                if channel == "D":
                    sampled(sampler, A=bits_of("A", width, opcode=4, size=size, source=5, address=address))
                    if opcode == 6:  # ReleaseAck has no data
                        self.assertEqual(sampled(sampler, D=bits_of("D", width, **head))["D"][1], [])
                        continue
                masks = ("1" * width, "1" * (width - 1 - lane) + "0" + "1" * lane) if channel in "AB" else ("",)
                for mask in masks:
                    words = bits_of(
                        channel,
                        width,
                        **head,
                        **({"mask": mask} if mask else {}),
                        **({"address": address} if channel != "D" else {}),
                    )
                    beat, unknown = sampled(sampler, **{channel: words})[channel]
                    reads = is_on and opcode in opcodes and (not mask or mask[width - 1 - lane] == "1")
                    with self.subTest(
                        width=width, size=size, address=address, lane=lane, channel=channel, opcode=opcode, mask=mask
                    ):
                        self.assertEqual(unknown, [f"data is {digits}"] if reads else [])
                        self.assertEqual(beat.data, bytes(0x1A if i == lane else 0x5A for i in range(width)))
                    if channel == "D":
                        break

    def test_lanes_of_responses(self) -> None:
        """Each step is an edge: requests as `A source lane`, and responses as `D source lane opcode`, whose unknown
        byte is on that lane. A response is read on the lane of its request."""

        def get(source: int, lane: int) -> Dict[str, str]:
            return bits_of("A", 4, opcode=4, size=0, source=source, address=0x100 + lane, mask=1 << lane)

        sequences: Tuple[Any, ...] = (
            [("A", 1, 2), ("D", 1, 2, 1)],
            [("A", 1, 2), ("A", 2, 3), ("D", 2, 3, 1), ("D", 1, 2, 1)],
            [("A", 1, 2), ("D", 1, 2, 1), ("A", 1, 3), ("D", 1, 3, 1)],
            [(("A", 1, 2), ("D", 1, 2, 1))],
            [(("A", 1, 2), ("D", 1, 2, 1)), (("A", 1, 3), ("D", 1, 3, 1))],
            [("A", 1, 2), ("D", 1, 2, 1), (("A", 1, 3), ("D", 1, 3, 1))],
            [("A", 1, 2), (("A", 1, 3), ("D", 1, 2, 1)), ("D", 1, 3, 1)],
            [("A", 1, 2), ("D", 1, 0, 6), ("D", 1, 2, 1)],
            [("A", 1, 2), (("A", 2, 1), ("D", 1, 2, 1)), (("A", 1, 0), ("D", 2, 1, 1)), ("D", 1, 0, 1)],
            [("A", 0xFFFF, 3), ("A", 0xFF, 1), ("D", 0xFFFF, 3, 1), ("D", 0xFF, 1, 1)],
            [("D", 1, 0, 1), ("A", 1, 2), ("D", 1, 2, 5)],
        )
        for steps in sequences:
            for lane_seen in range(4):
                sampler = LinkSampler(4)
                for step in steps:
                    beats: Any = step if isinstance(step[0], tuple) else (step,)
                    data, digits = unknown_in(lane_seen, 4)
                    accepted = {}
                    for beat in reversed(beats):  # a response before its request in the dictionary
                        accepted[beat[0]] = (
                            get(beat[1], beat[2])
                            if beat[0] == "A"
                            else bits_of("D", 4, opcode=beat[3], size=0, source=beat[1], data=data)
                        )
                    got = sampled(sampler, **accepted)
                    for beat in beats:
                        if beat[0] == "D":
                            with self.subTest(steps=steps, at=step, lane=lane_seen):
                                self.assertEqual(
                                    got["D"][1], [f"data is {digits}"] if beat[3] != 6 and lane_seen == beat[2] else []
                                )

    def test_order(self) -> None:
        """The beats of an edge come in the order of their channels, and the words about a beat in the order of its
        fields."""
        beats = {
            channel: bits_of(channel, 4, **({"source": "x" * 16, "corrupt": "z"} if channel != "E" else {}))
            for channel in "EDCBA"
        }
        got = LinkSampler(4).edge({channel: bits.__getitem__ for channel, bits in beats.items()})
        self.assertEqual([channel for channel, _, _ in got], [*"ABCDE"])
        self.assertEqual(
            {channel: unknown for channel, _, unknown in got},
            {**dict.fromkeys("ABCD", ["source is xxxx", "corrupt is x"]), "E": []},
        )
