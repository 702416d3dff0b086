#!/usr/bin/env python3
"""Writes a VCD of any size: two links, and other signals that change all the time.

    wave_dump.py MEGABYTES [--client BYTES] [--others N] [--changes N] > DUMP

The client's link has twice the width of the manager's. Writes of one beat, which become two, and reads of half a beat
cross one after the
other, in order and without a mistake. --others is the number of other signals, and --changes how many of them change in
a cycle. Standard error gets
the number of accepted beats and the last time.
"""
import argparse
import random
import sys
from typing import Any, Dict, Iterator, List

A = (
    ("valid", 1),
    ("ready", 1),
    ("opcode", 3),
    ("param", 3),
    ("size", 4),
    ("source", 6),
    ("address", 32),
    ("mask", 0),
    ("data", -1),
    ("corrupt", 1),
)
D = (
    ("valid", 1),
    ("ready", 1),
    ("opcode", 3),
    ("param", 2),
    ("size", 4),
    ("source", 6),
    ("sink", 4),
    ("denied", 1),
    ("data", -1),
    ("corrupt", 1),
)


class Dump:
    def __init__(self, words: Any) -> None:
        self.client, self.manager, self.random = words.client, words.client // 2, random.Random(1)
        self.codes: Dict[Any, str] = {}
        self.lines: List[str] = []
        self.first: List[str] = []
        self.time, self.beats = 0, 0
        self.header(words.others)
        # chunks of changes that are written again and again, as tools write them
        wide = [code for code, bits in self.others if bits > 1]
        narrow = [code for code, bits in self.others if bits == 1]
        self.chunks = []
        for _ in range(512 if self.others else 0):
            one = [
                f"{self.random.getrandbits(1)}{self.random.choice(narrow)}\n" for _ in range(words.changes * 7 // 10)
            ]
            many = [
                f"b{self.random.getrandbits(32):b} {self.random.choice(wide)}\n"
                for _ in range(words.changes - len(one))
            ]
            self.chunks.append("".join(one + many))

    def code(self) -> str:
        number, text = len(self.codes), ""
        while number >= 0:
            text, number = text + chr(33 + number % 94), number // 94 - 1
        return text

    def add(self, key: Any, name: str, bits: int) -> None:
        self.codes[key] = self.code()
        self.first.append(
            f"b0 {self.codes[key]}\n" if bits > 1 else f"{int(str(key).endswith('ready'))}{self.codes[key]}\n"
        )
        self.lines.append(f"$var wire {bits} {self.codes[key]} {name}{f' [{bits - 1}:0]' if bits > 1 else ''} $end\n")

    def header(self, others: int) -> None:
        self.lines += ["$timescale 1ns $end\n", "$scope module top $end\n", "$scope module dut $end\n"]
        self.add("clock", "clock", 1)
        self.add("reset", "reset", 1)
        for side, width in (("in", self.client), ("out", self.manager)):
            for channel, fields in (("a", A), ("d", D)):
                for field, bits in fields:
                    name = f"auto_{side}_{channel}_{'' if field in ('valid', 'ready') else 'bits_'}{field}"
                    self.add(side + channel + field, name, {0: width, -1: 8 * width}.get(bits, bits))
        self.lines.append("$upscope $end\n$scope module other $end\n")
        self.others = []
        for number in range(others):
            bits = 32 if number % 10 > 6 else 1
            self.add(number, f"signal_{number}", bits)
            self.others.append((self.codes[number], bits))
        self.lines += ["$upscope $end\n$upscope $end\n$enddefinitions $end\n#0\n$dumpvars\n"]
        self.lines += [*self.first, "$end\n"]

    def drive(self, place: str, **fields: Any) -> None:
        for field, value in fields.items():
            code = self.codes[place + field]
            self.lines.append(f"{value}{code}\n" if field == "valid" else f"b{value:b} {code}\n")

    def cycle(self) -> str:
        """One clock cycle. Signals that were driven before it change at its rising edge. Beats are accepted at the next
        one.
        """
        lines, self.lines = self.lines, []
        self.time += 10
        other = self.random.choice(self.chunks) if self.chunks else ""
        return (
            f"#{self.time}\n1{self.codes['clock']}\n{''.join(lines)}{other}#{self.time + 5}\n0{self.codes['clock']}\n"
        )

    def write(self, source: int, address: int) -> Iterator[str]:
        data, half = self.random.getrandbits(8 * self.client), 8 * self.manager
        size = self.client.bit_length() - 1
        self.drive(
            "ina", valid=1, opcode=0, size=size, source=source, address=address, mask=(1 << self.client) - 1, data=data
        )
        yield self.cycle()
        self.drive("ina", valid=0)
        self.drive(
            "outa",
            valid=1,
            opcode=0,
            size=size,
            source=source,
            address=address,
            mask=(1 << self.manager) - 1,
            data=data & (1 << half) - 1,
        )
        yield self.cycle()
        self.drive("outa", data=data >> half)
        yield self.cycle()
        self.drive("outa", valid=0)
        yield from self.respond(0, size, source, 0)
        self.beats += 5

    def read(self, source: int, address: int) -> Iterator[str]:
        size = self.manager.bit_length() - 1
        ask = {"valid": 1, "opcode": 4, "size": size, "source": source, "address": address}
        self.drive("ina", **ask, mask=(1 << self.manager) - 1)
        yield self.cycle()
        self.drive("ina", valid=0)
        self.drive("outa", **ask, mask=(1 << self.manager) - 1)
        yield self.cycle()
        self.drive("outa", valid=0)
        yield from self.respond(1, size, source, self.random.getrandbits(8 * self.manager))
        self.beats += 4

    def respond(self, opcode: int, size: int, source: int, data: int) -> Iterator[str]:
        self.drive("outd", valid=1, opcode=opcode, size=size, source=source, data=data)
        yield self.cycle()
        self.drive("outd", valid=0)
        self.drive("ind", valid=1, opcode=opcode, size=size, source=source, data=data)
        yield self.cycle()
        self.drive("ind", valid=0)
        yield self.cycle()


def main() -> None:
    parser = argparse.ArgumentParser(description=__doc__, formatter_class=argparse.RawDescriptionHelpFormatter)
    parser.add_argument("megabytes", type=float)
    parser.add_argument("--client", type=int, default=8)
    parser.add_argument("--others", type=int, default=5000)
    parser.add_argument("--changes", type=int, default=100)
    words = parser.parse_args()
    dump, number = Dump(words), 0
    written = sys.stdout.write("".join(dump.lines))
    dump.lines = []
    while written < words.megabytes * 1e6:
        address = number * dump.client % (1 << 24)
        for text in (dump.write, dump.read)[number % 2](number % 64, address):
            written += sys.stdout.write(text)
        number += 1
    print(f"{dump.beats} beats, time {dump.time}", file=sys.stderr)


if __name__ == "__main__":
    main()
