#!/usr/bin/env python3
"""Reports two logs of beats to a scoreboard: examples/start/lane_bug, from an adapter of 8 to 4 bytes with a bug.

    compare.py FOLDER
"""
import sys
from pathlib import Path
from typing import Tuple

from tlbridge import Beat, Scoreboard

FIELDS = {
    "A": ("opcode", "param", "size", "source", "address", "mask", "data", "corrupt"),
    "D": ("opcode", "param", "size", "source", "sink", "denied", "data", "corrupt"),
}


def beat_of(line: str) -> Tuple[str, Beat]:
    """The channel and the beat of a line such as `A 4 0 2 01 0000000000001004 f0 0000000000000000 0`."""
    channel, *values = line.split()
    digits = dict(zip(FIELDS[channel], values))
    data = bytes.fromhex(digits.pop("data"))[::-1]  # lane 0 first
    denied, corrupt = digits.pop("denied", "0") == "1", digits.pop("corrupt") == "1"
    numbers = {name: int(value, 16) for name, value in digits.items()}
    return channel, Beat(data=data, denied=denied, corrupt=corrupt, **numbers)


def main(folder: Path) -> None:
    board = Scoreboard(client=8, manager=4, on_message=print)
    for link in ("client", "manager"):
        lines = (folder / f"{link}.beats").read_text().splitlines()
        times = (folder / f"{link}.beats.times").read_text().splitlines()
        for line, time in zip(lines, times):
            channel, beat = beat_of(line)
            board.beat(link, channel, int(time), beat)
    print(board.end(), "differences")


if __name__ == "__main__":
    if len(sys.argv) != 2:
        sys.exit(__doc__)
    main(Path(sys.argv[1]))
