"""Traces as vectors for play.sv, and what it wrote as an answer."""

from collections import defaultdict, deque
from pathlib import Path
from typing import Any, DefaultDict, Deque, Dict, List, Sequence, Tuple

from tables import carries_data, near_width

CHANNELS = "ABCDE"
END = "x" * 320  # behind the last beat: a GrantAck of sink 0 is all zeros, and an AccessAck can be, too
Fields = Dict[str, Any]
Requests = DefaultDict[int, Deque[int]]


def vector(fields: Fields) -> str:
    """The 1280 bits of a beat as 320 digits; `data` is a text of digits, perhaps with x."""
    word = (
        fields["opcode"]
        | fields["param"] << 8
        | fields["size"] << 16
        | fields["corrupt"] << 24
        | fields["denied"] << 25
    )
    low = word | fields["source"] << 32 | fields["sink"] << 48 | fields["address"] << 64 | fields["mask"] << 128
    return f"{fields['data']:0>256}{low:064x}"


def beat(line: str, width: int, requests: Requests) -> Fields:
    """The fields of a line of a trace, with x on each lane without a byte. `requests`: the addresses of the requests of
    each source.
    """
    k, *words = line.split()
    numbers = ("opcode", "param", "size", "source", "sink", "denied", "corrupt", "address", "mask")
    fields: Fields = {**dict.fromkeys(numbers, 0), "data": ""}
    if k == "E":
        return fields | {"sink": int(words[0], 16)}
    names = (
        ["opcode", "param", "size", "source"]
        + (["sink", "denied"] if k == "D" else ["address"])
        + (["mask"] if k in "AB" else [])
    )
    fields |= {name: int(word, 16) for name, word in zip(names, words)} | {"corrupt": int(words[-1])}
    home = fields["address"] if k != "D" else (requests[fields["source"]][0] if requests[fields["source"]] else 0)
    bytes_of_beat = min(width, 1 << fields["size"])
    active = {(home + i) % width for i in range(bytes_of_beat)} if carries_data(k, fields["opcode"]) else set()
    lanes = [words[-2][2 * i : 2 * i + 2] for i in range(width)]  # highest first
    fields["data"] = "".join(byte if width - 1 - i in active else "xx" for i, byte in enumerate(lanes))
    return fields


def vectors(lines: Sequence[str], widths: Dict[str, int], folder: Path) -> None:
    """Writes the beats of each channel as vectors."""
    requests: Requests = defaultdict(deque)
    left = dict.fromkeys(CHANNELS, 0)
    out: Dict[str, List[str]] = {k: [] for k in CHANNELS}
    for k in "ABCED":  # the requests first
        for line in (line for line in lines if line[0] == k):
            fields = beat(line, widths[k], requests)
            if not left[k]:
                left[k] = (
                    max(1, (1 << fields["size"]) // widths[k]) if k != "E" and carries_data(k, fields["opcode"]) else 1
                )
                if k == "A":
                    requests[fields["source"]].append(fields["address"])
            left[k] -= 1
            if k == "D" and not left[k] and fields["opcode"] != 6:
                requests[fields["source"]].popleft()
            out[k].append(vector(fields))
    for k in CHANNELS:
        (folder / f"near_{k}.hex").write_text("\n".join(out[k] + [END]) + "\n")


def far_line(k: str, digits: str, width: int, ids: int) -> str:
    """The line of a far beat, by the digits that the simulation wrote."""
    low = int(digits[-64:], 16) if "x" not in digits[-64:] else 0
    data, mask = digits[256 - 2 * width : 256], low >> 128
    opcode, param, size, corrupt, denied = low & 7, low >> 8 & 7, low >> 16 & 255, low >> 24 & 1, low >> 25 & 1
    source, sink, address = low >> 32 & 0xFFFF, low >> 48 & 0xFFFF, low >> 64 & (1 << 64) - 1
    if k == "E":
        return f"E {sink:0{ids}x}"
    head = f"{k} {opcode:x} {param:x} {size:x} {source:0{ids}x} " + (
        f"{sink:0{ids}x} {denied}" if k == "D" else f"{address:016x}"
    )
    return head + (f" {mask:0{(width + 3) // 4}x}" if k in "AB" else "") + f" {data} {corrupt}"


def widths_of(header: str) -> Tuple[int, Dict[str, int], Dict[str, int]]:
    """The version of a trace, and the near and the far width of each channel, by its first line."""
    version, client, manager = int(header.split()[1]), int(header.split()[3]), int(header.split()[5])
    near = {k: near_width(k, client, manager) for k in CHANNELS}
    return version, near, {k: near_width(k, manager, client) for k in CHANNELS}


def write_vectors(trace: Path, folder: Path) -> None:
    """Writes folder/near_A.hex to near_E.hex, one beat a line, in the words of top.sv. A lane without a byte is x."""
    header, *lines = trace.read_text().splitlines()
    vectors(lines, widths_of(header)[1], folder)


def read_answer(trace: Path, folder: Path) -> str:
    """The answer that folder/far_A.txt to far_E.txt and accepted.txt make, which play.sv wrote."""
    header = trace.read_text().partition("\n")[0]
    version, _, far = widths_of(header)
    accepted = (folder / "accepted.txt").read_text().split()
    got = {k: (folder / f"far_{k}.txt").read_text().split() for k in CHANNELS}
    lines = [header.replace("trace", "far")]
    lines += [far_line(k, digits, far[k], 2 * version) for k in CHANNELS for digits in got[k]]
    lines += [f"= {k} done {count} {len(got[k])}" for k, count in zip(CHANNELS, accepted)]
    return "\n".join(lines) + "\n"
