"""Judges whether corrupt bytes stay corrupt on their way through a design that is no plain bridge.

A byte that left the design as a good one was lost if the other link had this value at this address as a corrupt one
only. Corrupt may spread to other bytes, as when beats are joined. Bytes of an atomic that the design computes by itself
may have any value, so they are not judged. Nor is what it writes as it has read it before, as a cache does.
"""
from __future__ import annotations

from typing import Dict, Iterator, List, NamedTuple, Set, Tuple

from ..protocol import beat_count
from .design import Design
from .judge import Beat, Beats, Problem, is_unknown, lanes_of, name_of, values_of


class _Byte(NamedTuple):
    channel: str
    place: Tuple[int, str]  # address and value
    is_bad: bool
    at: int  # the line of its beat


def _bytes_of(lines: List[str], width: int) -> Iterator[_Byte]:
    """Yields each byte of the puts and of the data responses of a link."""
    asked: Dict[str, List[int]] = {}
    address, left = {"A": 0, "D": 0}, {"A": 0, "D": 0}
    for at, line in enumerate(lines):
        channel = line[0]
        if channel not in "AD":
            continue
        values = values_of(line)
        if any(is_unknown(values.get(name, "")) for name in ("opcode", "size", "source", "address")):
            continue  # it has another mistake. Unknown data are no mistake in a corrupt beat, which still has its place
        opcode, size = int(values["opcode"], 16), int(values["size"], 16)
        beats = beat_count(channel, opcode, size, width)
        if left[channel] == 0:
            left[channel] = beats
            if channel == "A":
                address["A"] = int(values["address"], 16)
                asked.setdefault(values["source"], []).append(address["A"])
            elif opcode != 6:
                waiting = asked.get(values["source"], [])
                address["D"] = waiting.pop(0) if waiting else 0
        first = address[channel]
        base = first // width * width + (beats - left[channel]) * width
        left[channel] -= 1
        if opcode not in ((0, 1) if channel == "A" else (1,)):
            continue
        is_bad = values["corrupt"] != "0" or values.get("denied", "0") != "0"
        mask = -1 if channel == "D" else 0 if is_unknown(values["mask"]) else int(values["mask"], 16)
        for lane, value in enumerate(lanes_of(values["data"])):
            if mask >> lane & 1 and first <= base + lane < first + (1 << size) and not is_unknown(value):
                yield _Byte(channel, (base + lane, value), is_bad, at)


def _of_atomics(lines: List[str]) -> Set[int]:
    """Returns the addresses of all atomics of a link."""
    found: Set[int] = set()
    for line in lines:
        if line[0] == "A" and line[2] in "23":
            values = values_of(line)
            if not is_unknown(values["size"]) and not is_unknown(values["address"]):
                address = int(values["address"], 16)
                found |= set(range(address, address + (1 << int(values["size"], 16))))
    return found


def corrupt_problems(design: Design, beats: Beats) -> List[Problem]:
    """Returns the first byte of each direction that was corrupt on one link and is good on the other one."""
    links = design.links
    bytes_of = {side: list(_bytes_of(beats.lines[side], links[side].width)) for side in links}
    computed = _of_atomics(beats.lines["client"]) - _of_atomics(beats.lines["manager"])
    written = {byte.place for byte in bytes_of["client"] if byte.channel == "A" and not byte.is_bad}
    found = []
    for channel, near, far in (("A", "client", "manager"), ("D", "manager", "client")):
        if not all(link.has(channel, "corrupt") for link in links.values()):
            continue
        good: Set[Tuple[int, str]] = set(written)
        good |= {byte.place for byte in bytes_of[near] if byte.channel == channel and not byte.is_bad}
        bad = {byte.place for byte in bytes_of[near] if byte.channel == channel and byte.is_bad} - good
        read: Set[Tuple[int, str]] = set()  # as good bytes behind the design, before a beat that it writes
        for byte in bytes_of[far]:
            if byte.channel != channel:
                read |= {byte.place} if channel == "A" and not byte.is_bad else set()
                continue
            if byte.place in bad and not byte.is_bad and byte.place not in read and byte.place[0] not in computed:
                beat = Beat(beats.times[far][byte.at], far, beats.lines[far][byte.at])
                words = (
                    f"{far} link: {name_of(beat.line)} has {byte.place[1]} at 0x{byte.place[0]:x} as a good byte, which"
                    f" is corrupt on the {near} link"
                )
                found.append(Problem("memory", channel, words, beat.time, beat=beat))
                break
    return found
