"""Judges a memory by the link to its client: a byte that is read has to be one that may be there.

Each read has an interval, from its request to its response, and so has each write. A byte that is read is right if it
comes from a write that began before the read ended, and that no other write replaced for certain: none that began after
that write had ended, and ended before the read began. Writes that overlap may come in any order. A byte of a write that
was denied may have been written or not. A byte that was corrupt, or that an atomic is about to write, may have any
value. A device returns corrupt data only if a byte of the beat was not replaced by a good one for certain.
"""
from __future__ import annotations

from dataclasses import dataclass, field
from typing import Dict, List, Optional, Tuple

from ..protocol import CARRIES_DATA, beat_count
from .design import Design
from .judge import Beat, Beats, Problem, is_unknown, lanes_of, name_of, values_of

_FOREVER = 1 << 62
_PUTS, _ARITHMETIC, _LOGICAL, _GET = (0, 1), 2, 3, 4


@dataclass
class _Write:
    """A write of one byte. `value` is None if it is not known. Positions count the beats of the link."""

    value: Optional[int]
    begin: int
    end: int = _FOREVER
    is_certain: bool = True  # it was not denied
    is_corrupt: bool = False


@dataclass
class _Request:
    opcode: int
    param: int
    size: int
    address: int
    begin: int
    writes: Dict[int, _Write] = field(default_factory=dict)  # by address
    operand: Dict[int, str] = field(default_factory=dict)
    beats: int = 0  # that came
    is_corrupt: bool = False
    is_done: Optional[bool] = None  # its response has ended, and was not denied
    outcome: Optional[bool] = None  # the same, known from its first beat on for a strict rule


def computed(opcode: int, param: int, size: int, old: int, operand: int) -> int:
    """Returns what an atomic leaves in 2^size bytes."""
    bits = 8 << size
    if opcode == _LOGICAL:
        return (old ^ operand, old | operand, old & operand, operand)[param & 3]
    if param == 4:
        return (old + operand) % (1 << bits)
    top = 1 << (bits - 1) if param < 2 else 0  # MIN and MAX have a sign
    is_less = (old ^ top) < (operand ^ top)
    return old if is_less == (param & 1 == 0) else operand


class _Memory:
    """The values that each byte may have. `rule` is a strict one that is judged instead: of verify/strict.py, or empty.

    A write ends with its response. By the rules of accepted writes, it ends with the last beat of its request."""

    def __init__(self, width: int, is_device: bool, rule: str = ""):
        self.width, self.is_device, self.rule = width, is_device, rule
        self.bytes: Dict[int, List[_Write]] = {}
        self.first: Dict[int, str] = {}  # what the first read returned, for the rule reads-alike

    @property
    def ends_accepted(self) -> bool:
        return self.rule in ("reads-accepted", "reads-no-later")

    def keeps(self, request: _Request) -> bool:
        """Whether its writes count. By the rule reads-alike, those of a request that a device denies do not; behind
        another design, a part of the request may be done."""
        return self.rule != "reads-alike" or request.outcome is not False or not self.is_device

    def write(self, address: int, value: Optional[int], begin: int, is_corrupt: bool = False) -> _Write:
        made = _Write(value, begin, is_corrupt=is_corrupt)
        self.bytes.setdefault(address, []).append(made)
        return made

    def writes(self, address: int, begin: int, end: int, own: Optional[_Write]) -> List[_Write]:
        """Returns the writes of which a read of this interval may return one. None at all: it may also return what the
        memory held at first. `own` is the write of the same atomic."""
        writes = [write for write in self.bytes.get(address, []) if write is not own]
        over = max((w.begin for w in writes if w.end < begin and w.is_certain), default=-1)
        return [write for write in writes if write.begin < end and not write.end < over] if over >= 0 else []

    def possible(self, address: int, begin: int, end: int, own: Optional[_Write]) -> Optional[Tuple[int, ...]]:
        """Returns the values that a read of this interval may return, or None for any."""
        values = []
        for write in self.writes(address, begin, end, own):
            if write.value is None:
                return None
            values.append(write.value)
        return tuple(values) or None

    def is_later(self, address: int, begin: int, value: Optional[int]) -> bool:
        """Whether only writes that began after this place have this value."""
        writes = self.bytes.get(address, [])
        return {write.begin > begin for write in writes if write.value == value} == {True}

    def is_spoilt(self, base: int, wanted: range, begin: int, end: int) -> bool:
        """Whether a read of this interval finds corrupt data in a wanted byte of a beat, and nothing good was written
        into the beat after them, which may have cleared the mark of the whole beat."""
        places = range(base, base + self.width)
        for address in places:
            writes = self.writes(address, begin, end, None) if address in wanted else []
            if writes and all(write.is_corrupt for write in writes):
                since = min(write.begin for write in writes)
                beside = (write for place in places for write in self.bytes.get(place, []))
                if all(write.is_corrupt or write.end < since for write in beside):
                    return True
        return False

    def forget(self, address: int, begin: int) -> None:
        """Drops writes that were replaced for certain before `begin`."""
        writes = self.bytes.get(address)
        if writes and len(writes) > 24:
            over = max((w.begin for w in writes if w.end < begin and w.is_certain), default=-1)
            self.bytes[address] = [w for w in writes if not w.end < over]


def stale_read(design: Design, beats: Beats) -> Optional[Problem]:
    """Returns the first byte that a device reads older than a write that it accepted before the read."""
    if design.client is None or design.manager is not None:
        return None
    return next(iter(memory_problems(design, beats, "reads-accepted")), None)


def later_read(design: Design, beats: Beats) -> Optional[Problem]:
    """Returns the first byte that a device reads of a write that it accepted after the read."""
    if design.client is None or design.manager is not None:
        return None
    return next(iter(memory_problems(design, beats, "reads-no-later")), None)


def lost_corrupt(design: Design, beats: Beats) -> Optional[Problem]:
    """Returns the first good beat that a device reads at a place at which corrupt data were written last."""
    if design.client is None or design.manager is not None:
        return None
    if not (design.client.has("A", "corrupt") and design.client.has("D", "corrupt")):
        return None
    return next(iter(memory_problems(design, beats, "corrupt-stays")), None)


def changed_alone(design: Design, beats: Beats) -> Optional[Problem]:
    """Returns the first byte that reads otherwise than before, though nothing wrote it that was not denied."""
    if design.client is None:
        return None
    return next(iter(memory_problems(design, beats, "reads-alike")), None)


def _outcomes(lines: List[str], width: int) -> List[Optional[bool]]:
    """Returns for each request whether it was done, and not denied. None: no response came."""
    done: List[Optional[bool]] = []
    waiting: Dict[str, int] = {}
    left = {"A": 0, "D": 0}
    for line in lines:
        channel = line[0]
        if channel not in "AD" or is_unknown(line[:13]):
            continue
        values = values_of(line)
        if left[channel] == 0:
            left[channel] = beat_count(channel, int(values["opcode"], 16), int(values["size"], 16), width)
            if channel == "A":
                waiting[values["source"]] = len(done)
                done.append(None)
            elif values["source"] in waiting and values["opcode"] != "6":
                done[waiting.pop(values["source"])] = values["denied"] == "0"
        left[channel] -= 1
    return done


def memory_problems(design: Design, beats: Beats, rule: str = "") -> List[Problem]:
    """Returns the first wrong byte that a response returns on the link to the client, or the first one that breaks a
    strict rule."""
    width = design.links["client"].width
    lines, times = beats.lines["client"], beats.times["client"]
    memory = _Memory(width, design.manager is None, rule)
    outcomes = iter(_outcomes(lines, width) if memory.ends_accepted or rule == "reads-alike" else ())
    outstanding: Dict[str, _Request] = {}
    incoming: Optional[_Request] = None
    response: Optional[_Request] = None
    said: Dict[int, int] = {}  # the bytes of the response so far
    a_left = d_left = d_index = 0
    for at, line in enumerate(lines):
        channel = line[0]
        if channel not in "AD" or is_unknown(line[:13]):
            continue
        values = values_of(line)
        opcode, size = int(values["opcode"], 16), int(values["size"], 16)
        if channel == "A":
            if a_left == 0:
                a_left = beat_count("A", opcode, size, width)
                incoming = _Request(opcode, int(values["param"], 16), size, int(values["address"], 16), at)
                incoming.outcome = next(outcomes, None)
                outstanding[values["source"]] = incoming
                _expects(memory, incoming)
            assert incoming
            _receive(memory, incoming, values, width, at)
            a_left -= 1
            if memory.ends_accepted and a_left == 0:
                for write in incoming.writes.values():
                    write.end, write.is_certain = at, incoming.outcome is True
            continue
        if d_left == 0:
            d_left, d_index, said = beat_count("D", opcode, size, width), 0, {}
            response = outstanding.pop(values["source"], None) if opcode != 6 else None
        d_left -= 1
        if response is None:
            continue
        problem = _respond(memory, response, Beat(times[at], "client", line), values, width, d_index, at, said, lines)
        if problem:
            return [problem]
        d_index += 1
        if d_left == 0:
            _finish(memory, response, values, at, said)
    return []


def _expects(memory: _Memory, request: _Request) -> None:
    """An atomic may write all of its bytes from now on."""
    if request.opcode in (_ARITHMETIC, _LOGICAL) and memory.keeps(request):
        for address in range(request.address, request.address + (1 << request.size)):
            request.writes[address] = memory.write(address, None, request.begin)


def _receive(memory: _Memory, request: _Request, values: Dict[str, str], width: int, at: int) -> None:
    """A beat of a request: its bytes are written, or are the operand of an atomic."""
    if request.opcode not in CARRIES_DATA["A"] or not memory.keeps(request):
        return
    data, mask = lanes_of(values["data"]), int(values["mask"], 16)
    is_corrupt = values["corrupt"] != "0"
    request.is_corrupt |= is_corrupt
    base = request.address // width * width + request.beats * width
    for lane in range(width):
        address = base + lane
        if not request.address <= address < request.address + (1 << request.size):
            continue
        if request.opcode in _PUTS:
            if mask >> lane & 1:
                value = None if is_corrupt or is_unknown(data[lane]) else int(data[lane], 16)
                # all beats of a burst count as begun with the first one
                write = request.writes[address] = memory.write(address, value, request.begin, is_corrupt)
                if request.is_done is not None:  # the response came before the last beat
                    write.end, write.is_certain = at, request.is_done
        else:
            request.operand[address] = data[lane]
    request.beats += 1


def _is_offered(lines: List[str], at: int, address: int, value: str, width: int) -> bool:
    """Whether the next request writes this byte: it may be offered already, and a memory may have taken it."""
    head, index = "", 0
    for line in lines[at + 1 :]:
        if line[0] != "A":
            continue
        values = values_of(line)
        if head and line[:26] != head or int(values["opcode"], 16) > 3:
            return False
        head = line[:26]
        base = int(values["address"], 16) // width * width + index * width
        if base <= address < base + width:
            return int(values["opcode"], 16) > 1 or lanes_of(values["data"])[address - base] == value
        index += 1
    return False


def _first(memory: _Memory, address: int, value: str) -> Optional[str]:
    """Returns what the first read of a byte returned that nothing wrote, if it was something else."""
    if memory.bytes.get(address) or is_unknown(value):
        return None
    first = memory.first.setdefault(address, value)
    return first if first != value else None


def _respond(
    memory: _Memory,
    request: _Request,
    beat: Beat,
    values: Dict[str, str],
    width: int,
    index: int,
    at: int,
    said: Dict[int, int],
    lines: List[str],
) -> Optional[Problem]:
    """Judges a beat of a response with data."""
    if int(values["opcode"], 16) != 1 or request.opcode not in (_GET, _ARITHMETIC, _LOGICAL):
        return None
    if values["denied"] != "0":
        return None
    data = lanes_of(values["data"])
    base = request.address // width * width + index * width
    if memory.rule == "corrupt-stays":
        wanted = range(request.address, request.address + (1 << request.size))
        if values["corrupt"] != "0" or request.opcode != _GET or not memory.is_spoilt(base, wanted, request.begin, at):
            return None
        words = f"client link: {name_of(beat.line)} is good at 0x{base:x}, and corrupt data were written there"
        return Problem("rule", "D", words, beat.time, beat=beat)
    if values["corrupt"] != "0":
        held = [memory.possible(base + lane, request.begin, at, None) for lane in range(width)]
        if not memory.is_device or None in held or memory.rule == "reads-alike":
            return None
        words = f"client link: {name_of(beat.line)} is corrupt at 0x{base:x}, and good puts wrote all its bytes"
        return Problem("memory", "D", words, beat.time, beat=beat)
    for lane in range(width):
        address = base + lane
        if not request.address <= address < request.address + (1 << request.size):
            continue
        if memory.rule == "reads-alike":
            first = _first(memory, address, data[lane])
            if first is None or _is_offered(lines, at, address, data[lane], width):
                continue
            words = f"client link: {name_of(beat.line)} reads {data[lane]} at 0x{address:x}, and before {first}"
            return Problem("rule", "D", f"{words}, and no write came", beat.time, beat=beat)
        end = request.begin if memory.rule == "reads-no-later" else at
        possible = memory.possible(address, request.begin, end, request.writes.get(address))
        if not is_unknown(data[lane]):
            said[address] = int(data[lane], 16)
        if possible is None or said.get(address) in possible or _is_offered(lines, at, address, data[lane], width):
            continue
        if memory.rule == "reads-no-later" and not memory.is_later(address, request.begin, said.get(address)):
            continue
        holds = " or ".join(f"{value:02x}" for value in sorted(set(possible)))
        words = f"client link: {name_of(beat.line)} reads {data[lane]} at 0x{address:x}, which holds {holds}"
        if memory.ends_accepted:
            is_older = memory.rule == "reads-accepted"
            words += " by a write that was accepted before" if is_older else " by all that was accepted before the read"
        return Problem("rule" if memory.rule else "memory", "D", words, beat.time, beat=beat)
    return None


def _finish(memory: _Memory, request: _Request, values: Dict[str, str], at: int, said: Dict[int, int]) -> None:
    """The response is complete: what its request wrote is there, unless it was denied."""
    is_denied = values["denied"] != "0"
    request.is_done = not is_denied
    if is_denied and request.opcode in (_ARITHMETIC, _LOGICAL):
        for address, write in request.writes.items():
            memory.bytes[address].remove(write)
        return
    if request.opcode in (_ARITHMETIC, _LOGICAL) and not is_denied and not request.is_corrupt:
        places = list(range(request.address, request.address + (1 << request.size)))
        old, new = [said.get(place) for place in places], [request.operand.get(place, "x") for place in places]
        if None not in old and not any(map(is_unknown, new)) and values["corrupt"] == "0":
            before = int.from_bytes(bytes(byte for byte in old if byte is not None), "little")
            operand = int.from_bytes(bytes(int(byte, 16) for byte in new), "little")
            after = computed(request.opcode, request.param, request.size, before, operand).to_bytes(
                len(places), "little"
            )
            for place, value in zip(places, after):
                request.writes[place].value = value
    for address, write in request.writes.items():
        if not memory.ends_accepted:
            write.end, write.is_certain = at, not is_denied
        memory.forget(address, request.begin)
