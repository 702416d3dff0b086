"""Finds out what a device holds, before it is judged: the addresses at which it does not deny, and whether it computes
atomics, if its ports leave that open.

The findings only choose the traffic. Nothing is judged here.
"""
from __future__ import annotations

import re
from dataclasses import replace
from pathlib import Path
from typing import Dict, Iterator, List, Optional, Sequence, Tuple

from .bench import Settings, Simulation
from .design import Design, DesignError
from .judge import Beats, Judge, is_unknown, lanes_of, values_of
from .memory import computed
from .traffic import OPCODES, PLAIN_LARGEST, Limits, Message, Traffic

PLAIN = 256  # bytes of a window if nothing is denied, since a small memory may repeat itself above
_SETTINGS: Settings = dict(
    seed=1, calm=0x3FF, in_order=1, early=0, reuse=0, denied=0, corrupt=0, patient=0, quiet=1, serial=1, idle=300
)
_PARAMS = {"arithmetic": range(5), "logical": range(4)}
_MOST_PLACES = 300
_RUN_SECONDS = 20  # of processor time, so that a slow machine finds the same
Pair = Tuple[Dict[str, str], Optional[Dict[str, str]]]  # the fields of a request, and of its response if one came
_MESSAGES = re.compile(r"\b(?:messages?|bursts?|access(?:es)?|transfers?|sizes?|requests?|gets?|puts?|blocks?)\b", re.I)
_STATED = re.compile(
    r"\b(?:up to|at most|(?:maximum|largest)(?: size)?(?: of| is)?|max\.?|no (?:more|larger) than)\s+"
    r"(?:\w+\s+){0,2}?([\d,]+)[\s-]*(ki?)?b(?:ytes?)?\b",
    re.I,
)
_LEVEL = re.compile(r"\bTL[-_ ]?(UL|UH|C)\b")
_NO_ATOMICS = re.compile(r"\b(?:without|no|excluding|except(?: for)?) (?:any )?atomics?\b", re.I)
_LEVELS = ("UL", "UH", "C")  # each has all messages of those before it


class Explorer:
    """Plays a few requests through a device."""

    def __init__(self, design: Design, simulation: Simulation, room: Path):
        assert design.client
        self.design, self.simulation, self.room = design, simulation, room
        self.width = design.client.width
        self.address_bits = design.client.bits("address")
        self.word = self.width.bit_length() - 1
        self.far = 0  # an address above the window at which it answers, though it denies what is between

    def responses(self, script: Sequence[Message]) -> List[Pair]:
        """Plays single beats one after the other. Returns the fields of each, with those of its response."""
        run = self.simulation.run(script, _SETTINGS, self.room, processor=_RUN_SECONDS)
        lines = [line for line in Beats(self.design, run).lines["client"] if not is_unknown(line[:13])]
        asked = [values_of(line) for line in lines if line[0] == "A"]
        told: List[Optional[Dict[str, str]]] = [values_of(line) for line in lines if line[0] == "D"]
        return list(zip(asked, told + [None] * len(asked)))

    def places(self) -> Iterator[int]:
        """Addresses at which a device may be: 0, powers of two, and constants of its source."""
        yield 0
        for bit in range(self.word, self.address_bits):
            yield 1 << bit
        for name in self.design.source.files:
            try:
                text = Path(name).read_text(errors="replace")
            except OSError:
                continue
            for digits in re.findall(r"'s?h([0-9a-fA-F_]+)", text):
                value = int(digits.replace("_", "") or "0", 16)
                for shift in (0, 8, 12, 16):
                    if self.width <= value << shift < 1 << self.address_bits:
                        yield value << shift

    def answers_at(self, addresses: Sequence[int]) -> List[int]:
        """Returns the addresses at which a Get of a word, or of a byte, is not denied."""
        found: List[int] = []
        for size in {self.word, 0}:
            script = [Message("A", OPCODES["get"], 0, size, 0, address >> size << size) for address in addresses]
            for asked, told in self.responses(script):
                if told and told["opcode"] == "1" and told["denied"] == "0":
                    found.append(int(asked["address"], 16))
        return sorted(set(found))

    def window(self) -> Optional[Tuple[Tuple[int, int], int]]:
        """Returns the window, and the bytes at its beginning that the device holds (or 0: not known). None: it denies
        everything, or nothing near 0."""
        places = sorted({place // self.width * self.width for place in self.places()})[:_MOST_PLACES]
        found = self.answers_at(places)
        if not found:
            return None
        base = found[0]
        steps = [1 << bit for bit in range(self.word, min(self.address_bits, 17))]
        tried = [base + step for step in steps if base + step < 1 << self.address_bits]
        held = set(self.answers_at(tried))
        most = next((step for step in steps if base + step in tried and base + step not in held), 0)
        if not most:
            return None if base == 0 else ((base, PLAIN), 0)
        self.far = next((place for place in found if place >= base + 2 * most), 0)
        return (base, min(2 * most, (1 << self.address_bits) - base)), most

    def atomics(self, base: int) -> List[str]:
        """Returns the kinds of atomics of which one changes the memory as it should."""
        size = min(self.word, 3)
        found = []
        for kind, params in _PARAMS.items():
            script: List[Message] = []
            for param in params:
                for opcode, tag in ((OPCODES["put"], 2 * param + 1), (OPCODES[kind], 7 * param + 3), (4, 0)):
                    script.append(Message("A", opcode, param if opcode == OPCODES[kind] else 0, size, 0, base, tag))
            done = self.responses(script)
            if any(self.is_computed(done[at : at + 3], size) for at in range(0, len(done) - 2, 3)):
                found.append(kind)
        return found

    @staticmethod
    def is_computed(done: Sequence[Pair], size: int) -> bool:
        """Whether a Get returns what an atomic leaves of the bytes of a put, and that differs from them."""
        put, atomic, get = done
        if not (atomic[1] and get[1] and atomic[1]["opcode"] == "1" and get[1]["opcode"] == "1"):
            return False
        if is_unknown(get[1]["data"]) or atomic[1]["denied"] != "0":
            return False

        def value(data: str) -> int:
            return int("".join(reversed(lanes_of(data)[: 1 << size])), 16)

        old, operand, new = value(put[0]["data"]), value(atomic[0]["data"]), value(get[1]["data"])
        after = computed(int(atomic[0]["opcode"], 16), int(atomic[0]["param"], 16), size, old, operand)
        return new == after != old


def _comments(files: Sequence[str]) -> Iterator[str]:
    """The comments of a design, each on one line."""
    for name in files:
        try:
            text = Path(name).read_text(errors="replace")
        except OSError:
            continue
        for comment in re.findall(r"/\*(.*?)\*/|((?:^[ \t]*//[^\n]*\n?)+)|//([^\n]*)", text, re.DOTALL | re.MULTILINE):
            yield re.sub(r"[\s/*]+", " ", " ".join(comment))


def stated_level(files: Sequence[str], highest: str) -> Optional[str]:
    """Returns the level that the comments of a design name, since many designs for TL-UL have the ports of TL-UH. None:
    they name none, several, or none below `highest`, the level of the ports."""
    named = {level for comment in _comments(files) for level in _LEVEL.findall(comment)}
    lower = _LEVELS[: _LEVELS.index(highest)]
    return named.pop() if len(named) == 1 and named <= set(lower) else None


def rules_out_atomics(files: Sequence[str]) -> bool:
    """Whether a comment of a design says that it has no atomics."""
    return any(_NO_ATOMICS.search(comment) for comment in _comments(files))


def stated_bits(files: Sequence[str]) -> Tuple[int, ...]:
    """Returns the address bits from 12 on that a design looks at one by one, as in `a_address[12]`."""
    found = set()
    for name in files:
        try:
            text = Path(name).read_text(errors="replace")
        except OSError:
            continue
        found |= {int(digits) for digits in re.findall(r"addr\w*\s*\[\s*(\d+)\s*\]", text, re.I)}
    return tuple(sorted(bit for bit in found if 12 <= bit < 64))


def stated_largest(files: Sequence[str]) -> Optional[int]:
    """Returns the largest message that a comment of a design speaks of, as in `messages of up to 64 bytes`, since the
    width of the size field does not tell it. None: no comment does."""
    found = []
    for comment in _comments(files):
        for sentence in re.split(r"[.;:]\s", comment):
            if _MESSAGES.search(sentence):
                for number, unit in _STATED.findall(sentence):
                    found.append(int(number.replace(",", "") or "0") * (1024 if unit else 1))
    powers = [number for number in found if number and not number & (number - 1)]
    return max(powers, default=None)


def held_largest(
    traffic: Traffic, simulation: Simulation, judge: Judge, forced: Settings, room: Path, most: int
) -> Tuple[int, str]:
    """Returns the size of the largest messages that a design holds, of those above 64 bytes: in plain traffic, one
    message at a time, without stalls and with stalls. Then comes what goes wrong with the next size, if that is known.
    """
    size, held = PLAIN_LARGEST, PLAIN_LARGEST
    while size < most:
        size *= 2
        traffic.limits = replace(traffic.limits, largest=size)
        script = [traffic.message(kind, size.bit_length() - 1, source) for kind in traffic.kinds for source in (0, 1)]
        for calm in (0x3FF, 0):
            settings = {**traffic.settings(calm), "serial": 1, "in_order": 1, **forced}
            try:
                run = simulation.run(script, settings, room, processor=_RUN_SECONDS)
            except DesignError:
                return held, ""
            problems = judge.problems(run, Beats(simulation.design, run))
            if problems:
                return held, problems[0].words
        held = size
    return held, ""


def explored(
    design: Design, simulation: Simulation, limits: Limits, room: Path, finds_window: bool, finds_kinds: bool
) -> Limits:
    """Returns the limits with the window and the atomics of a device, if they are to be found."""
    explorer = Explorer(design, simulation, room)
    try:
        if finds_window and (found := explorer.window()):
            limits = replace(limits, window=found[0], held=found[1], far=explorer.far)
        if finds_kinds and limits.window and not set(limits.kinds) & set(_PARAMS):
            limits = replace(limits, kinds=(*limits.kinds, *explorer.atomics(limits.window[0])))
    except DesignError:
        pass  # the first round will say why
    return limits
