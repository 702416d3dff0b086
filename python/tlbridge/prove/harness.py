"""Writes the harness of a proof: the design between two free neighbours, and the watch on both links, as one module."""
from __future__ import annotations

import re
from dataclasses import dataclass
from difflib import get_close_matches
from typing import Dict, List, Optional, Sequence, Set, Tuple

from ..protocol import FROM_CLIENT
from ..verify.design import SIGNAL_NAME, Design, Link, Signal
from .errors import ProveError
from .user_bits import NONE, UserBits

TOP = "tlbridge_proof"
LEVELS = ("ul", "uh", "c")
CHANNELS = "ABCDE"
WATCHED_FIELDS: Dict[str, Tuple[str, ...]] = {
    "A": ("opcode", "param", "size", "source", "address", "mask", "data", "corrupt"),
    "B": ("opcode", "param", "size", "source", "address", "mask", "data", "corrupt"),
    "C": ("opcode", "param", "size", "source", "address", "data", "corrupt"),
    "D": ("opcode", "param", "size", "source", "sink", "denied", "data", "corrupt"),
    "E": ("sink",),
}
USER_CHANNELS = "ACD"
MASKED = "AB"
DEFAULT_FREE = {"address": 5, "source": 2, "sink": 2}
COVER_FRAMES = 16
# Denies that time goes on for that long. If it does not, an assumption excludes every run from some cycle on.
TIME_COVER = f"""    logic [5:0] cycles = 0;
    always @(posedge clock) if (!reset && cycles != {COVER_FRAMES - 1}) cycles <= cycles + 1'b1;
    always @* if (!reset) SeesTime: assert (cycles != {COVER_FRAMES - 1});
"""


@dataclass(frozen=True)
class Options:
    """The assumptions of a proof about the neighbours, and the free bits. Each is printed with the results.

    `largest` is the size of the largest message in bytes, `free` the number of free bits of address, source and sink;
    `assumptions` are further expressions over the names of the harness, such as `client_a_opcode == 4`.
    """

    level: str = "c"
    largest: int = 8
    same_cycle_response: bool = True
    idle_lanes_zero: bool = False
    forwards_offered: bool = False
    assume_offered: bool = False
    all_sources: bool = True
    max_wait: int = 0
    count_bits: int = 3
    reset_cycles: int = 1
    free: Tuple[Tuple[str, int], ...] = tuple(DEFAULT_FREE.items())
    assumptions: Tuple[str, ...] = ()
    two_clocks: bool = False
    watched: str = CHANNELS
    lanes_by_client_address: bool = True
    all_channels: bool = (
        True  # False: with all_sources False, assume rules of the watched channels only, and for D of A
    )
    later_resets: bool = False
    helpers: bool = False  # also assertions that help to prove the others
    user_bits: UserBits = NONE
    extra_lines: str = ""  # SystemVerilog at the end of the harness, under FORMAL


@dataclass(frozen=True)
class Harness:
    """The text of the module, the letters of the channels that are watched, and the sizes of the fields."""

    text: str
    channels: str
    bits: Dict[str, int]
    free: Dict[str, int]
    unread: Tuple[str, ...]  # fields that the design does not have: they are 0
    inputs: Tuple[Tuple[str, int], ...]  # of the harness, without clocks and ticks


def is_cover(label: str) -> bool:
    """Returns whether an assertion denies what has to be possible."""
    return label.rpartition(".")[2].startswith("Sees")


def is_of_design(label: str) -> bool:
    """Returns whether an assertion is one in the design. Without a label of its own, it has one of yosys with a $."""
    return label.startswith("dut.") or "$" in label


def is_helper(label: str) -> bool:
    """Returns whether an assertion is there only to help to prove others: one of the watch, or one in the design."""
    return is_of_design(label) or label.rpartition(".")[2].startswith("Helper")


def bits_of(design: Design) -> Dict[str, int]:
    """Returns the bits of size, source, address and sink: the most of both links."""
    return {
        name: max([link.bits(name, 1) for link in design.links.values()])
        for name in ("size", "source", "address", "sink")
    }


def incomplete(design: Design) -> str:
    """Returns a sentence about the first channel that has fields and no valid or no ready, or nothing."""
    words: Dict[str, Set[str]] = {}
    for name in design.ports:
        found = SIGNAL_NAME.match(name)
        if found:
            words.setdefault(name[: found.end(2)], set()).add(found[4].lower())
    for stem, there in words.items():
        missing = [word for word in ("valid", "ready") if word not in there]
        if missing and "opcode" in there:
            return f". The ports {stem}_.. have no {' and no '.join(missing)}: name the port so, or add a wrapper"
    return ""


def default_largest(design: Design, level: str) -> int:
    """Returns the bytes of the largest message: two beats of the wider link, or for TL-UL one beat of the narrower
    one; as far as size goes.
    """
    widths = [link.width for link in design.links.values()]
    wanted = min(widths) if level == "ul" else 2 * max(widths)
    return int(min(wanted, 1 << min((1 << bits_of(design)["size"]) - 1, 12)))


def default_address_bits(design: Design) -> int:
    """Returns how many bits of an address are free: with the lowest ones, a message of one byte is on any lane."""
    widest = max(link.width for link in design.links.values())
    return max(DEFAULT_FREE["address"], widest.bit_length())


def spread(name: str, free: int, bits: int) -> str:
    """Returns an expression of `bits` bits with `free` free ones: the lowest, and with two or more also the highest."""
    if free >= bits:
        return name
    if free < 2:
        return f"{{{bits - free}'d0, {name}}}"
    return f"{{{name}[{free - 1}], {bits - free}'d0, {name}[{free - 2}:0]}}"


class _Writer:
    """Collects the parts of the harness of one design."""

    def __init__(self, design: Design, options: Options, cover: bool):
        if design.client is None or design.manager is None:
            raise ProveError(
                f"{design.source.top} has one link: tlbridge-prove needs a block between a link to a client and "
                f"one to a manager{incomplete(design)}"
            )
        self.design, self.options, self.cover = design, options, cover
        self.links: Dict[str, Link] = {"client": design.client, "manager": design.manager}
        self.bits = bits_of(design)
        self.free = {name: max(1, min(count, self.bits[name])) for name, count in options.free}
        self.channels = "".join(letter for letter in CHANNELS if letter in design.channels)
        self.inputs: List[Tuple[str, int]] = []
        self.wires: List[str] = []
        self.pieces: Dict[str, List[Tuple[int, int, str]]] = {}  # of an input of the design: low bit, bits, value
        self.unread: List[str] = []

    def size(self, side: str, letter: str, field: str) -> int:
        if field in ("valid", "ready", "denied", "corrupt"):
            return 1
        if field == "mask":
            return self.links[side].width
        if field == "data":
            return 8 * self.links[side].width
        if field == "param":
            return 2 if letter == "D" else 3
        return 3 if field == "opcode" else self.bits[field]

    def field(self, side: str, letter: str, field: str) -> None:
        name = f"{side}_{letter.lower()}_{field}"
        bits = self.size(side, letter, field)
        signal: Optional[Signal] = self.links[side].channels.get(letter, {}).get(field)
        drives = ((letter in FROM_CLIENT) == (side == "client")) != (field == "ready")
        watched = letter in self.channels
        other = self.links["manager" if side == "client" else "client"]
        if not watched or (signal is None and field != "mask"):
            self.wires.append(f"wire [{bits - 1}:0] {name} = 0;")
            if watched and other.has(letter, field) and field != "mask":
                self.unread.append(name)
            if signal is not None and drives:
                self.piece(signal, f"{signal.bits}'d0")
        elif drives:
            count = min(self.free.get(field, bits), bits, signal.bits if signal is not None else bits)
            self.inputs.append((f"free_{name}", count))
            self.wires.append(
                f"wire [{bits - 1}:0] {name} = {spread(f'free_{name}', count, signal.bits if signal else bits)};"
            )
            if signal is not None:
                self.piece(
                    signal,
                    f"{name}[{min(bits, signal.bits) - 1}:0]"
                    if bits >= signal.bits
                    else f"{{{signal.bits - bits}'d0, {name}}}",
                )
        elif signal is None:  # a mask that the design does not send: the active lanes, by the harness
            self.wires.append(f"wire [{bits - 1}:0] {name} = {self.whole_mask(side, letter)};")
        else:
            high = min(bits, signal.bits)
            self.wires.append(f"wire [{bits - 1}:0] {name} = port_{signal.port}[{signal.low + high - 1}:{signal.low}];")

    def user(self, side: str, letter: str) -> None:
        """The user and echo bits of a channel as one wire, the first field lowest."""
        name = f"{side}_{letter.lower()}_user"
        drives = (letter in FROM_CLIENT) == (side == "client")
        pairs = self.options.user_bits.both.get(letter, ()) if letter in self.channels else ()
        signals = [pair[0 if side == "client" else 1] for pair in pairs]
        bits = max(1, self.user_size(letter))
        if drives and signals:
            count = sum(signal.bits for signal in signals)
            self.inputs.append((f"free_{name}", count))
            self.wires.append(f"wire [{bits - 1}:0] {name} = free_{name};")
            at = 0
            for signal in signals:
                self.piece(signal, f"{name}[{at + signal.bits - 1}:{at}]")
                at += signal.bits
        else:
            parts = [f"port_{one.port}[{one.low + one.bits - 1}:{one.low}]" for one in reversed(signals)]
            self.wires.append(f"wire [{bits - 1}:0] {name} = {'{' + ', '.join(parts) + '}' if parts else 0};")

    def user_size(self, letter: str) -> int:
        """The user bits of the watch: A and C have the same number."""
        letters = "D" if letter == "D" else "AC"
        return max(self.options.user_bits.bits(one) for one in letters)

    def whole_mask(self, side: str, letter: str) -> str:
        raise ProveError(
            f"channel {letter} of the link {self.links[side].name} sends no mask: add it in a wrapper module"
        )

    def piece(self, signal: Signal, value: str) -> None:
        self.pieces.setdefault(signal.port, []).append((signal.low, signal.bits, value))

    def connections(self) -> List[str]:
        clocks = {self.links["client"].clock: self.clock("client"), self.links["manager"].clock: self.clock("manager")}
        resets = {link.reset: "!reset" if link.reset_is_low else "reset" for link in self.links.values() if link.reset}
        joined = []
        for name, port in self.design.ports.items():
            if name in clocks:
                value = clocks[name]
            elif name in resets:
                value = resets[name]
            elif port.direction == "output":
                value = f"port_{name}"
                self.wires.insert(0, f"wire [{port.bits - 1}:0] port_{name};")
            elif name in self.pieces:
                value = "{" + ", ".join(reversed(list(self.filled(name, port.bits)))) + "}"
            else:
                value = self.design.tied.get(name, "0")
                value = f"{port.bits}'d{value}" if value.isdecimal() else value
            joined.append(f".{name}({value})")
        return joined

    def filled(self, name: str, bits: int) -> List[str]:
        """The parts of an input port, lowest first; bits that are no field of a link are 0."""
        parts, at = [], 0
        for low, count, value in sorted(self.pieces[name]):
            if low > at:
                parts.append(f"{low - at}'d0")
            parts.append(value)
            at = low + count
        return parts + ([f"{bits - at}'d0"] if bits > at else [])

    def clock(self, side: str) -> str:
        return f"{side}_clock" if self.options.two_clocks else "clock"

    def tick(self, side: str) -> str:
        return f"{side}_tick" if self.options.two_clocks else "1'b1"

    def parameters(self) -> str:
        options = self.options
        sources = self.free["source"]
        values = {
            "CLIENT_BYTES": self.links["client"].width,
            "MANAGER_BYTES": self.links["manager"].width,
            **{f"{name.upper()}_BITS": self.bits[name] for name in ("address", "size", "source", "sink")},
            "REQUEST_USER_BITS": self.user_size("A"),
            "RESPONSE_USER_BITS": self.user_size("D"),
            "LARGEST_SIZE": options.largest.bit_length() - 1,
            "COUNT_BITS": options.count_bits,
            "CHANNELS": f"5'd{sum(1 << CHANNELS.index(one) for one in self.channels if one in options.watched)}",
            "LEVEL": LEVELS.index(options.level),
            "ALLOW_SAME_CYCLE_RESPONSE": f"1'b{int(options.same_cycle_response)}",
            "IDLE_LANES_ZERO": f"1'b{int(options.idle_lanes_zero)}",
            "FORWARDS_OFFERED": f"1'b{int(options.forwards_offered)}",
            "ASSUME_OFFERED": f"1'b{int(options.assume_offered or options.forwards_offered)}",
            "LANES_BY_CLIENT_ADDRESS": f"1'b{int(options.lanes_by_client_address)}",
            "ALL_SOURCES": f"1'b{int(options.all_sources)}",
            "ALL_CHANNELS": f"1'b{int(options.all_channels)}",
            "MAX_WAIT": options.max_wait,
            "COVERS": f"1'b{int(self.cover)}",
            "HELPERS": f"1'b{int(options.helpers)}",
            "MAX_OUTSTANDING": 0 if sources >= self.bits["source"] else 1 << sources,
        }
        return ", ".join(f".{name}({value})" for name, value in values.items())

    def monitor(self, side: str) -> str:
        sizes = ", ".join(f".{name.upper()}_BITS({self.bits[name]})" for name in ("address", "size", "source", "sink"))
        joined = ", ".join(
            f".{letter.lower()}_{field}({side}_{letter.lower()}_{field})"
            for letter in CHANNELS
            for field in ("valid", "ready", *WATCHED_FIELDS[letter])
        )
        return (
            f'    tl_trace_monitor #(.FILE("{side}.beats"), .DATA_BYTES({self.links[side].width}), {sizes})\n'
            f"        {side}_monitor (.clock({self.clock(side)}), .reset(reset), {joined});\n"
        )

    def resets(self) -> str:
        cycles = self.options.reset_cycles
        again = f"if (reset_again && !reset) %s <= 8'd{cycles};\n    else " if self.options.later_resets else ""
        if self.options.two_clocks:
            counts = "".join(
                f"    always @(posedge clock)\n    {again.replace('%s', f'{side}_reset_left')}"
                f"if ({side}_tick && {side}_reset_left != 0) {side}_reset_left <= {side}_reset_left - 1'b1;\n"
                for side in self.links
            )
            return f"""    logic [7:0] client_reset_left = 8'd{cycles}, manager_reset_left = 8'd{cycles};
    wire reset = client_reset_left != 0 || manager_reset_left != 0;
{counts}"""
        return f"""    logic [7:0] reset_left = 8'd{cycles};
    wire reset = reset_left != 0;
    always @(posedge clock)
    {again.replace('%s', 'reset_left')}if (reset) reset_left <= reset_left - 1'b1;
"""

    def module(self) -> str:
        for side in self.links:
            for letter in CHANNELS:
                for field in ("valid", "ready", *WATCHED_FIELDS[letter]):
                    self.field(side, letter, field)
                if letter in USER_CHANNELS:
                    self.user(side, letter)
        joined = self.connections()
        source = self.design.source
        sets = ", ".join(f".{name}({value})" for name, value in source.parameters.items())
        watched = [
            f".{side}_{letter.lower()}_{field}({side}_{letter.lower()}_{field})"
            for side in self.links
            for letter in CHANNELS
            for field in ("valid", "ready", *WATCHED_FIELDS[letter])
        ]
        watched += [
            f".{side}_{letter.lower()}_user({side}_{letter.lower()}_user)"
            for side in self.links
            for letter in USER_CHANNELS
        ]
        chosen = spread("pick_source", self.free["source"], self.bits["source"])
        inputs = [("pick", 5), ("pick_byte", 12), ("pick_source", self.free["source"]), *self.inputs]
        inputs += [("reset_again", 1)] if self.options.later_resets else []
        self.inputs = inputs
        ticks = ["input wire clock"]
        if self.options.two_clocks:
            ticks += [f"input wire {side}_{word}" for word in ("clock", "tick") for side in ("client", "manager")]
        listed = ",\n    ".join([*ticks, *(f"input wire [{bits - 1}:0] {name}" for name, bits in inputs)])
        assumed = "".join(f"    always @* if (!reset) assume ({words});\n" for words in self.options.assumptions)
        parameters = f"#({sets}) " if sets else ""
        lines = "\n    ".join(self.wires)
        return f"""// Written by tlbridge-prove: {source.top} between two free neighbours, and the watch on both links.
module {TOP} (
    {listed}
);
{self.resets()}    {lines}
    {source.top} {parameters}dut (
        {(',' + chr(10) + '        ').join(joined)});
    tl_bridge_watch #({self.parameters()}) watch (
        .clock(clock), .reset(reset), .client_clock({self.clock('client')}), .client_tick({self.tick('client')}),
        .manager_clock({self.clock('manager')}), .manager_tick({self.tick('manager')}),
        .pick(pick), .pick_byte(pick_byte), .pick_source({chosen}),
        {(',' + chr(10) + '        ').join(watched)});
`ifdef FORMAL
{self.options.extra_lines}{assumed}`endif
`ifdef REPLAY
{self.monitor('client')}{self.monitor('manager')}`endif
endmodule
"""


def check_names(assumptions: Sequence[str], text: str) -> None:
    """Refuses an assumption with a name that the harness does not have: it would be a free wire of its own. Names with
    a dot, which are inside the design or the watch, are left to yosys.
    """
    known = set(re.findall(r"\b(?:wire|logic)\b(?: *\[[^]]*\])? *(\w+)", text))
    for words in assumptions:
        for name in re.findall(r"(?<![\w'.$])[A-Za-z_]\w*(?![\w.])", words):
            if name not in known:
                near = get_close_matches(name, sorted(known), 3)
                raise ProveError(
                    f"--assume '{words}': there is no signal {name}"
                    + (f", but {', '.join(near)}" if near else ": names are such as client_a_opcode, manager_d_valid")
                )


def write_harness(design: Design, options: Options, cover: bool = True) -> Harness:
    """Returns the harness of a design. Errors: the design has one link only, or sends no mask on A or B (2)."""
    for words in options.assumptions:
        if not re.fullmatch(r"[\w\s'()\[\]{}<>=!&|^~+*:?.-]+", words):
            raise ProveError(
                f"--assume '{words}': this is not an expression of SystemVerilog over names as client_a_opcode"
            )
    writer = _Writer(design, options, cover)
    text = writer.module()
    check_names(options.assumptions, text)
    return Harness(text, writer.channels, writer.bits, writer.free, tuple(writer.unread), tuple(writer.inputs))
