"""Reads the ports of a design with Verilator, which also knows the members of packed structs, and finds its TileLink
links by name.

    source = Source(top="adapter", files=("adapter.sv",))
    design = read_design(source, Choice())
    design.client.channels["A"]["data"]    # Signal(port="up_a_data", low=0, bits=64, direction="input")

A link's signals are called STEM, the letter of the channel, `_`, and the field: `up_a_valid`, `auto_in_a_bits_opcode`
(Rocket Chip), `up_a_payload_opcode` (SpinalHDL), or the member `a_valid` of a packed struct (OpenTitan). The link on
which the design receives A is the link to the client, and the other one the link to the manager.
"""
from __future__ import annotations

import os
import re
import shutil
import subprocess
import tempfile
import xml.etree.ElementTree as tree
from dataclasses import dataclass, field
from pathlib import Path
from typing import Dict, Iterator, List, Mapping, Optional, Sequence, Set, Tuple

from ..protocol import CHANNELS, FIELDS, FROM_CLIENT, WIDTHS

MOST_SOURCE_BITS = 12
_NEEDED = {
    "A": ("opcode", "size", "source", "address", "data"),
    "B": ("opcode", "size", "source", "address", "data"),
    "C": ("opcode", "size", "source", "address", "data"),
    "D": ("opcode", "size", "source", "data"),
    "E": ("sink",),
}
_NAMES = "valid|ready|opcode|param|size|source|address|addr|mask|data|corrupt|sink|denied|error"
SIGNAL_NAME = re.compile(rf"(.*?)([a-eA-E])_(?:(bits|payload_fragment|payload|fragment)_)?({_NAMES})$", re.IGNORECASE)
_OTHER_NAMES = {"addr": "address", "error": "denied"}
_CLOCK = re.compile(r"clk|clock", re.IGNORECASE)
_RESET = re.compile(r"rst|reset", re.IGNORECASE)
_ACTIVE_LOW = re.compile(r"(?:_n|_ni|_n_i|_b|resetn|rstn|aresetn|_ln)$", re.IGNORECASE)
_VHDL = (".vhd", ".vhdl")


class DesignError(Exception):
    """Why a design cannot be used, with the remedy, and the exit status: 2 usage or ambiguous, 3 it does not compile, 4
    a tool failed."""

    def __init__(self, words: str, status: int = 2):
        super().__init__(words)
        self.status = status


# ---- what the user names


@dataclass(frozen=True)
class Source:
    """The files of a design and how to compile them. Paths are relative to the current folder."""

    top: str
    files: Tuple[str, ...]
    parameters: Mapping[str, str] = field(default_factory=dict)
    defines: Tuple[str, ...] = ()  # NAME or NAME=VALUE
    includes: Tuple[str, ...] = ()  # folders
    libraries: Tuple[str, ...] = ()  # folders with a file for each module

    def absolute(self) -> "Source":
        """Returns the same source with absolute paths."""

        def whole(names: Tuple[str, ...]) -> Tuple[str, ...]:
            return tuple(str(Path(name).resolve()) for name in names)

        return Source(
            self.top, whole(self.files), self.parameters, self.defines, whole(self.includes), whole(self.libraries)
        )

    def words(self, tool: str) -> List[str]:
        """Returns the options for defines and folders, and the files, for `verilator` or `iverilog`."""
        includes = [f"-I{folder}" for folder in self.includes]
        libraries = [word for folder in self.libraries for word in ("-y", folder)]
        if tool == "iverilog" and self.libraries:
            libraries.append("-Y.sv")
        return [*(f"-D{name}" for name in self.defines), *includes, *libraries, *self.files]


@dataclass(frozen=True)
class Choice:
    """The user's decisions on what the names of the ports leave open. Empty or None: find it."""

    client: Optional[str] = None  # the prefix of a link, `` for a link without one
    manager: Optional[str] = None
    clocks: Mapping[str, str] = field(default_factory=dict)  # of `client` and `manager`
    resets: Mapping[str, str] = field(default_factory=dict)  # with ! before the name if it is active low
    ties: Mapping[str, str] = field(default_factory=dict)  # the values of other inputs
    structs: Tuple[str, ...] = ()  # layouts of vectors, highest field first: a_valid:1,a_opcode:3,..
    only: Optional[str] = None  # `client` or `manager`: use this link only


def _list_words(path: Path) -> Iterator[str]:
    try:
        text = path.read_text()
    except (OSError, UnicodeDecodeError) as error:
        raise DesignError(f"the file list {path} cannot be read: {getattr(error, 'strerror', error)}") from error
    text = re.sub(r"/\*.*?\*/", " ", text, flags=re.DOTALL)
    for line in text.splitlines():
        yield from os.path.expandvars(re.sub(r"(?:^|\s)(?://|#).*", "", line)).split()


def read_file_list(path: Path, relative_to: Optional[Path] = None, depth: int = 0) -> Source:
    """Reads a file list as Verilator has them: files, -I, +incdir+, -D, +define+, -G, -y, -f (paths as given), -F
    (paths from its folder).

    Returns a source without a top. Errors: the file cannot be read, an option is unknown, lists are nested without end.
    """
    if depth > 20:
        raise DesignError(f"the file list {path} contains itself")
    files: List[str] = []
    includes: List[str] = []
    defines: List[str] = []
    libraries: List[str] = []
    parameters: Dict[str, str] = {}

    def place(name: str) -> str:
        return str(relative_to / name) if relative_to is not None else name

    words = _list_words(path)
    for word in words:
        if word in ("-f", "-F", "-y", "-I", "-D", "-v"):
            value = next(words, "")
            if not value:
                raise DesignError(f"the file list {path} ends after {word}")
            word = "" if word == "-v" else word
            if word == "":
                files.append(place(value))
                continue
        else:
            value = ""
        if word in ("-f", "-F"):
            inner = Path(place(value))
            more = read_file_list(inner, inner.parent if word == "-F" else relative_to, depth + 1)
            files += more.files
            includes += more.includes
            defines += more.defines
            libraries += more.libraries
            parameters.update(more.parameters)
        elif word.startswith("+incdir+"):
            includes += [place(name) for name in word.split("+")[2:] if name]
        elif word.startswith("+define+"):
            defines += [name for name in word.split("+")[2:] if name]
        elif word.startswith("+libext+") or word in ("-sv", "--sv") or word.startswith("-Wno"):
            continue
        elif word.startswith("-I"):
            includes.append(place(value or word[2:]))
        elif word.startswith("-D"):
            defines.append(value or word[2:])
        elif word.startswith("-y"):
            libraries.append(place(value or word[2:]))
        elif word.startswith("-G") and "=" in word:
            name, _, given = word[2:].partition("=")
            parameters[name] = given
        elif word.startswith(("-", "+")):
            raise DesignError(
                f"the file list {path} has {word}, which is not known here: use files, -I, -D, -G, -y, -f or -F"
            )
        else:
            files.append(place(word))
    return Source("", tuple(files), parameters, tuple(defines), tuple(includes), tuple(libraries))


# ---- what was found


@dataclass(frozen=True)
class Signal:
    """A field of a link: bits `low` to `low + bits - 1` of a port. `direction` is the port's: input or output of the
    design."""

    port: str
    low: int
    bits: int
    direction: str


@dataclass(frozen=True)
class Port:
    direction: str
    bits: int


@dataclass
class Link:
    """A link of a design. `stem` is what its signals' names begin with."""

    stem: str
    channels: Dict[str, Dict[str, Signal]] = field(default_factory=dict)  # letter -> field, valid or ready -> signal
    clock: str = ""
    reset: str = ""
    reset_is_low: bool = False

    @property
    def name(self) -> str:
        return self.stem.rstrip("_") or "(no prefix)"

    def bits(self, name: str, default: int = 0) -> int:
        """Returns the bits of a field, the most of all channels; or the default if no channel has it."""
        return max((fields[name].bits for fields in self.channels.values() if name in fields), default=default)

    @property
    def width(self) -> int:
        """The bytes of a beat."""
        return self.bits("data") // 8

    def has(self, channel: str, name: str) -> bool:
        return name in self.channels.get(channel, {})


@dataclass
class Design:
    """A design whose links were found."""

    source: Source
    ports: Dict[str, Port]
    client: Optional[Link] = None
    manager: Optional[Link] = None
    tied: Dict[str, str] = field(default_factory=dict)  # the other inputs, with the values that they get
    others: List[str] = field(default_factory=list)  # the names of links that were found and not chosen

    @property
    def links(self) -> Dict[str, Link]:
        """The links by side: client before manager."""
        return {side: link for side, link in (("client", self.client), ("manager", self.manager)) if link is not None}

    @property
    def is_bridge(self) -> bool:
        return self.client is not None and self.manager is not None

    @property
    def has_two_clocks(self) -> bool:
        return self.client is not None and self.manager is not None and self.client.clock != self.manager.clock

    @property
    def channels(self) -> str:
        """The letters of the channels that all links have."""
        return "".join(letter for letter in CHANNELS if all(letter in link.channels for link in self.links.values()))

    def has(self, channel: str, name: str) -> bool:
        """Returns whether this channel has this field on all links."""
        return all(link.has(channel, name) for link in self.links.values())

    @property
    def level(self) -> str:
        """UL, UH or C, by the ports."""
        if set(CHANNELS) <= set(self.channels):
            return "C"
        return "UH" if self.has("A", "param") and self.has("A", "corrupt") else "UL"


# ---- the ports


Leaves = List[Tuple[str, int]]  # names and bits, lowest first


def _leaves(types: Mapping[str, tree.Element], type_id: str, name: str) -> Leaves:
    node = types[type_id]
    if node.tag in ("refdtype", "enumdtype"):
        return _leaves(types, node.get("sub_dtype_id", ""), name)
    if node.tag in ("structdtype", "uniondtype"):
        members = [
            _leaves(types, member.get("sub_dtype_id", ""), f"{name}_{member.get('name')}")
            for member in reversed(node.findall("memberdtype"))
        ]
        if node.tag == "uniondtype":
            return [(name, sum(bits for _, bits in members[0]))]
        return [leaf for member in members for leaf in member]
    if node.tag == "basicdtype":
        return [(name, abs(int(node.get("left", "0")) - int(node.get("right", "0"))) + 1)]
    if node.tag == "packarraydtype":
        ends = [int(constant.get("name", "").split("h")[1], 16) for constant in node.iter("const")]
        inner = sum(bits for _, bits in _leaves(types, node.get("sub_dtype_id", ""), name))
        return [(name, (abs(ends[0] - ends[1]) + 1) * inner)]
    kind = {"unpackarraydtype": "an unpacked array", "ifacerefdtype": "an interface"}.get(
        node.tag, f"of the kind {node.tag.replace('dtype', '')}"
    )
    raise DesignError(f"the port {name} is {kind}: write a wrapper module whose ports are vectors or packed structs")


def _layout(text: str) -> Leaves:
    """Returns the fields of a struct that is named on the command line, lowest first.

    Errors: a word is not NAME:BITS.
    """
    leaves = []
    for word in text.split(","):
        name, _, bits = word.strip().rpartition(":")
        if not name or not bits.isdecimal() or not int(bits):
            raise DesignError(f"--struct: '{word}' is not NAME:BITS, as in a_valid:1,a_opcode:3")
        leaves.append((name, int(bits)))
    return leaves[::-1]


def _no_module(source: Source) -> DesignError:
    known = ", ".join(dict.fromkeys(modules_of(source.files)[0])) or "none"
    return DesignError(
        f"the files have no module {source.top}: --top names the module to verify. Modules found: {known}"
    )


def _verilator(source: Source, out: Path) -> tree.Element:
    if not shutil.which("verilator"):
        raise DesignError(
            "verilator was not found, which reads the ports of a design: install Verilator 5 (`apt install verilator`)",
            4,
        )
    for name in source.files:
        if name.lower().endswith(_VHDL):
            raise DesignError(
                f"{name} is VHDL, which no simulator here reads: convert it first, with `ghdl synth --out=verilog` or"
                " another tool"
            )
        if Path(name).is_dir():
            raise DesignError(f"{name} is a folder: name the files of the design, or a list of them with -f LIST")
        if not Path(name).is_file():
            raise DesignError(f"there is no file {name}")
    words = ["verilator", "--xml-only", "--xml-output", str(out), "-sv", "-Wno-fatal", "-Wno-lint", "-Wno-style"]
    words += ["--timing", "--top-module", source.top]
    words += [f"-G{name}={value}" for name, value in source.parameters.items()] + source.words("verilator")
    done = subprocess.run(words, capture_output=True, text=True, errors="replace")
    if done.returncode or not out.exists():
        lines = [line for line in done.stderr.splitlines() if line.startswith("%Error")]
        first = lines[0] if lines else done.stderr.strip()[:300] or f"it ended with status {done.returncode}"
        said = re.sub(r"^%Error(?:-\w+)?: ", "", first)
        if "Parameters from the command line were not found" in said:
            raise DesignError(
                f"the module {source.top} has no parameter {said.rpartition(':')[2].strip()}: -P NAME=VALUE names one"
                " that it has"
            )
        if "top-module" in said and "was not found" in said:
            raise _no_module(source)
        raise DesignError(f"the design does not compile: {said.rstrip(' .!')}. {_remedy_of(said)}", 3)
    return tree.parse(out).getroot()


_REMEDIES = (
    ("include file", "Add -I FOLDER with the folder that has it"),
    ("containing module", "Name the file of that module, too"),
    ("without initial value", "Add -P NAME=VALUE with a value for it"),
    ("Define or directive not defined", "Add -D NAME=VALUE, or -I and the `include of the file that defines it"),
    ("Package", "Name the file of the package in front of the files that use it"),
)


def _remedy_of(error: str) -> str:
    """Returns the remedy for an error of Verilator."""
    for words, remedy in _REMEDIES:
        if words in error:
            return remedy
    return "Correct that line, or name the macros and folders that it needs with -D and -I"


def read_ports(source: Source, structs: Sequence[str] = ()) -> Tuple[Dict[str, Port], List[Tuple[str, Signal]]]:
    """Returns the ports of the top module, and each port or member of a packed struct as a signal with its name.

    `structs` are layouts of vectors whose members the design does not name. Errors: there is no Verilator, a file is
    missing, the design does not compile, the top is unknown, a port is inout, an array or an interface.
    """
    with tempfile.TemporaryDirectory(prefix="tlbridge-ports.") as folder:
        root = _verilator(source, Path(folder) / "ports.xml")
    types = {node.get("id", ""): node for node in root.iter() if node.get("id") and node.tag.endswith("dtype")}
    module = next((node for node in root.iter("module") if node.get("topModule") == "1"), None)
    if module is None:
        raise _no_module(source)
    layouts = {sum(bits for _, bits in leaves): leaves for leaves in map(_layout, structs)}
    ports: Dict[str, Port] = {}
    signals: List[Tuple[str, Signal]] = []
    for node in module.findall("var"):
        name, direction = node.get("name", ""), node.get("dir")
        if not direction:
            continue
        if direction not in ("input", "output"):
            raise DesignError(f"the port {name} is {direction}: write a wrapper module without it")
        leaves = _leaves(types, node.get("dtype_id", ""), name)
        total = sum(bits for _, bits in leaves)
        ports[name] = Port(direction, total)
        if len(leaves) == 1 and total in layouts:
            leaves = [(f"{name}_{member}", bits) for member, bits in layouts[total]]
        low = 0
        for leaf, bits in leaves:
            signals.append((leaf, Signal(name, low, bits, direction)))
            low += bits
    unused = set(layouts) - {port.bits for port in ports.values()}
    if unused:
        raise DesignError(f"--struct: no port of {source.top} has the {min(unused)} bits of that struct")
    return ports, signals


# ---- the links


def find_links(signals: Sequence[Tuple[str, Signal]]) -> Dict[str, Link]:
    """Returns the links by stem. A link has the channels A and D at least, each with valid and ready."""
    links: Dict[str, Link] = {}
    for name, signal in signals:
        found = SIGNAL_NAME.match(name)
        if not found:
            continue
        stem, letter = found[1], found[2].upper()
        if name != signal.port:  # a member of a struct: tl_i and tl_o are one link
            stem = re.sub(r"_(?:i|o|in|out|req|rsp)_$|_?(?:h2d|d2h)(?=_)", "_", stem)
        word = _OTHER_NAMES.get(found[4].lower(), found[4].lower())
        if word in FIELDS[letter] or word in ("valid", "ready"):
            links.setdefault(stem, Link(stem)).channels.setdefault(letter, {}).setdefault(word, signal)
    for link in links.values():
        for letter, have in list(link.channels.items()):
            if not {"valid", "ready"} <= set(have):
                del link.channels[letter]
    return {stem: link for stem, link in links.items() if {"A", "D"} <= set(link.channels)}


def _side_of(name: str, is_clock: bool) -> List[str]:
    """The b at the end of a clock's name, which tells it from others. At the end of a reset's name it says active
    low."""
    return ["b"] if is_clock and re.search(r"_b$", name, re.IGNORECASE) else []


def _words_of(name: str) -> List[str]:
    words = [
        re.sub(r"(?:a|(?<=[a-z]))?(?:clk|clock|rst|reset)n?$", "", word)
        for word in re.split(r"_|(?<=[a-z])(?=[A-Z])", name)
    ]
    return [word.lower() for word in words if word.lower() not in ("", "i", "ni", "n", "b", "io", "clock", "reset")]


def modules_of(files: Sequence[str]) -> Tuple[List[str], List[str]]:
    """Returns the names of the modules that are defined in these files, and of those that no other one has inside."""
    text = ""
    for name in files:
        try:
            text += Path(name).read_text(errors="replace") + "\n"
        except OSError:
            continue
    text = re.sub(r"//[^\n]*|/\*.*?\*/", " ", text, flags=re.DOTALL)
    head = r"\bmodule\s+(?:automatic\s+|static\s+)?"
    made = re.findall(head + r"(\w+)", text)
    bodies = re.sub(head + r"\w+", " ", text)
    inside = {name for name in made if re.search(rf"\b{name}\s*(?:#\s*\(|\w+\s*(?:\[[^\]]*\]\s*)?\()", bodies)}
    return made, [name for name in made if name not in inside]


def _find_tick(link: Link, ports: Mapping[str, Port], is_clock: bool, side: str) -> str:
    """Returns the clock or reset of a link by name: its own (in_clock, cclk), one without a prefix, or the only one; or
    an empty name."""
    pattern, what = (_CLOCK, "clock") if is_clock else (_RESET, "reset")
    here = [
        name
        for name, port in ports.items()
        if port.direction == "input" and port.bits == 1 and pattern.search(name) and not SIGNAL_NAME.match(name)
    ]
    stem = _words_of(link.stem)
    for head in [words for words in (stem, stem[1:], stem[:1], stem[-1:]) if words] + [[]]:
        own = [name for name in here if _words_of(name) + _side_of(name, is_clock) == head]
        if len(own) == 1:
            return own[0]
    if len(here) > 1:
        raise DesignError(
            f"more than one {what} fits the link {link.name}: {', '.join(here)}. Add --{side}-{what} {here[0]}, or"
            " another of them"
        )
    return here[0] if here else ""


def _chosen(links: Mapping[str, Link], side: str, wanted: Optional[str]) -> Optional[Link]:
    direction = "input" if side == "client" else "output"
    fits = [link for link in links.values() if link.channels["A"]["valid"].direction == direction]
    known = ", ".join(link.name for link in links.values()) or "none"
    if wanted is not None:
        fits = [link for link in fits if link.stem.rstrip("_") == wanted.rstrip("_")]
        if not fits:
            raise DesignError(
                f"no link on which the design {'receives' if side == 'client' else 'sends'} A has the prefix {wanted}."
                f" Links found: {known}"
            )
    if len(fits) > 1:
        names = ", ".join(link.name for link in fits)
        raise DesignError(f"more than one {side} link: {names}. Add --{side} {fits[0].name}, or another of them")
    return fits[0] if fits else None


def _examine(link: Link) -> None:
    """Refuses a link that has too few fields, or fields of a size that this tool has no traffic for."""
    for letter, have in link.channels.items():
        missing = [name for name in _NEEDED[letter] if name not in have]
        if missing:
            raise DesignError(
                f"channel {letter} of the link {link.name} has no {', '.join(missing)}: add it in a wrapper, tied to a"
                " constant if the design has none"
            )
        sends = "output" if (letter in FROM_CLIENT) != (link.channels["A"]["valid"].direction == "input") else "input"
        wrong = [name for name, signal in have.items() if (signal.direction == sends) == (name == "ready")]
        if wrong:
            raise DesignError(
                f"{have[wrong[0]].port} of the link {link.name} has the wrong direction: valid and the fields go one"
                " way, ready the other"
            )
    if 8 * link.width != link.bits("data") or link.width not in WIDTHS:
        raise DesignError(
            f"the data of the link {link.name} has {link.bits('data')} bits: a width in bytes is one of"
            f" {', '.join(map(str, WIDTHS))}"
        )
    for name, most in (("source", MOST_SOURCE_BITS), ("sink", MOST_SOURCE_BITS), ("size", 8), ("address", 64)):
        if link.bits(name) > most:
            raise DesignError(
                f"the {name} of the link {link.name} has {link.bits(name)} bits, and this tool plays at most {most}:"
                " write a wrapper with fewer"
            )


def _find_ticks(link: Link, side: str, ports: Mapping[str, Port], choice: Choice) -> None:
    for what, given in (("clock", choice.clocks.get(side)), ("reset", choice.resets.get(side))):
        if not given:
            continue
        port = ports.get(given.lstrip("!"))
        if port is None or port.direction != "input" or port.bits != 1:
            inputs = ", ".join(
                name
                for name, other in ports.items()
                if other.direction == "input" and other.bits == 1 and not SIGNAL_NAME.match(name)
            )
            raise DesignError(
                f"--{side}-{what} {given}: the design has no input of one bit of that name; it has {inputs or 'none'}"
            )
    link.clock = choice.clocks.get(side) or _find_tick(link, ports, True, side)
    if not link.clock:
        others = [name for name, port in ports.items() if port.direction == "input" and port.bits == 1]
        others = [name for name in others if not SIGNAL_NAME.match(name)]
        if not others:
            raise DesignError(
                f"no clock found for the link {link.name}, and the design has no input for one: write a wrapper module "
                "with a clock"
            )
        raise DesignError(
            f"no clock found for the link {link.name}. Add --{side}-clock NAME, with one of {', '.join(others)}"
        )
    link.reset = choice.resets.get(side) or _find_tick(link, ports, False, side)
    link.reset_is_low = (
        link.reset.startswith("!") or bool(_ACTIVE_LOW.search(link.reset)) and not choice.resets.get(side)
    )
    link.reset = link.reset.lstrip("!")


def read_design(source: Source, choice: Choice = Choice()) -> Design:
    """Reads a design and finds its links, their clocks and their resets.

    A design with both links is a bridge, with one to the client a device, with one to the manager a host. Errors
    (DesignError) as of `read_ports`; no link or several, no clock or several; a channel without a field that it needs;
    a width that is none of TileLink.
    """
    ports, signals = read_ports(source, choice.structs)
    links = find_links(signals)
    design = Design(source, ports)
    if choice.only != "manager":
        design.client = _chosen(links, "client", choice.client)
    if choice.only != "client":
        design.manager = _chosen(links, "manager", choice.manager)
    if not design.links:
        near = ", ".join(name for name, _ in signals[:8])
        raise DesignError(
            f"no TileLink link found among the {len(ports)} ports of {source.top} ({near}, ..). "
            "A link has ports such as x_a_valid, x_a_ready, x_a_opcode: name the ports of a wrapper like that"
        )
    for side, link in design.links.items():
        _find_ticks(link, side, ports, choice)
        _examine(link)
    clash = {link.clock for link in design.links.values()} & {link.reset for link in design.links.values()}
    if clash:
        raise DesignError(
            f"{clash.pop()} is both a clock and a reset: name them with --client-clock, --client-reset and so on"
        )
    design.others = [link.name for link in links.values() if link not in design.links.values()]
    _tie(design, choice.ties)
    return design


def _tie(design: Design, ties: Mapping[str, str]) -> None:
    ticks = {name for link in design.links.values() for name in (link.clock, link.reset)}
    used: Set[str] = {
        signal.port for link in design.links.values() for have in link.channels.values() for signal in have.values()
    }
    for name, port in design.ports.items():
        if port.direction == "input" and name not in ticks and name not in used:
            design.tied[name] = ties.get(name, "0")
    for name, value in ties.items():
        if name not in design.tied:
            raise DesignError(
                f"--tie {name}: the design has no such input left over; it has {', '.join(design.tied) or 'none'}"
            )
        if not re.fullmatch(r"\d+|\d*'[sS]?[bodhBODH][0-9a-fA-FxXzZ_]+|'[01]", value):
            raise DesignError(f"--tie {name}={value}: a value is a number of SystemVerilog, as 3 or 4'hf")


# ---- what was found, in words


def described(design: Design) -> List[str]:
    """Returns what was found, in a few lines."""
    source = design.source
    lines = [f"design {source.top}" + "".join(f" {name}={value}" for name, value in source.parameters.items())]
    for side, link in design.links.items():
        reset = f"reset {link.reset}{' (active low)' if link.reset_is_low else ''}" if link.reset else "no reset"
        lines.append(
            f"  {side} link {link.name}: channels {' '.join(sorted(link.channels))}, {link.width} bytes, address"
            f" {link.bits('address')} bits, size {link.bits('size')}, source {link.bits('source')}; clock {link.clock},"
            f" {reset}"
        )
    if not design.is_bridge:
        lines.append("  one link: " + ("a device" if design.client else "a host"))
    if design.others:
        lines.append(f"  not used: {', '.join(design.others)}, whose inputs are 0")
    left = {name: value for name, value in design.tied.items() if not SIGNAL_NAME.match(name)}
    if left:
        lines.append(
            "  other inputs: " + ", ".join(f"{name}={value}" for name, value in left.items()) + " (--tie NAME=VALUE)"
        )
    return lines
