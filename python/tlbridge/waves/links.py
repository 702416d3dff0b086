"""Finds the TileLink links among the variables of a waveform, by how their signals are named."""
from __future__ import annotations

import re
from typing import Callable, Dict, Iterable, Iterator, List, Mapping, Optional, Pattern, Sequence, Set, Tuple

from ..protocol import CHANNELS, FIELDS, WIDTHS
from ..run import FailureError
from .vcd import Variable

MOST_BITS = {
    "opcode": 3,
    "param": 3,
    "source": 16,
    "sink": 16,
    "address": 64,
    "denied": 1,
    "corrupt": 1,
    "valid": 1,
    "ready": 1,
}
MOST_D_PARAM = 3  # bits, since OpenTitan's structs have three
_OTHER_NAMES = {"addr": "address", "error": "denied"}
_NAMES = "valid|ready|opcode|param|size|source|address|addr|mask|data|corrupt|sink|denied|error"
_SIGNAL = re.compile(rf"(.*?)([a-eA-E])_(?:(bits|payload_fragment|payload|fragment)_)?({_NAMES})$", re.IGNORECASE)
_IGNORED = re.compile(
    r"(.*?)([a-eA-E])_(?:(bits|payload_fragment|payload|fragment)_)?((?:user|echo|debugId|last)(?:_.*)?)$"
)
_ENDS = tuple(_NAMES.split("|"))
_EXTRA = re.compile(r"_(?:user|echo|debugId|last)")
_CLOCK = re.compile(r"clk|clock", re.IGNORECASE)
_RESET = re.compile(r"rst|reset", re.IGNORECASE)
_LOW = re.compile(r"(?:_n|_ni|_n_i|resetn|rstn)$", re.IGNORECASE)
_CONVENTIONS = {"bits": "rocket", "payload": "spinal", "payload_fragment": "spinal", "fragment": "spinal"}

# OpenTitan's packed structs, highest field first (tlul_pkg.sv).
H2D = "a_valid:1,a_opcode:3,a_param:3,a_size:2,a_source:8,a_address:32,a_mask:4,a_data:32,a_user:23,d_ready:1"
D2H = "d_valid:1,d_opcode:3,d_param:3,d_size:2,d_source:8,d_sink:1,d_data:32,d_user:14,d_error:1,a_ready:1"

Layout = List[Tuple[str, int]]
Key = Tuple[Tuple[str, ...], str]
Values = Mapping[bytes, bytes]


class Signal:
    """Some bits of some codes, highest first: `parts` are (code, its bits, first bit that is taken from the left, how
    many)."""

    __slots__ = ("name", "parts", "bits", "code")

    def __init__(self, name: str, parts: List[Tuple[bytes, int, int, int]]):
        self.name, self.parts = name, parts
        self.bits = sum(part[3] for part in parts)
        is_whole = len(parts) == 1 and parts[0][1] == parts[0][3]
        self.code: Optional[bytes] = parts[0][0] if is_whole else None

    def text(self, values: Values) -> bytes:
        """Returns its bits as b'01xz', highest first."""
        if self.code is not None:
            return extended(values[self.code], self.bits, self.name)
        return b"".join(extended(values[code], bits, self.name)[at : at + many] for code, bits, at, many in self.parts)

    def key(self) -> Tuple[Tuple[bytes, int, int, int], ...]:
        return tuple(self.parts)


def extended(value: bytes, bits: int, name: str) -> bytes:
    if len(value) == bits:
        return value
    if len(value) > bits:
        if value[:-bits].strip(b"0"):
            raise FailureError(f"{name} has {bits} bits, but a change gives it {len(value)}: {value[:80].decode()}")
        return value[-bits:]
    return (b"0" if value[:1] in b"01" else value[:1]).rjust(1) * (bits - len(value)) + value


class Link:
    """A link: for each channel that it has, its signals by the name of the field."""

    def __init__(self, scope: Tuple[str, ...], stem: str, convention: str):
        self.scope, self.stem, self.convention = scope, stem, convention
        self.channels: Dict[str, Dict[str, Signal]] = {}
        self.ignored: Set[str] = set()
        self.problems: List[str] = []
        self.notes: List[str] = []
        self.clock: Optional[Signal] = None
        self.reset: Optional[Signal] = None
        self.no_clock = self.no_reset = ""
        self.is_reset_low = self.is_half = False
        self.same: Optional[Link] = None
        self.width = 0

    @property
    def name(self) -> str:
        stem = self.stem.rstrip("_.")
        return ".".join([*self.scope, stem] if stem else self.scope) or "(top)"

    def bits(self, field: str) -> int:
        return max((signals[field].bits for signals in self.channels.values() if field in signals), default=0)

    def finish(self, width: Optional[int] = None) -> None:
        """Records what is wrong with it, and its width."""
        for letter in CHANNELS:
            if letter in self.channels:
                self._examine(letter, self.channels[letter])
        if self.convention == "opentitan":
            self.notes = []
        self._find_width(width)

    def _examine(self, letter: str, signals: Dict[str, Signal]) -> None:
        missing = [name for name in ("valid", "ready", *(("opcode",) if letter != "E" else ())) if name not in signals]
        if missing:
            self.problems.append(f"{letter} has no {' and no '.join(missing)}")
        for name, signal in signals.items():
            most = MOST_D_PARAM if (letter, name) == ("D", "param") else MOST_BITS.get(name, 1 << 20)
            if signal.bits > most:
                self.problems.append(f"{signal.name} has {signal.bits} bits, and {letter} {name} has at most {most}")
        absent = [name for name in FIELDS[letter] if name not in signals]
        if absent and not missing:
            zero = [name for name in absent if name != "mask"]
            if zero:
                self.notes.append(f"{letter} has no {', '.join(zero)}: 0 is written")
            if "mask" in absent:
                self.notes.append(f"{letter} has no mask: the active lanes are written")

    def _find_width(self, width: Optional[int]) -> None:
        datas = {signals["data"].bits for signals in self.channels.values() if "data" in signals}
        masks = {signals["mask"].bits for signals in self.channels.values() if "mask" in signals}
        found = {bits // 8 if bits % 8 == 0 else -1 for bits in datas} | masks
        if width is not None:
            found.add(width)
        if len(found) > 1:
            asked = f", and {width} bytes were asked for" if width else ""
            self.problems.append(f"its data signals have {sorted(datas)} bits and its masks {sorted(masks)}{asked}")
        elif not found:
            if set(self.channels) != {"E"}:
                self.problems.append(
                    "it has neither data nor mask: give its width in bytes with --width, --client-width or"
                    " --manager-width"
                )
        else:
            only = next(iter(found))
            if only in WIDTHS:
                self.width = only
            else:
                self.problems.append(f"{only} bytes is not a width of a link")

    def key(self) -> Tuple[object, ...]:
        return tuple(
            sorted(
                (letter, name, signal.key())
                for letter, signals in self.channels.items()
                for name, signal in signals.items()
            )
        )


def is_wanted(extra: Iterable[str] = (), layouts: Sequence[Layout] = ()) -> Callable[[str, int], bool]:
    """Returns which variables are kept: those that may be of a link, and `extra`, full names that the user gave."""
    packed = {sum(bits for _, bits in layout) for layout in (layout_of(H2D), layout_of(D2H), *layouts)}
    last = {name.rpartition(".")[2] for name in extra}

    def wanted(name: str, bits: int) -> bool:
        lower = name.lower()
        if lower.endswith(_ENDS) and _SIGNAL.match(name) is not None or bits in packed or name in last:
            return True
        if bits == 1 and ("clk" in lower or "clock" in lower or "rst" in lower or "reset" in lower):
            return True
        return "_" in name and _EXTRA.search(name) is not None and _IGNORED.match(name) is not None

    return wanted


def layout_of(text: str) -> Layout:
    """Returns [(channel and field, bits)] of a packed struct, highest first."""
    fields = []
    for word in text.split(","):
        name, _, bits = word.strip().partition(":")
        if (
            not (bits.isascii() and bits.isdigit())
            or not 0 < int(bits[:9]) < 1 << 20
            or not re.fullmatch(r"[a-eA-E]_\w+", name)
        ):
            raise FailureError(f"'{word}' is not a field of a struct, as in a_valid:1,a_opcode:3", 2)
        fields.append((name, int(bits)))
    return fields


class Signals(Dict[Key, Signal]):
    """Signals by (scope, name); `ticks` are those that may be a clock or a reset, by scope."""

    def index(self) -> "Signals":
        self.ticks: Dict[Tuple[str, ...], Dict[str, Signal]] = {}
        for (scope, name), signal in self.items():
            if signal.bits == 1 and (_CLOCK.search(name) or _RESET.search(name)) and not _SIGNAL.match(name):
                self.ticks.setdefault(scope, {})[name] = signal
        return self


def joined(variables: Iterable[Variable]) -> Signals:
    """Returns the variables by (scope, name), each as a Signal. If the dump has split one by bit or range, its parts
    are put together."""
    groups: Dict[Key, List[Variable]] = {}
    for variable in variables:
        groups.setdefault((variable.scope, variable.name), []).append(variable)
    signals = Signals()
    for (scope, name), parts in groups.items():
        first = parts[0]
        # if the same name comes more than once, and not as parts, the first one counts
        together = _in_order(parts) or [first]
        signals[scope, name] = Signal(
            ".".join((*scope, name)), [(part.code, part.bits, 0, part.bits) for part in together]
        )
    return signals.index()


def _in_order(parts: List[Variable]) -> Optional[List[Variable]]:
    """The parts of a vector, highest first, if they are one."""
    ranges: Dict[Tuple[int, int], Variable] = {}
    for part in parts:
        if part.high is None or part.low is None:
            return None
        ranges.setdefault((max(part.high, part.low), min(part.high, part.low)), part)
    if len(ranges) < 2:
        return None
    ordered = sorted(ranges.items(), reverse=True)
    follows = all(low == next_top + 1 for ((_, low), _), ((next_top, _), _) in zip(ordered, ordered[1:]))
    if not follows or any(part.bits != top - low + 1 for (top, low), part in ordered):
        return None
    return [part for _, part in ordered]


def find_links(variables: Iterable[Variable], layouts: Sequence[Layout] = ()) -> Tuple[List[Link], Signals]:
    signals = joined(variables)
    links: Dict[Key, Link] = {}
    for (scope, name), signal in signals.items():
        found = _SIGNAL.match(name)
        if found:
            stem, letter, middle, field = found[1], found[2].upper(), (found[3] or "").lower(), found[4].lower()
            field = _OTHER_NAMES.get(field, field)
            link = links.setdefault((scope, stem), Link(scope, stem, "plain"))
            link.convention = _CONVENTIONS.get(middle, link.convention)
            if field in FIELDS[letter] or field in ("valid", "ready"):
                link.channels.setdefault(letter, {})[field] = signal
            continue
        found = _IGNORED.match(name)
        if found and (scope, found[1]) in links:
            links[scope, found[1]].ignored.add(f"{found[2]}_{found[4]}")
    _unpack(signals, links, [layout_of(H2D), layout_of(D2H), *layouts])
    _pair(links)
    return [link for link in links.values() if _is_link(link)], signals


def _is_link(link: Link) -> bool:
    """Returns whether these signals form a link, or one direction of a link. Removes channels that do not belong to
    one."""
    link.is_half = link.stem == "" and _is_half(link)
    if link.is_half:
        return True
    for letter, names in list(link.channels.items()):
        # a single field that only its name suggests, as `data_valid`, is not a channel
        whole = {"valid", "ready"} if letter == "E" else {"valid", "ready", "opcode"}
        if not whole <= set(names) and not (
            {"valid", "opcode"} <= set(names) and (link.stem == "" or link.stem.endswith("_"))
        ):
            del link.channels[letter]
    return bool(set(link.channels) - {"E"})


def _is_half(link: Link) -> bool:
    """Whether it is one direction of a link, as a struct h2d or d2h has it."""
    channels = link.channels
    return any(
        "valid" in channels.get(sent, {})
        and "opcode" in channels[sent]
        and "ready" not in channels[sent]
        and set(channels.get(answered, {})) == {"ready"}
        for sent, answered in (("A", "D"), ("D", "A"))
    )


def _unpack(signals: Signals, links: Dict[Key, Link], layouts: Sequence[Layout]) -> None:
    """Adds the fields of packed structs that the dump has as one vector."""
    for (scope, name), signal in list(signals.items()):
        layout = next((layout for layout in layouts if sum(bits for _, bits in layout) == signal.bits), None)
        if signal.code is None or layout is None:
            continue
        at, link = 0, Link((*scope, name), "", "opentitan")
        for field, bits in layout:
            found = _SIGNAL.match(field)
            if found:
                word = _OTHER_NAMES.get(found[4], found[4])
                part = Signal(f"{signal.name}.{field}", [(signal.code, signal.bits, at, bits)])
                link.channels.setdefault(found[2].upper(), {})[word] = part
            else:
                link.ignored.add(field)
            at += bits
        links.setdefault(((*scope, name), ""), link)


def _has_direction(link: Link, sent: str, answered: str) -> bool:
    def has(letter: str, field: str) -> bool:
        return field in link.channels.get(letter, {})

    return (
        link.stem == ""
        and bool(link.scope)
        and has(sent, "valid")
        and has(answered, "ready")
        and not has(answered, "valid")
        and not has(sent, "ready")
    )


def _other_direction(own: str) -> Iterator[Tuple[str, str]]:
    """The names that the other direction of a link may have, and that the link then gets."""
    if "h2d" in own:
        yield own.replace("h2d", "d2h"), re.sub(r"_?h2d", "", own)
    for mine, other in (("_i", "_o"), ("_o", "_i")):
        if own.endswith(mine):
            yield own[: -len(mine)] + other, own[: -len(mine)]


def _pair(links: Dict[Key, Link]) -> None:
    """Joins the two directions of OpenTitan's links, h2d and d2h."""
    for key, there in list(links.items()):
        if not _has_direction(there, "A", "D"):
            continue
        parent, own = there.scope[:-1], there.scope[-1]
        for name, stem in _other_direction(own):
            back = links.get(((*parent, name), ""))
            if back is None or not _has_direction(back, "D", "A"):
                continue
            if not stem or (parent, stem) in links:
                stem = own
            link = Link(parent, stem, "opentitan")
            link.ignored = there.ignored | back.ignored
            for half in (there, back):
                for letter, names in half.channels.items():
                    link.channels.setdefault(letter, {}).update(names)
            del links[key], links[(*parent, name), ""]
            links[parent, stem] = link
            break


# ---- links by a pattern and by name


def _spelled(pattern: str, letter: str, word: str) -> str:
    text = pattern.replace("{channel}", letter.lower()).replace("{CHANNEL}", letter)
    return text.replace("{field}", word).replace("{FIELD}", word.upper())


def _fields_of_pattern(pattern: str, renamed: Mapping[str, str]) -> Iterator[Tuple[str, str, str]]:
    """Each channel and field, with the name of its signal."""
    for letter in CHANNELS:
        for field in ("valid", "ready", *FIELDS[letter]):
            yield letter, field, _spelled(pattern, letter, renamed.get(field, field))


def names_of_pattern(pattern: str, renamed: Mapping[str, str]) -> List[str]:
    return [name for _, _, name in _fields_of_pattern(pattern, renamed)]


def by_pattern(pattern: str, signals: Signals, renamed: Mapping[str, str]) -> Link:
    """Returns the link whose signals `pattern` names, with {channel} or {CHANNEL}, and {field} or {FIELD}."""
    for place in ("{channel}", "{field}"):
        if place not in pattern and place.upper() not in pattern:
            raise FailureError(f"the pattern '{pattern}' has no {place}", 2)
    link = Link((), pattern, "pattern")
    full = {".".join((*scope, name)): signal for (scope, name), signal in signals.items()}
    fields = list(_fields_of_pattern(pattern, renamed))
    if not any(name in full for _, _, name in fields):
        pattern = _scope_of_pattern([name for _, _, name in fields], full, pattern) + pattern
        fields = list(_fields_of_pattern(pattern, renamed))
    for letter, field, name in fields:
        if name in full:
            link.channels.setdefault(letter, {})[field] = full[name]
    cut = min(pattern.upper().find("{CHANNEL}"), pattern.upper().find("{FIELD}"))
    link.scope = tuple(pattern[:cut].split(".")[:-1])
    link.stem = pattern[len(".".join(link.scope)) :].lstrip(".")
    return link


def choose(links: Sequence[Link], name: str) -> Link:
    """Returns the link of this name, or of a name that ends with it; with `+` between two names, both directions
    together."""
    if "+" in name:
        halves = [choose(links, part) for part in name.split("+")]
        link = Link(halves[0].scope, halves[0].stem, halves[0].convention)
        if link.stem == "" and link.scope:
            link.scope, link.stem = link.scope[:-1], link.scope[-1]
        for half in halves:
            for letter, names in half.channels.items():
                link.channels.setdefault(letter, {}).update(names)
        return link
    exact = [link for link in links if link.name == name]
    found = exact or [link for link in links if link.name.endswith("." + name)]
    if len({link.key() for link in found}) == 1:
        return found[0]
    known = ", ".join(link.name for link in (list(found) or links)[:12]) or "none"
    hint = "" if links else " that it knows. Name the signals by --link-pattern, --client-pattern or --manager-pattern"
    raise FailureError(
        (
            f"'{name}' fits {len(found)} links: {known}"
            if found
            else f"no link is named '{name}'. The dump has: {known}{hint}"
        ),
        2,
    )


def _scope_of_pattern(names: Sequence[str], full: Mapping[str, Signal], pattern: str) -> str:
    """The scopes before a pattern that names only the end of its signals' names."""
    scopes = {one[: -len(name)] for name in names for one in full if one.endswith("." + name)}
    if len(scopes) != 1:
        where = f"; more than one scope has some: {', '.join(sorted(scopes)[:6])}" if scopes else ""
        raise FailureError(f"no signal has a name of the pattern '{pattern}'{where}", 2)
    return scopes.pop()


# ---- clocks and resets


def words_of(name: str) -> List[str]:
    """Returns the words of a name without those that say clock, reset, or a direction."""
    words = [re.sub(r"(?:a|(?<=[a-z]))?(?:clk|clock|rst|reset)n?$", "", word) for word in name.lower().split("_")]
    return [word for word in words if word not in ("", "i", "ni", "n", "io")]


def find_clock(link: Link, signals: Signals, pattern: Pattern[str], what: str) -> Tuple[Optional[Signal], str]:
    """Returns the signal that by its name belongs to the link, in its scope or above it; or None, and why."""
    stem = words_of(link.stem)
    heads = [head for head in (stem, stem[1:], stem[:1], stem[-1:]) if head]
    scope = link.scope
    while True:
        here = {name: signal for name, signal in signals.ticks.get(scope, {}).items() if pattern.search(name)}
        # first its own by its prefix (in_clock, clk_in_i), then one without a prefix (clock, rst_ni), then the only one
        for head in (*heads, []):
            own = [signal for name, signal in here.items() if words_of(name) == head]
            if len({signal.key() for signal in own}) == 1:
                return own[0], ""
        if len({signal.key() for signal in here.values()}) == 1:
            return next(iter(here.values())), ""
        if here:
            return (
                None,
                f"more than one {what} is there ({', '.join(sorted(signal.name for signal in here.values())[:6])})",
            )
        if not scope:
            return None, f"the dump has no {what} in its scope or above it"
        scope = scope[:-1]


def find_clocks(link: Link, signals: Signals, clock: Optional[str] = None, reset: Optional[str] = None) -> None:
    """Sets clock and reset, found by name or given in full; records in `problems` that the clock is missing."""
    full = {".".join((*scope, name)): signal for (scope, name), signal in signals.items()} if clock or reset else {}
    if clock is not None:
        link.clock = _given(clock, full, link, "clock")
    else:
        link.clock, link.no_clock = find_clock(link, signals, _CLOCK, "clock")
        if link.no_clock:
            link.problems.append(f"{link.no_clock}: name it with --clock, --client-clock or --manager-clock")
    if reset == "none":
        return
    if reset is not None:
        link.is_reset_low = reset.startswith("!")
        link.reset = _given(reset.lstrip("!"), full, link, "reset")
    else:
        link.reset, why = find_clock(link, signals, _RESET, "reset")
        link.is_reset_low = bool(link.reset and _LOW.search(link.reset.name))
        if why:
            link.no_reset = why
            link.notes.append(f"{why}: no beat is left out; --reset, --client-reset or --manager-reset names one")


def adopt_clock(link: Link, links: Sequence[Link]) -> None:
    """Takes the clock that the same wires have elsewhere."""
    if link.clock is not None:
        return
    others = {
        other.clock.key(): other for other in links if other.clock and other is not link and other.key() == link.key()
    }
    if len(others) == 1:
        other = next(iter(others.values()))
        link.clock, link.reset, link.is_reset_low = other.clock, other.reset, other.is_reset_low
        link.problems = [text for text in link.problems if link.no_clock not in text]
        link.notes = [text for text in link.notes if not link.no_reset or link.no_reset not in text]


def _given(name: str, full: Mapping[str, Signal], link: Link, what: str) -> Signal:
    found = [signal for full_name, signal in full.items() if full_name == name] or [
        signal for full_name, signal in full.items() if full_name.endswith("." + name)
    ]
    near = [signal for signal in found if signal.name.rpartition(".")[0] == ".".join(link.scope)]
    found = near or found
    if not found:
        raise FailureError(f"the dump has no {what} '{name}'", 2)
    if len({signal.key() for signal in found}) > 1:
        raise FailureError(f"'{name}' names more than one {what}: {', '.join(signal.name for signal in found[:6])}", 2)
    if found[0].bits != 1:
        raise FailureError(f"the {what} {found[0].name} has {found[0].bits} bits", 2)
    return found[0]
