"""The stored line of each row (results.md), and the tables of docs/RTL_PROOFS.md, which have one line for all rows that
differ only in their widths.
"""
from __future__ import annotations

import dataclasses
import re
from dataclasses import dataclass
from pathlib import Path
from typing import Dict, Iterable, List, Mapping, Sequence, Tuple

from .rows import PAIRS

HERE = Path(__file__).resolve().parent
STORED = HERE / "results.md"
PAGE = HERE.parent.parent / "docs" / "RTL_PROOFS.md"
COLUMNS = (
    "Channel",
    "Widths",
    "Clocks",
    "Depth",
    "Also",
    "Proved for any number of cycles",
    "Not proved: no counterexample in",
    "Kinds of beats that arrive",
    "Seconds",
    "Slowest",
)
LONG = "messages up to 16 bytes"  # with a beat of 8 bytes
ALL_PAIRS = tuple(pair.replace("-", ":") for pair in PAIRS)


def joined(words: Iterable[str]) -> str:
    return f"| {' | '.join(words)} |"


def heading_of(columns: Sequence[str]) -> List[str]:
    return [joined(columns), "|" + "---|" * len(columns)]


HEADING = heading_of(COLUMNS)


@dataclass(frozen=True)
class Stored:
    """The stored line of a row. The fields are the columns of the table."""

    channel: str
    widths: str
    clocks: str
    depth: str
    also: str
    proved: str
    bounded: str
    kinds: str
    seconds: str
    slowest: str

    @property
    def lemmas(self) -> int:
        found = re.search(r"; by (\d+) lemmas", self.proved)
        return int(found[1]) if found else 0

    @property
    def what(self) -> str:
        """The column of what is proved, without the number of lemmas."""
        return re.sub(r"; by \d+ lemmas", "; by lemmas", self.proved)

    @property
    def differs(self) -> str:
        """The differences from most rows that do not follow from the widths."""
        return ", ".join(word for word in self.also.split(", ") if word != LONG) or "-"

    @property
    def key(self) -> Tuple[str, ...]:
        """Rows with the same key have one line in the table."""
        total = self.kinds.partition(",")[0].rpartition(" of ")[2]
        return (self.channel, self.clocks, self.depth, self.differs, self.what, self.bounded, total)

    @property
    def kind(self) -> str:
        """The words that rows have in common if only their channels and widths differ."""
        words = ["two clocks" if self.clocks == "2" else "one clock", f"`FIFO_DEPTH` {self.depth}"]
        words += [self.differs] if self.differs != "-" else []
        words += ["by contract"] if self.clocks == "2" and self.bounded == "-" else []
        words += ["the rules of both links"] if re.search(r"\bRules\b", self.proved) else []
        words += ["`Late` and `Ready`"] if " within " in self.proved else []
        return ", ".join(words)


def parse(line: str) -> Stored:
    """Reads the line of a row."""
    words = line.strip().strip("|").strip().split(" | ")
    if len(words) != len(COLUMNS):
        raise ValueError(f"a line of {len(words)} columns, and not {len(COLUMNS)}: {line}")
    return Stored(*words)


def read_lines(path: Path = STORED) -> Dict[str, str]:
    """Returns the stored line of each row by its name."""
    lines = [line for line in path.read_text().splitlines() if line.startswith("| ")][1:]
    return {name: f"| {rest}" for name, _, rest in (line[2:].partition(" | ") for line in lines)}


def write_lines(lines: Mapping[str, str], order: Sequence[str], path: Path = STORED) -> None:
    """Stores the lines of these rows in this order, without those of other rows."""
    head, _, _ = path.read_text().partition("| Row |")
    columns = ("Row", *COLUMNS)
    text = "\n".join([*heading_of(columns), *(f"| {name} {lines[name]}" for name in order if name in lines)])
    path.write_text(f"{head}{text}\n")


def pairs_text(widths: Sequence[str]) -> str:
    """Returns the text of a list of pairs of widths."""
    missing = [pair for pair in ALL_PAIRS if pair not in widths]
    if len(missing) > 3 or set(widths) - set(ALL_PAIRS):
        return ", ".join(sorted(set(widths)))
    return f"all {len(ALL_PAIRS)} pairs up to 8" + (f" except {', '.join(missing)}" if missing else "")


def range_text(values: Iterable[int]) -> str:
    low, *_, high = sorted([*values] * 2)
    return f"{low}" if low == high else f"{low} to {high}"


def kinds_text(rows: Sequence[Stored]) -> str:
    """Returns the kinds of beats that arrive: those of all rows, or each with its widths."""
    widths: Dict[str, List[str]] = {}
    for row in rows:
        widths.setdefault(row.kinds, []).append(row.widths)
    if len(widths) == 1:
        return rows[0].kinds
    texts = sorted(widths, key=lambda kinds: -len(widths[kinds]))
    for place, kinds in enumerate(texts[1:], 1):
        count, comma, rest = kinds.partition(", ")
        texts[place] = f"{count} at {', '.join(widths[kinds])}{comma}{rest}"
    return "; ".join(texts)


def folded(rows: Sequence[Stored]) -> Stored:
    """Returns the line of rows that have the same key."""
    first = rows[0]
    if len(rows) == 1:
        return first
    also = {row.also for row in rows}
    differs = [first.differs] if first.differs != "-" else []
    longest = max(rows, key=lambda row: int(row.slowest.rpartition(" ")[2]) if row.slowest != "-" else 0)
    return Stored(
        first.channel,
        pairs_text([row.widths for row in rows]),
        first.clocks,
        first.depth,
        first.also if len(also) == 1 else ", ".join([*differs, f"{LONG} with a beat of 8"]),
        first.what.replace("; by lemmas", f"; by {range_text(row.lemmas for row in rows)} lemmas"),
        first.bounded,
        kinds_text(rows),
        range_text(int(row.seconds) for row in rows),
        longest.slowest if longest.slowest == "-" else f"{longest.slowest} at {longest.widths}",
    )


def table(rows: Sequence[Stored]) -> List[str]:
    """Returns the lines of the table: one for all rows that differ only in their widths. The assertions that most rows
    of a channel have are only counted: `legend` names them.
    """
    groups: Dict[Tuple[str, ...], List[Stored]] = {}
    for row in rows:
        groups.setdefault(row.key, []).append(row)
    plain = plain_sets(rows)
    lines = list(HEADING)
    for group in groups.values():
        line = folded(group)
        names, lemmas, rest = line.proved.partition(";")
        if names == plain.get(line.channel):
            names = names.partition(":")[0]
        line = dataclasses.replace(line, proved=names + lemmas + rest)
        lines.append(joined(dataclasses.astuple(line)))
    return lines


def overview(rows: Sequence[Stored]) -> List[str]:
    """Returns the lines of the table of kinds, with the widths of each channel. A bound of two channels together counts
    for those that are not proved alone.
    """
    kinds: Dict[Tuple[bool, str, int, str], Dict[str, List[str]]] = {}
    proved = {(row.channel, row.widths, row.kind) for row in rows if row.bounded == "-"}
    for row in rows:
        has_bound = row.bounded != "-"
        for channel in "ABCDE" if row.channel == "A to E" else row.channel.split(", "):
            if channel in "ABCDE" and (not has_bound or (channel, row.widths, row.kind) not in proved):
                of_kind = kinds.setdefault((has_bound, row.clocks, int(row.depth), row.kind), {})
                of_kind.setdefault(channel, []).append(row.widths)
    lines = heading_of(("Kind", *"ABCDE"))
    for (has_bound, *_, kind), widths in sorted(kinds.items()):
        text = f"Not proved, with a bound: {kind}" if has_bound else kind[0].upper() + kind[1:]
        lines.append(joined([text, *(pairs_text(widths.get(letter, [])) or "-" for letter in "ABCDE")]))
    return lines


def plain_sets(rows: Iterable[Stored]) -> Dict[str, str]:
    """Returns the assertions of each channel in most rows, as they are printed: `all 5: Corrupt, ...`."""
    counts: Dict[str, Dict[str, int]] = {}
    for row in rows:
        if row.widths != "-" and row.bounded == "-" and " within " not in row.proved:
            of_channel = counts.setdefault(row.channel, {})
            names = row.proved.partition(";")[0]
            of_channel[names] = of_channel.get(names, 0) + 1
    return {channel: max(found, key=lambda names: found[names]) for channel, found in counts.items()}


def legend(rows: Sequence[Stored]) -> List[str]:
    """Returns the list of the assertions of each channel, which its lines have as their number."""
    channels: Dict[str, List[str]] = {}
    for channel, names in plain_sets(rows).items():
        channels.setdefault(names, []).append(channel)
    return [f"- {' and '.join(found)}, {names}." for names, found in channels.items()]


def replaced(text: str, name: str, lines: Sequence[str]) -> str:
    """Returns the text with other lines between the two comments of this name."""
    begin, end = f"<!-- {name}: made by tools/prove-rtl -->\n", "<!-- end -->"
    before, found, rest = text.partition(begin)
    _, ends, after = rest.partition(end)
    if not found or not ends:
        raise ValueError(f"there is no {begin.strip()} with its {end}")
    return "".join([before, begin, *(f"{line}\n" for line in lines), ends, after])


def page_of(text: str, lines: Mapping[str, str]) -> str:
    """Returns the text of the page with the tables of these lines."""
    rows = [parse(line) for line in lines.values()]
    for name, make in (("assertions", legend), ("table", table), ("overview", overview)):
        text = replaced(text, name, make(rows))
    return text


def write_page(page: Path = PAGE) -> None:
    """Writes the tables of the page from the stored lines."""
    page.write_text(page_of(page.read_text(), read_lines()))
