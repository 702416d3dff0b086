"""The two tables over all links of a dump: the list, and with --all a judgement of each."""
from __future__ import annotations

from typing import List, Sequence, Tuple

from ..judge import program_of
from ..run import FailureError
from .all_links import COLUMNS, AllLinks, Verdict, as_json, first_of
from .chosen import version_for, watches_of
from .links import Link, Signals
from .options import Options, note, nothing
from .remarks import channels_of, few, notes_of, print_remarks, remarks_of, reset_of, tell, why_not
from .sampling import Sampler, Watch
from .vcd import Reader


def table(rows: Sequence[Sequence[str]]) -> str:
    widths = [max(len(row[at]) for row in rows) for at in range(len(rows[0]))]
    return "\n".join("  ".join(word.ljust(width) for word, width in zip(row, widths)).rstrip() for row in rows)


def list_links(options: Options, reader: Reader, links: List[Link], signals: Signals) -> int:
    halves = [link for link in links if link.is_half]
    links = [link for link in links if not link.is_half]
    if not links and not halves:
        extended = (
            " It is an extended VCD ($dumpports), which is not read: dump with $dumpvars."
            if set(reader.kinds) == {"port"}
            else ""
        )
        raise FailureError(
            f"{options.dump}: no TileLink link is among its {sum(reader.kinds.values())} variables in"
            f" {reader.scopes} scopes: --link-pattern, --client-pattern and --manager-pattern say how its signals are"
            f" named.{extended}"
        )
    watches = watches_of(options, links, signals, lambda link: Watch(link, span=(options.first, options.last)))
    is_counted = bool(watches) and not options.no_count
    sampler = Sampler(reader, list(watches.values()) if is_counted else [])
    if is_counted:
        sampler.read()
    rows = [["link", "names", "channels", "bytes", "source", "sink", "address", "clock", "reset", "beats"]]
    for link in links:
        beats = f"same as {link.same.name}" if link.same else "not counted"
        if is_counted and link in watches:
            beats = " ".join(f"{port.letter} {port.accepted}" for port in watches[link].ports)
        rows.append(
            [
                link.name,
                link.convention,
                channels_of(link),
                str(link.width or "?"),
                *(str(link.bits(name)) for name in ("source", "sink", "address")),
                link.clock.name if link.clock else "?",
                reset_of(link),
                beats,
            ]
        )
    if links:
        print(table(rows))
    for link in links:
        if not link.same:
            print_remarks(link)
    if halves:
        print(f"one direction each, joined by + as in --client A+B: {few([link.name for link in halves], 12)}")
    if is_counted and not options.quiet:
        tell(reader, sampler, None, note)
    return 0


def judge_all(options: Options, reader: Reader, found: Sequence[Link], signals: Signals) -> int:
    """Judges each link of the dump by itself, in one pass. Returns the exit status."""
    links = [link for link in found if not link.is_half]
    judges = AllLinks(program_of(options.program, nothing), options.level, lambda link: version_for(options, [link]))
    try:
        watches = watches_of(options, links, signals, judges.watch)
        if not watches:
            for link in links:
                print_remarks(link)
            raise FailureError(f"{options.dump}: no link is there that can be judged", 2 if links else 3)
        sampler = Sampler(reader, list(watches.values()))
        verdicts = judges.read(sampler, lambda watch: remarks_of(watch, is_list=True))
        others = [(link, why_not(link)) for link in links if link not in watches]
        if options.json:
            about = {
                "dump": options.dump,
                "begin": sampler.begin or 0,
                "end": sampler.end,
                "unit": reader.timescale,
                "judge": {"program": judges.program, "verified": judges.is_verified},
                "notes": notes_of(reader, sampler),
            }
            print(as_json(about, verdicts, [{"link": link.name, "not_judged": why} for link, why in others]))
        else:
            print_all(reader, sampler, judges, verdicts, others)
        return 0 if all(verdict.is_right for verdict in verdicts) else 1
    finally:
        judges.close()


def print_all(
    reader: Reader, sampler: Sampler, judges: AllLinks, verdicts: Sequence[Verdict], others: Sequence[Tuple[Link, str]]
) -> None:
    print(table([COLUMNS, *(verdict.row() for verdict in verdicts if not verdict.same)]))
    first = first_of(verdicts)
    if first:
        print(f"first fault of the dump: {first.lines()[0]}")
    for verdict in verdicts:
        for text in verdict.lines():
            print(text)
    for link, why in others:
        print(f"{link.name}: not judged: {why}")
    for text in notes_of(reader, sampler):
        print(text)
    unit = reader.timescale or "its own"
    print(f"the dump covers time {sampler.begin or 0} to {sampler.end}, in units of {unit}; {judges.judged_by()}")
