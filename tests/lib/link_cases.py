"""The table of cases that monitor, scoreboard and checker are tested by: traffic of all five channels, the mistake in
it, and what each has to
say. The lines of a scoreboard are those of docs/SCOREBOARD.md; the monitor's are the beats themselves; the checker's
faults are those of
tests/lib/checker_model.py."""
from dataclasses import dataclass, replace
from functools import lru_cache
from typing import Callable, Iterator, List, Optional, Sequence, Tuple

import tables
from lawful import (
    CLIENT,
    MANAGER,
    Event,
    Exchange,
    bits_of,
    broken,
    exchange,
    far_of,
    flipped,
    head_said,
    moved,
    of,
    packed,
    renumbered,
    reported,
    reset,
)
from tables import FIELDS

# The faults that one beat can have without another: by number.
FAULTS = {number: tables.FAULTS[number] for number in (1, 2, 3, 4, 5, 6, 7, 10)}


@dataclass
class Case:
    """`lines` are those of the scoreboard in their order; one that ends with `..` is the beginning of a line.
    `differences` counts.
    """

    name: str
    events: List[Event]
    differences: int = 0
    lines: Optional[List[str]] = None
    is_lawful: bool = False  # both links keep the rules, so the monitor's files are the beats


def started(events: Sequence[Event], first: int = 100) -> List[Event]:
    """The events, after a reset of both links at the beginning."""
    return [
        reset(10, CLIENT, True),
        reset(10, MANAGER, True),
        reset(20, CLIENT, False),
        reset(20, MANAGER, False),
        *moved(events, first),
    ]


@lru_cache(maxsize=None)
def begun_once(client: int, manager: int) -> List[Event]:
    """The events of `begun`, made once."""
    return started(exchange(client, manager))


def begun(client: int, manager: int) -> List[Event]:
    """Lawful traffic of all channels, after a reset of both links."""
    return list(begun_once(client, manager))


def changed(events: Sequence[Event], at: int, *names: str) -> Tuple[List[Event], str]:
    """The traffic with one bit of each of these fields of a far beat changed, the highest, and the line about it."""
    came = events[at]
    for name in names:
        came = flipped(came, name, bits_of(events[at], name)[-1])
    return [*events[:at], came, *events[at + 1 :]], reported(events[at], came)


def of_fields(client: int, manager: int) -> Iterator[Case]:
    """Each field of each channel, at the first, a middle and the last beat of a burst or at the only beat of a message,
    by turns.
    """
    events = begun(client, manager)
    for channel, names in FIELDS.items():
        for turn, name in enumerate(names):
            places = ("only",) if channel == "E" else ("first", "middle", "last", "only")
            place = next(
                x
                for x in places[turn % len(places) :] + places
                if of(events, channel, place=x, data=True if name == "data" else None)
            )
            at = of(events, channel, place=place, data=True if name == "data" else None)[-1]
            made, line = changed(events, at, name)
            lines = [line]
            if (channel, name) == ("A", "source") and place in ("only", "first"):
                # the manager answers a source of which its link has no request
                source = events[at].head["source"]
                answer = next(
                    event
                    for event in events[at:]
                    if event.channel == "D" and not event.is_far and event.head["source"] == source
                )
                lines.append(f"time {answer.time}: near D beat {answer.number}: source {source:04x}: 9 NoRequest..")
            yield Case(f"{name} of {channel}, {place} beat", made, len(lines), lines)


def of_both_links(client: int, manager: int) -> Iterator[Case]:
    """Mistakes at both links at once, and in each channel at one time."""
    events = started(exchange(client, manager, step=10))
    lines, made = [], events
    for channel, name in (("A", "address"), ("B", "param"), ("C", "source"), ("D", "denied"), ("E", "sink")):
        made, line = changed(made, of(made, channel)[1], name)
        lines.append(line)
    yield Case("a mistake in each channel", made, 5, sorted(lines, key=lambda line: int(line.split()[1][:-1])))
    for channel in "BC":
        last = [event for event in events if event.channel in (channel, "R")]
        made, line = changed(last, len(last) - 1, "param")
        yield Case(f"a mistake in the last beat, of {channel}", made, 1, [line])
    at_once = Exchange(client, manager, step=0)
    at_once.time = 500
    for channel in "BCE":
        at_once.send(channel, at_once.head(channel, 6 if channel != "E" else 0, 2))
    made, lines = at_once.events, []
    for channel, name in (("B", "address"), ("C", "param"), ("E", "sink")):
        made, line = changed(made, of(made, channel)[0], name)
        lines.append(line)
    yield Case(
        "mistakes of both links in one cycle",
        started(made),
        3,
        [line.replace("time 500", "time 600") for line in lines],
    )


def of_lost_beats(client: int, manager: int) -> Iterator[Case]:
    """The last far beat of each channel is lost, or comes twice."""
    for channel in "ABCDE":
        events = started([event for event in exchange(client, manager) if channel != "A" or event.channel != "D"])
        events = events[: of(events, channel)[-1] + 1]
        last = events[-1]
        open_requests = (
            [
                event
                for event in events
                if event.channel == "A" and not event.is_far and event.place in ("first", "only")
            ]
            if channel == "A"
            else []
        )
        said = sorted(
            (
                f"time {event.time}: outstanding: near A beat {event.number}, source {event.head['source']:04x}, has no"
                " response"
                for event in open_requests
            ),
            key=lambda line: line.split("source ")[1],
        )
        more = (
            [f"time {events[-2].time}: outstanding: {len(said) - 20} more requests have no response"]
            if len(said) > 20
            else []
        )
        if channel != "D":
            yield Case(
                f"the last far beat of {channel} is lost",
                events[:-1],
                1,
                [
                    (
                        f"time {events[-2].time}: far {channel} beat {last.number}: {head_said(last)}: expected but"
                        " missing"
                    ),
                    *said[:20],
                    *more,
                ],
            )
        again = replace(last, time=last.time + 10, number=last.number + 1)
        more = [line.replace(f"time {events[-2].time}", f"time {again.time}") for line in more]
        yield Case(
            f"the last far beat of {channel} comes twice",
            [*events, again],
            1,
            [
                f"time {again.time}: far {channel} beat {again.number}: {head_said(again)}: unexpected",
                *said[:20],
                *more,
            ],
        )


def of_refused_beats(client: int, manager: int, *faults: int) -> Iterator[Case]:
    """A near beat breaks a rule. The traffic after it is judged, and one far beat of the same channel in it is
    wrong.
    """
    for channel in "ABCD":
        for fault in faults or FAULTS:
            place = "middle" if fault == 7 else "only"
            events = begun(client, manager)
            made = broken(events, channel, fault, place)
            if made is None:
                continue
            wrong, at = made
            behind = [i for i in of(events, channel) if i > max(far_of(events, at))][-1]
            wrong, line = changed(wrong, behind, "address" if channel == "A" else "source")
            yield Case(
                f"{FAULTS[fault]} on {channel}, {place} beat",
                wrong,
                2,
                [f"time {events[at].time}: near {channel} beat {events[at].number}: {head_said(wrong[at])}..", line],
            )


def of_resets(client: int, manager: int) -> Iterator[Case]:
    """Resets of one link and of both, released apart, amid traffic; what is in flight then is not judged."""
    for first in (CLIENT, MANAGER):
        made = Exchange(client, manager)
        made.time = 200
        channel = "A" if first == CLIENT else "B"
        made.send(channel, made.head(channel, 3, 4))
        near = [
            replace(event, time=200 + 10 * i)
            for i, event in enumerate(event for event in made.events if not event.is_far)
        ]
        far = [
            replace(event, time=700 + 10 * i) for i, event in enumerate(event for event in made.events if event.is_far)
        ]
        opened = (
            []
            if channel == "B"
            else [f"time 200: outstanding: near A beat 0, source {near[0].head['source']:04x}, has no response"]
        )
        apart = [
            reset(10, CLIENT, True),
            reset(10, MANAGER, True),
            reset(100, first, False),
            *near,
            reset(600, 1 - first, False),
        ]
        yield Case(f"link {first} leaves the reset first, and sends", [*apart, *far], 0, opened)
        wrong, line = changed(far, len(far) - 1, "data")
        yield Case(f"link {first} leaves the reset first, and a mistake", [*apart, *wrong], 1, [line, *opened])
    for channel in "ABCD":
        yield from of_resets_amid(client, manager, channel)


def of_resets_amid(client: int, manager: int, channel: str) -> Iterator[Case]:
    """A burst of a channel is cut by a reset; then there is other traffic, also with sources of requests that had no
    response, and a mistake at its end.
    """
    for links in ((CLIENT,), (MANAGER,), (CLIENT, MANAGER)):
        events = begun(client, manager)
        # after its first beat, or before its last one
        bursts = of(events, channel, far=False, place="first")
        at = (
            max(bursts, key=lambda i: events[i].head["size"])
            if len(links) == 1
            else of(events, channel, far=False, place="middle")[-1]
        )
        time = events[at].time
        after = Exchange(client, manager, seed=2)
        source = [event.head["source"] for event in events[: at + 1] if event.channel == "A"][-1]
        for address in (0x1007, 0x2001):
            after.ask(4, 0, 1, source=source, address=address)
        made = [*packed(after.events), *moved(exchange(client, manager, seed=2), after.time)]
        made = renumbered(moved(made, time + 200))
        made, line = changed(made, of(made, "E")[-1], "sink")
        order = [
            *events[: at + 1],
            *[reset(time + 10 * i + 10, link, True) for i, link in enumerate(links)],
            *[reset(time + 100 + 10 * i, link, False) for i, link in enumerate(links)],
            *made,
        ]
        name = "client" if links[0] == CLIENT else "manager"
        yield Case(
            f"a reset of {len(links)} links amid a burst of {channel}, {name} first",
            order,
            1,
            [f"time {time + 10}: reset of the {name}'s link: ..", line],
        )


def of_ends(client: int, manager: int) -> Iterator[Case]:
    yield Case("lawful traffic", begun(client, manager), 0, [], True)
    yield Case("lawful traffic in few cycles", packed(begun(client, manager)), 0, [])
    yield Case("far beats before their near beats", started(exchange(client, manager, far_first=True)), 0, [])
    yield Case(
        "no beat",
        [reset(10, CLIENT, True), reset(20, CLIENT, False)],
        1,
        ["time 0: no beat was accepted on either link, so nothing was compared"],
    )
    made = Exchange(client, manager)
    made.send("A", made.head("A", 4, 0, source=0x1234))
    busy = [*made.events, replace(made.events[0], time=300, number=1)]
    yield Case(
        "a source is used twice",
        started(busy),
        2,
        [
            "time 400: near A beat 1: source 1234: 8 SourceBusy..",
            f"time 400: near A beat 1: {head_said(busy[0])}: waits: 8 SourceBusy..",
            "time 400: outstanding: near A beat 1, source 1234, has no response",
        ],
    )


def cases(client: int, manager: int) -> Iterator[Case]:
    """All cases of a pair of widths."""
    parts: List[Callable[[int, int], Iterator[Case]]] = [of_ends, of_fields, of_both_links, of_lost_beats]
    parts += [of_refused_beats, of_resets]
    for part in parts:
        yield from part(client, manager)


def fits(lines: Sequence[str], expected: Sequence[str]) -> bool:
    """Whether the lines are those that are expected."""
    return len(lines) == len(expected) and all(
        line.startswith(want[:-2]) if want.endswith("..") else line == want for line, want in zip(lines, expected)
    )
