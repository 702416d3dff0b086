"""How the tests of this folder give the beats of both links to a scoreboard, and what it says of them."""

import os
from typing import Any, List, Sequence, Tuple

import lawful
from lawful import Event

from tlbridge import Beat, Scoreboard

Pair = Tuple[int, int]


def all_pairs() -> List[Pair]:
    """The pairs of widths of the library, client first."""
    return [
        (int(client), int(manager)) for client, manager in (x.split(":") for x in os.environ["TLBRIDGE_PAIRS"].split())
    ]


def small_pairs() -> List[Pair]:
    """The pairs of narrow links, whose traffic is short."""
    made = all_pairs()
    return [pair for pair in made if pair[0] * pair[1] <= 128 and max(pair) <= 32] or made


def tell(board: Scoreboard, event: Event) -> None:
    """Gives a beat, or a change of a link's reset, to a scoreboard."""
    if event.channel == "R":
        board.reset(lawful.NAMES[event.link], bool(event.head["opcode"]), event.time)
        return
    own: Any = dict(event.head)
    if event.channel in "AB":
        own["mask"] = event.mask
    if event.channel != "E":
        own.update(data=event.data, corrupt=event.corrupt)
    board.beat(lawful.NAMES[event.link], event.channel, event.time, Beat(**own))


def judged(events: Sequence[Event], client: int = 8, manager: int = 4, **flags: Any) -> Tuple[int, List[str]]:
    """How many differences a board has at its end, and its lines."""
    board = Scoreboard(client, manager, **flags)
    for event in events:
        tell(board, event)
    return board.end(), board.lines
