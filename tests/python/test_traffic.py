"""Random lawful traffic on all five channels: its far beats are those of a bridge, and the scoreboard gets the beats of
both links in any order of the two. It reports no difference, and if one field of a far beat is changed, it names that
field."""
import random
import unittest
from dataclasses import replace
from typing import Any, Dict, List, Optional, Tuple

import pytest
from tlbridge import Beat, Bridge, RefusedError, Scoreboard
from tlbridge.protocol import CARRIES_DATA, FROM_CLIENT, OPCODES, RELEASE_ACK
from tlbridge.traffic import Draws

WIDTHS = {"client": 8, "manager": 4}
FOR_NOW = ("NotReady", "SourceBusy", "NoRequest")

Links = Dict[str, List[Tuple[str, Beat]]]  # of each link, its beats with their channels


class Traffic:
    """The near beats of each channel, as drawn, and the beats of each link in the order in which it accepts them."""

    def __init__(self, seed: int) -> None:
        self.random = random.Random(seed)
        self.draws = Draws(self.random)
        self.left: Dict[str, List[Beat]] = {channel: [] for channel in "ABCDE"}
        self.asked: List[Tuple[int, int]] = []
        self.links: Links = {"client": [], "manager": []}

    def message(self, channel: str) -> List[Beat]:
        """The near beats of a message."""
        choose, draws, width = self.random, self.draws, WIDTHS["client" if channel in FROM_CLIENT else "manager"]
        opcode, size, given = RELEASE_ACK, choose.randrange(7), {"source": choose.randrange(4)}
        if channel == "D" and self.asked:
            given["source"], size = self.asked.pop(choose.randrange(len(self.asked)))
            opcode = choose.choice((0, 1, 2, 4, 5))
        elif channel in "ABC":
            opcode = choose.choice([*OPCODES[channel]])
        head: Any = draws.head(channel, opcode, size, **given)
        if channel == "E":
            return [Beat(**head)]
        return [
            Beat(**head, data=beat.data.to_bytes(width, "little"), corrupt=bool(beat.corrupt), mask=beat.mask)
            for beat in draws.beats(channel, head, width)
        ]

    def run(self, steps: int) -> Links:
        """Offers and takes at random, and lists the beats of each link."""
        with Bridge(8, 4, ring=self.random.choice((1, 16, 4096))) as bridge:
            for _ in range(steps):
                self.offer(bridge, self.random.choice("ABCDE"))
                self.take(bridge, self.random.choice("ABCDE"))
            for _ in range(2 * steps):
                if not any(self.left.values()) and bridge.settle().drained:
                    break
                for channel in "ABCDE":
                    self.offer(bridge, channel, begins=False)
                    self.take(bridge, channel)
        return self.links

    def offer(self, bridge: Any, channel: str, begins: bool = True) -> None:
        if not self.left[channel] and begins and (channel != "D" or self.asked or self.random.random() < 0.1):
            self.left[channel] = self.message(channel)
        if not self.left[channel]:
            return
        try:
            bridge.offer(channel, self.left[channel][0])
        except RefusedError as refused:
            if refused.status.name not in FOR_NOW:
                raise
            return
        self.links["client" if channel in FROM_CLIENT else "manager"].append((channel, self.left[channel].pop(0)))

    def take(self, bridge: Any, channel: str) -> None:
        bridge.settle()
        beat = bridge.receiver(channel).take(channel)
        if beat is None:
            return
        link = "manager" if channel in FROM_CLIENT else "client"
        if channel == "A" and not self.goes_on(link):
            self.asked.append((beat.source, beat.size))
        self.links[link].append((channel, beat))

    def goes_on(self, link: str) -> bool:
        """Whether the message of the last beat of A is not whole."""
        beats = [beat for channel, beat in self.links[link] if channel == "A"]
        at = 0
        while at < len(beats):
            at += max(1, (1 << beats[at].size) // WIDTHS[link]) if beats[at].opcode in CARRIES_DATA["A"] else 1
        return at > len(beats)


def judged(links: Links, seed: int) -> List[str]:
    """Returns the lines of a scoreboard that gets the beats of both links in a random order."""
    choose, board = random.Random(seed), Scoreboard(8, 4)
    waiting = {link: list(beats) for link, beats in links.items()}
    time = 0
    while any(waiting.values()):
        link = choose.choice([link for link, beats in waiting.items() if beats])
        channel, beat = waiting[link].pop(0)
        time += 1
        board.beat(link, channel, time, beat)
    board.end()
    return [line for line in board.lines if ": outstanding: " not in line]


@pytest.mark.usefixtures("proved")
class Random(unittest.TestCase):
    def test_right(self) -> None:
        for seed in range(8):
            with self.subTest(seed=seed):
                links = Traffic(seed).run(400)
                channels = {channel for beats in links.values() for channel, _ in beats}
                self.assertEqual(channels, set("ABCDE"))
                for order in range(3):
                    self.assertEqual(judged(links, order), [])

    def test_each_field(self) -> None:
        fields = {
            "A": "opcode param size source address mask corrupt data",
            "B": "opcode param size source address mask corrupt data",
            "C": "opcode param size source address corrupt data",
            "D": "opcode param size source sink denied corrupt data",
            "E": "sink",
        }
        links = Traffic(9).run(400)
        for channel, names in fields.items():
            for name in names.split():
                with self.subTest(channel=channel, field=name):
                    self.assertRegex(
                        judged(changed(links, channel, name), 1)[0],
                        f"^time [0-9]+: far {channel} beat [0-9]+;(.*;)? {name} got",
                    )

    def test_each_message_with_data(self) -> None:
        links = Traffic(11).run(1000)
        for channel, opcodes in CARRIES_DATA.items():
            for opcode in opcodes:
                with self.subTest(channel=channel, opcode=opcode):
                    self.assertRegex(
                        judged(changed(links, channel, "data", opcode), 1)[0],
                        f"^time [0-9]+: far {channel} beat [0-9]+; data got",
                    )

    def test_lost_and_doubled(self) -> None:
        links = Traffic(10).run(400)
        for channel in "ABCDE":
            link = "manager" if channel in FROM_CLIENT else "client"
            at = max(i for i, (letter, _) in enumerate(links[link]) if letter == channel)
            beats = links[link]
            with self.subTest(channel=channel):
                lost = {**links, link: beats[:at] + beats[at + 1 :]}
                self.assertRegex("\n".join(judged(lost, 1)), f"far {channel} beat [0-9]+: .*expected but missing")
                doubled = {**links, link: beats[: at + 1] + beats[at:]}
                self.assertRegex("\n".join(judged(doubled, 1)), f"far {channel} beat [0-9]+: .*unexpected")


def changed(links: Any, channel: str, name: str, opcode: Optional[int] = None) -> Any:
    """The same with a field of one far beat changed, of this opcode, if it is given: of data, byte 0 of a message that
    fills the beat."""
    link = "manager" if channel in FROM_CLIENT else "client"
    full = 3 if link == "client" else 2
    at = next(
        i
        for i, (letter, beat) in enumerate(links[link])
        if letter == channel
        and opcode in (None, beat.opcode)
        and (
            name != "data"
            or (beat.opcode in CARRIES_DATA[channel] and beat.size >= full and (channel not in "AB" or beat.mask & 1))
        )
    )
    beat = links[link][at][1]
    value = beat.data[:0] + bytes([beat.data[0] ^ 1]) + beat.data[1:] if name == "data" else getattr(beat, name) ^ 1
    return {**links, link: links[link][:at] + [(channel, replace(beat, **{name: value}))] + links[link][at + 1 :]}
