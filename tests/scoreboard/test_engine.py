"""The scoreboard's C engine by class: the order in which beats come, long queues, requests and responses of one source,
resets, several faults in one
beat, and each line at the end, word for word. The expected lines follow from the rules of docs/SCOREBOARD.md."""
import ctypes
import itertools
import os
from dataclasses import replace
from typing import Any, Dict, List, Sequence, Tuple

import lawful
from judging import all_pairs, judged, tell
from lawful import (
    CLIENT,
    MANAGER,
    Event,
    Exchange,
    exchange,
    flipped,
    head_said,
    of,
    packed,
    renumbered,
    reported,
    reset,
    with_value,
)
from subtests import CaseTest
from tables import FIELDS, FROM_CLIENT

from tlbridge import Beat, Scoreboard, status_of
from tlbridge.library import pairs


def fault_said(number: int) -> str:
    status = status_of(number)
    return f"{number} {status.name}: {status.sentence}"


def refused_said(event: Event, fault: int, more: str = "") -> str:
    return (
        f"time {event.time}: near {event.channel} beat {event.number}: {head_said(event)}{more}: refused:"
        f" {fault_said(fault)}; its far beats are not judged"
    )


def near_and_far(events: Sequence[Event], channel: str) -> List[List[Event]]:
    return [[event for event in events if event.channel == channel and event.is_far == far] for far in (False, True)]


def numbered(events: Sequence[Event]) -> List[Event]:
    """The events at times 10, 20 and so on, each with its number."""
    return renumbered([replace(event, time=10 * at + 10) for at, event in enumerate(events)])


class Order(CaseTest):
    """Beats of both links in any order that a design may have."""

    def parts(self, count: int, **more: Any) -> List[List[Event]]:
        made = Exchange(8, 4)
        for address in range(0x1000, 0x1000 + 8 * count, 8):
            made.ask(4, 2, 1, source=5, address=address, **more)
        return [
            [event for event in made.events if event.channel == channel and event.link == link]
            for channel, link in (("A", CLIENT), ("A", MANAGER), ("D", MANAGER), ("D", CLIENT))
        ]

    def test_the_last_beat_lets_all_others_go_on(self) -> None:
        """The four beats of a request and its response come at one time, in each order."""
        (near_a,), (far_a,), (near_d,), (far_d,) = self.parts(1)
        for order in itertools.permutations((near_a, far_a, near_d, far_d)):
            at_once = [replace(event, time=10) for event in order]
            with self.subTest(order=[(event.link, event.channel) for event in order]):
                self.assertEqual(judged(at_once), (0, []))
                at = at_once.index(replace(far_d, time=10))
                wrong = [*at_once[:at], flipped(at_once[at], "data", 0), *at_once[at + 1 :]]
                self.assertEqual(judged(wrong), (1, [reported(at_once[at], wrong[at])]))

    def test_a_burst_that_waits_goes_on_as_a_whole(self) -> None:
        """A burst uses the source of a request whose response is the last beat. No far beat of the burst comes: each is
        missing, and no near beat waits.
        """
        made = Exchange(8, 4)
        made.ask(4, 2, 1, source=5)
        first, made.events = made.events, []
        made.send("A", made.head("A", 0, 6, source=5))
        near, far = near_and_far(made.events, "A")
        for place in (2, 3):  # the burst begins before the response on the manager's link, or after it
            events = numbered([*first[:place], *near, *first[place:]])
            begin = next(event for event in events if event.number == 1 and event.channel == "A")
            with self.subTest(place=place):
                self.assertEqual(
                    judged(events),
                    (
                        2,
                        [
                            f"time {begin.time}: near A beat 1: source 0005: {fault_said(8)}",
                            (
                                f"time {events[-1].time}: far A beat 1: {head_said(far[0])}: expected but missing;"
                                f" {len(far) - 1} more are missing"
                            ),
                            f"time {begin.time}: outstanding: near A beat 1, source 0005, has no response",
                        ],
                    ),
                )

    def test_a_source_that_waits_for_its_response(self) -> None:
        """The next request of the source comes in the cycle of the response."""
        (a, a2), (far_a, far_a2), (d, d2), (far_d, far_d2) = self.parts(2)
        order = numbered([a, far_a, d, far_a2, a2, d2, far_d2, far_d])
        # (the far responses come in their order)
        at_once = [replace(order[i], time=10) for i in (0, 1, 2, 3, 4, 5, 7, 6)]
        self.assertEqual(judged(renumbered(at_once)), (0, []))

    def test_each_lag(self) -> None:
        """Far beats come after a number of near beats, more than a queue has room for at first; the last one is
        wrong.
        """
        for channel, lag in itertools.product("BCE", (1, 7, 63, 64, 65, 130, 300)):
            made = Exchange(8, 4)
            for at in range(320):
                made.send(channel, made.head(channel, 0 if channel == "E" else 6, 2))
            near, far = near_and_far(made.events, channel)
            for first, second in ((near, far), (far, near)):
                order = list(first[:lag])
                for one, other in itertools.zip_longest(first[lag:], second):
                    order += [event for event in (one, other) if event]
                order = numbered(order)
                with self.subTest(channel=channel, lag=lag, far_first=first is far):
                    self.assertEqual(judged(order), (0, []))
                    at = [i for i, event in enumerate(order) if event.is_far][-1]
                    wrong = [
                        *order[:at],
                        flipped(order[at], "sink" if channel == "E" else "address", 9),
                        *order[at + 1 :],
                    ]
                    came = reported(order[at], wrong[at])
                    self.assertEqual(judged(wrong), (1, [came]))

    def test_more_than_the_bridge_has_room_for(self) -> None:
        """Thousands of near beats, then all far beats but some: each missing one is counted."""
        made = Exchange(8, 4)
        for _ in range(5000):
            made.send("E", made.head("E", 0, 0))
        near, far = near_and_far(made.events, "E")
        for lost in (0, 1, 900):
            order = numbered([*near, *far[: 5000 - lost]])
            first = far[5000 - lost] if lost else far[0]
            more = f"; {lost - 1} more are missing" if lost > 1 else ""
            lines = (
                [f"time {order[-1].time}: far E beat {first.number}: {head_said(first)}: expected but missing{more}"]
                if lost
                else []
            )
            with self.subTest(lost=lost):
                self.assertEqual(judged(order), (int(lost > 0), lines))

    def test_a_refused_beat_amid_many(self) -> None:
        """Far beats come long after their near beats, of which one was refused: the others are compared in their
        order.
        """
        for before, refused in itertools.product((1, 10, 63, 100), (0, 3, 70)):
            made = Exchange(8, 4)
            for _ in range(before + 140):
                made.send("C", made.head("C", 6, 2))
            near, far = near_and_far(made.events, "C")
            order = numbered(
                [event for both in zip(near[:before], far) for event in both] + near[before:] + far[before:]
            )
            at = 2 * before + refused
            order[at] = with_value(order[at], "param", 7)
            with self.subTest(before=before, refused=refused):
                self.assertEqual(judged(order), (1, [refused_said(order[at], 2, ", param 7")]))
                last = flipped(order[-1], "source", 3)
                self.assertEqual(
                    judged([*order[:-1], last]),
                    (2, [refused_said(order[at], 2, ", param 7"), reported(order[-1], last)]),
                )

    def test_few_cycles(self) -> None:
        """The traffic of each pair of widths, with many beats in a cycle."""
        for client, manager in all_pairs():
            with self.subTest(client=client, manager=manager):
                self.assertEqual(judged(packed(exchange(client, manager)), client, manager), (0, []))


class Sources(CaseTest):
    """Requests and responses of one source on each link."""

    def get(self, time: int, number: int = 0, source: int = 0x1234, link: int = CLIENT, **more: int) -> Event:
        head = {"opcode": 4, "param": 0, "size": 2, "source": source, "address": 0x1000, **more}
        return Event(time, link, "A", head, 0xF, bytes(8 if link == CLIENT else 4), number=number)

    def data(self, time: int, number: int = 0, source: int = 0x1234, link: int = MANAGER, **more: int) -> Event:
        head = {"opcode": 1, "param": 0, "size": 2, "source": source, "sink": 0, "denied": 0, **more}
        return Event(time, link, "D", head, 0, bytes(4 if link == MANAGER else 8), number=number)

    def test_many_requests_of_one_source(self) -> None:
        """Each request after the first is a difference once its cycle is over, however many there are."""
        board = Scoreboard(8, 4)
        for number in range(300):
            tell(board, self.get(10 * number + 10, number))
            self.assertEqual(board.differences, max(0, number - 1))
        self.assertEqual(board.lines[0], f"time 20: near A beat 1: source 1234: {fault_said(8)}")
        board.end()

    def test_many_responses_of_one_source(self) -> None:
        """Without a request, each of three hundred is a difference."""
        board = Scoreboard(8, 4)
        for number in range(300):
            tell(board, self.data(10 * number + 10, number))
            self.assertEqual(board.differences, number)
        self.assertEqual(board.lines[0], f"time 10: near D beat 0: source 1234: {fault_said(9)}")
        board.end()

    def test_far_beats_in_the_cycle_of_a_fault(self) -> None:
        """A far beat of another source, in the cycle of a request or a response that comes too early on its link, hides
        nothing, whichever comes first.
        """
        opened = [self.get(10), self.get(20, source=0x5678, number=1), self.get(30, link=MANAGER), self.data(40)]
        busy = [self.get(50, 2, source=0x5678), self.data(50, link=CLIENT)]
        early = [self.data(50, 1, source=0x9999), self.get(50, 1, link=MANAGER, source=0x5678)]
        for pair, said in (
            (busy, f"time 50: near A beat 2: source 5678: {fault_said(8)}"),
            (early, f"time 50: near D beat 1: source 9999: {fault_said(9)}"),
        ):
            for at_once in (pair, pair[::-1]):
                with self.subTest(said=said, far_first=at_once[0].is_far):
                    self.assertEqual(
                        [
                            line
                            for line in judged([*opened, *at_once])[1]
                            if ": source " in line and "outstanding" not in line
                        ],
                        [said],
                    )

    def test_both_ends_of_the_sources(self) -> None:
        """The lowest id, the highest and some between; a response of another source answers no request."""
        for source in (0, 0xFF, 0x100, 0x7FFF, 0x8000, 0xFFFF):
            events = [
                self.get(10, source=source),
                self.get(20, link=MANAGER, source=source),
                self.data(30, source=source),
                self.data(40, link=CLIENT, source=source),
                self.get(50, 1, source=source),
                self.get(60, 1, link=MANAGER, source=source),
            ]
            with self.subTest(source=source):
                self.assertEqual(
                    judged(events), (0, [f"time 50: outstanding: near A beat 1, source {source:04x}, has no response"])
                )
                other = source ^ 0x8000
                self.assertEqual(
                    judged([*events, self.data(70, 1, source=other)])[1][0],
                    f"time 70: near D beat 1: source {other:04x}: {fault_said(9)}",
                )

    def test_a_busy_source_before_a_reset(self) -> None:
        """The fault is reported, though a reset follows."""
        events = [self.get(10), self.get(20, 1), reset(30, MANAGER, True)]
        count, lines = judged(events)
        self.assertEqual((count, lines[0]), (1, f"time 20: near A beat 1: source 1234: {fault_said(8)}"))

    def test_requests_over_a_reset(self) -> None:
        """A source is free, and has no request, after a reset; so is a request that was refused before it."""
        for first in (self.get(10), with_value(self.get(10), "mask", 0)):
            for link in (CLIENT, MANAGER):
                before = [first, reset(20, link, True), reset(30, link, False)]
                count = int(first.mask == 0)
                with self.subTest(refused=first.mask == 0, link=link):
                    right = [
                        *before,
                        self.get(40),
                        self.get(50, link=MANAGER),
                        self.data(60),
                        self.data(70, link=CLIENT),
                    ]
                    self.assertEqual(judged(right)[0], count)
                    self.assertEqual(
                        judged([*before, self.data(60)])[1][-2:],
                        [
                            f"time 60: near D beat 0: source 1234: {fault_said(9)}",
                            f"time 60: near D beat 0: {head_said(self.data(60))}: waits: {fault_said(9)}",
                        ],
                    )
                    self.assertEqual(
                        judged([*before, self.get(60), self.get(70, link=MANAGER)])[1][-1],
                        "time 60: outstanding: near A beat 0, source 1234, has no response",
                    )
                    wrong = with_value(self.data(60), "param", 3)
                    self.assertIn(refused_said(wrong, 2, ", param 3"), judged([*before, wrong])[1])

    def test_the_lanes_of_a_response(self) -> None:
        """They are those of its request, whatever other channels have the same source."""
        made = Exchange(8, 4)
        asked = made.send("A", made.head("A", 4, 0, source=9, address=0x1007))
        made.send("C", made.head("C", 6, 0, source=9, address=0x2000))
        made.send("B", made.head("B", 6, 0, source=9, address=0x2001))
        made.send("D", made.head("D", 1, 0, source=9), home=asked["address"])
        last = made.events[-1]
        self.assertEqual(judged(made.events), (0, []))
        self.assertEqual([lane for lane, compared in enumerate(last.lanes) if compared], [7])
        wrong = flipped(last, "data", 56)
        self.assertEqual(judged([*made.events[:-1], wrong]), (1, [reported(last, wrong)]))


class Lines(CaseTest):
    """Each line word for word, also the longest, and how many there are."""

    def test_the_longest_line(self) -> None:
        """A far beat on 128 lanes that differs in each field."""
        if (128, 128) not in all_pairs():
            self.skipTest("the library has no pair 128:128")
        for channel, opcode in (("A", 0), ("B", 0), ("D", 5)):
            made = Exchange(128, 128)
            head = made.ask(6, 8, 5) if channel == "D" else made.send(channel, made.head(channel, opcode, 8))
            self.assertEqual(head["size"], 8)
            at = of(made.events, channel, data=True)[1]
            came = made.events[at]
            for name in FIELDS[channel]:
                for bit in lawful.bits_of(came, name) if name != "data" else range(0, 1024, 5):
                    came = flipped(came, name, bit)
            with self.subTest(channel=channel):
                count, lines = judged(made.events[:at] + [came] + made.events[at + 1 :], 128, 128)
                self.assertEqual((count, lines[0]), (1, reported(made.events[at], came)))
                self.assertGreater(len(lines[0]), 600)

    def test_the_mask_of_each_width(self) -> None:
        """It is shown with a digit for each four lanes."""
        for client, manager in all_pairs():
            for channel, width in (("A", manager), ("B", client)):
                made = Exchange(client, manager)
                made.send(channel, made.head(channel, 4, 0))
                for bit in {0, width // 2, width - 1}:
                    wrong = flipped(made.events[1], "mask", bit)
                    with self.subTest(client=client, manager=manager, channel=channel, bit=bit):
                        self.assertEqual(
                            judged([made.events[0], wrong], client, manager)[1][0], reported(made.events[1], wrong)
                        )

    def test_further_differences(self) -> None:
        """From the twenty-first of a channel on."""
        for channel in "BC":
            made = Exchange(8, 4)
            for _ in range(21):
                made.send(channel, made.head(channel, 6, 2))
            wrong = [flipped(event, "param", 0) if event.is_far else event for event in made.events]
            count, lines = judged(wrong)
            with self.subTest(channel=channel):
                self.assertEqual(
                    (count, len(lines), lines[20]),
                    (21, 21, f"time {made.events[39].time}: further differences on {channel} are only counted"),
                )

    def test_all_at_the_end(self) -> None:
        """Unexpected beats, messages that are not whole, and missing beats, in this order, each channel after the
        other.
        """
        made = Exchange(4, 8)
        unexpected: List[str] = []
        missing: List[str] = []
        cut: List[str] = []
        for channel, opcode in (("B", 6), ("C", 6), ("D", 6), ("E", 0)):
            made.send(channel, made.head(channel, opcode, 2))
            made.send(channel, made.head(channel, opcode, 2))
        near = [event for event in made.events if not event.is_far]
        far = [event for event in made.events if event.is_far and event.channel in "CE"]  # those of B and D are missing
        again = [replace(event, number=2 + i, time=1000) for event in far if event.number == 1 for i in range(2)]
        events = [*near, *far, *again]
        for channel in "CE":
            event = next(event for event in again if event.channel == channel)
            unexpected.append(f"time 1000: far {channel} beat 2: {head_said(event)}: unexpected; 1 more are unexpected")
        for channel in "BD":
            event = next(event for event in made.events if event.channel == channel and event.is_far)
            missing.append(
                f"time 1000: far {channel} beat 0: {head_said(event)}: expected but missing; 1 more are missing"
            )
        self.assertEqual(judged(events, 4, 8), (4, [*unexpected, *cut, *missing]))

    def test_incomplete_messages(self) -> None:
        """Of each channel, whose first beat came: nothing else is said if no far beat is expected yet."""
        for channel, opcode, client, manager in (("A", 0, 4, 8), ("B", 0, 8, 4), ("C", 7, 4, 8)):
            made = Exchange(client, manager)
            made.send(channel, made.head(channel, opcode, 4))
            first = made.events[0]
            opened = (
                [f"time {first.time}: outstanding: near A beat 0, source {first.head['source']:04x}, has no response"]
                if channel == "A"
                else []
            )
            with self.subTest(channel=channel):
                self.assertEqual(
                    judged([first], client, manager),
                    (1, [f"time {first.time}: near {channel}: the last message is incomplete", *opened]),
                )

    def test_what_waits(self) -> None:
        """Three responses without a request: each is said once it is judged, and at the end with how many wait after
        it.
        """
        events = [
            Event(
                10 * i + 10,
                MANAGER,
                "D",
                {"opcode": 0, "param": 0, "size": 0, "source": i, "sink": 0, "denied": 0},
                0,
                bytes(4),
                number=i,
            )
            for i in range(3)
        ]
        said = [
            f"time {event.time}: near D beat {event.number}: source {event.number:04x}: {fault_said(9)}"
            for event in events
        ]
        waits = [
            f"time {event.time}: near D beat {event.number}: {head_said(event)}: waits: {fault_said(9)}{more}"
            for event, more in zip(events, ("; 2 more wait after it", "; 1 more wait after it", ""))
        ]
        self.assertEqual(judged(events), (6, [*said, *waits]))

    def test_what_was_in_flight(self) -> None:
        """One near beat of each channel, one far beat of each, and a far beat that is expected of each."""
        for channel, opcode in (("A", 4), ("B", 6), ("C", 6), ("D", 6), ("E", 0)):
            made = Exchange(8, 4)
            made.send(channel, made.head(channel, opcode, 2))
            near, far = made.events
            for events, count in (([near], 1), ([far], 1), ([near, far], 0), ([near, far, far, far], 2)):
                with self.subTest(channel=channel, events=len(events)):
                    lines = judged([*events, reset(500, MANAGER, True)])[1]
                    self.assertEqual(
                        lines,
                        [
                            f"time 500: reset of the manager's link: {count} beats in flight on both links are not"
                            " judged"
                        ],
                    )

    def test_numbers_after_a_reset(self) -> None:
        """They begin again on each channel of both links."""
        for channel, opcode in (("A", 4), ("B", 6), ("C", 6), ("D", 6), ("E", 0)):
            made = Exchange(8, 4)
            for _ in range(3):
                made.send(channel, made.head(channel, opcode, 2))
            before, (near, far) = made.events, made.events[:2]
            wrong = flipped(far, "sink" if channel in "DE" else "address", 5)
            after = [
                reset(500, CLIENT, True),
                reset(510, CLIENT, False),
                replace(near, time=600),
                replace(wrong, time=610),
            ]
            with self.subTest(channel=channel):
                lines = [line for line in judged([*before, *after])[1] if "outstanding" not in line]
                self.assertEqual(lines[1:], [reported(replace(far, time=610), replace(wrong, time=610))])


class Faults(CaseTest):
    """Near beats with several faults, with a mistake in a far beat of the same message, and with more faults behind."""

    CHANGES = {"param": 3, "address": 1, "mask": 0, "corrupt": 1}
    ORDER = (("param", 2), ("address", 4), ("mask", 5), ("corrupt", 6))

    def test_several_faults_of_one_beat(self) -> None:
        """One line names the first fault; the message is passed on as it should have been, and the next one is
        judged.
        """
        for channel, opcode in (("A", 5), ("B", 5)):
            for count in (1, 2, 3, 4):
                for names in itertools.combinations(self.CHANGES, count):
                    made = Exchange(8, 4)
                    for _ in range(2):
                        (
                            made.ask(opcode, 2, 2, source=7, address=0x100)
                            if channel == "A"
                            else made.send(channel, made.head(channel, opcode, 2, address=0x100))
                        )
                    events, first = list(made.events), made.events[0]
                    for name in names:
                        events[0] = with_value(
                            events[0], name, first.head["address"] + 1 if name == "address" else self.CHANGES[name]
                        )
                    number = next(number for name, number in self.ORDER if name in names)
                    more = (
                        ", param 3"
                        if number == 2
                        else (
                            f", mask {events[0].mask:02x}"
                            if number == 5 and channel == "A"
                            else f", mask {events[0].mask:x}"
                            if number == 5
                            else ""
                        )
                    )
                    with self.subTest(channel=channel, names=names):
                        self.assertEqual(judged(events), (1, [refused_said(events[0], number, more)]))
                        behind = of(events, channel)[-1]
                        wrong = flipped(events[behind], "source", 3)
                        lines = judged([*events[:behind], wrong, *events[behind + 1 :]])[1]
                        self.assertEqual(
                            lines[:2], [refused_said(events[0], number, more), reported(events[behind], wrong)]
                        )

    def test_two_wrong_fields_in_each_beat(self) -> None:
        """The head of a message is wrong in two fields, the same in each of its beats: one line."""
        for channel, opcode in (("B", 3), ("C", 7)):
            made = Exchange(8, 4)
            for _ in range(2):
                made.send(channel, made.head(channel, opcode, 6))
            near = of(made.events, channel, far=False)
            wrong = list(made.events)
            for at in near[: len(near) // 2]:
                wrong[at] = with_value(with_value(wrong[at], "param", 7), "address", wrong[at].head["address"] + 1)
            said = refused_said(wrong[near[0]], 2, ", param 7")
            with self.subTest(channel=channel):
                self.assertEqual(judged(wrong), (1, [said]))
                at = of(wrong, channel)[-1]
                came = flipped(wrong[at], "data", 0)
                self.assertEqual(judged([*wrong[:at], came, *wrong[at + 1 :]]), (2, [said, reported(wrong[at], came)]))

    def test_two_wrong_beats_of_a_message(self) -> None:
        """One line names the first of them."""
        for channel in "AB":
            for first, later in itertools.product(("mask", "param"), ("mask", "address")):
                made = Exchange(8, 4)
                made.send(channel, made.head(channel, 0, 6))
                near, wrong = of(made.events, channel, far=False), list(made.events)
                wrong[near[0]] = with_value(wrong[near[0]], first, 1)
                wrong[near[2]] = with_value(
                    wrong[near[2]], later, 3 if later == "mask" else wrong[near[2]].head["address"] ^ 1 << 50
                )
                digits = len(wrong[near[0]].data) // 4
                said = refused_said(
                    wrong[near[0]],
                    2 if first == "param" else 5,
                    ", param 1" if first == "param" else f", mask {1:0{digits}x}",
                )
                with self.subTest(channel=channel, first=first, later=later):
                    lines = [line for line in judged(wrong)[1] if "outstanding" not in line]
                    self.assertEqual(lines, [said])

    def test_later_beats_of_a_corrected_message(self) -> None:
        """A wrong mask of the first beat concerns only its own far beats; those of the second beat are compared."""
        for channel in "AB":
            made = Exchange(8, 8) if (8, 8) in all_pairs() else Exchange(8, 4)
            width = made.widths[MANAGER]
            made.send(channel, made.head(channel, 0, 5))
            events = made.events
            first, last = of(events, channel, far=False)[0], of(events, channel)[-1]
            wrong = list(events)
            wrong[first] = with_value(events[first], "mask", 1)
            wrong[last] = flipped(events[last], "data", 0)
            lines = [line for line in judged(wrong, 8, width)[1] if "outstanding" not in line]
            digits = len(events[first].data) // 4
            with self.subTest(channel=channel):
                self.assertEqual(
                    lines,
                    [refused_said(wrong[first], 5, f", mask {1:0{digits}x}"), reported(events[last], wrong[last])],
                )

    def test_a_mended_request_that_waits(self) -> None:
        """A refused request comes in the cycle that frees its source, before the response; then many beats, of which
        one is wrong.
        """
        made = Exchange(8, 4)
        for _ in range(2):
            made.ask(5, 2, 2, source=0x55, address=0x100)
        near, far, answer, answered, second, *rest = made.events
        more = Exchange(8, 4)
        for _ in range(100):
            more.ask(5, 2, 2, source=0x66)
        count = len(of(made.events, "A"))
        behind = [replace(event, time=event.time + 1000, number=event.number + count) for event in more.events]
        for name, value, fault, words in (
            ("param", 7, 2, ", param 7"),
            ("address", 0x102, 4, ""),
            ("address", 0x101, 4, ""),
            ("mask", 0, 5, ", mask 00"),
            ("corrupt", 1, 6, ""),
        ):
            order = [near, far, answer, replace(with_value(second, name, value), time=answered.time), answered, *rest]
            said = refused_said(order[3], fault, words)
            with self.subTest(name=name, value=value):
                self.assertEqual(judged([*order, *behind]), (1, [said]))
            for at in of(behind, "A")[::9] if name == "param" else ():
                wrong = flipped(behind[at], "address", 40)
                with self.subTest(at=at):
                    self.assertEqual(
                        judged([*order, *behind[:at], wrong, *behind[at + 1 :]])[1][1], reported(behind[at], wrong)
                    )

    def test_a_source_after_a_refused_request(self) -> None:
        """Its next request is judged like any other: its response may be refused, and it is outstanding without one."""
        made = Exchange(8, 4)
        for _ in range(2):
            made.ask(5, 2, 2, source=0x77)
        events = list(made.events)
        events[0] = with_value(events[0], "corrupt", 1)
        said = refused_said(events[0], 6)
        self.assertEqual(judged(events), (1, [said]))
        second, answer = events[4], with_value(events[6], "param", 1)
        self.assertEqual(judged([*events[:6], answer, events[7]]), (2, [said, refused_said(answer, 2, ", param 1")]))
        self.assertEqual(
            judged(events[:6]),
            (1, [said, f"time {second.time}: outstanding: near A beat 1, source 0077, has no response"]),
        )

    def test_a_response_to_a_refused_request(self) -> None:
        """It may be as wrong as its request, which came to the manager as it was."""
        made = Exchange(8, 4)
        made.ask(5, 2, 2, source=0x77)
        near, far, answer, answered = made.events
        wrong = [
            with_value(near, "corrupt", 1),
            with_value(far, "corrupt", 1),
            with_value(answer, "param", 1),
            with_value(answered, "param", 1),
        ]
        self.assertEqual(judged(wrong), (1, [refused_said(wrong[0], 6)]))

    def test_a_request_with_a_wrong_later_beat(self) -> None:
        """Its response is judged like any other, and it is outstanding without one."""
        made = Exchange(8, 4)
        made.ask(0, 5, 0, source=0x77)
        events = list(made.events)
        at = of(events, "A", far=False, place="middle")[0]
        events[at] = with_value(events[at], "mask", 1)
        said = refused_said(events[at], 5, ", mask 01")
        self.assertEqual(judged(events), (1, [said]))
        self.assertEqual(
            judged(events[:-2]),
            (1, [said, f"time {events[0].time}: outstanding: near A beat 0, source 0077, has no response"]),
        )
        answer = with_value(events[-2], "param", 1)
        self.assertEqual(judged([*events[:-2], answer, events[-1]]), (2, [said, refused_said(answer, 2, ", param 1")]))

    def test_a_release_ack_that_is_refused(self) -> None:
        """It answers no request of its source either."""
        made = Exchange(8, 4)
        made.ask(5, 2, 2, source=0x77)
        ack = [
            Event(
                made.events[1].time + 1 + link,
                link,
                "D",
                {"opcode": 6, "param": 0, "size": 13, "source": 0x77, "sink": 1, "denied": 0},
                0,
                bytes(4 + 4 * (link == 0)),
            )
            for link in (1, 0)
        ]
        events = renumbered([*made.events[:2], *ack, *made.events[2:]])
        self.assertEqual(judged(events), (1, [refused_said(events[2], 3)]))

    def test_the_same_wrong_response_twice(self) -> None:
        """A response of another size, and the same one to the next request: a line about each."""
        made = Exchange(8, 4)
        for _ in range(2):
            made.ask(5, 2, 2, source=0x77)
        events = [
            (
                replace(event, head={**event.head, "size": 3, "sink": 1, "denied": 0, "param": 0})
                if event.channel == "D"
                else event
            )
            for event in made.events
        ]
        near = [events[i] for i in of(events, "D", far=False)]
        self.assertEqual(judged(events), (2, [refused_said(event, 10) for event in near]))

    def test_a_long_response_of_another_size(self) -> None:
        """None of its far beats is judged, and the response after it is."""
        made = Exchange(8, 4)
        for _ in range(2):
            made.ask(4, 6, 1, source=0x77)
        events = [
            with_value(event, "size", 5) if event.channel == "A" and event.number == 0 else event
            for event in made.events
        ]
        events = [
            with_value(event, "mask", (1 << len(event.data)) - 1) if event.channel == "A" else event for event in events
        ]
        own, (near, *_) = of(events, "D"), of(events, "D", far=False)
        self.assertEqual(judged(events), (1, [refused_said(events[near], 10)]))
        wrong = flipped(events[own[-1]], "data", 0)
        self.assertEqual(
            judged([*events[: own[-1]], wrong]), (2, [refused_said(events[near], 10), reported(events[own[-1]], wrong)])
        )

    def test_sizes_that_are_too_large(self) -> None:
        """A request of any wrong size is answered, and its source is free afterwards."""
        for size in (13, 14, 15):
            for answered in (size, 12):
                made = Exchange(8, 4)
                for _ in range(2):
                    made.ask(5, 2, 2, source=0x88)
                events = [
                    with_value(event, "size", size if event.channel == "A" else answered) if i < 4 else event
                    for i, event in enumerate(made.events)
                ]
                with self.subTest(size=size, answered=answered):
                    self.assertEqual(judged(events), (1, [refused_said(events[0], 3)]))

    def changed(self, head: Dict[str, int], names: Sequence[str]) -> Dict[str, int]:
        """The head with these fields changed, so that it is still lawful."""
        values = {
            "opcode": head["opcode"] ^ 1,
            "param": head["param"] ^ 1,
            "size": head["size"] - 1,
            "source": head["source"] ^ 8,
            "sink": head.get("sink", 0) ^ 8,
            "denied": 1 - head.get("denied", 0),
            "address": head.get("address", 0) ^ 1 << 40,
        }
        return {**head, **{name: values[name] for name in names}}

    def test_a_beat_that_slipped(self) -> None:
        """One field of a later beat is wrong, or several, but A or D has no other message of its source: only this beat
        is refused.
        """
        for channel, opcode, names in (
            ("A", 2, "param address"),
            ("A", 0, "opcode address"),
            ("D", 5, "param sink"),
            ("D", 5, "denied sink param"),
            *(
                (channel, opcode, name)
                for channel, opcode, fields in (
                    ("A", 2, "opcode param size source address"),
                    ("B", 2, "opcode param size source address"),
                    ("C", 7, "param source address"),
                    ("D", 5, "opcode param source sink denied"),
                )
                for name in fields.split()
            ),
        ):
            made = Exchange(8, 4)
            if channel == "D":
                made.ask(6, 6, 5)
            else:
                made.send(channel, {**made.head(channel, opcode, 6), "param": 0})
            made.send(channel, made.head(channel, 6, 2))
            events = made.events if channel != "A" else made.events[:-2]
            at = of(events, channel, far=False, place="middle")[1]
            wrong = list(events)
            wrong[at] = replace(events[at], head=self.changed(events[at].head, names.split()))
            with self.subTest(channel=channel, names=names):
                lines = [line for line in judged(wrong)[1] if "outstanding" not in line and "NoRequest" not in line]
                self.assertEqual(lines, [refused_said(wrong[at], 7)])

    def test_the_last_beat_slips_to_the_next_message(self) -> None:
        """The last beat of a burst has the head of the message after it, on both links or on the near one: only this
        beat is refused.
        """
        for channel, opcode, name in (("B", 2, "address"), ("B", 2, "source"), ("C", 7, "address"), ("C", 7, "param")):
            made = Exchange(8, 4)
            head = {**made.head(channel, opcode, 6), "param": 0}
            next_head = self.changed(head, [name])
            made.send(channel, head)
            at = of(made.events, channel, far=False)[-1]
            far = lawful.far_of(made.events, at)[
                -1 if channel == "B" else -2 :
            ]  # those with bytes of the last near beat
            made.send(channel, next_head)
            for slipped in ((at,), (at, *far)):
                events = [
                    replace(event, head=next_head) if i in slipped else event for i, event in enumerate(made.events)
                ]
                with self.subTest(channel=channel, name=name, far_beats=len(slipped) - 1):
                    near_first = numbered(
                        [*(event for event in events if not event.is_far), *(event for event in events if event.is_far)]
                    )
                    for order in (events, near_first):
                        said = [
                            refused_said(
                                next(
                                    event
                                    for event in order
                                    if (event.is_far, event.number) == (False, events[at].number)
                                ),
                                7,
                            )
                        ]
                        self.assertEqual(judged(order), (1, said))
                        wrong = flipped(order[-1], "data", 0)
                        self.assertEqual(judged([*order[:-1], wrong]), (2, [*said, reported(order[-1], wrong)]))

    def test_a_burst_that_is_cut(self) -> None:
        """Another message begins in a burst, with two other fields (on A, also another source): its far beats are
        judged.
        """
        for channel, opcode, names in (
            ("A", 2, "source address"),
            ("A", 2, "source param"),
            ("B", 2, "param address"),
            ("B", 2, "source address"),
            ("B", 2, "size param"),
            ("C", 7, "param address"),
            ("C", 7, "source address"),
            ("C", 7, "size address"),
        ):
            made = Exchange(8, 4)
            head = {**made.head(channel, opcode, 6), "param": 0}
            made.send(channel, head)
            first, made.events = made.events, []
            near, far = near_and_far(first, channel)
            came = [*near[:2], *(far[:4] if channel in FROM_CLIENT else far[:1])]
            made.send(channel, self.changed(head, names.split()))
            second = made.events
            events = renumbered([*came, *second])
            begins = next(event for event in events if event.time == next(x for x in second if not x.is_far).time)
            with self.subTest(channel=channel, names=names):
                said = [refused_said(begins, 7)]
                lines = [line for line in judged(events)[1] if "outstanding" not in line]
                self.assertEqual(lines, said)
                at = of(events, channel)[-1]
                wrong = flipped(events[at], "data", 0)
                lines = [
                    line for line in judged([*events[:at], wrong, *events[at + 1 :]])[1] if "outstanding" not in line
                ]
                self.assertEqual(lines, [*said, reported(events[at], wrong)])

    def test_two_messages_that_cannot_be_corrected(self) -> None:
        """They differ in one field of the head: a line about each. With the same head, they may be one message of many
        beats: one line.
        """
        for channel, wrong in (
            ("B", {"size": 13}),
            ("C", {"size": 13}),
            ("C", {"opcode": 3}),
            ("D", {"opcode": 3}),
            ("D", {"opcode": 7}),
        ):
            made = Exchange(8, 4)
            made.send(channel, made.head(channel, 6, 3))
            first = made.events[0]
            first = replace(first, head={**first.head, **wrong})
            for name in (None, *first.head):
                second = replace(first, time=first.time + 100, number=1)
                if name is not None:
                    second = with_value(
                        second,
                        name,
                        {
                            "opcode": 3 if wrong == {"opcode": 7} else 7,
                            "size": 14,
                            "param": first.head["param"] ^ 1,
                            "denied": 1 - first.head.get("denied", 0),
                        }.get(name, first.head[name] ^ 8),
                    )
                if name == "opcode" and channel != "D":  # it would be a message
                    continue
                fault = 3 if "size" in wrong else 1
                said = [refused_said(event, fault) for event in ((first,) if name is None else (first, second))]
                with self.subTest(channel=channel, wrong=wrong, name=name):
                    lines = [line for line in judged([first, second])[1] if ": refused: " in line]
                    self.assertEqual(lines, said)

    def test_an_unlawful_opcode_amid_others(self) -> None:
        """C 3, D 3 and D 7 are no messages: their beats are skipped, and the next message is judged."""
        for channel, opcode in (("C", 3), ("D", 3), ("D", 7)):
            made = Exchange(8, 4)
            for _ in range(3):
                made.ask(5, 3, 2) if channel == "D" else made.send(channel, made.head(channel, 6, 3))
            own = [i for i, event in enumerate(made.events) if event.channel == channel]
            events = [
                with_value(event, "opcode", opcode) if i in own[2:4] else event for i, event in enumerate(made.events)
            ]
            with self.subTest(channel=channel, opcode=opcode):
                said, last = refused_said(events[own[2]], 1), own[5]
                self.assertEqual(judged(events), (1, [said]))
                wrong = flipped(events[last], "size", 3)
                self.assertEqual(judged([*events[:last], wrong]), (2, [said, reported(events[last], wrong)]))


class Calls(CaseTest):
    """Arguments that are outside their ranges, NULL, and the functions for SystemVerilog."""

    def setUp(self) -> None:
        # (a library of its own: the package has other types for the results of the same functions)
        self.library = ctypes.CDLL(os.environ["TLBRIDGE_LIBRARY"])
        self.library.tl_scoreboard_open.restype = ctypes.c_void_p
        for name in ("tl_scoreboard_pairs", "tlbridge_scoreboard_pairs", "tl_scoreboard_next_message"):
            getattr(self.library, name).restype = ctypes.c_char_p
        for name in ("tl_scoreboard_beats", "tl_scoreboard_differences", "tl_scoreboard_finish"):
            getattr(self.library, name).restype = ctypes.c_uint64

    def test_no_board(self) -> None:
        """NULL in the place of a board changes nothing."""
        library, passed, lanes = self.library, Beat().passed("E", 8)[0], bytes(128)
        library.tl_scoreboard_free(None)
        library.tl_scoreboard_reset(None, 0, ctypes.c_bool(True), ctypes.c_uint64(1))
        library.tl_scoreboard_beat(None, 0, ctypes.c_char(b"E"), ctypes.c_uint64(1), ctypes.byref(passed), lanes)
        self.assertEqual(
            [
                library.tl_scoreboard_beats(None),
                library.tl_scoreboard_differences(None),
                library.tl_scoreboard_finish(None),
            ],
            [0, 0, 0],
        )
        self.assertIsNone(library.tl_scoreboard_next_message(None, ctypes.byref(ctypes.c_uint64())))

    def test_outside(self) -> None:
        """A beat or a reset of a link or a channel that is none changes nothing."""
        library, passed, lanes = self.library, Beat().passed("E", 8)[0], bytes(128)
        board = ctypes.c_void_p(library.tl_scoreboard_open(8, 4, 2))
        for link, channel in ((-1, b"E"), (2, b"E"), (0, b"F"), (1, b"@"), (0, b"a")):
            library.tl_scoreboard_beat(
                board, link, ctypes.c_char(channel), ctypes.c_uint64(1), ctypes.byref(passed), lanes
            )
        for link in (-1, 2):
            library.tl_scoreboard_reset(board, link, ctypes.c_bool(True), ctypes.c_uint64(1))
        self.assertEqual((library.tl_scoreboard_beats(board), library.tl_scoreboard_finish(board)), (0, 0))
        self.assertIsNone(library.tl_scoreboard_next_message(board, ctypes.byref(ctypes.c_uint64())))
        library.tl_scoreboard_free(board)

    def test_pairs(self) -> None:
        """The pairs that are linked, in their order; no board is opened for any other."""
        said = " ".join(f"{client}:{manager}" for client, manager in sorted(all_pairs()))
        self.assertEqual(
            (pairs(), self.library.tl_scoreboard_pairs().decode(), self.library.tlbridge_scoreboard_pairs().decode()),
            (said, said, said),
        )
        for client, manager in ((3, 4), (8, 3), (0, 0), (256, 8), (128, 2)):
            self.assertIsNone(self.library.tl_scoreboard_open(client, manager, 0))

    def over_dpi(self, events: List[Event], client: int, manager: int) -> Tuple[int, List[Tuple[float, str]]]:
        """The differences, and each message with its time, as SystemVerilog gets them."""
        library = self.library
        library.tlbridge_scoreboard_open.restype = ctypes.c_void_p
        library.tlbridge_scoreboard_next_message.restype = ctypes.c_char_p
        for name in ("finish", "beats", "differences"):
            getattr(library, f"tlbridge_scoreboard_{name}").restype = ctypes.c_uint64
        board, beats = ctypes.c_void_p(library.tlbridge_scoreboard_open(client, manager, 0)), 0
        for event in events:
            link, time = ctypes.c_uint8(event.link), ctypes.c_double(event.time + 0.25)
            if event.channel == "R":
                library.tlbridge_scoreboard_reset(board, link, ctypes.c_uint8(event.head["opcode"] << 7), time)
                continue
            head = {
                name: event.head.get(name, 0)
                for name in ("opcode", "param", "size", "source", "sink", "address", "denied")
            }
            mask, data = (
                (ctypes.c_uint32 * count).from_buffer_copy(words)
                for count, words in ((4, event.mask.to_bytes(16, "little")), (32, event.data.ljust(128, b"\x5a")))
            )
            library.tlbridge_scoreboard_beat(
                board,
                link,
                ctypes.c_uint8(ord(event.channel)),
                time,
                *(ctypes.c_uint8(head[name]) for name in ("opcode", "param", "size")),
                *(ctypes.c_uint16(head[name]) for name in ("source", "sink")),
                ctypes.c_uint64(head["address"]),
                ctypes.c_uint8(head["denied"]),
                ctypes.c_uint8(event.corrupt),
                mask,
                data,
            )
            beats += 1
            self.assertEqual(library.tlbridge_scoreboard_beats(board), beats)
        messages: List[Tuple[float, str]] = []
        differences, time = int(library.tlbridge_scoreboard_finish(board)), ctypes.c_double(-1)
        self.assertEqual(library.tlbridge_scoreboard_differences(board), differences)
        while line := library.tlbridge_scoreboard_next_message(board, ctypes.byref(time)):
            messages.append((time.value, line.decode()))
        library.tlbridge_scoreboard_free(board)
        return differences, messages

    def test_each_field_over_dpi(self) -> None:
        """The highest and the lowest bit of each field."""
        for client, manager in ((8, 4), (1, 32)):
            events = exchange(client, manager)
            self.assertEqual(self.over_dpi(events, client, manager), (0, []))
            for channel, names in FIELDS.items():
                at = [
                    i
                    for i in of(events, channel, place="middle" if channel in "BCD" else "only")
                    if channel == "E" or any(events[i].lanes)
                ][-1]
                for name in names:
                    for bit in {lawful.bits_of(events[at], name)[0], lawful.bits_of(events[at], name)[-1]}:
                        came = flipped(events[at], name, bit)
                        said = reported(events[at], came).partition(": ")[2]
                        with self.subTest(client=client, channel=channel, name=name, bit=bit):
                            differences, messages = self.over_dpi(
                                [*events[:at], came, *events[at + 1 :]], client, manager
                            )
                            self.assertEqual(messages[0], (came.time + 0.25, said))
                            self.assertEqual(differences - sum("NoRequest" in line for _, line in messages), 1)

    def test_resets_over_dpi(self) -> None:
        """A reset is asserted if its value is not 0, whichever bit of it is set."""
        made = Exchange(8, 4)
        made.send("E", made.head("E", 0, 0))
        events = [
            made.events[0],
            reset(30, MANAGER, True),
            reset(31, CLIENT, True),
            reset(40, CLIENT, False),
            reset(41, MANAGER, False),
        ]
        after = [replace(event, time=event.time + 100) for event in made.events]
        self.assertEqual(
            self.over_dpi([*events, *after], 8, 4),
            (0, [(30.25, "reset of the manager's link: 1 beats in flight on both links are not judged")]),
        )
