"""The scoreboard over recorded traffic of both links: no false difference, each planted mistake in its words, and what
it says of resets,
of refused beats, and at its end."""
import ctypes
import os
import subprocess
import sys
from dataclasses import replace
from typing import Any, Dict, List, Sequence, Tuple

import lawful
import link_cases
import pytest
from judging import all_pairs, judged, small_pairs, tell
from lawful import (
    CLIENT,
    MANAGER,
    Event,
    Exchange,
    broken,
    exchange,
    far_of,
    flipped,
    head_said,
    moved,
    of,
    reported,
    reset,
    spoilt,
    with_value,
)
from subtests import CaseTest
from tables import FAULTS, FIELDS, FROM_CLIENT

from tlbridge import Beat, Scoreboard


class Right(CaseTest):
    """No false difference, on each pair of widths, in each order of the two links."""

    def test_each_pair(self) -> None:
        """Each pair of widths, whichever link is first with a beat."""
        for client, manager in all_pairs():
            for far_first in (False, True):
                with self.subTest(client=client, manager=manager, far_first=far_first):
                    self.assertEqual(judged(exchange(client, manager, far_first=far_first), client, manager), (0, []))

    def test_all_at_one_time(self) -> None:
        """Each beat of the traffic has the same time."""
        for client, manager in small_pairs():
            with self.subTest(client=client, manager=manager):
                self.assertEqual(judged(exchange(client, manager, step=0), client, manager), (0, []))

    def test_other_bits_are_free(self) -> None:
        """A lane without a byte, and of PutPartialData one without a mask bit, may have any value."""
        for client, manager in small_pairs():
            events = exchange(client, manager)
            free = [
                (
                    replace(
                        event,
                        data=bytes(
                            byte if compared else byte ^ 0x5A for byte, compared in zip(event.data, event.lanes)
                        ),
                    )
                    if event.is_far and event.channel != "E"
                    else event
                )
                for event in events
            ]
            with self.subTest(client=client, manager=manager):
                self.assertEqual(judged(free, client, manager), (0, []))


class OverDpi(CaseTest):
    """The calls of the SystemVerilog scoreboard: mask and data are vectors in words of 32 bits, and a time is a real
    number.
    """

    def judged(self, events: List[Event]) -> Tuple[int, List[Tuple[float, str]]]:
        """The differences, and each message with its time."""
        library = ctypes.CDLL(os.environ["TLBRIDGE_LIBRARY"])
        library.tlbridge_scoreboard_open.restype = ctypes.c_void_p
        library.tlbridge_scoreboard_next_message.restype = ctypes.c_char_p
        library.tlbridge_scoreboard_finish.restype = ctypes.c_uint64
        board = ctypes.c_void_p(library.tlbridge_scoreboard_open(128, 128, 0))
        for event in events:
            head = {
                name: event.head.get(name, 0)
                for name in ("opcode", "param", "size", "source", "sink", "address", "denied")
            }
            mask = (ctypes.c_uint32 * 4).from_buffer_copy(event.mask.to_bytes(16, "little"))
            data = (ctypes.c_uint32 * 32).from_buffer_copy(event.data.ljust(128, b"\0"))
            library.tlbridge_scoreboard_beat(
                board,
                ctypes.c_uint8(event.link),
                ctypes.c_uint8(ord(event.channel)),
                ctypes.c_double(event.time + 0.5),
                ctypes.c_uint8(head["opcode"]),
                ctypes.c_uint8(head["param"]),
                ctypes.c_uint8(head["size"]),
                ctypes.c_uint16(head["source"]),
                ctypes.c_uint16(head["sink"]),
                ctypes.c_uint64(head["address"]),
                ctypes.c_uint8(head["denied"]),
                ctypes.c_uint8(event.corrupt),
                mask,
                data,
            )
        messages: List[Tuple[float, str]] = []
        differences, time = int(library.tlbridge_scoreboard_finish(board)), ctypes.c_double()
        while line := library.tlbridge_scoreboard_next_message(board, ctypes.byref(time)):
            messages.append((time.value, line.decode()))
        library.tlbridge_scoreboard_free(board)
        return differences, messages

    def test_each_word_of_mask_and_data(self) -> None:
        """One bit in each word of 32 bits, at 128:128."""
        if (128, 128) not in all_pairs():
            self.skipTest("the library has no pair 128:128")
        events = exchange(128, 128)
        self.assertEqual(self.judged(events), (0, []))
        at = next(i for i in of(events, "A", opcode=0) if all(events[i].lanes))
        for name, bits in (("mask", (1, 33, 65, 97)), ("data", range(4, 1024, 32))):
            for bit in bits:
                wrong = list(events)
                wrong[at] = flipped(events[at], name, bit)
                differences, messages = self.judged(wrong)
                with self.subTest(name=name, bit=bit):
                    said = reported(events[at], wrong[at]).removeprefix(f"time {events[at].time}: ")
                    self.assertEqual((differences, messages), (1, [(events[at].time + 0.5, said)]))


class Changed(CaseTest):
    """One bit of one far beat is changed: one line says so, and no more."""

    def few(self, client: int, manager: int, channel: str) -> List[Event]:
        """A message of one far beat, and one of at least three, each with bytes on compared lanes."""
        far = manager if channel in FROM_CLIENT else client
        made = Exchange(client, manager)
        if channel == "E":
            made.send("E", made.head("E", 0, 0))
        for size in () if channel == "E" else (0, far.bit_length() + 1):
            opcode = {"A": 3, "B": 2, "C": 7, "D": 5}[channel]
            if channel == "D":
                made.ask(6, size, opcode)
            else:
                made.send(channel, made.head(channel, opcode, size))
        return made.events

    def each_field(self, pairs: Sequence[Tuple[int, int]]) -> None:
        for client, manager in pairs:
            for channel, names in FIELDS.items():
                events = self.few(client, manager, channel)
                for place in ("only",) if channel == "E" else ("only", "first", "middle", "last"):
                    at = of(events, channel, place=place)[0]
                    for name in names:
                        bits = lawful.bits_of(events[at], name)
                        for bit in bits[:: 1 if (client, manager) in small_pairs()[:2] or len(bits) < 5 else 29]:
                            came = flipped(events[at], name, bit)
                            with self.subTest(
                                client=client, manager=manager, channel=channel, place=place, field=name, bit=bit
                            ):
                                board = Scoreboard(client, manager)
                                for event in events[:at] + [came]:
                                    tell(board, event)
                                self.assertEqual((board.differences, board.lines), (1, [reported(events[at], came)]))
                                board.end()

    def test_each_field_of_narrow_links(self) -> None:
        """At each place of a message."""
        self.each_field(small_pairs())

    @pytest.mark.long
    def test_each_field_of_wide_links(self) -> None:
        """At each place of a message, with some bits of long fields."""
        self.each_field([pair for pair in all_pairs() if pair not in small_pairs()])

    def test_each_message_with_data(self) -> None:
        """The first bit of each far beat that carries data."""
        events = exchange(8, 4)
        for channel, opcodes in (("A", "0123"), ("B", "0123"), ("C", "157"), ("D", "15")):
            for opcode in map(int, opcodes):
                for at in of(events, channel, opcode=opcode, data=True):
                    came = flipped(events[at], "data", lawful.bits_of(events[at], "data")[0])
                    with self.subTest(channel=channel, opcode=opcode, at=at):
                        self.assertEqual(
                            judged(events[:at] + [came] + events[at + 1 :]), (1, [reported(events[at], came)])
                        )

    def test_two_fields(self) -> None:
        """Each field of one beat is wrong: one line names them all."""
        events = exchange(8, 4)
        for channel, names in (
            ("A", ("opcode", "param", "size", "source", "address", "mask", "corrupt", "data")),
            ("D", ("opcode", "param", "size", "source", "sink", "denied", "corrupt", "data")),
        ):
            at = of(events, channel, place="middle", data=True)[0]
            came = events[at]
            for name in names:
                came = flipped(came, name, lawful.bits_of(came, name)[0])
            with self.subTest(channel=channel):
                self.assertEqual(judged(events[:at] + [came] + events[at + 1 :]), (1, [reported(events[at], came)]))

    def test_unmasked(self) -> None:
        """With `unmasked`, a byte of PutPartialData without a mask bit is also compared."""
        for client, manager in small_pairs()[:2]:
            for channel in "AB":
                events = exchange(client, manager)
                at = next(
                    i
                    for i in of(events, channel, opcode=1, data=True)
                    if not all(events[i].lanes) and events[i].head["size"] >= 3
                )
                lane = events[at].lanes.index(False)
                all_lanes = replace(events[at], lanes=(True,) * len(events[at].lanes))
                came = flipped(all_lanes, "data", 8 * lane)
                with self.subTest(client=client, channel=channel):
                    self.assertEqual(judged(events[:at] + [came] + events[at + 1 :], client, manager), (0, []))
                    self.assertEqual(
                        judged(events[:at] + [came] + events[at + 1 :], client, manager, compare_unmasked=True),
                        (1, [reported(all_lanes, came)]),
                    )


class Cases(CaseTest):
    """The table of cases by which the SystemVerilog scoreboard, the monitor and the checker are also tested
    (tests/links/test_links.py).
    """

    def test_each(self) -> None:
        """The count and the lines of each case."""
        for client, manager in all_pairs()[1:2]:
            for case in link_cases.cases(client, manager):
                with self.subTest(client=client, manager=manager, case=case.name):
                    count, lines = judged(case.events, client, manager)
                    self.assertTrue(link_cases.fits(lines, case.lines or []), f"{lines}, expected {case.lines}")
                    self.assertEqual(count, case.differences)


class Lost(CaseTest):
    """A beat that is lost or comes twice at the very end is reported there, on each channel."""

    def test_last_beats_are_lost(self) -> None:
        """One, two or three of them: one line, with how many more are missing."""
        for channel in "ABCDE":
            for count in (1, 2, 3):
                all_events = [event for event in exchange(8, 4) if channel != "A" or event.channel != "D"]
                all_events = all_events[: of(all_events, channel)[-1] + 1]
                left = of(all_events, channel)[-count:]
                events = [event for i, event in enumerate(all_events) if i not in left]
                first = all_events[left[0]]
                more = f"; {count - 1} more are missing" if count > 1 else ""
                with self.subTest(channel=channel, count=count):
                    self.assertEqual(
                        [line for line in judged(events)[1] if ": outstanding: " not in line],
                        [
                            f"time {events[-1].time}: far {channel} beat {first.number}: {head_said(first)}: expected"
                            f" but missing{more}"
                        ],
                    )

    def test_last_beat_comes_again(self) -> None:
        """Once, twice or five times: one line, with how many more are unexpected."""
        for channel in "ABCDE":
            for count in (1, 2, 5):
                events = exchange(8, 4)
                last = of(events, channel)[-1]
                again = [
                    replace(events[last], time=events[-1].time + 10 * (i + 1), number=events[last].number + 1 + i)
                    for i in range(count)
                ]
                more = f"; {count - 1} more are unexpected" if count > 1 else ""
                with self.subTest(channel=channel, count=count):
                    came = again[0]
                    self.assertEqual(
                        judged(events + again),
                        (
                            1,
                            [
                                f"time {came.time}: far {channel} beat {came.number}: {head_said(came)}:"
                                f" unexpected{more}"
                            ],
                        ),
                    )

    def test_cut(self) -> None:
        """The last message of a channel is not whole."""
        for channel in "ABCD":
            events = exchange(4, 8)
            begins = [i for i in of(events, channel, far=False, place="first")][-1]
            events = events[: begins + 1]
            with self.subTest(channel=channel):
                count, lines = judged(events, 4, 8)
                self.assertIn(f"time {events[-1].time}: near {channel}: the last message is incomplete", lines)


class AtItsEnd(CaseTest):
    """What is reported only at the end of a board, and when a board is not ended."""

    def test_no_beat(self) -> None:
        """A difference, since nothing was compared, unless it is allowed."""
        self.assertEqual(judged([]), (1, ["time 0: no beat was accepted on either link, so nothing was compared"]))
        self.assertEqual(judged([], allow_no_beats=True), (0, []))
        self.assertEqual(judged([], allow_no_beats=True, compare_unmasked=True), (0, []))
        board = Scoreboard(8, 4)  # which has a difference only at its end
        self.assertEqual((board.differences, board.end(), board.differences), (0, 1, 1))

    def test_no_beat_but_in_reset(self) -> None:
        """Beats in a reset are none."""
        events = exchange(8, 4)
        self.assertEqual(
            judged([reset(10, link, True) for link in (0, 1)] + events),
            (1, ["time 0: no beat was accepted on either link, so nothing was compared"]),
        )

    def test_beats(self) -> None:
        """The count of beats, which stays when the board has ended."""
        board = Scoreboard(8, 4)
        events = exchange(8, 4)
        for count, event in enumerate(events):
            self.assertEqual(board.beats, count)
            tell(board, event)
        board.end()
        self.assertEqual(board.beats, len(events))
        tell(board, events[0])
        self.assertEqual((board.beats, board.end(), board.lines), (len(events), 0, []))

    def test_ended_twice(self) -> None:
        """The second end, and a beat after it, change nothing."""
        events = exchange(8, 4)
        board = Scoreboard(8, 4)
        for event in events[: of(events, "E")[0]]:
            tell(board, event)
        self.assertEqual(board.end(), 1)
        lines = list(board.lines)
        self.assertEqual((board.end(), board.lines), (1, lines))
        tell(board, events[0])
        self.assertEqual((board.end(), board.lines), (1, lines))

    def test_open_requests(self) -> None:
        """Requests without a response are listed by their source, and are no differences."""
        made = Exchange(8, 4)
        sources = [0x7, 0x107, 0xFFFF]
        for source in sources:
            made.send("A", made.head("A", 4, 2, source=source))
        times = [event.time for event in made.events if not event.is_far]
        self.assertEqual(
            judged(made.events),
            (
                0,
                [
                    f"time {time}: outstanding: near A beat {number}, source {source:04x}, has no response"
                    for number, (time, source) in enumerate(zip(times, sources))
                ],
            ),
        )

    def test_many_open_requests(self) -> None:
        """Twenty are listed, and the others are counted."""
        made = Exchange(8, 4)
        for source in range(25):
            made.send("A", made.head("A", 4, 2, source=3 * source))
        count, lines = judged(made.events)
        self.assertEqual((count, len(lines)), (0, 21))
        self.assertRegex(lines[19], "near A beat 19, source 0039, has no response$")
        self.assertEqual(lines[20], f"time {made.events[-1].time}: outstanding: 5 more requests have no response")

    def test_many_differences(self) -> None:
        """Twenty of a channel are listed, and the others are counted."""
        for differences in (19, 20, 21, 50):
            made = Exchange(8, 4)
            for _ in range(differences):
                made.send("E", made.head("E", 0, 0))
            came = [flipped(event, "sink", 15) if event.is_far else event for event in made.events]
            with self.subTest(differences=differences):
                count, lines = judged(came)
                self.assertEqual(count, differences)
                self.assertEqual(len(lines), min(differences, 20) + (differences >= 20))
                if differences >= 20:
                    self.assertEqual(lines[20], f"time {came[39].time}: further differences on E are only counted")

    def run_apart(self, program: str) -> "subprocess.CompletedProcess[str]":
        environment = {**os.environ, "PYTHONPATH": os.pathsep.join(sys.path)}
        return subprocess.run(
            [sys.executable, "-c", program], env=environment, capture_output=True, text=True, timeout=60
        )

    def test_never_ended(self) -> None:
        """A board that saw beats and was not ended says so when it is given back, at the program's end too."""
        said = (
            "tlbridge scoreboard: freed without tl_scoreboard_finish, so missing beats were not reported: 0 differences"
            " in 1 beats so far\n"
        )
        begin = "from tlbridge import Beat, Scoreboard; board = Scoreboard(8, 4); "
        for program, error in (
            (begin + "board.beat('client', 'E', 1, Beat(sink=1))", said),
            (begin + "board.beat('client', 'E', 1, Beat(sink=1)); del board", said),
            (
                begin
                + "[board.beat(link, 'E', 1, Beat(sink=at)) for at in range(3) for link in ('client', 'manager')]; "
                "[board.beat(link, 'E', 2, Beat(sink=at)) for at in (7, 8) for link in ('client', 'manager')]; "
                "board.beat('client', 'E', 3, Beat(sink=1)); board.beat('manager', 'E', 3, Beat(sink=2)); "
                "board.beat('client', 'E', 4, Beat(sink=3)); board.beat('manager', 'E', 4, Beat(sink=4))",
                said.replace("0 differences in 1", "2 differences in 14"),
            ),
            (begin + "board.beat('client', 'E', 1, Beat(sink=1)); board.end()", ""),
            (begin, ""),
        ):
            with self.subTest(program=program):
                ran = self.run_apart(program)
                self.assertEqual((ran.returncode, ran.stderr), (0, error))

    def test_with(self) -> None:
        """A `with` block that ends with differences raises, unless it was left by another error."""
        begin = (
            "from tlbridge import Beat, Scoreboard\nwith Scoreboard(8, 4) as board:\n board.beat('client', 'E', 1,"
            " Beat(sink=1))\n"
        )
        ran = self.run_apart(
            begin + " board.beat('manager', 'E', 2, Beat(sink=1)); board.beat('client', 'E', 3, Beat(sink=2))"
        )
        self.assertEqual(ran.returncode, 1)
        self.assertTrue(
            ran.stderr.endswith(
                "DiffersError: 1 differences in 3 beats\ntime 3: far E beat 1: sink 0002: expected but missing\n"
            ),
            ran.stderr,
        )
        ran = self.run_apart(
            "import tlbridge\nfrom tlbridge import Beat\nboard = tlbridge.Scoreboard(8, 4)\ntry:\n with board:"
            " board.beat('client', 'E', 1, Beat(sink=1))\nexcept tlbridge.DiffersError as differs:"
            " print(differs.board is board, isinstance(differs, AssertionError))"
        )
        self.assertEqual((ran.stdout, ran.stderr), ("True True\n", ""))
        ran = self.run_apart(begin + " board.beat('manager', 'E', 1, Beat(sink=1))")
        self.assertEqual((ran.returncode, ran.stderr), (0, ""))
        ran = self.run_apart(begin + " raise KeyError('own')")
        self.assertTrue(ran.stderr.endswith("KeyError: 'own'\n"), ran.stderr)

    def test_wrong_words(self) -> None:
        """A link or a channel that is none is an error in words."""
        board = Scoreboard(8, 4)
        with self.assertRaisesRegex(ValueError, "a link is 'client' or 'manager', and not 'clinet'"):
            board.beat("clinet", "A", 1, Beat())
        with self.assertRaisesRegex(ValueError, "a channel is one of A, B, C, D and E, and not 'F'"):
            board.beat("client", "F", 1, Beat())
        with self.assertRaisesRegex(ValueError, "a link is 'client' or 'manager', and not 2"):
            wrong: Any = 2
            board.reset(wrong, True, 1)

    def test_on_message(self) -> None:
        """The function gets each line."""
        said: List[str] = []
        board = Scoreboard(8, 4, on_message=said.append)
        board.beat("client", "E", 1, Beat(sink=1))
        board.beat("manager", "E", 1, Beat(sink=2))
        board.end()
        self.assertEqual(said, ["time 1: far E beat 0; sink got 0002, expected 0001"])


class Resets(CaseTest):
    """A link's reset ends what was in flight on both, whichever ends first, and is reported once."""

    def staggered(self, first: int, early: int) -> List[Event]:
        """Both links are in reset from time 0; `first` leaves it at 100 and accepts these many of its near beats before
        the other does.
        """
        events = moved(exchange(8, 4), 100)
        own = [event for event in events if event.link == first and not event.is_far]
        start = own[:early]
        rest = [event for event in events if event not in start]
        return [
            reset(0, 0, True),
            reset(0, 1, True),
            reset(100, first, False),
            *[replace(e, time=101 + i) for i, e in enumerate(start)],
            reset(110, 1 - first, False),
            *rest,
        ]

    def test_released_apart(self) -> None:
        """Either link leaves its reset first, and may send at once."""
        for first in (CLIENT, MANAGER):
            for early in (0, 1, 2):
                with self.subTest(first=first, early=early):
                    events = (
                        self.staggered(first, early)
                        if first == CLIENT
                        else [
                            reset(0, 0, True),
                            reset(0, 1, True),
                            reset(50, 1, False),
                            reset(60, 0, False),
                            *moved(exchange(8, 4), 100),
                        ]
                    )
                    self.assertEqual(judged(events), (0, []))

    def test_manager_first(self) -> None:
        """The manager is out of reset first and sends B, which arrives once the client is."""
        made = Exchange(8, 4)
        made.send("B", made.head("B", 0, 4))
        near = [event for event in made.events if not event.is_far]
        far = [event for event in made.events if event.is_far]
        events = [
            reset(1, 0, True),
            reset(1, 1, True),
            reset(5, 1, False),
            *near,
            reset(200, 0, False),
            *moved(far, 300),
        ]
        self.assertEqual(judged(events), (0, []))
        wrong = [*events[:-1], flipped(events[-1], "data", 0)]
        self.assertEqual(judged(wrong), (1, [reported(events[-1], wrong[-1])]))

    def cut_by_reset(self, links: Sequence[int], at: int, skew: int = 0) -> Tuple[List[Event], List[Event]]:
        """Traffic until a beat, then resets of these links, the second one later by `skew` beats of the old traffic,
        then new lawful.
        """
        events = exchange(8, 4)
        time = events[at - 1].time + 1
        order = [*events[:at], reset(time, links[0], True)]
        # the other link goes on for a while, before its own reset
        order += [event for event in events[at : at + skew] if event.link != links[0]] if len(links) > 1 else []
        order += [reset(time + 10 * skew + 1, link, True) for link in links[1:]]
        order += [reset(time + 500, link, False) for link in links]
        return order, moved(exchange(8, 4, seed=2), time + 1000)

    def test_amid_traffic(self) -> None:
        """At many places of the traffic: one line, and no difference."""
        for links in ((0,), (1,), (0, 1), (1, 0)):
            for at in range(1, 120, 7):
                for skew in (0, 4):
                    before, after = self.cut_by_reset(links, at, skew)
                    with self.subTest(links=links, at=at, skew=skew):
                        count, lines = judged(before + after)
                        self.assertEqual((count, len(lines)), (0, 1), lines)
                        time = next(event.time for event in before if event.channel == "R")
                        self.assertRegex(
                            lines[0],
                            (
                                f"^time {time}: reset of the {lawful.NAMES[links[0]]}'s link: "
                                "[0-9]+ beats in flight on both links are not judged$"
                            ),
                        )

    def test_mistake_after_a_reset(self) -> None:
        """A wrong byte in the traffic after the resets is seen."""
        before, after = self.cut_by_reset((1, 0), 30, 4)
        at = of(after, "C", data=True)[0]
        came = flipped(after[at], "data", lawful.bits_of(after[at], "data")[0])
        count, lines = judged(before + after[:at] + [came] + after[at + 1 :])
        self.assertEqual((count, lines[1:]), (1, [reported(after[at], came)]))

    def test_differences_before_count(self) -> None:
        """A difference before a reset still counts."""
        events = exchange(8, 4)
        at = of(events, "A")[0]
        came = flipped(events[at], "source", 9)
        count, lines = judged(
            [
                *events[:at],
                came,
                reset(came.time + 1, 0, True),
                reset(came.time + 2, 0, False),
                *moved(exchange(8, 4, seed=3), 500),
            ]
        )
        self.assertEqual((count, len(lines), lines[0]), (1, 2, reported(events[at], came)))

    def test_how_many_were_in_flight(self) -> None:
        """Two near beats whose far beats did not come: 2 of the first, 2 of the second; and a far beat that is not
        due.
        """
        made = Exchange(8, 4)
        made.send("A", made.head("A", 0, 4))
        near = [event for event in made.events if not event.is_far]
        extra = Event(made.time + 5, MANAGER, "E", {"sink": 3})
        again = Event(made.time + 20, CLIENT, "E", {"sink": 3})  # after the first reset
        count, lines = judged(
            [
                *near,
                extra,
                reset(made.time + 6, 1, True),
                reset(made.time + 9, 1, False),
                again,
                reset(made.time + 30, 0, True),
            ]
        )
        self.assertEqual(
            (count, lines),
            (
                0,
                [
                    (
                        f"time {made.time + 6}: reset of the manager's link: 5 beats in flight on both links are not"
                        " judged"
                    ),
                    (
                        f"time {made.time + 30}: reset of the client's link: 1 beats in flight on both links are not"
                        " judged"
                    ),
                ],
            ),
        )

    def test_one_link_alone(self) -> None:
        """Beats that the client's link accepts while the manager's is in reset are judged, unless the client's link is
        also reset.
        """
        made = Exchange(8, 4)
        made.send("A", made.head("A", 0, 4))
        near = [event for event in made.events if not event.is_far]
        far = moved([event for event in made.events if event.is_far], 1000)
        self.assertEqual(
            judged([reset(1, 1, True), *near, reset(900, 1, False), *far]),
            (
                0,
                [
                    f"time {near[0].time}: outstanding: near A beat 0, source {near[0].head['source']:04x}, has no"
                    " response"
                ],
            ),
        )
        wrong = [*far[:-1], flipped(far[-1], "address", 63)]
        self.assertEqual(
            judged([reset(1, 1, True), *near, reset(900, 1, False), *wrong])[1][0], reported(far[-1], wrong[-1])
        )
        self.assertEqual(
            judged([reset(1, 1, True), *near, reset(800, 0, True), reset(850, 0, False), reset(900, 1, False)]), (0, [])
        )

    def test_the_same_again(self) -> None:
        """Each clock edge may say it again."""
        events = exchange(8, 4)
        told = [reset(1, 0, True)] * 3 + [reset(1, 1, True)] * 2 + [reset(2, 1, False)] * 2 + [reset(3, 0, False)] * 3
        for event in events:
            told += [event, reset(event.time, 0, False), reset(event.time, 1, False)]
        self.assertEqual(judged(told), (0, []))
        # while one link is in reset, the beats of the other are kept
        made = Exchange(8, 4)
        made.send("C", made.head("C", 7, 5))
        near = [[event, reset(event.time, 1, True)] for event in made.events if not event.is_far]
        far = moved([event for event in made.events if event.is_far], 1000)
        wrong = flipped(far[-1], "data", 0)
        told = [reset(1, 1, True), *(event for both in near for event in both), reset(900, 1, False)]
        self.assertEqual(judged([*told, *far]), (0, []))
        self.assertEqual(judged([*told, *far[:-1], wrong]), (1, [reported(far[-1], wrong)]))

    def test_beats_in_reset(self) -> None:
        """They are no beats."""
        events = exchange(8, 4)
        noise = [replace(event, time=5) for event in events[:9]]
        self.assertEqual(
            judged([reset(1, 0, True), reset(1, 1, True), *noise, reset(6, 0, False), reset(6, 1, False), *events]),
            (0, []),
        )


class Refused(CaseTest):
    """After a near beat that breaks a rule, the next message is judged again; one line names the beat."""

    def check(self, channel: str, fault: int, place: str, whole: bool, far: str) -> bool:
        events = exchange(8, 4)
        made = broken(events, channel, fault, place, whole)
        if made is None:
            return False
        wrong, at = made
        line = f"time {events[at].time}: near {channel} beat {events[at].number}: {head_said(wrong[at])}"
        own = far_of(events, at)
        if far == "same":  # the design carries the mistake of each beat
            for i in own if whole and fault not in (3, 5, 6, 10) else []:
                wrong[i] = spoilt(events[i], fault) or events[i]
        count, lines = judged(wrong)
        lines = [said for said in lines if ": outstanding: " not in said]
        self.assertEqual((count, len(lines)), (1, 1), lines)
        self.assertTrue(lines[0].startswith(line), lines[0])
        self.assertIn(f": refused: {fault} {FAULTS[fault]}: ", lines[0])
        self.assertTrue(lines[0].endswith("; its far beats are not judged"), lines[0])
        if fault == 5:
            self.assertIn(
                f", mask {wrong[at].mask:02x}: refused" if channel == "A" else f", mask {wrong[at].mask:x}: refused",
                lines[0],
            )
        return True

    def test_each_fault_of_a_first_beat(self) -> None:
        """On each channel that can have it, in a message of one beat and of several."""
        seen = 0
        for channel in "ABCD":
            for fault in (1, 2, 3, 4, 5, 6, 10):
                for place in ("only", "first"):
                    for far in ("right", "same"):
                        with self.subTest(channel=channel, fault=fault, place=place, far=far):
                            seen += self.check(channel, fault, place, place == "first", far)
        self.assertGreaterEqual(seen, 60)

    def test_each_fault_of_a_later_beat(self) -> None:
        """A mask or a head, in the middle and at the end of a burst."""
        seen = 0
        for channel in "ABCD":
            for fault in (5, 7):
                for place in ("middle", "last"):
                    with self.subTest(channel=channel, fault=fault, place=place):
                        seen += self.check(channel, fault, place, False, "right")
        self.assertGreaterEqual(seen, 10)

    def test_a_mistake_behind_it(self) -> None:
        """Fifty wrong far beats after a refused near beat are fifty differences."""
        for fault, place in ((5, "only"), (4, "only"), (3, "only"), (7, "middle")):
            events = exchange(8, 4)
            made = broken(events, "A", fault, place)
            assert made
            wrong, at = made
            behind = [i for i in of(events, "A") if i > max(far_of(events, at))][:50]
            for i in behind:
                wrong[i] = flipped(events[i], "address", 40)
            with self.subTest(fault=fault, place=place):
                count, lines = judged(wrong)
                self.assertEqual(count, 1 + len(behind))
                self.assertEqual(lines[1], reported(events[behind[0]], wrong[behind[0]]))

    def test_one_line_for_each_message(self) -> None:
        """Three messages in a row are refused, one of them with two wrong beats: three lines."""
        made = Exchange(8, 4)
        for size in (2, 5, 2):
            made.send("C", made.head("C", 7, size))
        near = [i for i, event in enumerate(made.events) if not event.is_far]
        wrong = [
            flipped(event, "address", 60)
            if i in near[2:4]
            else (spoilt(event, 4) or event)
            if i in (near[0], near[5])
            else event
            for i, event in enumerate(made.events)
        ]
        count, lines = judged(wrong)
        self.assertEqual(
            (count, [line.split(":")[0] for line in lines]),
            (3, [f"time {made.events[near[i]].time}" for i in (0, 2, 5)]),
            lines,
        )

    def test_a_wrong_response_before_its_request(self) -> None:
        """The far beat of its request comes after it in the same cycle; its source is free afterwards."""
        made = Exchange(8, 4, step=0)
        for _ in range(2):
            made.ask(4, 2, 1, source=0x77)
        asked, answered = made.events[1], made.events[2]
        wrong = [made.events[0], with_value(answered, "param", 3), asked, *made.events[3:]]
        count, lines = judged(wrong)
        self.assertEqual((count, len(lines)), (1, 1), lines)
        self.assertRegex(lines[0], ", param 3: refused: 2 Param: ")

    def test_a_refused_request_is_not_open(self) -> None:
        """Neither the request nor its response come to the other link."""
        made = Exchange(8, 4)
        made.send("A", made.head("A", 4, 2, source=5))
        wrong = with_value(made.events[0], "mask", 0)
        count, lines = judged([wrong])
        self.assertEqual((count, len(lines)), (1, 1), lines)
        self.assertRegex(lines[0], ", mask 00: refused: 5 Mask: ")

    def test_a_burst_is_cut_by_another_message(self) -> None:
        """Two of four beats of ReleaseData come, and then others: these are judged."""
        for channel in "ABC":
            made = Exchange(8, 4)
            made.send(channel, made.head(channel, 7 if channel == "C" else 0, 5))
            arrived = {False: 2, True: 1 if channel == "B" else 4}
            lag = {far: len(of(made.events, channel, far)) - arrived[far] for far in arrived}
            cut = [event for event in made.events if event.number < arrived[event.is_far]]
            made.events = []
            for size in (1, 4, 3):
                made.send(channel, made.head(channel, 5 if channel == "C" else 3, size))
            second = [event for event in made.events if not event.is_far][0]
            # numbers continue after the beats that are missing
            events = [replace(event, number=event.number - lag[event.is_far]) for event in made.events]
            with self.subTest(channel=channel):
                count, lines = judged(cut + events)
                lines = [line for line in lines if ": outstanding: " not in line]
                self.assertEqual((count, len(lines)), (1, 1), lines)
                self.assertRegex(lines[0], f"^time {second.time}: near {channel} beat 2: .*: refused: 7 HeadChanged")
                at = of(events, channel, data=True)[-1]
                came = flipped(events[at], "data", lawful.bits_of(events[at], "data")[0])
                count, lines = judged(cut + events[:at] + [came] + events[at + 1 :])
                self.assertIn(reported(events[at], came), lines)

    def test_the_mask_of_each_width(self) -> None:
        """It is shown with a digit for each four lanes."""
        for client, manager in all_pairs():
            made = Exchange(client, manager)
            head = made.send("A", made.head("A", 4, 0, address=client - 1))
            wrong = with_value(made.events[0], "mask", 1 if client > 1 else 0)
            digits = (client + 3) // 4
            with self.subTest(client=client):
                self.assertIn(
                    f", mask {wrong.mask:0{digits}x}: refused: 5 Mask", judged([wrong], client, manager)[1][0]
                )
                self.assertEqual(head["size"], 0)


class OneLink(CaseTest):
    """Mistakes that are visible on only one link."""

    def get(self, source: int, address: int = 0x1004) -> Dict[str, Any]:
        return {"opcode": 4, "param": 0, "size": 2, "source": source, "address": address}

    def event(self, time: int, link: int, channel: str, **head: int) -> Event:
        mask = {(0, "A"): 0xF0, (1, "A"): 0xF}.get((link, channel), 0)
        return Event(time, link, channel, head, mask, bytes(8 if link == 0 else 4) if channel != "E" else b"")

    def test_busy_source(self) -> None:
        """It is reported, but not in the cycle that frees the source, in any order of its beats."""
        get, answer = self.get(0x205), {"opcode": 1, "param": 0, "size": 2, "source": 0x205, "sink": 0, "denied": 0}
        events = [
            self.event(10, 0, "A", **get),
            self.event(20, 0, "A", **get),
            self.event(30, 1, "A", **get),
            self.event(40, 1, "D", **answer),
            self.event(50, 0, "D", **answer),
            self.event(60, 1, "A", **get),
            self.event(70, 1, "D", **answer),
            self.event(80, 0, "D", **answer),
        ]
        count, lines = judged(events)
        self.assertEqual((count, len(lines)), (1, 1))
        self.assertRegex(lines[0], "^time 20: near A beat 1: source 0205: 8 SourceBusy: ")
        # in the cycle that frees it, in any order of the beats of that cycle
        for order in ((0, 1), (1, 0)):
            at_once = [
                events[0],
                replace(events[2], time=20),
                replace(events[3], time=30),
                *[(replace(events[4], time=40), replace(events[1], time=40))[i] for i in order],
                *events[5:],
            ]
            with self.subTest(order=order):
                self.assertEqual(judged(at_once), (0, []))

    def test_no_request(self) -> None:
        """A response without a request is reported with its source."""
        answer = {"opcode": 1, "param": 0, "size": 2, "source": 0x305, "sink": 0, "denied": 0}
        count, lines = judged([self.event(10, 1, "D", **answer), self.event(20, 1, "E", sink=0)])
        self.assertRegex(lines[0], "^time 10: near D beat 0: source 0305: 9 NoRequest: ")

    def test_release_ack(self) -> None:
        """It answers no request, and needs none."""
        answer = {"opcode": 6, "param": 0, "size": 2, "source": 0x305, "sink": 7, "denied": 0}
        self.assertEqual(judged([self.event(10, 1, "D", **answer), self.event(20, 0, "D", **answer)]), (0, []))
