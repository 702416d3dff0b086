"""The package as it is installed: what each call gives and refuses, and what the scoreboard says. The pair 8:4 has to
be in the library.

cocotb itself is not needed: the class Watched replaces the parts that the package and a test call.
"""
import sys
import threading
import types
import unittest
from ctypes import c_size_t, c_uint64
from dataclasses import replace
from typing import Any, Dict, Iterator, List, Tuple
from unittest import mock

import pytest
import tlbridge
from tlbridge import Beat, Bridge, MissingLibraryError, RefusedError, Scoreboard
from tlbridge.scoreboard import number_of

GET = Beat(opcode=4, size=2, source=7, address=0x1004, mask=0xF0)

ANY_BEAT: Any = Beat  # the class, for fields of wrong names and types


def finished(side: tlbridge.Side) -> tlbridge.Totals:
    """The receipt of a side that has finished."""
    receipt = side.finish()
    assert receipt
    return receipt


class Fields(unittest.TestCase):
    def test_misspelt(self) -> None:
        with self.assertRaises(TypeError):
            ANY_BEAT(opcod=4)

    def test_misspelt_channel(self) -> None:
        with self.assertRaisesRegex(ValueError, "a channel is one of A, B, C, D, E, not 'a'"):
            Beat(opcode=4).passed("a", 8)

    def test_too_large(self) -> None:
        for name, value in (
            ("opcode", 256),
            ("source", 1 << 16),
            ("sink", 1 << 16),
            ("address", 1 << 64),
            ("mask", 1 << 128),
            ("size", -1),
        ):
            with self.subTest(name), self.assertRaises(ValueError):
                ANY_BEAT(**{name: value})

    def test_not_a_number(self) -> None:
        with self.assertRaises(TypeError):
            ANY_BEAT(opcode=4.0)
        with self.assertRaises(ValueError):
            ANY_BEAT(corrupt=2)
        with self.assertRaises(TypeError):
            ANY_BEAT(data=8)

    @pytest.mark.usefixtures("library")
    def test_of_another_channel(self) -> None:
        with Bridge(8, 4) as bridge:
            with self.assertRaisesRegex(ValueError, "a beat of C has no mask"):
                bridge.offer("C", Beat(opcode=6, mask=1))
            with self.assertRaisesRegex(ValueError, "a beat of A has no sink"):
                bridge.offer("A", Beat(opcode=4, sink=1))

    @pytest.mark.usefixtures("library")
    def test_wrong_lanes(self) -> None:
        with Bridge(8, 4) as bridge, self.assertRaisesRegex(ValueError, "8 lanes, but data has 4 bytes"):
            bridge.offer("A", Beat(opcode=0, size=2, mask=0xF, data=bytes(4)))


@pytest.mark.usefixtures("library")
class Calls(unittest.TestCase):
    def test_read(self) -> None:
        with Bridge(client=8, manager=4) as bridge:
            bridge.offer("A", GET)
            self.assertEqual(
                list(bridge.receive_all("A")),
                [Beat(opcode=4, size=2, source=7, address=0x1004, mask=0xF, data=bytes(4))],
            )
            bridge.offer("D", Beat(opcode=1, size=2, source=7, data=b"\xaa\xbb\xcc\xdd"))
            self.assertEqual(
                list(bridge.receive_all("D")), [Beat(opcode=1, size=2, source=7, data=b"\0\0\0\0\xaa\xbb\xcc\xdd")]
            )
            self.assertTrue(bridge.settle().drained)

    def test_each_beat_that_waits(self) -> None:
        """Beats that another channel's receive_all() moved into an inbox are also returned."""
        with Bridge(8, 4) as bridge:
            bridge.offer("A", GET)
            bridge.offer("E", Beat(sink=3))
            self.assertEqual(len(list(bridge.receive_all("A"))), 1)
            self.assertEqual(list(bridge.receive_all("E")), [Beat(sink=3)])

    def test_more_than_an_inbox(self) -> None:
        """4,096 bytes from 8 lanes to 4 are 1,024 far beats."""
        with Bridge(8, 4) as bridge:
            for at in range(512):
                bridge.offer("C", Beat(opcode=7, size=12, address=0x8000, data=bytes([at % 256] * 8)))
            came = list(bridge.receive_all("C"))
            self.assertEqual(len(came), 1024)
            self.assertEqual([beat.data for beat in came], [bytes([at // 2 % 256] * 4) for at in range(1024)])

    def test_all_beats_of_an_inbox(self) -> None:
        """A whole inbox and one beat more, and then those of each channel."""
        with Bridge(8, 4) as bridge:
            for sink in range(129):
                bridge.offer("E", Beat(sink=sink))
            bridge.settle()
            self.assertEqual(bridge.manager.take("E"), Beat(sink=0))
            bridge.settle()
            self.assertEqual(bridge.manager.take_all("E"), [Beat(sink=sink) for sink in range(1, 129)])
            self.assertEqual(bridge.manager.take_all("E"), [])
            bridge.offer("A", GET)
            bridge.offer("B", Beat(opcode=6, size=2, source=1, address=0x1004, mask=0xF))
            bridge.offer("C", Beat(opcode=7, size=3, source=2, address=0x40, data=b"abcdefgh"))
            bridge.settle()
            self.assertEqual([beat.mask for beat in bridge.manager.take_all("A")], [0xF])
            self.assertEqual([beat.mask for beat in bridge.client.take_all("B")], [0xF0])
            self.assertEqual([beat.data for beat in bridge.manager.take_all("C")], [b"abcd", b"efgh"])
            bridge.offer("D", Beat(opcode=1, size=2, source=7, data=b"ijkl"))
            bridge.settle()
            self.assertEqual([beat.data for beat in bridge.client.take_all("D")], [b"\0\0\0\0ijkl"])
            self.assertTrue(bridge.meet().drained)

    def test_refused(self) -> None:
        with Bridge(8, 4) as bridge:
            bridge.offer("A", GET)
            with self.assertRaises(RefusedError) as refused:
                bridge.offer("A", GET)
            self.assertEqual((refused.exception.status.number, refused.exception.status.name), (8, "SourceBusy"))
            self.assertTrue(refused.exception.status.sentence)
            with self.assertRaises(RefusedError) as refused:
                bridge.offer("A", Beat(opcode=4, size=2, source=8, address=0x1002, mask=0xF0))
            self.assertEqual(refused.exception.status.name, "Unaligned")

    def test_within_a_burst(self) -> None:
        with Bridge(8, 4) as bridge:
            bridge.offer("A", Beat(size=4, mask=0xFF))
            with self.assertRaises(RefusedError) as refused:
                bridge.client.close("A")
            self.assertEqual(refused.exception.status.name, "MidBurst")

    def test_side(self) -> None:
        with Bridge(8, 4) as bridge:
            self.assertTrue(bridge.client.ready("A"))
            with self.assertRaisesRegex(ValueError, "the client's side sends A, C, E"):
                bridge.client.offer("B", Beat())
            with self.assertRaisesRegex(ValueError, "the client's side takes B, D"):
                bridge.client.take("A")
            with self.assertRaisesRegex(ValueError, "the manager's side takes A, C, E"):
                bridge.manager.take_all("D")

    def test_not_there(self) -> None:
        with self.assertRaisesRegex(MissingLibraryError, "no pair 8:3; it has .*8:4"):
            Bridge(8, 3)
        for ring in (0, 4097):
            with self.assertRaises(RefusedError) as refused:
                Bridge(8, 4, ring=ring)
            self.assertEqual(refused.exception.status.name, "RingSize")

    def test_freed(self) -> None:
        bridge = Bridge(8, 4)
        bridge.free()
        bridge.free()
        with self.assertRaises(RefusedError) as refused:
            bridge.settle()
        self.assertEqual(refused.exception.status.name, "NotOpen")
        self.assertEqual(bridge.client.take_all("D"), [])

    def test_two_threads(self) -> None:
        with Bridge(8, 4, ring=4) as bridge:
            sinks: List[int] = []

            def manage() -> None:
                while len(sinks) < 500:
                    bridge.manager.fetch()
                    while (beat := bridge.manager.take("E")) is not None:
                        sinks.append(beat.sink)

            thread = threading.Thread(target=manage)
            thread.start()
            for sink in range(500):
                while not bridge.client.ready("E"):
                    bridge.client.pump()
                bridge.client.offer("E", Beat(sink=sink))
            while not bridge.client.ready("E"):
                bridge.client.pump()
            for channel in "ACE":
                bridge.client.close(channel)
            receipt = finished(bridge.client)
            self.assertEqual(receipt.e, 500)
            thread.join()
            self.assertEqual(sinks, list(range(500)))
            self.assertTrue(bridge.manager.drained(receipt))
            self.assertTrue(bridge.meet().drained)

    def test_wrong_receipts_are_refused(self) -> None:
        """No beat was sent, so that every number of beats is right: only the giver and the opening tell receipts
        apart."""
        with tlbridge.Bridge(8, 4) as bridge:
            for side in (bridge.client, bridge.manager):
                for channel in "ACE" if side is bridge.client else "BD":
                    side.close(channel)
            of_client, of_manager = finished(bridge.client), finished(bridge.manager)
            zeros = tlbridge.Totals(*[0] * 8)
            counts = bridge.client.totals(), bridge.manager.totals()
            self.assertEqual([totals.finished for totals in (of_client, of_manager, *counts)], [1, 2, 0, 0])
            self.assertTrue(bridge.client.drained(of_manager) and bridge.manager.drained(of_client))
            wrong = [(side, totals) for side in (bridge.client, bridge.manager) for totals in (zeros, *counts)]
            wrong += [(bridge.client, of_client), (bridge.manager, of_manager)]
            # the same handles, opened again with the same number
            wrong_later = [(bridge.client, of_manager), (bridge.manager, of_client)]
            for side, totals in wrong:
                self.assertEqual(self.refusal_of(side, totals), "WrongReceipt")
            open_again = bridge._calls.of("open")
            self.assertEqual(open_again(*bridge._both, c_size_t(4), c_uint64(of_client.bridge)), 0)
            for side, totals in wrong_later:
                self.assertEqual(self.refusal_of(side, totals), "WrongReceipt")
            with tlbridge.Bridge(8, 4) as other:
                self.assertEqual(self.refusal_of(other.client, of_manager), "BridgeMismatch")

    def refusal_of(self, side: Any, receipt: Any) -> str:
        with self.assertRaises(tlbridge.RefusedError) as refused:
            side.drained(receipt)
        return refused.exception.status.name


@pytest.mark.usefixtures("proved")
class Traces(unittest.TestCase):
    TRACE = (
        "tilelink-trace 1 client 8 manager 4\nA 4 0 2 07 0000000000001004 f0 1122334455667788 0\nD 1 0 2 07 00 0"
        " ddccbbaa 0\n"
    )
    ANSWER = (
        "tilelink-far 1 client 8 manager 4\nA 4 0 2 07 0000000000001004 f 00000000 0\nD 1 0 2 07 00 0 ddccbbaa00000000"
        " 0\n= A done 1 1\n= B done 0 0\n= C done 0 0\n= D done 1 1\n= E done 0 0\n"
    )

    def test_answer(self) -> None:
        answered = tlbridge.run_trace(self.TRACE)
        self.assertEqual(answered.text, self.ANSWER)
        self.assertTrue(answered.all_done)

    def test_not_done(self) -> None:
        self.assertFalse(tlbridge.run_trace(self.TRACE.replace("D 1 0 2 07", "D 1 0 2 08")).all_done)

    def test_fault(self) -> None:
        with self.assertRaises(tlbridge.TraceFaultError) as fault:
            tlbridge.run_trace("A 4\n")
        self.assertEqual((fault.exception.status.name, fault.exception.line), ("Header", 1))


def far(data: bytes) -> Beat:
    return Beat(opcode=0, size=3, source=1, address=0x80, mask=0xF, data=data)


@pytest.mark.usefixtures("library")
class Board(unittest.TestCase):
    """A write of 8 bytes at 0x80, from 8 lanes to 4: its two far beats, and the response."""

    def setUp(self) -> None:
        self.board = Scoreboard(client=8, manager=4)

    def write(self, first: bytes = b"\0\1\2\3", second: bytes = b"\4\5\6\7") -> None:
        """Its first far beat comes before the near beat."""
        self.board.beat("manager", "A", 10, far(first))
        self.board.beat(
            "client", "A", 20, Beat(opcode=0, size=3, source=1, address=0x80, mask=0xFF, data=bytes(range(8)))
        )
        self.board.beat("manager", "A", 20, far(second))

    def respond(self, **fields: Any) -> None:
        self.board.beat("manager", "D", 30, Beat(opcode=0, size=3, source=1, **fields))
        self.board.beat("client", "D", 30, Beat(opcode=0, size=3, source=1))

    def test_right(self) -> None:
        self.write()
        self.respond()
        self.assertEqual((self.board.end(), self.board.lines), (0, []))

    def test_data(self) -> None:
        self.write(second=b"\4\5\7\7")
        self.respond()
        self.assertEqual(self.board.lines, ["time 20: far A beat 1; data got 07070504, expected 07060504"])
        self.assertEqual((self.board.differences, self.board.end()), (1, 1))

    def test_denied_lost(self) -> None:
        self.write()
        self.respond(denied=True)
        self.assertEqual(self.board.lines, ["time 30: far D beat 0; denied got 0, expected 1"])

    def test_not_come(self) -> None:
        self.write()
        self.board.beat("manager", "D", 30, Beat(opcode=0, size=3, source=1, sink=9))
        self.assertEqual(self.board.end(), 1)
        self.assertEqual(
            self.board.lines,
            [
                "time 30: far D beat 0: opcode 0, size 3, source 0001, sink 0009: expected but missing",
                "time 20: outstanding: near A beat 0, source 0001, has no response",
            ],
        )

    def test_not_due(self) -> None:
        self.write()
        self.respond()
        self.board.beat("client", "D", 40, Beat(opcode=0, size=3, source=1))
        self.assertEqual(self.board.end(), 1)
        self.assertEqual(
            self.board.lines, ["time 40: far D beat 1: opcode 0, size 3, source 0001, sink 0000: unexpected"]
        )

    def test_refused(self) -> None:
        self.board.beat("client", "A", 5, Beat(opcode=4, size=2, source=1, address=0x82, mask=0xF0))
        self.assertEqual(self.board.end(), 1)
        self.assertRegex(
            self.board.lines[0],
            r"^time 5: near A beat 0: opcode 4, size 2, source 0001, address 82: refused: 4 Unaligned: ",
        )

    def test_busy_source(self) -> None:
        """It is reported although the response comes later."""
        get = Beat(opcode=4, size=2, source=1, address=0x80, mask=0xF)
        self.board.beat("client", "A", 10, get)
        self.board.beat("client", "A", 20, get)
        self.board.beat("client", "E", 30, Beat(sink=1))
        self.assertRegex(self.board.lines[0], r"^time 20: near A beat 1: source 0001: 8 SourceBusy: ")

    def test_source_of_this_cycle(self) -> None:
        """A request may take its source in the cycle of the response that frees it, in whatever order the two are
        reported."""
        get = Beat(opcode=4, size=2, source=1, address=0x80, mask=0xF)
        response = Beat(opcode=1, size=2, source=1, data=bytes(4))
        self.board.beat("client", "A", 10, get)
        self.board.beat("manager", "A", 10, replace(get, data=bytes(4)))
        self.board.beat("manager", "D", 10, response)
        self.board.beat("client", "A", 20, get)
        self.board.beat("client", "D", 20, replace(response, data=bytes(8)))
        self.board.beat("client", "E", 30, Beat(sink=1))
        self.assertEqual(self.board.lines, [])

    def test_no_request(self) -> None:
        self.board.beat("manager", "D", 10, Beat(opcode=1, size=2, source=1, data=bytes(4)))
        self.board.beat("manager", "D", 20, Beat(opcode=1, size=2, source=2, data=bytes(4)))
        self.assertEqual(self.board.end(), 4)
        for line, begin in zip(
            self.board.lines,
            (
                "time 10: near D beat 0: source 0001: 9 NoRequest: ",
                "time 20: near D beat 1: source 0002: 9 NoRequest: ",
                "time 10: near D beat 0: opcode 1, size 2, source 0001, sink 0000: waits: 9 NoRequest: ",
                "time 20: near D beat 1: opcode 1, size 2, source 0002, sink 0000: waits: 9 NoRequest: ",
            ),
        ):
            self.assertTrue(line.startswith(begin), line)
        self.assertTrue(self.board.lines[2].endswith("; 1 more wait after it"), self.board.lines[2])

    def test_release_ack(self) -> None:
        """It answers no request, and needs none."""
        release = Beat(opcode=6, size=3, source=1, address=0x80)
        self.board.beat("client", "C", 10, release)
        self.board.beat("manager", "C", 10, release)
        self.board.beat("manager", "D", 20, Beat(opcode=6, size=3, source=1))
        self.board.beat("client", "D", 20, Beat(opcode=6, size=3, source=1))
        self.assertEqual((self.board.end(), self.board.lines), (0, []))

    def test_cut(self) -> None:
        put = Beat(size=4, source=1, address=0x80, mask=0xFF, data=bytes(8))
        self.board.beat("client", "A", 10, put)
        for _ in range(2):
            self.board.beat("manager", "A", 10, replace(put, mask=0xF, data=bytes(4)))
        self.assertEqual(self.board.end(), 1)
        self.assertEqual(self.board.lines[0], "time 10: near A: the last message is incomplete")

    def test_behind_a_refused_beat(self) -> None:
        """The next message is judged again."""
        self.board.beat("client", "C", 5, Beat(opcode=6, size=2, source=1, address=0x82))
        self.board.beat("client", "C", 6, Beat(opcode=6, size=2, source=1, address=0x84))
        self.board.beat("manager", "C", 6, Beat(opcode=6, size=2, source=1, address=0x84))
        self.board.beat("client", "E", 7, Beat(sink=1))
        self.board.beat("manager", "E", 7, Beat(sink=1))
        self.assertEqual(self.board.end(), 1)
        self.assertRegex(self.board.lines[0], "refused: 4 Unaligned: .*; its far beats are not judged$")

    def test_far_ahead(self) -> None:
        """Hundreds of far beats wait for their near beats, round a queue that grows."""
        sink = 0
        for count in (40, 300, 2000):
            for link in ("manager", "client"):
                for at in range(count):
                    self.board.beat(link, "E", 10, Beat(sink=sink + at))
            sink += count
        self.assertEqual((self.board.end(), self.board.lines), (0, []))

    def test_many_differences(self) -> None:
        """After 20 lines of a channel, further differences are only counted."""
        for sink in range(50):
            self.board.beat("client", "E", sink, Beat(sink=sink))
            self.board.beat("manager", "E", sink, Beat(sink=sink + 1))
        self.assertEqual(self.board.end(), 50)
        self.assertEqual(len(self.board.lines), 21)
        self.assertEqual(self.board.lines[-1], "time 19: further differences on E are only counted")

    def test_unmasked(self) -> None:
        """PutPartialData with only its first byte; the design drives another byte on a lane without a mask bit."""
        for unmasked, differences in ((False, 0), (True, 1)):
            with self.subTest(unmasked=unmasked):
                board = Scoreboard(8, 4, compare_unmasked=unmasked)
                board.beat(
                    "client", "A", 10, Beat(opcode=1, size=2, source=1, address=0x80, mask=0x01, data=bytes(range(8)))
                )
                board.beat(
                    "manager",
                    "A",
                    10,
                    Beat(opcode=1, size=2, source=1, address=0x80, mask=0x1, data=b"\x00\x01\x09\x03"),
                )
                self.assertEqual(board.end(), differences)

    def test_not_there(self) -> None:
        with self.assertRaisesRegex(MissingLibraryError, "no pair 16:3"):
            Scoreboard(16, 3)


@pytest.mark.usefixtures("library")
class Watched(unittest.TestCase):
    """Two links of a test as cocotb has it: handles whose value is text of 0, 1, x and z, and edges to wait for."""

    def setUp(self) -> None:
        self.now = 0
        triggers: Any = types.ModuleType("cocotb.triggers")
        utils: Any = types.ModuleType("cocotb.utils")
        triggers.RisingEdge = Edge
        utils.get_sim_time = lambda unit: {"step": self.now}[unit]
        modules = {"cocotb": types.ModuleType("cocotb"), "cocotb.triggers": triggers, "cocotb.utils": utils}
        patch = mock.patch.dict(sys.modules, modules)
        patch.start()
        self.addCleanup(patch.stop)

    def watch(self, cycles: Any, reset: Any = "0", with_reset: bool = True, **words: Any) -> Tuple[int, List[str]]:
        """Lets both links be watched over cycles of signals by their names, and ends the board."""
        import cocotb

        board, dut = Scoreboard(8, 4), Design(reset=reset)
        watches: List[Any] = []
        if with_reset:
            words["reset"] = dut.reset
        setattr(cocotb, "start_soon", watches.append)
        cocotb.start_soon(
            board.watch("client", dut.clock, lambda channel, field: getattr(dut, f"client_{channel}_{field}"), **words)
        )
        cocotb.start_soon(
            board.watch(
                "manager", dut.clock, lambda channel, field: getattr(dut, f"manager_{channel}_{field}"), **words
            )
        )
        for watch in watches:
            watch.send(None)
        for self.now, dut.values in enumerate(cycles, 1):
            for watch in watches:
                watch.send(None)
        for watch in watches:
            watch.close()
        return board.end(), board.lines

    # a read of 4 bytes at 0x1004, with unknown bytes on the lanes that carry none, and its response
    ASKED = {"opcode": "100", "size": "0010", "source": "111", "address": f"{0x1004:032b}", "valid": "1", "ready": "1"}
    RESPONSE = {"opcode": "001", "size": "0010", "source": "111", "valid": "1", "ready": "1"}
    CLIENT = {f"client_a_{field}": value for field, value in {**ASKED, "mask": "11110000", "data": "x" * 64}.items()}
    MANAGER = {f"manager_a_{field}": value for field, value in {**ASKED, "mask": "1111", "data": "z" * 32}.items()}
    ANSWERED = {f"manager_d_{field}": value for field, value in {**RESPONSE, "data": f"{0xDDCCBBAA:032b}"}.items()}
    CAME = {
        f"client_d_{field}": value for field, value in {**RESPONSE, "data": f"{0xDDCCBBAA:032b}" + "x" * 32}.items()
    }

    def test_right(self) -> None:
        self.assertEqual(self.watch([self.CLIENT, self.MANAGER, self.ANSWERED, self.CAME]), (0, []))

    def test_wrong(self) -> None:
        wrong = {**self.CAME, "client_d_data": f"{0xDDCCBBAB:032b}" + "x" * 32}
        self.assertEqual(
            self.watch([self.CLIENT, self.MANAGER, self.ANSWERED, wrong]),
            (1, ["time 4: far D beat 0; data got ddccbbab........, expected ddccbbaa........"]),
        )

    def test_not_ready(self) -> None:
        stalled = {**self.CLIENT, "client_a_ready": "0"}
        self.assertEqual(self.watch([stalled, self.CLIENT, self.MANAGER, self.ANSWERED, self.CAME]), (0, []))

    def test_reset(self) -> None:
        self.assertEqual(
            self.watch([self.MANAGER], reset="1"),
            (1, ["time 0: no beat was accepted on either link, so nothing was compared"]),
        )

    def test_reset_amid(self) -> None:
        """It ends what was in flight, and the traffic after it is judged."""
        asserted = {"reset": "1"}
        self.assertEqual(
            self.watch([self.CLIENT, asserted, asserted, self.CLIENT, self.MANAGER, self.ANSWERED, self.CAME]),
            (0, ["time 2: reset of the client's link: 1 beats in flight on both links are not judged"]),
        )

    def test_no_reset(self) -> None:
        """A link without a reset, and one whose reset is unknown, are judged."""
        cycles = [self.CLIENT, self.MANAGER, self.ANSWERED, self.CAME]
        self.assertEqual(self.watch(cycles, with_reset=False), (0, []))
        self.assertEqual(self.watch([{**cycle, "reset": "x"} for cycle in cycles]), (0, []))

    def test_each_channel(self) -> None:
        """A release, its acknowledgement, a probe and its answer, a Grant and its acknowledgement, in whatever order
        the channels are named."""
        up = {"valid": "1", "ready": "1"}
        fields = {
            "a": dict(opcode="110", size="0011", source="111", address=f"{0x2000:032b}"),
            "b": dict(opcode="110", size="0011", source="11", address=f"{0x3000:032b}"),
            "c": dict(opcode="110", size="0011", source="101", address=f"{0x1008:032b}", data="x"),
            "d": dict(opcode="100", size="0011", source="111", sink="10"),
            "e": dict(sink="10"),
        }
        cycles = [
            {
                f"{link}_{channel}_{field}": value
                for channel in channels
                for field, value in {
                    **fields[channel],
                    **up,
                    **({"mask": {"client": "1" * 8, "manager": "1" * 4}[link]} if channel in "ab" else {}),
                }.items()
            }
            for link, channels in (("client", "ace"), ("manager", "ace"), ("manager", "bd"), ("client", "bd"))
        ]
        for channels in ("ABCDE", "EDCBA"):
            self.assertEqual(self.watch(cycles, channels=channels), (0, []))
            wrong = [
                *cycles[:1],
                {**cycles[1], "manager_e_sink": "11", "manager_c_source": "100"},
                cycles[2],
                {**cycles[3], "client_b_param": "001"},
            ]
            self.assertEqual(
                self.watch(wrong, channels=channels),
                (
                    3,
                    [
                        "time 2: far C beat 0; source got 0004, expected 0005",
                        "time 2: far E beat 0; sink got 0003, expected 0002",
                        "time 4: far B beat 0; param got 1, expected 0",
                    ],
                ),
            )

    def test_two_unknown_fields(self) -> None:
        """They are one difference, and one line names both."""
        cycles = [
            self.CLIENT,
            {**self.MANAGER, "manager_a_param": "00z", "manager_a_corrupt": "x"},
            self.ANSWERED,
            self.CAME,
        ]
        self.assertEqual(
            self.watch(cycles), (1, ["time 2: A beat of the manager's link has unknown bits: param is x, corrupt is x"])
        )

    def test_unknown_bits(self) -> None:
        self.assertEqual(number_of(types.SimpleNamespace(value="1xz0")), 8)

    def with_unknown(self, at: int, field: str, bits: Any) -> Tuple[int, List[str]]:
        """The differences, and the lines, of the read with other bits of a field in cycle `at`."""
        cycles = [self.CLIENT, self.MANAGER, self.ANSWERED, self.CAME]
        prefix = next(iter(cycles[at])).rsplit("_", 1)[0]
        cycles[at] = {**cycles[at], f"{prefix}_{field}": bits}
        return self.watch(cycles)

    def test_unknown_in_each_field(self) -> None:
        """Each field that something reads, at either link: the beat is a difference, and a line names field and
        digits."""
        address = f"{0x1004:032b}"
        for at, name, field, bits, digits in (
            (0, "A beat of the client's link", "opcode", "10x", "x"),
            (0, "A beat of the client's link", "mask", "1111000z", "fx"),
            (1, "A beat of the manager's link", "address", "x" + address[1:], "x0001004"),
            (1, "A beat of the manager's link", "param", "x00", "x"),
            (2, "D beat of the manager's link", "source", "11x", "x"),
            (2, "D beat of the manager's link", "data", f"{0xDDCCBB:024b}" + "1010101u", "ddccbbax"),
            (3, "D beat of the client's link", "size", "001x", "x"),
            (3, "D beat of the client's link", "denied", "z", "x"),
            (3, "D beat of the client's link", "corrupt", "x", "x"),
            (3, "D beat of the client's link", "data", "x" + f"{0xDDCCBBAA:032b}"[1:] + "z" * 32, "xdccbbaaxxxxxxxx"),
        ):
            with self.subTest(field, at=at):
                count, lines = self.with_unknown(at, field, bits)
                said = f"time {at + 1}: {name} has unknown bits: {field} is {digits}"
                self.assertIn(said, lines)
                self.assertEqual(count, len([line for line in lines if "outstanding" not in line]))

    def test_unknown_that_nothing_reads(self) -> None:
        """The sink of an AccessAckData, a byte without a mask bit, and valid and ready."""
        self.assertEqual(self.with_unknown(2, "sink", "xxx"), (0, []))
        self.assertEqual(self.with_unknown(3, "sink", "x"), (0, []))
        put = {
            **self.CLIENT,
            "client_a_opcode": "001",
            "client_a_mask": "10000000",
            "client_a_data": "10101010" + "x" * 56,
        }
        far = {
            **self.MANAGER,
            "manager_a_opcode": "001",
            "manager_a_mask": "1000",
            "manager_a_data": "10101010" + "z" * 24,
        }
        ack = [
            {**cycle, f"{link}_d_opcode": "000", f"{link}_d_data": "x" * bits}
            for cycle, link, bits in ((self.ANSWERED, "manager", 32), (self.CAME, "client", 64))
        ]
        self.assertEqual(self.watch([put, far, *ack]), (0, []))
        whole = {**far, "manager_a_data": "1010101x" + "z" * 24}
        self.assertEqual(
            self.watch([put, whole, *ack])[1][0],
            "time 2: A beat of the manager's link has unknown bits: data is axxxxxxx",
        )
        self.assertEqual(
            self.watch(
                [
                    {**self.CLIENT, "client_a_valid": "x"},
                    {**self.CLIENT, "client_a_ready": "z"},
                    self.CLIENT,
                    self.MANAGER,
                    self.ANSWERED,
                    self.CAME,
                ]
            ),
            (0, []),
        )

    def test_unknown_in_a_grant(self) -> None:
        """The sink of a Grant is read."""
        ask = {
            "opcode": "110",
            "param": "000",
            "size": "0011",
            "source": "111",
            "address": f"{0x1000:032b}",
            "valid": "1",
            "ready": "1",
        }
        grant = {"opcode": "100", "size": "0011", "source": "111", "sink": "0x", "valid": "1", "ready": "1"}
        cycles = [
            {f"{name}_{field}": value for field, value in fields.items()}
            for name, fields in (
                ("client_a", {**ask, "mask": "1" * 8}),
                ("manager_a", {**ask, "mask": "1111"}),
                ("manager_d", grant),
                ("client_d", {**grant, "sink": "0"}),
            )
        ]
        self.assertEqual(self.watch(cycles), (1, ["time 3: D beat of the manager's link has unknown bits: sink is x"]))

    def test_unknown_lanes_of_a_response(self) -> None:
        """The lanes of a response are those of its own request, also if the source is used again in the same cycle, or
        answered at once."""
        low = {**self.CLIENT, "client_a_address": f"{0x1000:032b}", "client_a_mask": "00001111"}
        far = {**self.MANAGER, "manager_a_address": f"{0x1000:032b}"}
        of_low = {**self.CAME, "client_d_data": "x" * 32 + f"{0xDDCCBBAA:032b}"}
        at_once = {**self.CLIENT, **self.MANAGER, **self.ANSWERED, **self.CAME}
        self.assertEqual(self.watch([at_once, {**low, **far, **self.ANSWERED, **of_low}]), (0, []))
        asserted, low_at_once = {"reset": "1"}, {**low, **far, **self.ANSWERED, **of_low}
        self.assertEqual(self.watch([self.CLIENT, self.MANAGER, asserted, asserted, low_at_once])[0], 0)
        again = [self.CLIENT, self.MANAGER, self.ANSWERED, {**self.CAME, **low}, far, self.ANSWERED, of_low]
        self.assertEqual(self.watch(again), (0, []))
        self.assertEqual(
            self.watch([*again[:-1], self.CAME]),
            (
                2,
                [
                    "time 7: D beat of the client's link has unknown bits: data is ddccbbaaxxxxxxxx",
                    "time 7: far D beat 1; data got ........00000000, expected ........ddccbbaa",
                ],
            ),
        )


class Design:
    """Handles by their names, of value 0 if no other is given: those of each cycle, and those that stay."""

    def __init__(self, **stays: str) -> None:
        self.values: Dict[str, str] = {}
        self.stays = stays

    def __getattr__(self, name: str) -> "Handle":
        return Handle(self, name)


class Handle:
    """A signal, whose value is that of the cycle."""

    def __init__(self, design: Design, name: str) -> None:
        self.design, self.name = design, name

    @property
    def value(self) -> Any:
        return self.design.values.get(self.name, self.design.stays.get(self.name, "0"))


class Edge:
    """Waits for one cycle."""

    def __init__(self, clock: Any) -> None:
        self.clock = clock

    def __await__(self) -> Iterator[Any]:
        yield
