"""Values between Python and the library: each field and its place, each count, each status, and memory that is
freed."""
import ctypes
import os
import re
import shutil
import subprocess
import sys
import tempfile
import types
import unittest
from dataclasses import replace
from pathlib import Path
from typing import Any, Callable, Dict, List, Tuple
from unittest import mock

import pytest
import tlbridge
from project import ROOT, library_pairs
from tlbridge import Beat, Bridge, MissingLibraryError, RefusedError, Scoreboard, status_of, load
from tlbridge.beats import beat_of
from tlbridge.bridge import Counts, Totals
from tlbridge.library import AnswerFields, BeatFields, HandleFields, StandingsFields, TextFields, TotalsFields, check

PAIRS = [tuple(map(int, pair.split(":"))) for pair in library_pairs()]

ANY_BEAT: Any = Beat  # the class, for fields of wrong names and types


def finished(side: tlbridge.Side) -> tlbridge.Totals:
    """The receipt of a side that has finished."""
    receipt = side.finish()
    assert receipt
    return receipt


class Structures(unittest.TestCase):
    """The structures of the package are those of include/tlbridge.h."""

    def offsets(self, fields: Any) -> Dict[str, int]:
        return {name: getattr(fields, name).offset for name, _ in fields._fields_}

    def test_layout(self) -> None:
        self.assertEqual(
            self.offsets(BeatFields),
            dict(
                address=0,
                mask=8,
                source=16,
                sink=18,
                opcode=20,
                param=21,
                size=22,
                denied=23,
                corrupt=24,
                reserved=25,
                mask_high=32,
            ),
        )
        self.assertEqual(
            (ctypes.sizeof(BeatFields), ctypes.sizeof(HandleFields), ctypes.sizeof(TextFields)), (40, 32, 160)
        )
        counts = dict(StandingsFields._fields_)["a"]
        self.assertEqual(self.offsets(counts), dict(staged=0, in_ring=8, inbox=16))
        self.assertEqual(self.offsets(StandingsFields), {channel: 24 * i for i, channel in enumerate("abcde")})
        self.assertEqual(
            self.offsets(TotalsFields),
            {name: 8 * i for i, name in enumerate(("bridge", "opening", "finished", *"abcde"))},
        )
        self.assertEqual(ctypes.sizeof(TotalsFields), 64)
        self.assertEqual(self.offsets(HandleFields), dict(impl=0, is_open=8, bridge=16, opening=24))
        self.assertEqual(self.offsets(TextFields), dict(name=0, sentence=16))
        self.assertEqual(self.offsets(AnswerFields), dict(text=0, length=8, line=16, impl=24, is_open=32, all_done=33))
        self.assertEqual([getattr(AnswerFields, name).size for name, _ in AnswerFields._fields_], [8, 8, 8, 8, 1, 1])

    @pytest.mark.usefixtures("library")
    def test_answers(self) -> None:
        """Each number of the header has a name and a sentence of docs/FAULTS.md's table of words."""
        header = (ROOT / "include" / "tlbridge.h").read_text()
        numbers = {int(number) for number in re.findall(r"^    TL_[A-Z_]+ = (\d+),?$", header, re.M)}
        self.assertEqual(numbers, {*range(24), *range(249, 255)})
        self.assertEqual(len({status_of(number).name for number in numbers}), len(numbers))
        self.assertEqual(status_of(8).sentence, "the source's last request still waits for its response")
        self.assertTrue(status_of(14).sentence.endswith("(1 to 64; 128 in version 2 only)"), status_of(14).sentence)
        self.assertEqual((status_of(99).name, status_of(99).sentence), ("", ""))
        for constant, number in re.findall(r"^    TL_([A-Z_]+) = (\d+),?$", header, re.M):
            self.assertEqual(
                status_of(int(number)).name.lower(),
                {"CHANNEL_LETTER": "channel"}.get(constant, constant.replace("_", "").lower()),
            )
        for number in numbers - {0}:
            with self.assertRaises(RefusedError) as refused:
                check(number)
            self.assertEqual(refused.exception.status.number, number)
        check(0)


# The fields of each channel, and the bits of each numeric one.
HEAD = {"opcode": 8, "param": 8, "size": 8, "source": 16}
BITS = {
    "A": {**HEAD, "address": 64, "mask": 128},
    "B": {**HEAD, "address": 64, "mask": 128},
    "C": {**HEAD, "address": 64},
    "D": {**HEAD, "sink": 16},
    "E": {"sink": 16},
}
OTHERS = {
    "A": ("data", "corrupt"),
    "B": ("data", "corrupt"),
    "C": ("data", "corrupt"),
    "D": ("data", "corrupt", "denied"),
    "E": (),
}


def read(passed: Any, name: str) -> int:
    """The value of a field of the C structure."""
    return int(passed.mask | passed.mask_high << 64 if name == "mask" else getattr(passed, name))


class Beats(unittest.TestCase):
    def test_each_bit(self) -> None:
        """Each bit of each field of each channel is passed in its own field, and comes back from there."""
        for channel, bits in BITS.items():
            none, lanes = Beat().passed(channel, 8)
            self.assertEqual(
                [read(none, name) for name in (*HEAD, "sink", "address", "mask", "denied", "corrupt")], [0] * 9
            )
            for name in (*bits, *(name for name in ("denied", "corrupt") if name in OTHERS[channel])):
                for bit in range(bits.get(name, 1)):
                    beat = ANY_BEAT(**{name: 1 << bit})
                    passed, lanes = beat.passed(channel, 8)
                    with self.subTest(channel=channel, field=name, bit=bit):
                        got = {
                            other: read(passed, other)
                            for other in (*HEAD, "sink", "address", "mask", "denied", "corrupt")
                        }
                        self.assertEqual({other: value for other, value in got.items() if value}, {name: 1 << bit})
                        came = beat_of(channel, passed, lanes)
                        self.assertEqual(
                            came, ANY_BEAT(**{name: 1 << bit}, **({"data": bytes(8)} if channel != "E" else {}))
                        )

    def test_each_lane(self) -> None:
        for channel in "ABCD":
            for width in (1, 8, 128):
                data = bytes(range(1, width + 1))
                passed, lanes = Beat(data=data).passed(channel, width)
                self.assertEqual((lanes, beat_of(channel, passed, lanes).data), (data, data))

    def test_of_another_channel(self) -> None:
        values = {
            "opcode": 1,
            "param": 1,
            "size": 1,
            "source": 1,
            "sink": 1,
            "address": 1,
            "mask": 1,
            "data": b"\1",
            "denied": True,
            "corrupt": True,
        }
        for channel, bits in BITS.items():
            for name, value in values.items():
                with self.subTest(channel=channel, field=name):
                    if name in bits or name in OTHERS[channel]:
                        ANY_BEAT(**{name: value}).passed(channel, 1)
                    else:
                        with self.assertRaisesRegex(ValueError, f"^a beat of {channel} has no {name}$"):
                            ANY_BEAT(**{name: value}).passed(channel, 1)

    def test_data_is_kept(self) -> None:
        """A change of the bytes that it was made of changes nothing."""
        given = bytearray(b"\1\2")
        beat = ANY_BEAT(data=given)
        given[0] = 9
        self.assertEqual((beat.data, type(beat.data)), (b"\1\2", bytes))
        self.assertEqual(ANY_BEAT(data=[3, 4]).data, b"\3\4")

    def test_words(self) -> None:
        for words, values in (
            ("opcode has 8 bits, and 256 does not fit", dict(opcode=256)),
            ("mask has 128 bits, and -1 does not fit", dict(mask=-1)),
            ("denied is one bit, not 2", dict(denied=2)),
            ("corrupt is one bit, not 'x'", dict(corrupt="x")),
        ):
            with self.assertRaises(ValueError) as refused:
                ANY_BEAT(**values)
            self.assertEqual(str(refused.exception), words)
        with self.assertRaisesRegex(TypeError, "^data are bytes, lane 0 first$"):
            ANY_BEAT(data=8)
        for name in BITS["A"]:
            with self.subTest(name), self.assertRaises(TypeError):
                ANY_BEAT(**{name: 4.0})
        with self.assertRaisesRegex(ValueError, "^the link has 4 lanes, but data has 5 bytes$"):
            Beat(data=bytes(5)).passed("A", 4)

    def test_limits(self) -> None:
        for name, bits in dict(opcode=8, param=8, size=8, source=16, sink=16, address=64, mask=128).items():
            self.assertEqual(getattr(ANY_BEAT(**{name: (1 << bits) - 1}), name), (1 << bits) - 1)
            for value in (1 << bits, -1):
                with self.subTest(name, value=value), self.assertRaises(ValueError):
                    ANY_BEAT(**{name: value})

    def test_passed(self) -> None:
        passed, lanes = Beat(opcode=1, mask=(3 << 64) | 5, data=b"\1\2", address=7).passed("A", 2)
        self.assertEqual((passed.opcode, passed.mask, passed.mask_high, passed.address, lanes), (1, 5, 3, 7, b"\1\2"))
        self.assertEqual(Beat(sink=3).passed("E", 4)[1], b"\0\0\0\0")
        self.assertEqual(beat_of("A", passed, lanes), Beat(opcode=1, mask=(3 << 64) | 5, data=b"\1\2", address=7))

    def test_bits_are_truths(self) -> None:
        came = BeatFields(denied=1, corrupt=0)
        beat = beat_of("D", came, b"")
        self.assertIs(beat.denied, True)
        self.assertIs(beat.corrupt, False)

    def test_shorter_data(self) -> None:
        with self.assertRaises(ValueError):
            Beat(data=b"\1").passed("A", 2)


@pytest.mark.usefixtures("library")
class Sides(unittest.TestCase):
    def test_each_count(self) -> None:
        """Where the far beats of each channel wait: on the way from stage to ring to inbox."""
        sends = {
            "A": Beat(opcode=4, size=2, mask=0xF),
            "C": Beat(opcode=6, size=2),
            "E": Beat(sink=1),
            "B": Beat(opcode=6, size=2, mask=0xF),
            "D": Beat(opcode=6, size=2),
        }
        with Bridge(8, 4) as bridge:
            for channel, beat in sends.items():
                bridge.sender(channel).offer(channel, beat)
                at = getattr(bridge.meet(), channel.lower())
                self.assertEqual(at, Counts(1, 0, 0))
                self.assertFalse(bridge.meet().drained)
                side = "client" if channel in "ACE" else "manager"
                self.assertEqual(getattr(bridge, side).pump(), 1)
                self.assertEqual(getattr(bridge.meet(), channel.lower()), Counts(0, 1, 0))
                self.assertEqual(bridge.receiver(channel).fetch(), 1)
                self.assertEqual(getattr(bridge.meet(), channel.lower()), Counts(0, 0, 1))
                self.assertFalse(bridge.meet().drained)
                self.assertIsNotNone(bridge.receiver(channel).take(channel))
                self.assertTrue(bridge.meet().drained)
                self.assertIsNone(bridge.receiver(channel).take(channel))

    def test_many_at_once(self) -> None:
        """A call moves more than 255 beats: those of all channels together, of each as many as a near beat of 128 bytes
        has on a link of 1."""
        if not {(128, 1), (1, 128)} <= {*PAIRS}:
            self.skipTest("the library has no pairs 128:1 and 1:128")
        whole = (1 << 128) - 1
        with Bridge(128, 1) as bridge:
            bridge.client.offer("A", Beat(size=7, mask=whole, data=bytes(128)))
            bridge.client.offer("C", Beat(opcode=7, size=7, data=bytes(128)))
            bridge.client.offer("E", Beat())
            self.assertEqual((bridge.client.pump(), bridge.manager.fetch()), (257, 257))
        with Bridge(1, 128) as bridge:
            bridge.offer("A", Beat(opcode=4, size=7, mask=1))
            self.assertEqual([beat.mask for beat in bridge.receive_all("A")], [whole])
            bridge.manager.offer("B", Beat(size=7, mask=whole, data=bytes(128)))
            bridge.manager.offer("D", Beat(opcode=1, size=7, data=bytes(128)))
            self.assertEqual((bridge.manager.pump(), bridge.client.fetch()), (256, 256))

    def test_not_ready(self) -> None:
        with Bridge(8, 4) as bridge:
            bridge.client.offer("E", Beat(sink=1))
            with self.assertRaises(RefusedError) as refused:
                bridge.client.offer("E", Beat(sink=2))
            self.assertEqual((refused.exception.status.number, refused.exception.status.name), (254, "NotReady"))

    def test_closed(self) -> None:
        with Bridge(8, 4) as bridge:
            bridge.client.close("E")
            self.assertFalse(bridge.client.ready("E"))

    def test_totals(self) -> None:
        """Each channel has a different number of beats. The sender counts them when they are pumped, and the taker when
        they are taken."""
        with Bridge(8, 4) as bridge:
            number = bridge.client.totals().bridge
            for channel, times in zip("ABCDE", (1, 2, 3, 0, 4)):
                beat = {
                    "A": Beat(opcode=4, size=2, mask=0xF),
                    "B": Beat(opcode=6, size=2, mask=0xF),
                    "C": Beat(opcode=4, size=2),
                }.get(channel, Beat())
                for _ in range(times):
                    bridge.offer(channel, beat)
            self.assertEqual(bridge.client.totals(), Totals(number, 1, 0, 1, 0, 3, 0, 3))
            bridge.settle()
            self.assertEqual(bridge.client.totals(), Totals(number, 1, 0, 1, 0, 3, 0, 4))
            self.assertEqual(bridge.manager.totals(), Totals(number, 1, 0, 0, 2, 0, 0, 0))
            for channel, times in zip("ABCE", (1, 1, 2, 3)):
                for _ in range(times):
                    self.assertIsNotNone(bridge.receiver(channel).take(channel))
            self.assertEqual(bridge.client.totals(), Totals(number, 1, 0, 1, 1, 3, 0, 4))
            self.assertEqual(bridge.manager.totals(), Totals(number, 1, 0, 1, 2, 2, 0, 3))
            bridge.offer("D", Beat(opcode=1, size=2, data=bytes(4)))
            self.assertEqual(len(list(bridge.receive_all("D"))), 1)
            self.assertEqual((bridge.client.totals().d, bridge.manager.totals().d), (1, 1))

    def test_receipt(self) -> None:
        """A side gives a receipt once its channels are closed and nothing is staged; the other side has all once it
        took as many."""
        with Bridge(8, 4, ring=1) as bridge:
            self.assertIsNone(bridge.manager.finish())
            for _ in range(2):
                bridge.offer("E", Beat())
            bridge.client.close("A")
            bridge.client.close("C")
            self.assertEqual(bridge.client.pump(), 1)
            self.assertIsNone(bridge.client.finish())
            bridge.client.close("E")
            receipt = finished(bridge.client)
            self.assertEqual(receipt, replace(bridge.client.totals(), finished=1))
            self.assertEqual(receipt.e, 2)
            self.assertFalse(bridge.client.ready("E"))
            for _ in range(2):
                self.assertFalse(bridge.manager.drained(receipt))
                self.assertEqual(bridge.manager.fetch() if bridge.meet().e.inbox == 0 else 1, 1)
                self.assertIsNotNone(bridge.manager.take("E"))
            self.assertTrue(bridge.manager.drained(receipt))

    def test_receipt_of_the_manager(self) -> None:
        with Bridge(8, 4) as bridge:
            bridge.offer("B", Beat(opcode=6, size=2, mask=0xF))
            bridge.manager.close("B")
            bridge.manager.close("D")
            self.assertIsNone(bridge.manager.finish())
            bridge.settle()
            receipt = finished(bridge.manager)
            self.assertEqual((receipt.finished, receipt.b, receipt.d), (2, 1, 0))
            self.assertFalse(bridge.client.drained(receipt))
            self.assertIsNotNone(bridge.client.take("B"))
            self.assertTrue(bridge.client.drained(receipt))

    def test_receipt_refused(self) -> None:
        """A receipt of another bridge, and sides that were freed, are refused."""
        with Bridge(8, 4) as bridge, Bridge(8, 4) as other:
            for channel in "ACE":
                bridge.client.close(channel)
            receipt = finished(bridge.client)
            self.assertTrue(bridge.manager.drained(receipt))
            with self.assertRaises(RefusedError) as refused:
                other.manager.drained(receipt)
            self.assertEqual(refused.exception.status.name, "BridgeMismatch")
            bridge.free()
            calls: Tuple[Callable[[], object], ...]
            calls = (bridge.client.totals, bridge.client.finish, lambda: bridge.manager.drained(receipt))
            for call in calls:
                with self.assertRaises(RefusedError) as refused:
                    call()
                self.assertEqual(refused.exception.status.name, "NotOpen")

    def test_ring(self) -> None:
        for ring in (-1, 1 << 64):
            with self.subTest(ring=ring), self.assertRaisesRegex(ValueError, f"a ring of {ring} beats"):
                Bridge(8, 4, ring=ring)
        with Bridge(8, 4, ring=1) as bridge:
            bridge.client.offer("C", Beat(opcode=7, size=3, data=bytes(8)))
            self.assertEqual((bridge.client.pump(), bridge.meet().c), (1, Counts(1, 1, 0)))

    def test_wide_ring(self) -> None:
        """A number of beats of 64 bits is passed as it is."""
        for ring in (4097, (1 << 32) + 1, (1 << 63) + 16, (1 << 64) - 1):
            with self.subTest(ring=ring), self.assertRaises(RefusedError) as refused:
                Bridge(8, 4, ring=ring)
            self.assertEqual(refused.exception.status.name, "RingSize")

    def test_channels(self) -> None:
        """Each call on each side takes only a channel of its own, of one letter."""
        with Bridge(8, 4) as bridge:
            for side, name, sends, takes in (
                (bridge.client, "client", "ACE", "BD"),
                (bridge.manager, "manager", "BD", "ACE"),
            ):
                calls = (
                    ("sends", sends, side.ready),
                    ("sends", sends, side.close),
                    ("sends", sends, lambda channel: side.offer(channel, Beat())),
                    ("takes", takes, side.take),
                )
                for verb, own, call in calls:
                    for channel in (
                        "",
                        "AC",
                        "ABCDE",
                        "BD",
                        "a",
                        "F",
                        "é",
                        *(channel for channel in "ABCDE" if channel not in own),
                    ):
                        with (
                            self.subTest(side=name, verb=verb, channel=channel),
                            self.assertRaises(ValueError) as refused,
                        ):
                            call(channel)
                        self.assertEqual(
                            str(refused.exception), f"the {name}'s side {verb} {', '.join(own)}, and not {channel!r}"
                        )

    def test_widths(self) -> None:
        """Each side takes and gives as many lanes as its own link has."""
        for client, manager in PAIRS:
            with self.subTest(client=client, manager=manager), Bridge(client, manager) as bridge:
                self.assertEqual((bridge.client.width, bridge.manager.width), (client, manager))
                self.assertEqual((bridge.sender("B"), bridge.receiver("B")), (bridge.manager, bridge.client))
                bridge.offer("C", Beat(opcode=7, data=bytes([7] * client)))
                bridge.offer("B", Beat(opcode=0, mask=1, data=bytes([9] * manager)))
                self.assertEqual([beat.data for beat in bridge.receive_all("C")], [b"\7" + bytes(manager - 1)])
                self.assertEqual([beat.data for beat in bridge.receive_all("B")], [b"\x09" + bytes(client - 1)])

    def test_left(self) -> None:
        """A bridge that is left is freed; a side of one that was freed refuses."""
        with Bridge(8, 4) as bridge:
            pass
        for side in (bridge.client, bridge.manager):
            self.assertFalse(side._handle.is_open)
        bridge = Bridge(8, 4)
        bridge.free()
        for side, channel in ((bridge.client, "A"), (bridge.manager, "B")):
            with self.assertRaises(RefusedError) as refused:
                side.close(channel)
            self.assertEqual(refused.exception.status.name, "NotOpen")


class Library(unittest.TestCase):
    @pytest.mark.usefixtures("library")
    def test_one(self) -> None:
        self.assertIs(load(), load())

    @pytest.mark.usefixtures("library")
    def test_another(self) -> None:
        """load() with a path loads that library, and later calls return it."""
        first = load()
        with tempfile.TemporaryDirectory() as room:
            path = shutil.copy(os.environ["TLBRIDGE_LIBRARY"], Path(room) / "other.so")
            try:
                other = load(path)
                self.assertIsNot(other, first)
                self.assertEqual(other._name, path)
                self.assertIs(load(), other)
            finally:
                tlbridge.library._loaded = first

    @pytest.mark.usefixtures("library")
    def test_found(self) -> None:
        """The variable TLBRIDGE_LIBRARY comes first, then the package's own file, then that of the installed tree, then
        the loader's."""
        named = os.environ["TLBRIDGE_LIBRARY"]
        with tempfile.TemporaryDirectory() as room:
            folder = Path(room) / "share" / "tlbridge" / "python"
            shutil.copytree(
                ROOT / "python" / "tlbridge", folder / "tlbridge", ignore=shutil.ignore_patterns("__pycache__")
            )
            packed, installed = folder / "tlbridge" / "libtlbridge.so", Path(room) / "lib" / "libtlbridge.so"
            installed.parent.mkdir()
            program = (
                "import sys, ctypes.util; ctypes.util.find_library = lambda name: {'tlbridge': sys.argv[1] or"
                " None}[name]\nimport tlbridge\ntry: print(tlbridge.load()._name)\nexcept tlbridge.MissingLibraryError"
                " as error: print(error)"
            )
            none = (
                "libtlbridge.so was not found: `make install` makes it, and the variable TLBRIDGE_LIBRARY may name it"
            )
            for variable, places, by_loader, wanted in (
                (named, (packed, installed), "/nowhere.so", named),
                (named, (), "", named),
                ("", (packed, installed), "/nowhere.so", str(packed)),
                ("", (installed,), "/nowhere.so", str(installed)),
                ("", (), named, named),
                ("", (), "", none),
            ):
                for place in (packed, installed):
                    place.unlink(missing_ok=True)
                for place in places:
                    shutil.copy(named, place)
                environment = {**os.environ, "PYTHONPATH": str(folder), "TLBRIDGE_LIBRARY": variable}
                ran = subprocess.run(
                    [sys.executable, "-c", program, by_loader],
                    env=environment,
                    capture_output=True,
                    text=True,
                    timeout=60,
                )
                with self.subTest(variable=variable, places=places, by_loader=by_loader):
                    self.assertEqual((ran.stdout, ran.stderr), (f"{wanted}\n", ""))

    @pytest.mark.usefixtures("library")
    def test_words(self) -> None:
        """A status and each error that has one say its number, its name and its sentence."""
        said = "8 SourceBusy: the source's last request still waits for its response"
        status = status_of(8)
        self.assertEqual((str(status), str(RefusedError(status)), RefusedError(status).status), (said, said, status))
        self.assertEqual((status.number, status.name), (8, "SourceBusy"))
        self.assertEqual(
            (str(tlbridge.TraceFaultError(status, 0)), str(tlbridge.TraceFaultError(status, 7))),
            (said, f"line 7: {said}"),
        )

    @pytest.mark.usefixtures("library")
    def test_nothing_else_is_printed(self) -> None:
        """A bridge that cannot be made leaves nothing that is freed."""
        program = (
            "import tlbridge\nfor widths in ((8, 3), (8, 4, 0), (8, 4, -1)):\n  try: tlbridge.Bridge(*widths)\n  except"
            " Exception as error: print(type(error).__name__)"
        )
        ran = self.run_apart(program)
        self.assertEqual(
            (ran.returncode, ran.stdout.split(), ran.stderr),
            (0, ["MissingLibraryError", "RefusedError", "ValueError"], ""),
        )

    def run_apart(self, program: str, **environment: str) -> "subprocess.CompletedProcess[str]":
        environment = {**os.environ, "PYTHONPATH": os.pathsep.join(sys.path), **environment}
        return subprocess.run(
            [sys.executable, "-c", program], env=environment, capture_output=True, text=True, timeout=60
        )

    def test_named_wrongly(self) -> None:
        program = (
            "import tlbridge\ntry:\n  tlbridge.load()\nexcept tlbridge.MissingLibraryError as error:\n "
            " print('missing', error)"
        )
        for path in ("/nowhere.so", __file__):
            ran = self.run_apart(program, TLBRIDGE_LIBRARY=path)
            self.assertEqual((ran.returncode, ran.stderr), (0, ""))
            self.assertTrue(ran.stdout.startswith(f"missing {path}: "), ran.stdout)
            self.assertEqual(ran.stdout.count(path), 1, ran.stdout)

    @pytest.mark.usefixtures("library")
    def test_another_version(self) -> None:
        """A library of another version is refused by its number."""
        program = (
            "import tlbridge, tlbridge.bridge as b\nb.VERSION = 4\ntry:\n  tlbridge.Bridge(8, 4)\n"
            "except tlbridge.MissingLibraryError as error:\n  print(error)"
        )
        self.assertEqual(self.run_apart(program).stdout, "the library is of version 7, and this package of 4\n")

    @pytest.mark.usefixtures("library")
    def test_memory(self) -> None:
        """A thousand bridges and boards, made and left, take no more memory than the first hundred."""
        program = (
            "import resource, tlbridge\n"
            "def many(count):\n"
            "  for _ in range(count):\n"
            "    with tlbridge.Bridge(8, 4, ring=256) as bridge: bridge.settle()\n"
            "    bridge = tlbridge.Bridge(8, 4, ring=256)\n"
            "    board = tlbridge.Scoreboard(8, 4)\n"
            "    for i in range(70): board.beat('client', 'E', i, tlbridge.Beat(sink=1))\n"
            "    board.beat('manager', 'E', 9, tlbridge.Beat(sink=2)); board.end()\n"
            "  return resource.getrusage(resource.RUSAGE_SELF).ru_maxrss\n"
            "first = many(20); print(many(150) - first)"
        )
        ran = self.run_apart(program)
        self.assertEqual((ran.returncode, ran.stderr), (0, ""))
        self.assertLess(int(ran.stdout), 2000)  # KiB


class Answers:
    """A library whose answer to each trace is given, and which notes its calls."""

    def __init__(self, text: bytes = b"", number: int = 0, line: int = 0, all_done: int = 1) -> None:
        self.text, self.number, self.line, self.all_done = text, number, line, all_done
        self.calls: List[Any] = []

        def answers(data: Any, length: Any, check: Any, made: Any) -> int:
            if not isinstance(data, bytes):
                raise TypeError("the library takes bytes")
            self.calls.append((data, length, int(check)))
            made._obj.line = self.line
            if self.number == 0:
                made._obj.text, made._obj.length, made._obj.all_done = (
                    ctypes.cast(ctypes.c_char_p(self.text), ctypes.c_void_p).value,
                    len(self.text),
                    self.all_done,
                )
            return self.number

        self.tl_answer_trace = answers
        self.tl_answer_free = lambda made: self.calls.append("free")


class OfTraces(unittest.TestCase):
    """answer() passes the whole text, reads the whole answer, and frees it."""

    def answer(self, library: Any, *words: Any, **more: Any) -> Any:
        with mock.patch("tlbridge.traces.load", return_value=library):
            return tlbridge.run_trace(*words, **more)

    def test_answered(self) -> None:
        for text, given, is_done in (
            ("A\0é\n", "A\0é\n".encode(), False),
            (b"\xff\0", b"\xff\0", True),
            (bytearray(b"\0A"), b"\0A", False),
            (memoryview(b"B\0"), b"B\0", True),
        ):
            library = Answers("= A\0 döne\n".encode(), all_done=is_done)
            self.assertEqual(self.answer(library, text, check=is_done), tlbridge.TraceResult("= A\0 döne\n", is_done))
            self.assertEqual(library.calls, [(given, len(given), int(is_done)), "free"])
        library = Answers()
        self.answer(library, "")
        self.assertEqual(library.calls, [(b"", 0, 0), "free"])

    def test_the_status_of_an_answer_is_one_byte(self) -> None:
        self.assertIs(tlbridge.library.PROTOTYPES["tl_answer_trace"][0], ctypes.c_uint8)

    def test_freed_if_it_is_no_text(self) -> None:
        library = Answers(b"\xff")
        with self.assertRaises(UnicodeDecodeError):
            self.answer(library, "")
        self.assertEqual(library.calls, [(b"", 0, 0), "free"])

    @pytest.mark.usefixtures("library")
    def test_faults(self) -> None:
        for number, line, said in (
            (14, 1, "line 1: 14 Header"),
            (17, 70000000000, "line 70000000000: 17 Shape"),
            (13, 0, "13 OutOfMemory"),
        ):
            library = Answers(number=number, line=line)
            with self.assertRaises(tlbridge.TraceFaultError) as fault:
                self.answer(library, "A\n")
            self.assertEqual((fault.exception.status.number, fault.exception.line), (number, line))
            self.assertTrue(str(fault.exception).startswith(said), str(fault.exception))
            self.assertEqual(len(library.calls), 1)


class Names(unittest.TestCase):
    def test_all(self) -> None:
        """`from tlbridge import *` gives each public name of the package that is no module."""
        public = {
            name
            for name, value in vars(tlbridge).items()
            if not name.startswith("_") and not isinstance(value, types.ModuleType)
        }
        self.assertEqual({*tlbridge.__all__}, public)


@pytest.mark.usefixtures("library")
class Counted(unittest.TestCase):
    def test_wide_counts(self) -> None:
        """The calls that count return 64 bits."""
        board = Scoreboard(8, 4, allow_no_beats=True)
        for name in ("tl_scoreboard_finish", "tl_scoreboard_differences", "tl_scoreboard_beats"):
            self.assertIs(getattr(load(), name).restype, ctypes.c_uint64)
        board.end()

    def test_wide_times(self) -> None:
        """A time of 64 bits is passed on as it is."""
        late = (1 << 62) + (1 << 40) + 5
        board = Scoreboard(8, 4)
        board.beat("client", "E", late, Beat(sink=1))
        board.beat("manager", "E", late + 1, Beat(sink=2))
        board.beat("client", "E", late + 2, Beat(sink=3))
        board.reset("manager", True, late + 9)
        self.assertEqual(
            board.lines,
            [
                f"time {late + 1}: far E beat 0; sink got 0002, expected 0001",
                f"time {late + 9}: reset of the manager's link: 1 beats in flight on both links are not judged",
            ],
        )

    def test_two_boards(self) -> None:
        """Each board has its own lines and counts."""
        boards = [Scoreboard(8, 4), Scoreboard(4, 8) if (4, 8) in PAIRS else Scoreboard(8, 4)]
        boards[0].beat("client", "E", 1, Beat(sink=1))
        self.assertEqual(([board.end() for board in boards], [board.beats for board in boards]), ([1, 1], [1, 0]))
        self.assertEqual(
            [board.lines for board in boards],
            [
                ["time 1: far E beat 0: sink 0001: expected but missing"],
                ["time 0: no beat was accepted on either link, so nothing was compared"],
            ],
        )

    def test_no_pair(self) -> None:
        with self.assertRaisesRegex(
            MissingLibraryError, "the library has no pair 3:3, or there is no memory; it has .*8:4"
        ):
            Scoreboard(3, 3)
