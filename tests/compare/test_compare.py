"""Tests sv/compare over the verified program: what it prints about the beats of two links, and how it ends.

The expected beats and messages are worked by hand from docs/SPECIFICATION.md.
"""

import contextlib
import io
import os
import re
import shutil
import subprocess
import sys
from pathlib import Path
from typing import Any, List, Optional, Sequence, Tuple
from unittest import mock

import pytest
from differences import Differences
from project import ROOT, needs_program
from tlbridge import judge, run
from tlbridge.compare import main as compare_main

COMPARE = ROOT / "sv" / "compare"

FIELDS = {
    "A": "opcode param size source address mask data corrupt".split(),
    "B": "opcode param size source address mask data corrupt".split(),
    "C": "opcode param size source address data corrupt".split(),
    "D": "opcode param size source sink denied data corrupt".split(),
    "E": ["sink"],
}

# A client of 8 lanes writes 8 bytes at 0x1000, of which a manager of 4 gets two beats, and acquires 4 at 0x1004.
CLIENT = """\
A 1 0 3 01 0000000000001000 81 7766554433221100 0
A 6 0 2 02 0000000000001004 f0 0000000000000000 0
D 5 0 2 02 07 0 ddccbbaa00000000 0
D 0 0 3 01 00 0 0000000000000000 0
E 07
"""
MANAGER = """\
A 1 0 3 01 0000000000001000 1 33221100 0
A 1 0 3 01 0000000000001000 8 77665544 0
A 6 0 2 02 0000000000001004 f 00000000 0
D 5 0 2 02 07 0 ddccbbaa 0
D 0 0 3 01 00 0 00000000 0
E 07
"""
PUT, ACQUIRE, GRANT_DATA, PUT_ACK = (
    "A 1 0 3 01 0000000000001000 81 7766554433221100 0",
    "A 6 0 2 02 0000000000001004 f0 0000000000000000 0",
    "D 5 0 2 02 07 0 ddccbbaa 0",
    "D 0 0 3 01 00 0 00000000 0",
)
RIGHT = """\
A: done: 2 near beats, 3 far beats expected
B: done: 0 near beats, 0 far beats expected
C: done: 0 near beats, 0 far beats expected
D: done: 2 near beats, 2 far beats expected
E: done: 1 near beats, 1 far beats expected
"""
NOT_JUDGED = "later beats of the channel are not judged"

# All five channels, with bursts: in addition to the above, 16 bytes are written, acquired and released, and a block is
# probed.
LONG_CLIENT = """\
A 0 0 4 03 0000000000002000 ff 0706050403020100 1
A 0 0 4 03 0000000000002000 ff 0f0e0d0c0b0a0908 0
A 6 0 4 04 0000000000003000 ff 0000000000000000 0
A 1 0 1 05 0000000000004006 40 00aa000000000000 0
B 6 1 3 06 0000000000005000 ff 0000000000000000 0
B 1 0 2 07 0000000000005004 50 0033000000000000 0
C 7 1 4 08 0000000000006000 1716151413121110 0
C 7 1 4 08 0000000000006000 1f1e1d1c1b1a1918 1
C 4 2 3 06 0000000000005000 0000000000000000 0
D 0 0 4 03 00 1 0000000000000000 0
D 5 0 4 04 09 0 2726252423222120 1
D 5 0 4 04 09 0 2f2e2d2c2b2a2928 0
D 6 0 4 08 00 0 0000000000000000 0
D 0 0 1 05 00 0 0000000000000000 0
E 09
"""
LONG_MANAGER = """\
A 0 0 4 03 0000000000002000 f 03020100 1
A 0 0 4 03 0000000000002000 f 07060504 1
A 0 0 4 03 0000000000002000 f 0b0a0908 0
A 0 0 4 03 0000000000002000 f 0f0e0d0c 0
A 6 0 4 04 0000000000003000 f 00000000 0
A 1 0 1 05 0000000000004006 4 00aa0000 0
B 6 1 3 06 0000000000005000 f 00000000 0
B 1 0 2 07 0000000000005004 5 00330000 0
C 7 1 4 08 0000000000006000 13121110 0
C 7 1 4 08 0000000000006000 17161514 0
C 7 1 4 08 0000000000006000 1b1a1918 1
C 7 1 4 08 0000000000006000 1f1e1d1c 1
C 4 2 3 06 0000000000005000 00000000 0
D 0 0 4 03 00 1 00000000 0
D 5 0 4 04 09 0 23222120 0
D 5 0 4 04 09 0 27262524 1
D 5 0 4 04 09 0 2b2a2928 0
D 5 0 4 04 09 0 2f2e2d2c 0
D 6 0 4 08 00 0 00000000 0
D 0 0 1 05 00 0 00000000 0
E 09
"""
# For each far beat of these, the line of the near beat that its message begins with, in the other file.
ORIGINS = {"A": (1, 1, 1, 1, 3, 4), "B": (7, 8), "C": (7, 7, 7, 7, 9), "D": (14, 15, 15, 19, 20), "E": (15,)}


def changed(text: str, old: str, new: str) -> str:
    if old and text.count(old) != 1:
        raise AssertionError(f"{old!r} is there {text.count(old)} times")
    return text.replace(old, new) if old else text


def times(text: str) -> str:
    return "".join(f"{10 * at}\n" for at in range(1, text.count("\n") + 1))


def said(*changes: Any) -> str:
    """RIGHT with other lines for a channel."""
    lines = RIGHT.splitlines(True)
    for channel, *instead in changes:
        lines["ABCDE".index(channel)] = "".join(f"{channel}: {line}\n" for line in instead)
    return "".join(lines)


# The module with what it imports, some of which tests change.
JUDGE: Any = judge
Step = Tuple[str, int, str, int]


class Case:
    """Files of both links, and the expected output. Without an answer only the status and `error`, a part of the error,
    are compared."""

    def __init__(
        self,
        name: str,
        client: str = CLIENT,
        manager: Optional[str] = MANAGER,
        answer: str = "",
        error: str = "",
        status: int = 0,
        words: Sequence[str] = (),
        widths: Sequence[str] = ("8", "4"),
        with_times: bool = False,
    ) -> None:
        self.name, self.client, self.manager = name, client, manager
        self.answer, self.error, self.status = answer, error, status
        self.words, self.widths, self.with_times = words, widths, with_times


A_DONE, D_DONE, E_DONE = (
    "done: 2 near beats, 3 far beats expected",
    "done: 2 near beats, 2 far beats expected",
    "done: 1 near beats, 1 far beats expected",
)
BEGINS_1 = f"; its message begins at client.beats line 1: {PUT}"
UNMASKED = changed(MANAGER, "1 33221100", "1 33221a00")
UNMASKED_B = changed(LONG_CLIENT, "50 0033000000000000", "50 0033ab0000000000")
GET_MISSING = changed(MANAGER, "A 6 0 2 02 0000000000001004 f 00000000 0\n", "")
CUT = "A 0 0 4 03 0000000000002000 ff 0706050403020100 0\n"
CASES = (
    Case("all is as expected", answer=RIGHT),
    Case("all is as expected, and there are times", answer=RIGHT, with_times=True),
    Case(
        "a mask",
        manager=changed(MANAGER, "8 77665544", "c 77665544"),
        with_times=True,
        status=1,
        answer="first difference: channel A, time 20\n"
        + said(
            (
                "A",
                A_DONE,
                (
                    "far beat 1, manager.beats line 2, time 20: mask is c, expected 8; its message begins at "
                    f"client.beats line 1, time 10: {PUT}"
                ),
            )
        ),
    ),
    Case(
        "two fields, and no times",
        client=changed(CLIENT, "D 5 0 2 02 07 0 ddccbbaa00000000 0", "D 5 0 2 02 07 1 00000000ddccbbaa 0"),
        status=1,
        answer=said(
            (
                "D",
                D_DONE,
                (
                    "far beat 0, client.beats line 3: denied is 1, expected 0; data is 00000000ddccbbaa, expected"
                    f" ddccbbaa00000000; its message begins at manager.beats line 4: {GRANT_DATA}"
                ),
            )
        ),
    ),
    Case(
        "two beats differ",
        manager=changed(UNMASKED, "8 77665544", "8 00665544"),
        status=1,
        answer=said(
            (
                "A",
                A_DONE,
                f"far beat 0, manager.beats line 1: data is 33221a00, expected 33221100{BEGINS_1} (2 beats differ)",
            )
        ),
    ),
    Case(
        "two beats in the wrong order",
        client=changed(
            changed(CLIENT, "D 5 0 2 02 07 0 ddccbbaa00000000 0\n", ""),
            "E 07",
            "D 5 0 2 02 07 0 ddccbbaa00000000 0\nE 07",
        ),
        status=1,
        answer=said(
            (
                "D",
                D_DONE,
                (
                    "far beat 0, client.beats line 3: opcode is 0, expected 5; size is 3, expected 2; source is 01,"
                    " expected 02; sink is 00, expected 07; data is 0000000000000000, expected ddccbbaa00000000; its"
                    f" message begins at manager.beats line 4: {GRANT_DATA} (2 beats differ)"
                ),
            )
        ),
    ),
    Case(
        "an unmasked byte",
        manager=UNMASKED,
        status=1,
        answer=said(("A", A_DONE, f"far beat 0, manager.beats line 1: data is 33221a00, expected 33221100{BEGINS_1}")),
    ),
    Case("an unmasked byte, ignored", manager=UNMASKED, words=("--ignore-unmasked",), answer=RIGHT),
    Case(
        "the expected mask says which bytes are compared",
        manager=changed(MANAGER, "1 33221100", "3 3322aa00"),
        words=("--ignore-unmasked",),
        status=1,
        answer=said(("A", A_DONE, f"far beat 0, manager.beats line 1: mask is 3, expected 1{BEGINS_1}")),
    ),
    Case(
        "a masked byte, not ignored",
        manager=changed(MANAGER, "1 33221100", "1 33221a01"),
        words=("--ignore-unmasked",),
        status=1,
        answer=said(("A", A_DONE, f"far beat 0, manager.beats line 1: data is ......01, expected ......00{BEGINS_1}")),
    ),
    Case("an unmasked byte of B", client=UNMASKED_B, manager=LONG_MANAGER, status=1, error=""),
    Case("an unmasked byte of B, ignored", client=UNMASKED_B, manager=LONG_MANAGER, words=("--ignore-unmasked",)),
    Case(
        "a lane without a byte of PutFullData is never ignored",
        client="A 0 0 0 01 0000000000001000 01 000000000000005a 0\n",
        manager="A 0 0 0 01 0000000000001000 1 0000ff5a 0\n",
        words=("--ignore-unmasked",),
        status=1,
    ),
    Case(
        "an unknown byte",
        manager=changed(MANAGER, "8 77665544", "8 xx665544"),
        status=1,
        answer=said(("A", A_DONE, f"far beat 1, manager.beats line 2: data is xx665544, expected 77665544{BEGINS_1}")),
    ),
    Case(
        "a nibble with known and unknown bits",
        manager=changed(MANAGER, "8 77665544", "8 7X665544"),
        status=1,
        answer=said(("A", A_DONE, f"far beat 1, manager.beats line 2: data is 7X665544, expected 77665544{BEGINS_1}")),
    ),
    Case(
        "a far beat is lost",
        manager=GET_MISSING,
        status=1,
        answer=said(
            (
                "A",
                A_DONE,
                (
                    "far beat 2 is expected but missing: A 6 0 2 02 0000000000001004 f 00000000 0; its message begins"
                    f" at client.beats line 2: {ACQUIRE}"
                ),
            )
        ),
    ),
    Case(
        "two far beats are lost",
        manager=changed(GET_MISSING, "A 1 0 3 01 0000000000001000 8 77665544 0\n", ""),
        status=1,
        answer=said(
            (
                "A",
                A_DONE,
                (
                    f"far beat 1 is expected but missing: A 1 0 3 01 0000000000001000 8 77665544 0{BEGINS_1} (2 beats"
                    " are missing)"
                ),
            )
        ),
    ),
    Case(
        "a far beat comes twice",
        manager=MANAGER + "E 07\n",
        with_times=True,
        status=1,
        answer="first fault: channel E, manager.beats line 7, time 70: a second GrantAck to sink 07: its last Grant has"
        " one, at manager.beats line 6, time 60: E 07\n"
        + said(("E", E_DONE, "far beat 1, manager.beats line 7, time 70, is unexpected: E 07")),
    ),
    Case(
        "two far beats that are unexpected",
        manager=MANAGER + "E 07\nE 08\n",
        status=1,
        answer=said(("E", E_DONE, "far beat 1, manager.beats line 7, is unexpected: E 07 (2 beats are unexpected)")),
    ),
    Case(
        "no far beat at all",
        manager=changed(changed(MANAGER, MANAGER[: MANAGER.index("D")], ""), "E 07\n", ""),
        status=1,
        answer=said(
            (
                "A",
                A_DONE,
                (
                    f"far beat 0 is expected but missing: A 1 0 3 01 0000000000001000 1 33221100 0{BEGINS_1} (3 beats"
                    " are missing)"
                ),
            ),
            ("E", E_DONE, "far beat 0 is expected but missing: E 07; its message begins at client.beats line 5: E 07"),
        ),
    ),
    Case(
        "an empty file at one link",
        client="E 07\n",
        manager="",
        status=1,
        answer=said(
            ("A", "done: 0 near beats, 0 far beats expected"),
            ("D", "done: 0 near beats, 0 far beats expected"),
            ("E", E_DONE, "far beat 0 is expected but missing: E 07; its message begins at client.beats line 1: E 07"),
        ),
    ),
    Case(
        "the first difference is the earliest in time",
        client=changed(CLIENT, "D 0 0 3 01 00 0 00", "D 0 0 3 01 00 1 00"),
        manager=changed(MANAGER, "f 00000000 0\n", "f 00000000 1\n"),
        with_times=True,
        status=1,
        answer="first difference: channel A, time 30\n"
        + said(
            (
                "A",
                A_DONE,
                (
                    "far beat 2, manager.beats line 3, time 30: corrupt is 1, expected 0; its message begins at"
                    f" client.beats line 2, time 20: {ACQUIRE}"
                ),
            ),
            (
                "D",
                D_DONE,
                (
                    "far beat 1, client.beats line 4, time 40: denied is 1, expected 0; its message begins at"
                    f" manager.beats line 5, time 50: {PUT_ACK}"
                ),
            ),
        ),
    ),
    Case(
        "a near beat is refused",
        client=changed(CLIENT, "A 6 0 2 02 0000000000001004", "A 6 0 2 02 0000000000001002"),
        with_times=True,
        status=1,
        answer="first difference: channel A, time 20\n"
        + said(
            (
                "A",
                (
                    f"refused: near beat 1, client.beats line 2, time 20: Unaligned: {ACQUIRE.replace('1004', '1002')};"
                    f" {NOT_JUDGED}"
                ),
            ),
            ("D", f"waiting: near beat 0, manager.beats line 4, time 40: NoRequest: {GRANT_DATA}; {NOT_JUDGED}"),
        ),
    ),
    Case(
        "a response waits for its request",
        client="D 0 0 2 05 00 0 0000000000000000 0\n",
        manager="D 0 0 2 05 00 0 00000000 0\n",
        status=1,
        answer=said(
            ("A", "done: 0 near beats, 0 far beats expected"),
            ("E", "done: 0 near beats, 0 far beats expected"),
            ("D", f"waiting: near beat 0, manager.beats line 1: NoRequest: D 0 0 2 05 00 0 00000000 0; {NOT_JUDGED}"),
        ),
    ),
    Case(
        "a burst is cut, and more than its far beats come",
        client=CUT,
        manager="A 0 0 4 03 0000000000002000 f 03020100 0\n" + 2 * "A 0 0 4 03 0000000000002000 f 07060504 0\n",
        status=1,
        answer=said(
            (
                "A",
                "cut: 1 near beats, 2 far beats expected; the last burst is not complete",
                "far beat 2, manager.beats line 3, is unexpected: A 0 0 4 03 0000000000002000 f 07060504 0",
            ),
            ("D", "done: 0 near beats, 0 far beats expected"),
            ("E", "done: 0 near beats, 0 far beats expected"),
        ),
    ),
    Case(
        "a burst is cut",
        client=CUT,
        manager="A 0 0 4 03 0000000000002000 f 03020100 0\nA 0 0 4 03 0000000000002000 f 07060504 0\n",
        status=1,
        answer=said(
            ("A", "cut: 1 near beats, 2 far beats expected; the last burst is not complete"),
            ("D", "done: 0 near beats, 0 far beats expected"),
            ("E", "done: 0 near beats, 0 far beats expected"),
        ),
    ),
    Case(
        "ids of four digits at one link",
        client=CLIENT.replace(" 02 ", " 0002 ").replace(" 01 ", " 0001 ").replace(" 00 0 ", " 0000 0 "),
        answer=RIGHT,
    ),
    Case(
        "ids of sixteen bits",
        client="A 4 0 2 1234 0000000000001004 f0 0000000000000000 0\nD 1 0 2 1234 5678 0 ddccbbaa00000000 0\nE 5678\n",
        manager="A 4 0 2 1234 0000000000001004 f 00000000 0\nD 1 0 2 1234 5678 0 ddccbbaa 0\nE 5678\n",
    ),
    Case("a wide sink alone", client="E 0107\n", manager="E 0107\n"),
    Case("a wide sink that is cut", client="E 0107\n", manager="E 0007\n", status=1),
    Case(
        "no beat at all",
        client="",
        manager="",
        status=2,
        error="tlbridge-compare: no beat was accepted on either link, so there is nothing to compare\n",
    ),
    Case(
        "a missing file", manager=None, status=4, error="tlbridge-compare: manager.beats: No such file or directory\n"
    ),
    Case(
        "the widths in the wrong order",
        widths=("4", "8"),
        status=3,
        error=f"tlbridge-compare: client.beats line 1: mask has 2 digits, and not 1 as on a link of 4 bytes: {PUT}\n",
    ),
    Case(
        "a width that is none",
        widths=("8", "5"),
        status=2,
        error=(
            "tlbridge-compare: error: argument manager: a width in bytes is one of 1, 2, 4, 8, 16, 32, 64, 128, and not"
            " '5'\n"
        ),
    ),
    Case(
        "a line that is no beat",
        client=CLIENT + "done\n",
        status=3,
        error="tlbridge-compare: client.beats line 6: this is not a beat as tl_trace_monitor writes it: done\n",
    ),
    Case(
        "a line of bytes",
        client=CLIENT + "\x00\x80\xff\n",
        status=3,
        error=(
            "tlbridge-compare: client.beats line 6: this is not a beat as tl_trace_monitor writes it: \\x00\\x80\\xff\n"
        ),
    ),
    Case(
        "a header",
        client="tilelink-trace 1 client 8 manager 8\n" + CLIENT,
        status=3,
        error=(
            "tlbridge-compare: client.beats line 1: this is not a beat as tl_trace_monitor writes it: tilelink-trace 1"
            " client 8 manager 8\n"
        ),
    ),
    Case(
        "an unknown bit of a near beat",
        client=changed(CLIENT, "1000 81", "1000 x1"),
        status=3,
        error="tlbridge-compare: client.beats line 1: mask of a near beat has unknown bits: x1\n",
    ),
    Case(
        "an unknown byte of a near beat",
        client=changed(CLIENT, "81 7766", "81 xx66"),
        status=3,
        error="tlbridge-compare: client.beats line 1: data of a near beat has unknown bits: xx66554433221100\n",
    ),
    Case(
        "an unknown bit of a near beat of C",
        client=changed(LONG_CLIENT, "C 4 2 3 06", "C 4 2 3 0z"),
        manager=LONG_MANAGER,
        status=3,
        error="tlbridge-compare: client.beats line 9: source of a near beat has unknown bits: 0z\n",
    ),
    Case(
        "an unknown bit of a near beat of E",
        client=changed(CLIENT, "E 07", "E Z7"),
        status=3,
        error="tlbridge-compare: client.beats line 5: sink of a near beat has unknown bits: Z7\n",
    ),
    Case(
        "an unknown bit of a near beat of B",
        client=LONG_CLIENT,
        manager=changed(LONG_MANAGER, "B 6 1 3 06", "B 6 1 X 06"),
        status=3,
        error="tlbridge-compare: manager.beats line 7: size of a near beat has unknown bits: X\n",
    ),
    Case(
        "an unknown bit of a near beat of D",
        manager=changed(MANAGER, "02 07 0 ddccbbaa", "02 07 x ddccbbaa"),
        status=3,
        error="tlbridge-compare: manager.beats line 4: denied of a near beat has unknown bits: x\n",
    ),
    *(
        Case(
            f"a far beat of {channel} with {letter}",
            client=changed(LONG_CLIENT, *client),
            manager=changed(LONG_MANAGER, *manager),
            status=1,
        )
        for letter in "xzXZ"
        for channel, client, manager in (
            ("A", ("", ""), ("0b0a0908", f"0b0a090{letter}")),
            ("B", ("50 0033", f"50 00{letter}3"), ("", "")),
            ("C", ("", ""), ("C 4 2 3 06", f"C 4 2 3 0{letter}")),
            ("D", ("27262524232221", f"2{letter}262524232221"), ("", "")),
            ("E", ("", ""), ("E 09", f"E {letter}9")),
        )
    ),
    Case(
        "a far beat that is no number",
        manager=changed(MANAGER, "8 77665544", "8 7g665544"),
        status=3,
        error="tlbridge-compare: manager.beats line 2: data is not a lower-case hexadecimal number: 7g665544\n",
    ),
    Case(
        "a near beat that is no number",
        client=changed(CLIENT, " f0 ", " g0 "),
        status=3,
        error="tlbridge-compare: client.beats line 2: mask of a near beat is not a lower-case hexadecimal number: g0\n",
    ),
    Case(
        "lines that end with CR and LF",
        client=CLIENT.replace("\n", "\r\n"),
        manager=MANAGER.replace("\n", "\r\n"),
        answer=RIGHT,
    ),
    Case("last lines without a newline", client=CLIENT[:-1], manager=MANAGER[:-1], answer=RIGHT),
    Case(
        "an empty line",
        client=changed(CLIENT, "E 07\n", "\nE 07\n"),
        status=3,
        error="tlbridge-compare: client.beats line 5: this is not a beat as tl_trace_monitor writes it: \n",
    ),
    Case(
        "a long line",
        client=CLIENT + "A" * 9000 + "\n",
        status=3,
        error=(
            f"tlbridge-compare: client.beats line 6: this is not a beat as tl_trace_monitor writes it: {'A' * 4096}\n"
        ),
    ),
    Case(
        "a field too many",
        client=changed(CLIENT, "E 07", "E 07 0"),
        status=3,
        error="tlbridge-compare: client.beats line 5: this is not a beat as tl_trace_monitor writes it: E 07 0\n",
    ),
    Case(
        "a field too few",
        manager=changed(MANAGER, "D 0 0 3 01 00 0 00000000 0", "D 0 0 3 01 00 0 00000000"),
        status=3,
        error=(
            "tlbridge-compare: manager.beats line 5: this is not a beat as tl_trace_monitor writes it: D 0 0 3 01 00 0"
            " 00000000\n"
        ),
    ),
    *(
        Case(
            f"{name} with a digit too many",
            client=changed(LONG_CLIENT, old, new),
            manager=LONG_MANAGER,
            status=3,
            error=(
                f"tlbridge-compare: client.beats line {line}: {name} has {digits + 1} digits, and not {digits} as on a"
                f" link of 8 bytes: {of}\n"
            ),
        )
        for name, digits, line, old, new, of in (
            ("opcode", 1, 3, "A 6 0", "A 06 0", "A 06 0 4 04 0000000000003000 ff 0000000000000000 0"),
            ("param", 1, 9, "C 4 2", "C 4 02", "C 4 02 3 06 0000000000005000 0000000000000000 0"),
            ("size", 1, 14, "D 0 0 1", "D 0 0 01", "D 0 0 01 05 00 0 0000000000000000 0"),
            (
                "address",
                16,
                5,
                "06 0000000000005000 ff",
                "06 00000000000005000 ff",
                "B 6 1 3 06 00000000000005000 ff 0000000000000000 0",
            ),
            ("mask", 2, 6, " 50 0033", " 050 0033", "B 1 0 2 07 0000000000005004 050 0033000000000000 0"),
            ("data", 16, 7, "1716151413121110", "01716151413121110", "C 7 1 4 08 0000000000006000 01716151413121110 0"),
            ("denied", 1, 10, "03 00 1", "03 00 01", "D 0 0 4 03 00 01 0000000000000000 0"),
            ("corrupt", 1, 8, "1918 1", "1918 01", "C 7 1 4 08 0000000000006000 1f1e1d1c1b1a1918 01"),
        )
    ),
    Case(
        "upper case in a near beat",
        client=changed(CLIENT, " f0 ", " F0 "),
        status=3,
        error="tlbridge-compare: client.beats line 2: mask of a near beat is not a lower-case hexadecimal number: F0\n",
    ),
    Case(
        "upper case in a far beat",
        client=changed(CLIENT, "ddccbbaa", "DDccbbaa"),
        status=3,
        error="tlbridge-compare: client.beats line 3: data is not a lower-case hexadecimal number: DDccbbaa00000000\n",
    ),
    Case(
        "no program",
        words=("--program", "nowhere/tlbridge"),
        status=2,
        error="tlbridge-compare: nowhere/tlbridge: No such file or directory\n",
    ),
    Case(
        "an id that is too long at the other link",
        manager=changed(MANAGER, "A 6 0 2 02", "A 6 0 2 00002"),
        status=3,
        error=(
            "tlbridge-compare: manager.beats line 3: source has 5 digits, and not 2 or 4 as on a link of 4 bytes: A 6 0"
            " 2 00002 0000000000001004 f 00000000 0\n"
        ),
    ),
    Case(
        "an id of three digits",
        client=changed(CLIENT, "A 6 0 2 02", "A 6 0 2 002"),
        status=3,
        error=(
            "tlbridge-compare: client.beats line 2: source has 3 digits, and not 2 or 4 as on a link of 8 bytes:"
            f" {ACQUIRE.replace('2 02', '2 002')}\n"
        ),
    ),
    Case(
        "an opcode that is none",
        client=changed(CLIENT, "A 6 0 2", "A 9 0 2"),
        status=3,
        error=f"tlbridge-compare: client.beats line 2: 18 Range: {ACQUIRE.replace('A 6', 'A 9')}\n",
    ),
    Case(
        "an opcode that is none, with times",
        client=changed(CLIENT, "A 6 0 2", "A 9 0 2"),
        status=3,
        with_times=True,
        error=f"tlbridge-compare: client.beats line 2, time 20: 18 Range: {ACQUIRE.replace('A 6', 'A 9')}\n",
    ),
    Case(
        "a trace that cannot be written",
        words=("--write-trace", "nowhere/trace"),
        status=4,
        error="tlbridge-compare: nowhere/trace: No such file or directory\n",
    ),
)


class Comparison:
    """Runs the comparison over a program."""

    def __init__(self, program: Path) -> None:
        self.program = str(program)

    def compare(
        self,
        room: Path,
        client: Optional[str],
        manager: Optional[str],
        *words: str,
        widths: Sequence[str] = ("8", "4"),
        with_times: bool = False,
    ) -> Tuple[Any, str, str]:
        """Runs the comparison in this process. Returns the status, the output and the error."""
        for name, text in (("client.beats", client), ("manager.beats", manager)):
            if text is not None:
                (room / name).write_text(text, encoding="latin-1")
                if with_times:
                    (room / f"{name}.times").write_text(times(text))
        out, error = io.StringIO(), io.StringIO()
        before = os.getcwd()
        os.chdir(room)
        try:
            with contextlib.redirect_stdout(out), contextlib.redirect_stderr(error):
                try:
                    status: Any = compare_main(
                        [
                            *widths,
                            "client.beats",
                            "manager.beats",
                            *(() if "--program" in words else ("--program", self.program)),
                            *words,
                        ]
                    )
                except SystemExit as ended:
                    status = ended.code
        finally:
            os.chdir(before)
        return status, out.getvalue(), error.getvalue()


@pytest.fixture
def comparison() -> Comparison:
    return Comparison(needs_program("tlbridge"))


@pytest.mark.parametrize("case", CASES, ids=[case.name for case in CASES])
def test_files_of_two_links(comparison: Comparison, tmp_path: Path, case: Case) -> None:
    """The verdict, the differences and the error for two files of beats. Without an expected text only the status is
    compared."""
    status, answer, error = comparison.compare(
        tmp_path, case.client, case.manager, *case.words, widths=case.widths, with_times=case.with_times
    )
    error = "".join(error.splitlines(True)[-1:])  # a usage, or what the program printed, comes before it
    if case.answer or case.error:
        assert (status, answer, error) == (case.status, case.answer, case.error)
    else:
        assert status == case.status, error


# For each channel and opcode: whether the message has data (section 2 of docs/SPECIFICATION.md), or `-` if there is
# none.
HAS_DATA = {"A": "11110000", "B": "11110000", "C": "010-0101", "D": "010-010-"}


def test_each_message_has_as_many_beats_as_its_bytes_need(differences: Differences) -> None:
    """How many beats each message has on each width: one, or with data as many as its bytes need."""
    for channel, data in HAS_DATA.items():
        for opcode, mark in enumerate(data):
            for width in (1, 2, 4, 8, 16, 32, 64, 128) if mark != "-" else ():
                got = [judge.beats_in(f"{channel} {opcode} 0 {size:x} 00", width, channel) for size in range(13)]
                differences.same(
                    f"beats of {channel} {opcode} on {width} bytes",
                    got,
                    [max(2**size // width, 1) if mark == "1" else 1 for size in range(13)],
                )
    differences.same("beats of E", [judge.beats_in("E 05", width, "E") for width in (1, 128)], [1, 1])
    # each message of C with its beats on a link of 4 bytes: the number of its message for each line
    lines = [
        line
        for opcode, mark in enumerate(HAS_DATA["C"])
        if mark != "-"
        for line in [f"C {opcode} 0 4 00"] * (4 if mark == "1" else 1)
    ]
    differences.same(
        "the message of each line",
        [number for number, _ in judge.messages(iter(lines), 4, "C")],
        [0, *[1] * 4, 2, 3, *[4] * 4, 5, *[6] * 4],
    )
    rows = [run.Row(str(i), line, i) for i, line in enumerate(lines)]
    for wanted in ((0, 1, 2, 3, 4, 5, 6, 7), (1, 4, 4, 6), (6,), (7,)):
        origins = judge.Origins(iter(rows), 4, "C")
        found = map(origins.of, wanted)
        begun = [row.number if row else None for row in found]
        differences.same(
            f"the first lines of the messages {wanted}",
            begun,
            [(0, 1, 5, 6, 7, 11, 12, None)[number] for number in wanted],
        )


def test_the_first_difference_is_the_earliest_of_all_channels(
    comparison: Comparison, differences: Differences, tmp_path: Path
) -> None:
    """It is the earliest of all channels, and at equal times that of the first channel."""

    def put(width: int, data: int) -> str:
        return f"A 0 0 0 01 {0:016x} {1:0{(width + 3) // 4}x} {data:0{2 * width}x} 0\n"

    def release(width: int, data: int) -> str:
        return f"C 7 1 0 01 {0:016x} {data:0{2 * width}x} 0\n"

    for a_time, c_time, said in (
        (5, 6, "channel A, time 5"),
        (6, 5, "channel C, time 5"),
        (5, 5, "channel A, time 5"),
        (0, 0, "channel A, time 0"),
        (3, 0, "channel C, time 0"),
    ):
        (tmp_path / "client.beats.times").write_text("1\n1\n")
        (tmp_path / "manager.beats.times").write_text(f"{a_time}\n{c_time}\n")
        status, answer, _ = comparison.compare(tmp_path, put(8, 1) + release(8, 1), put(4, 2) + release(4, 2))
        differences.same(
            f"differences at {a_time} and {c_time}", (status, answer.splitlines()[0]), (1, f"first difference: {said}")
        )
    for times_of_link, words in (
        ("1\n\n", "client.beats.times line 2: not a time: "),
        ("1\n \t\n", "client.beats.times line 2: not a time:  \\x09"),
        ("\x07\n1\n", "client.beats.times line 1: not a time: \\x07"),
    ):
        (tmp_path / "client.beats.times").write_text(times_of_link)
        differences.same(
            f"times {times_of_link!r}",
            comparison.compare(tmp_path, put(8, 1) + "E 01\n", put(4, 1) + "E 01\n")[::2],
            (3, f"tlbridge-compare: {words}\n"),
        )
    # a time that is no number is printed, and orders nothing
    (tmp_path / "client.beats.times").write_text("1 ns\n2 ns\n")
    status, answer, _ = comparison.compare(tmp_path, put(8, 1) + "E 01\n", put(4, 2) + "E 01\n")
    differences.same(
        "times with units", (status, "its message begins at client.beats line 1, time 1ns: A 0" in answer), (1, True)
    )


def test_each_early_end_has_its_status_and_words(
    comparison: Comparison, differences: Differences, tmp_path: Path
) -> None:
    """Each way in which the comparison can end early, by its exit status and its words."""
    for ending, status, printed in (
        (run.FailureError("a reason"), 3, "tlbridge-compare: a reason\n"),
        (run.FailureError("a reason", 2), 2, "tlbridge-compare: a reason\n"),
        (
            OSError(28, "No space left on device", "some.file"),
            4,
            "tlbridge-compare: some.file: No space left on device\n",
        ),
        (OSError(28, "No space left on device"), 4, "tlbridge-compare: a temporary file: No space left on device\n"),
        (KeyboardInterrupt(), 130, ""),
    ):
        with mock.patch("tlbridge.compare.compare", side_effect=ending):
            got = comparison.compare(tmp_path, CLIENT, MANAGER)
            differences.same(f"an end by {ending!r}", got, (status, "", printed))
    (tmp_path / "client.beats").unlink()
    (tmp_path / "client.beats").mkdir()
    differences.same(
        "a folder",
        comparison.compare(tmp_path, None, MANAGER),
        (4, "", "tlbridge-compare: client.beats: Is a directory\n"),
    )
    (tmp_path / "client.beats").rmdir()
    comparison.compare(tmp_path, CLIENT, MANAGER)
    for unbuffered in ("", "1"):
        reader, writer = os.pipe()
        os.close(reader)
        done = subprocess.run(
            [sys.executable, str(COMPARE), "8", "4", "client.beats", "manager.beats", "--program", comparison.program],
            cwd=tmp_path,
            stdout=writer,
            stderr=subprocess.PIPE,
            env={**os.environ, "PYTHONUNBUFFERED": unbuffered},
        )
        os.close(writer)
        differences.same(
            f"nobody reads the output, unbuffered: {unbuffered!r}", (done.returncode, done.stderr), (4, b"")
        )
    status, answer, error = comparison.compare(tmp_path, CLIENT, MANAGER, "--help")
    differences.same(
        "the help",
        (
            status,
            [
                line.split()[0]
                for line in answer.partition("exit status:\n")[2].splitlines()
                if re.match("  [0-9]", line)
            ],
            error,
        ),
        (0, [*"01234"], ""),
    )
    for words in (
        (),
        ("8",),
        ("8", "4"),
        ("8", "4", "a"),
        ("8", "4", "a", "b", "c"),
        ("8", "4", "a", "b", "--unmasked"),
        ("8", "4", "a", "b", "--program"),
        *(
            (width, "4", "a", "b")
            for width in ("0", "3", "256", "-8", "8.0", "0x8", "\u0668", "8 ", "", "00008", "0008")
        ),
    ):
        got = outcome(words)
        differences.same(
            f"a wrong command line: {words}",
            (got[0], got[1], got[2].splitlines()[-1][:24]),
            (2, "", "tlbridge-compare: error:"),
        )


def outcome(words: Sequence[str]) -> Tuple[Any, str, str]:
    """The status, the output and the error of the comparison with these words."""
    out, error = io.StringIO(), io.StringIO()
    with contextlib.redirect_stdout(out), contextlib.redirect_stderr(error):
        try:
            status: Any = compare_main([*words])
        except SystemExit as ended:
            status = ended.code
    return status, out.getvalue(), error.getvalue()


def quiet_reads(count: int, width: int, mask: str, step: int = 100, late: int = 0) -> Any:
    """These many reads of 4 bytes, one after the other, and their times: the lines and times of a link of `width`
    bytes."""
    lines, at = [], []
    for number in range(count):
        lines += [f"A 4 0 2 01 {0x1000:016x} {mask} {0:0{2 * width}x} 0", f"D 1 0 2 01 00 0 {number:0{2 * width}x} 0"]
        at += [step * number + 10 + late, step * number + 50 - late]
    return lines, at


def test_a_run_of_several_parts_is_judged_as_one(
    comparison: Comparison, differences: Differences, tmp_path: Path
) -> None:
    """A run of several parts: its beats are numbered through, a refused beat ends the judgement of its channel in its
    part, and each part is written."""

    def compare(client: Any, manager: Any, *words: str) -> Tuple[Any, str, str]:
        for name, (lines, at) in (("client", client), ("manager", manager)):
            (tmp_path / f"{name}.beats.times").write_text("".join(f"{time}\n" for time in at))
        return comparison.compare(tmp_path, "\n".join(client[0]) + "\n", "\n".join(manager[0]) + "\n", *words)

    kept = run.PART_BYTES, run.MOST_BYTES, JUDGE.MOST_BYTES
    try:
        run.PART_BYTES = 400  # of each read 77 bytes: parts of 6, 6 and 3 reads
        client, manager = quiet_reads(15, 8, "0f"), quiet_reads(15, 4, "f", late=5)
        status, answer, error = compare(client, manager, "--write-trace", "made")
        differences.same(
            "three parts",
            (status, answer),
            (
                0,
                "".join(
                    f"{channel}: done: {count} near beats, {count} far beats expected\n"
                    for channel, count in zip("ABCDE", (15, 0, 0, 15, 0))
                ),
            ),
        )
        differences.same(
            "the notes of parts",
            error.splitlines(),
            [
                f"tlbridge-compare: part {number} of the run, from time {time}, is the trace made.{number}"
                for number, time in ((2, 610), (3, 1210))
            ],
        )
        near = [line for pair in zip(client[0][::2], manager[0][1::2]) for line in pair]
        at = [time for pair in zip(client[1][::2], manager[1][1::2]) for time in pair]
        for name, begin, end in (("made", 0, 12), ("made.2", 12, 24), ("made.3", 24, 30)):
            differences.same(
                f"{name} is written",
                ((tmp_path / name).read_text().splitlines(), (tmp_path / f"{name}.times").read_text().split()),
                (["tilelink-trace 1 client 8 manager 4", *near[begin:end]], [*map(str, at[begin:end])]),
            )
        # two refused beats in two parts: the first one is named, with its number in the run
        wrong = [*client[0]]
        for read in (7, 14):
            wrong[2 * read] = wrong[2 * read].replace("1000 0f", "1002 0f")
        status, answer, error = compare((wrong, client[1]), manager)
        differences.same(
            "a refused beat of the second part",
            (status, [line for line in answer.splitlines() if line[0] in "Af"]),
            (
                1,
                [
                    "first difference: channel A, time 710",
                    f"A: refused: near beat 7, client.beats line 15, time 710: Unaligned: {wrong[14]}; {NOT_JUDGED}",
                ],
            ),
        )
        differences.same(
            "and the response that waits",
            [line for line in answer.splitlines() if line[0] == "D"],
            [f"D: waiting: near beat 7, manager.beats line 16, time 745: NoRequest: {manager[0][15]}; {NOT_JUDGED}"],
        )
        # A far beat is lost in the second part. In time, its response on the manager's link has no request. By the
        # model all reads are alike, so the last one is missing.
        lost = (
            [line for i, line in enumerate(manager[0]) if i != 14],
            [time for i, time in enumerate(manager[1]) if i != 14],
        )
        status, answer, _ = compare(client, lost)
        differences.same(
            "a lost far beat",
            (status, [line for line in answer.splitlines() if line[0] in "Af"]),
            (
                1,
                [
                    (
                        "first fault: channel D, manager.beats line 15, time 745: a second response to source 01: its"
                        f" last request has one, at manager.beats line 14, time 645: {lost[0][14]}"
                    ),
                    "A: done: 15 near beats, 15 far beats expected",
                    (
                        f"A: far beat 14 is expected but missing: {manager[0][28]}; its message begins at client.beats"
                        f" line 29, time 1410: {client[0][28]}; it comes after the first fault, and may follow from it"
                    ),
                ],
            ),
        )
        # no idle point: a request that never gets its response. Its 49 bytes and those of ten reads are more than 800
        run.MOST_BYTES = JUDGE.MOST_BYTES = 4096 + 800
        stuck = ["A 4 0 2 02 " + client[0][0][11:], *client[0]]
        for far, wanted, more in (
            (manager[0], 2, ""),
            (["A 4 0 2 03" + manager[0][0][10:], *manager[0][1:]], 1, ", A source 03 on the manager's link"),
        ):
            status, answer, error = compare(
                (stuck, [1, *client[1]]), (["A 4 0 2 02 " + manager[0][0][11:], *far], [2, *manager[1]])
            )
            last = error.splitlines()[-1]
            differences.same(
                "a run without an idle point",
                (status, last.partition(" has ")[0], last.partition("split: ")[2]),
                (
                    wanted,
                    "tlbridge-compare: the trace from time 0 to 945",
                    (
                        "A source 01 on the client's link, A source 02 on the client's link, A source 02 on the"
                        f" manager's link{more}. Later beats are not judged"
                    ),
                ),
            )
        run.PART_BYTES, run.MOST_BYTES = kept[:2]
        for name in ("client", "manager"):
            (tmp_path / f"{name}.beats.times").unlink()
        for most, wanted in ((195, 0), (194, 4)):
            JUDGE.MOST_BYTES = most
            differences.same(
                f"a trace of 195 bytes, of at most {most}", comparison.compare(tmp_path, CLIENT, MANAGER)[0], wanted
            )
    finally:
        run.PART_BYTES, run.MOST_BYTES, JUDGE.MOST_BYTES = kept


# ---- Runs, event by event


def asks(link: int, time: int, source: int = 1) -> Step:
    """A link accepts a Get of this source."""
    return (
        "beat",
        link,
        f"A 4 0 2 {source:02x} {0x1000:016x} " + ("0f" + " " + "0" * 16 if link == 0 else "f " + "0" * 8) + " 0",
        time,
    )


def answers(link: int, time: int, source: int = 1) -> Step:
    """A link accepts the response to it."""
    return "beat", link, f"D 1 0 2 {source:02x} 00 0 " + "0" * (16 if link == 0 else 8) + " 0", time


def read(time: int, source: int = 1) -> List[Step]:
    """A whole read in four moments."""
    return [
        asks(0, time, source),
        asks(1, time + 1, source),
        answers(1, time + 2, source),
        answers(0, time + 3, source),
    ]


def events_of(steps: Sequence[Any], first: Any = None, last: Any = None) -> Any:
    """The notes of a run of these events, and of each part the times of its begin and end, whether it is
    cut, and the times of its beats."""
    notes: List[str] = []
    parts: List[Any] = []
    tests_beats: List[bool] = []

    def done(part: Any) -> None:
        rows = [row for kind in ("near", "far") for channel in "ABCDE" for row in part.rows(kind, channel)]
        parts.append((part.begin, part.end, part.is_cut, sorted(int(row.place) for row in rows)))
        tests_beats.append(part.beats == len(rows))

    of = run.Run(1, 8, 4, done, notes.append, first, last)
    try:
        for name, *values in steps:
            getattr(of, name)(*values, *([str(values[-1])] if name == "beat" else []))
    except run.EndedError as ended:
        notes.append(f"ended: {ended}")
    finally:
        of.close()
    return notes, parts, all(tests_beats)


LEFT_OUT = "beats after time 100 are left out: messages that began before it were under way"
ENDS_THERE = "a part of the run ends there"
RUNS: Tuple[Any, ...] = (
    ("a read", [("begins", 0), *read(10), ("finish", 20)], [], [(0, 20, False, [10, 11, 12, 13])]),
    ("no beat", [("begins", 0), ("finish", 20)], [], [(0, 20, False, [])]),
    (
        "responses to earlier requests",
        [("begins", 100), answers(1, 105), answers(0, 106), *read(110), ("finish", 120)],
        [f"2 {LEFT_OUT}"],
        [(100, 120, False, [110, 111, 112, 113])],
    ),
    (
        "responses to earlier requests behind a read",
        [("begins", 100), *read(110), answers(1, 115, 2), answers(0, 116, 2), *read(120), ("finish", 130)],
        [f"2 {LEFT_OUT}"],
        [(100, 130, False, [110, 111, 112, 113, 120, 121, 122, 123])],
    ),
    (
        "responses to earlier requests at two places",
        [
            ("begins", 100),
            answers(1, 105),
            answers(0, 106),
            *read(110),
            answers(0, 116, 2),
            *read(120),
            ("finish", 130),
        ],
        [f"3 {LEFT_OUT}"],
        [(100, 130, False, [110, 111, 112, 113, 120, 121, 122, 123])],
    ),
    (
        "a response to an earlier request beside an open one",
        [("begins", 100), asks(0, 105), answers(0, 106, 2), ("finish", 120)],
        [f"2 {LEFT_OUT}"],
        [(100, 120, False, [])],
    ),
    (
        "both behind a read",
        [("begins", 100), *read(101), asks(0, 105), answers(0, 106, 2), ("finish", 120)],
        [
            (
                "the record ends at time 120 while beats are under way: A source 01 on the client's link; --to 104 ends"
                " at the last idle point"
            ),
            f"2 {LEFT_OUT}",
        ],
        [(100, 120, False, [101, 102, 103, 104])],
    ),
    (
        "a whole record with a response to nothing",
        [("begins", 0), answers(1, 5), answers(0, 6), *read(10), ("finish", 20)],
        [],
        [(0, 20, False, [5, 6, 10, 11, 12, 13])],
    ),
    (
        "an open request at the end",
        [("begins", 0), *read(10), asks(0, 20, 2), ("finish", 30)],
        [
            "the record ends at time 30 while beats are under way: A source 02 on the client's link; --to 13 ends at"
            " the last idle point"
        ],
        [(0, 30, False, [10, 11, 12, 13, 20])],
    ),
    (
        "no idle point",
        [("begins", 0), asks(0, 20, 2), ("finish", 30)],
        ["the record ends at time 30 while beats are under way: A source 02 on the client's link"],
        [(0, 30, False, [20])],
    ),
    ("that nobody reports", [("begins", 0), asks(0, 20, 2), ("finish", 30, False)], [], [(0, 30, False, [20])]),
    (
        "four open requests",
        [("begins", 0), *[asks(0, 20 + i, i) for i in range(4)], ("finish", 30)],
        [
            "the record ends at time 30 while beats are under way: "
            + ", ".join(f"A source 0{i} on the client's link" for i in range(4))
        ],
        [(0, 30, False, [20, 21, 22, 23])],
    ),
    (
        "five open requests",
        [("begins", 0), *[asks(0, 20 + i, i) for i in range(5)], ("finish", 30)],
        [
            "the record ends at time 30 while beats are under way: "
            + ", ".join(f"A source 0{i} on the client's link" for i in range(4))
            + ", .."
        ],
        [(0, 30, False, [20, 21, 22, 23, 24])],
    ),
    (
        "a request that did not cross",
        [("begins", 0), asks(0, 20), answers(0, 21), ("finish", 30)],
        ["the record ends at time 30 while beats are under way: messages that did not cross"],
        [(0, 30, False, [20, 21])],
    ),
    (
        "resets of both links",
        [
            ("begins", 0),
            *read(10),
            asks(0, 20),
            ("reset", 0, 25, 2),
            ("reset", 1, 26, 2),
            ("leaves_reset", 0),
            ("leaves_reset", 1),
            *read(40),
            ("finish", 60),
        ],
        [
            f"reset asserted again at time 25: {ENDS_THERE}, while beats are under way (A source 01 on the client's"
            " link)"
        ],
        [(0, 20, True, [10, 11, 12, 13, 20]), (26, 60, False, [40, 41, 42, 43])],
    ),
    (
        "resets at an idle point",
        [
            ("begins", 0),
            *read(10),
            ("reset", 0, 25, 2),
            ("reset", 1, 26, 2),
            ("leaves_reset", 0),
            ("leaves_reset", 1),
            *read(40),
            ("finish", 60),
        ],
        [f"reset asserted again at time 25: {ENDS_THERE}"],
        [(0, 13, False, [10, 11, 12, 13]), (26, 60, False, [40, 41, 42, 43])],
    ),
    (
        "a reset before all beats",
        [
            ("begins", 0),
            ("reset", 0, 1, 2),
            ("reset", 1, 1, 2),
            ("leaves_reset", 0),
            ("leaves_reset", 1),
            *read(40),
            ("finish", 60),
        ],
        [],
        [(0, 60, False, [40, 41, 42, 43])],
    ),
    (
        "a reset of one of two links, and responses from before it",
        [
            ("begins", 0),
            *read(10),
            ("reset", 0, 25, 2),
            ("leaves_reset", 0),
            answers(1, 30, 2),
            *read(40),
            ("finish", 60),
        ],
        [
            f"reset asserted again at time 25: {ENDS_THERE}",
            "1 beats after time 25 are left out: messages that began before it were under way",
        ],
        [(0, 13, False, [10, 11, 12, 13]), (25, 60, False, [40, 41, 42, 43])],
    ),
    (
        "the same behind two resets of it",
        [
            ("begins", 0),
            *read(10),
            ("reset", 0, 25, 2),
            ("leaves_reset", 0),
            ("reset", 0, 27, 2),
            ("leaves_reset", 0),
            answers(1, 30, 2),
            *read(40),
            ("finish", 60),
        ],
        [
            f"reset asserted again at time 25: {ENDS_THERE}",
            "1 beats after time 27 are left out: messages that began before it were under way",
        ],
        [(0, 13, False, [10, 11, 12, 13]), (27, 60, False, [40, 41, 42, 43])],
    ),
    (
        "only a far beat after resets",
        [
            ("begins", 0),
            *read(10),
            ("reset", 0, 25, 2),
            ("reset", 1, 26, 2),
            ("leaves_reset", 0),
            ("leaves_reset", 1),
            ("beat", 1, "E 07", 40),
            ("finish", 60, False),
        ],
        [f"reset asserted again at time 25: {ENDS_THERE}"],
        [(0, 13, False, [10, 11, 12, 13]), (26, 60, False, [40])],
    ),
    (
        "a gap",
        [("begins", 0), *read(10), ("gap", 30, 50), answers(0, 55, 2), *read(60), ("finish", 80)],
        [
            f"nothing was recorded from time 30 to 50: {ENDS_THERE}",
            "1 beats after time 50 are left out: messages that began before it were under way",
        ],
        [(0, 30, False, [10, 11, 12, 13]), (50, 80, False, [60, 61, 62, 63])],
    ),
    (
        "a gap in a read",
        [("begins", 0), *read(10)[:2], ("gap", 30, 50), *read(10)[2:], *read(60), ("finish", 80)],
        [
            (
                f"nothing was recorded from time 30 to 50: {ENDS_THERE}, while beats are under way (A source 01 on the"
                " client's link, A source 01 on the manager's link)"
            ),
            "2 beats after time 50 are left out: messages that began before it were under way",
        ],
        [(0, 30, True, [10, 11]), (50, 80, False, [60, 61, 62, 63])],
    ),
)


# Reads at 10 to 13 and 30 to 33, from a time and to a time: the notes, and the times of the part and of its beats.
FIRST, SECOND, NEAREST = [10, 11, 12, 13], [30, 31, 32, 33], "the nearest time at which nothing was under way"
LIMITS: Tuple[Any, ...] = (
    (5, None, [], (5, 50), FIRST + SECOND),
    (10, None, [], (10, 50), FIRST + SECOND),
    (20, None, [], (20, 50), SECOND),
    (30, None, [], (30, 50), SECOND),
    (31, None, [f"--from 31: begins at time 30, {NEAREST}"], (30, 50), SECOND),
    (32, None, [f"--from 32: begins at time 33, {NEAREST}"], (33, 50), []),
    (None, 20, [], (0, 20), FIRST),
    (None, 13, [], (0, 13), FIRST),
    (None, 40, [], (0, 40), FIRST + SECOND),
    (None, 32, [f"--to 32: ends at time 33, {NEAREST}"], (0, 33), FIRST + SECOND),
    (None, 31, [f"--to 31: ends at time 33, {NEAREST}"], (0, 33), FIRST + SECOND),
    (None, 11, [f"--to 11: ends at time 13, {NEAREST}"], (0, 13), FIRST),
    (20, 40, [], (20, 40), SECOND),
)


def test_a_run_is_cut_at_quiet_moments(differences: Differences, tmp_path: Path) -> None:
    """A run is cut at moments at which no message is under way, and --from and --to move to the nearest of them."""
    differences.same("the longest trace, in MiB", (run.MOST_BYTES / 2**20, JUDGE.MOST_BYTES / 2**20), (64, 64))
    with mock.patch("tempfile.tempdir", str(tmp_path)):
        for name, steps, notes, parts in RUNS:
            differences.same(f"a run with {name}", events_of(steps), (notes, parts, True))
        for first, last, notes, (begin, end), beats in LIMITS:
            got = events_of([("begins", 0), *read(10), *read(30), ("finish", 50)], first, last)
            differences.same(
                f"from {first} to {last}",
                got,
                ([*notes, *(["ended: "] if last else [])], [(begin, end, False, beats)], True),
            )
        # reads at 10 to 13 and 14 to 18: of two idle points that are as near, the earlier one is taken
        twice = [("begins", 0), *read(10), *read(14)[:-1], answers(0, 18), ("finish", 50)]
        for first, last, note, begin, end, beats in (
            (16, None, f"--from 16: begins at time 14, {NEAREST}", 14, 50, [14, 15, 16, 18]),
            (17, None, f"--from 17: begins at time 18, {NEAREST}", 18, 50, []),
            (None, 15, f"--to 15: ends at time 13, {NEAREST}", 0, 13, FIRST),
            (None, 17, f"--to 17: ends at time 18, {NEAREST}", 0, 18, [*FIRST, 14, 15, 16, 18]),
        ):
            differences.same(
                f"from {first} to {last} of two reads in a row",
                events_of(twice, first, last),
                ([note, *(["ended: "] if last else [])], [(begin, end, False, beats)], True),
            )
        twice[-2] = answers(0, 17)
        differences.same(
            "as near before and after",
            events_of(twice, None, 15),
            ([f"--to 15: ends at time 13, {NEAREST}", "ended: "], [(0, 13, False, FIRST)], True),
        )
    differences.same("no temporary file stays", [*tmp_path.iterdir()], [])
    for word, most, wanted in (
        ("a" * 40, 40, "a" * 40),
        ("a" * 41, 40, "a" * 40 + ".."),
        (b"\0\xff~ \n", 40, "\\x00\\xff~ \\x0a"),
        ("\x7f\t", 40, "\\x7f\\x09"),
        ("abc", 2, "ab.."),
        ("", 0, ""),
    ):
        differences.same(f"{word!r} as it is shown", run.shown(word, most), wanted)


def other_digit(digit: str) -> str:
    return "1" if digit == "0" else "0"


def test_each_wrong_field_of_a_far_beat_is_named(
    comparison: Comparison, differences: Differences, tmp_path: Path
) -> None:
    """Each field of each far beat of a long run: first, middle and last beats of bursts, on all five channels."""
    counts = dict.fromkeys("ABCDE", 0)
    files = {"client": LONG_CLIENT.splitlines(), "manager": LONG_MANAGER.splitlines()}
    status, answer, _ = comparison.compare(tmp_path, LONG_CLIENT, LONG_MANAGER, with_times=True)
    differences.same("the long run", (status, answer.count(" done: ")), (0, 5))
    # the near beats are always the same ones, so the program is asked once
    comparison.compare(tmp_path, LONG_CLIENT, LONG_MANAGER, "--write-trace", "trace", with_times=True)
    with open(tmp_path / "answer", "wb") as out:
        subprocess.run(
            [comparison.program, "run", "--sync"], stdin=open(tmp_path / "trace", "rb"), stdout=out, check=True
        )
    stored = script(tmp_path / "stored", f"cat > /dev/null\ncat '{tmp_path}/answer'\n")
    for far, lines in files.items():
        near = "manager" if far == "client" else "client"
        seen = dict.fromkeys("ABCDE", 0)
        for at, line in enumerate(lines):
            channel, *values = line.split(" ")
            if (channel in "ACE") == (far == "client"):
                continue
            number, seen[channel] = seen[channel], seen[channel] + 1
            for field, value in enumerate(values):
                mine = value[:-1] + other_digit(value[-1])
                made = " ".join([channel, *values[:field], mine, *values[field + 1 :]])
                texts = {**files, far: [*lines[:at], made, *lines[at + 1 :]]}
                status, answer, error = comparison.compare(
                    tmp_path,
                    *("\n".join(texts[link]) + "\n" for link in ("client", "manager")),
                    "--program",
                    stored,
                    with_times=True,
                )
                origin = ORIGINS[channel][number]
                wanted = (
                    f"{channel}: far beat {number}, {far}.beats line {at + 1}, time {10 * at + 10}:"
                    f" {FIELDS[channel][field]} is {mine}, expected {value}; its message begins at {near}.beats line"
                    f" {origin}, time {10 * origin}: {files[near][origin - 1]}"
                )
                said = [row for row in answer.splitlines() if " far beat " in row]
                differences.same(
                    f"{channel} {FIELDS[channel][field]} of far beat {number}: {error}", (status, said), (1, [wanted])
                )
                counts[channel] += 1
    differences.same("fields of each channel", counts, {"A": 48, "B": 16, "C": 35, "D": 40, "E": 1})


def write_of(width: int, data: int, digits: int) -> str:
    """A byte that is written at address 0, and its acknowledgement, on a link of this width."""
    source = f"{1:0{digits}x}"
    mask, lanes = f"{1:0{(width + 3) // 4}x}", f"{data:0{2 * width}x}"
    return f"A 0 0 0 {source} {0:016x} {mask} {lanes} 0\nD 0 0 0 {source} {0:0{digits}x} 0 {0:0{2 * width}x} 0\n"


def test_a_wrong_byte_is_seen_at_each_pair_of_widths(
    comparison: Comparison, differences: Differences, tmp_path: Path
) -> None:
    """A write of one byte at address 0, right and wrong, with ids of two and of four digits."""
    for client, manager in (
        (1, 8),
        (8, 1),
        (1, 1),
        (2, 4),
        (4, 2),
        (2, 128),
        (128, 2),
        (128, 128),
        (1, 128),
        (128, 1),
        (64, 64),
    ):
        for digits in (2, 4):
            near = write_of(client, 0x5A, digits)
            for data, wanted in ((0x5A, 0), (0x5B, 1)):
                status, _, error = comparison.compare(
                    tmp_path, near, write_of(manager, data, digits), widths=(str(client), str(manager))
                )
                differences.same(
                    f"widths {client} and {manager}, {digits} digits, data {data:x}: {error}", status, wanted
                )


def test_times_have_as_many_lines_as_beats(comparison: Comparison, differences: Differences, tmp_path: Path) -> None:
    """A file of times with more or fewer lines than beats is refused."""
    (tmp_path / "short").mkdir()
    for name, lines, words in (
        ("client.beats", 3, "client.beats.times ends before client.beats, after 3 lines"),
        ("client.beats", 6, "client.beats.times has more lines than the 5 of client.beats"),
        ("manager.beats", 5, "manager.beats.times ends before manager.beats, after 5 lines"),
    ):
        comparison.compare(tmp_path / "short", CLIENT, MANAGER, with_times=True)
        (tmp_path / "short" / f"{name}.times").write_text("10\n" * lines)
        differences.same(
            f"times of {name}",
            comparison.compare(tmp_path / "short", CLIENT, MANAGER)[::2],
            (3, f"tlbridge-compare: {words}: both are of one run, line by line\n"),
        )
        (tmp_path / "short" / f"{name}.times").unlink()


def test_the_trace_is_written_in_order_of_time(
    comparison: Comparison, differences: Differences, tmp_path: Path
) -> None:
    """Without times of both links, the lines of the client come first."""
    header = "tilelink-trace 1 client 8 manager 4\n"
    differences.same("without times", comparison.compare(tmp_path, CLIENT, MANAGER, "--write-trace", "made")[0], 0)
    differences.same(
        "client first",
        (tmp_path / "made").read_text(),
        header + "\n".join((PUT, ACQUIRE, "E 07", GRANT_DATA, PUT_ACK)) + "\n",
    )
    differences.same("no times are written", (tmp_path / "made.times").exists(), False)
    (tmp_path / "client.beats.times").write_text("15\n25\n95\n95\n98\n")
    differences.same(
        "with times of one link", comparison.compare(tmp_path, CLIENT, MANAGER, "--write-trace", "made")[0], 0
    )
    differences.same(
        "client first",
        (tmp_path / "made").read_text(),
        header + "\n".join((PUT, ACQUIRE, "E 07", GRANT_DATA, PUT_ACK)) + "\n",
    )
    differences.same("no times of one link are written", (tmp_path / "made.times").exists(), False)
    (tmp_path / "manager.beats.times").write_text("20\n30\n40\n50\n60\n99\n")
    differences.same("with times", comparison.compare(tmp_path, CLIENT, MANAGER, "--write-trace", "made")[0], 0)
    differences.same(
        "in order of time",
        (tmp_path / "made").read_text(),
        header + "\n".join((PUT, ACQUIRE, GRANT_DATA, PUT_ACK, "E 07")) + "\n",
    )
    differences.same("the times are written", (tmp_path / "made.times").read_text(), "15\n25\n50\n60\n98\n")
    (tmp_path / "manager.beats.times").write_text("20\n21\n22\n25\n60\n99\n")
    comparison.compare(tmp_path, CLIENT, MANAGER, "--write-trace", "made")
    differences.same(
        "at one time the client's link comes first",
        (tmp_path / "made").read_text(),
        header + "\n".join((PUT, ACQUIRE, GRANT_DATA, PUT_ACK, "E 07")) + "\n",
    )


def test_a_long_run_is_cut_into_parts(comparison: Comparison, differences: Differences, tmp_path: Path) -> None:
    """A run that is too long for one trace is cut at moments at which nothing is under way, if its times are there."""

    def link(width: int, mask: str, start: int) -> Any:
        lines, at = [], []
        for number in range(40):
            lines += [
                f"A 4 0 2 01 {0x1000:016x} {mask} {0:0{2 * width}x} 0",
                f"D 1 0 2 01 00 0 {number:0{2 * width}x} 0",
            ]
            at += [100 * number + start, 100 * number + 60 - start]
        return lines, at

    kept, run.PART_BYTES = run.PART_BYTES, 500
    try:
        (client, client_times), (manager, manager_times) = link(8, "0f", 10), link(4, "f", 20)
        client[61] = client[61].replace("1e 0", "ff 0")
        for name, at in (("client", client_times), ("manager", manager_times)):
            (tmp_path / f"{name}.beats.times").write_text("".join(f"{time}\n" for time in at))
        status, answer, error = comparison.compare(
            tmp_path, "\n".join(client) + "\n", "\n".join(manager) + "\n", "--write-trace", "made"
        )
        client[60] = client[60].replace("A 4", "A 9")
        fault = comparison.compare(tmp_path, "\n".join(client) + "\n", "\n".join(manager) + "\n")
        JUDGE.MOST_BYTES = 194
        for name in ("client", "manager"):
            (tmp_path / f"{name}.beats.times").unlink()
        long = comparison.compare(tmp_path, CLIENT, MANAGER)
        JUDGE.MOST_BYTES = run.MOST_BYTES
    finally:
        run.PART_BYTES = kept
    differences.same(
        "a long run without times",
        long,
        (
            4,
            "",
            (
                "tlbridge-compare: the trace has 195 bytes, but tlbridge takes at most 194: a run whose beats all "
                "have times is split at idle points\n"
            ),
        ),
    )
    differences.same(
        "a fault in a later part",
        (fault[0], fault[2].splitlines()[-1]),
        (3, f"tlbridge-compare: client.beats line 61, time 3010: 18 Range: {client[60]}"),
    )
    differences.same(
        "parts: " + error,
        (status, [line for line in answer.splitlines() if line[0] in "ADf"]),
        (
            1,
            [
                "first difference: channel D, time 3050",
                "A: done: 40 near beats, 40 far beats expected",
                "D: done: 40 near beats, 40 far beats expected",
                (
                    "D: far beat 30, client.beats line 62, time 3050: data is 00000000000000ff, expected"
                    " 000000000000001e; its message begins at manager.beats line 62, time 3040: D 1 0 2 01 00 0"
                    " 0000001e 0"
                ),
            ],
        ),
    )
    parts = [path for path in tmp_path.glob("made*") if path.suffix != ".times"]
    differences.same(
        "each part has its header, and all beats are there",
        sum(len(path.read_text().splitlines()) - 1 for path in parts),
        80,
    )
    differences.same("there are parts", len(parts) > 4, True)


def script(path: Path, text: str) -> str:
    path.parent.mkdir(parents=True, exist_ok=True)
    path.write_text("#!/bin/sh\n" + text)
    path.chmod(0o755)
    return str(path)


HEADER, A_LINE = "tilelink-far 1 client 8 manager 4", "A 6 0 2 02 0000000000001004 f 00000000 0"
# Answers that are none: as printf has them, and the line that is wrong.
WRONG_ANSWERS = (
    (r"tilelink-far 2 client 8 manager 4\n", 1, "tilelink-far 2 client 8 manager 4"),
    (r"tilelink-far 1 client 4 manager 8\n", 1, "tilelink-far 1 client 4 manager 8"),
    (r"tilelink-trace 1 client 8 manager 4\n", 1, "tilelink-trace 1 client 8 manager 4"),
    (rf"{HEADER}\n= A done 2 3\n= A done 2 3\n", 3, "= A done 2 3"),
    (rf"{HEADER}\n= A done 2 3\n{A_LINE}\n", 3, A_LINE),
    (rf"{HEADER}\nE 07\n{A_LINE}\n", 3, A_LINE),
    (rf"{HEADER}\nA 6 0 2 02 0000000000001004 f\n", 2, "A 6 0 2 02 0000000000001004 f"),
    (rf"{HEADER}\nE 07 07\n", 2, "E 07 07"),
    (rf"{HEADER}\nF 07\n", 2, "F 07"),
    (rf"{HEADER}\nE xx\n", 2, "E xx"),
    (rf"{HEADER}\n= F done 0 0\n", 2, "= F done 0 0"),
    (rf"{HEADER}\n= A finished 2 3\n", 2, "= A finished 2 3"),
    (rf"{HEADER}\n= A done 2\n", 2, "= A done 2"),
    (rf"{HEADER}\n= A done 2 3 4\n", 2, "= A done 2 3 4"),
    (rf"{HEADER}\n{'E' * 100}\n", 2, "E" * 80),
    (r"\n", 1, ""),
)


def test_each_program_that_gives_no_answer_is_named(
    comparison: Comparison, differences: Differences, tmp_path: Path
) -> None:
    """What is said about a program that dies, prints something else, or is not built."""
    for name, text, status, words in (
        ("nothing", "cat > /dev/null\n", 2, "nothing printed nothing, so there is nothing to compare with"),
        (
            "dies",
            "cat > /dev/null\necho 'a last word' >&2\nkill -9 $$\n",
            2,
            "dies was ended by signal 9, so there is nothing to compare with: a last word",
        ),
        (
            "builds",
            "cat > /dev/null\necho 'proving tl_msg' >&2\nexit 70\n",
            2,
            "builds ended with status 70, so there is nothing to compare with: proving tl_msg",
        ),
        (
            "full",
            "cat > /dev/null\necho 'tlbridge: 21 NoMemory' >&2\nexit 4\n",
            4,
            "full ended with status 4, so there is nothing to compare with: tlbridge: 21 NoMemory",
        ),
        (
            "stops",
            "cat > /dev/null\nprintf 'tilelink-far 1 client 8 manager 4\\n= A done 2 3\\n'\n",
            2,
            "stops printed an answer that is not complete, so there is nothing to compare with",
        ),
        ("speaks", "cat > /dev/null\necho hello\n", 2, "speaks printed no answer to a trace: line 1 is 'hello'"),
        (
            "fails",
            "cat > /dev/null\necho 'tlbridge: 13 OutOfMemory' >&2\nexit 3\n",
            3,
            "fails ended with status 3, so there is nothing to compare with: tlbridge: 13 OutOfMemory",
        ),
        (
            "header",
            "cat > /dev/null\necho 'line 1: 14 Header' >&2\nexit 3\n",
            3,
            "header ended with status 3, so there is nothing to compare with: line 1: 14 Header",
        ),
        ("late", "cat > /dev/null\necho 'line 99: 17 Shape' >&2\nexit 3\n", 3, "late: line 99: 17 Shape"),
        *(
            (
                f"answers-{number}",
                f"cat > /dev/null\nprintf '{answer}'\n",
                2,
                f"answers-{number} printed no answer to a trace: line {line} is '{text}'",
            )
            for number, (answer, line, text) in enumerate(WRONG_ANSWERS)
        ),
    ):
        got = comparison.compare(tmp_path, CLIENT, MANAGER, "--program", script(tmp_path / name, text))
        differences.same(
            f"a program that {name}",
            (got[0], got[1], got[2].splitlines()[-1].replace(f"{tmp_path}/", "")),
            (status, "", f"tlbridge-compare: {words}"),
        )
        own = text.partition("echo '")[2].partition("'")[0] if ">&2" in text else ""
        differences.same(f"the words of a program that {name}", got[2].splitlines()[:-1], [own] if own else [])
    got = comparison.compare(
        tmp_path,
        CLIENT,
        MANAGER,
        "--program",
        script(tmp_path / "bytes", "cat > /dev/null\nprintf 'caf\\351\\n' >&2\nexit 7\n"),
    )
    differences.same(
        "a program whose words are no text",
        (got[0], got[2].replace(f"{tmp_path}/", "").splitlines()),
        (
            2,
            [
                "caf\ufffd",
                "tlbridge-compare: bytes ended with status 7, so there is nothing to compare with: caf\ufffd",
            ],
        ),
    )
    answered = script(tmp_path / "verdict", f"'{comparison.program}' \"$@\"\nexit 1\n")
    differences.same(
        "a program whose status is 1",
        comparison.compare(tmp_path, CLIENT, MANAGER, "--program", answered)[:2],
        (0, RIGHT),
    )
    for ends, status in ((2, 2), (3, 3), (4, 4), (5, 2), (70, 2), (255, 2)):
        ended = script(
            tmp_path / "ended", f"'{comparison.program}' \"$@\"\necho first >&2\necho last >&2\nexit {ends}\n"
        )
        got = comparison.compare(tmp_path, CLIENT, MANAGER, "--program", ended)
        differences.same(
            f"a whole answer with status {ends}",
            (*got[:2], got[2].replace(f"{tmp_path}/", "")),
            (
                status,
                "",
                (
                    f"first\nlast\ntlbridge-compare: ended ended with status {ends}, so there is nothing to compare"
                    " with: last\n"
                ),
            ),
        )
    asked = script(tmp_path / "asked", f"echo \"$*\" > '{tmp_path}/words'\nexec '{comparison.program}' \"$@\"\n")
    differences.same(
        "the words that a program gets",
        (comparison.compare(tmp_path, CLIENT, MANAGER, "--program", asked)[0], (tmp_path / "words").read_text()),
        (0, "run --sync\n"),
    )
    passes_on = script(tmp_path / "in_the_folder", f"exec '{comparison.program}' \"$@\"\n")
    for name in ("in_the_folder", "./in_the_folder", passes_on):
        command = [sys.executable, str(COMPARE), "8", "4", "client.beats", "manager.beats", "--program", name]
        ran = subprocess.run(command, cwd=tmp_path, capture_output=True, text=True, check=False)
        differences.same(
            f"the program {Path(name).name if name == passes_on else name}", (ran.returncode, ran.stdout), (0, RIGHT)
        )
    wrapper = tmp_path / "clone" / "tlbridge"
    (tmp_path / "clone" / "crates" / "tlbridge").mkdir(parents=True)
    got = comparison.compare(
        tmp_path, CLIENT, MANAGER, "--program", script(wrapper, "echo 'a hidden build' >&2\nexit 70\n")
    )
    differences.same(
        "a wrapper whose program is not built",
        (got[0], got[2].replace(f"{tmp_path}/", "")),
        (
            2,
            (
                "tlbridge-compare: clone/tlbridge is not built yet: run clone/tlbridge --version, which proves and"
                " builds it, or name the unverified model with --program clone/tlbridge-model\n"
            ),
        ),
    )
    shutil.copy(comparison.program, script(wrapper.parent / "crates" / "tlbridge" / "out" / "tlbridge", ""))
    differences.same(
        "and once it is built", comparison.compare(tmp_path, CLIENT, MANAGER, "--program", str(wrapper))[:2], (0, RIGHT)
    )


def run_script(compare: Path, room: Path, path: Optional[str] = None) -> Tuple[int, str, str]:
    words = [sys.executable, str(compare), "8", "4", "client.beats", "manager.beats"]
    environment = {
        **{name: value for name, value in os.environ.items() if name != "PYTHONDONTWRITEBYTECODE"},
        "PATH": path or "/usr/bin:/bin",
    }
    done = subprocess.run(words, cwd=room, capture_output=True, text=True, check=False, env=environment)
    return done.returncode, done.stdout, done.stderr


def test_the_script_finds_package_and_program(comparison: Comparison, differences: Differences, tmp_path: Path) -> None:
    """The script runs from a clone and as `make install` puts it; it finds the program, or the model if the program is
    not built."""
    comparison.compare(tmp_path, CLIENT, MANAGER)
    prefix, clone = tmp_path / "prefix", tmp_path / "clone"
    for base, package, compare in (
        (prefix, prefix / "share" / "tlbridge" / "python", prefix / "bin" / "tlbridge-compare"),
        (clone, clone / "python", clone / "sv" / "compare"),
    ):
        shutil.copytree(
            ROOT / "python" / "tlbridge", package / "tlbridge", ignore=shutil.ignore_patterns("__pycache__")
        )
        compare.parent.mkdir(parents=True)
        shutil.copy(COMPARE, compare)
        none = (
            "tlbridge-compare: neither the program tlbridge nor the unverified model tlbridge-model was found: install"
            " one, build it in a clone with ./tlbridge --version, or name it with --program\n"
        )
        differences.same(f"{base.name}: no program", run_script(compare, tmp_path), (2, "", none))
        folder = prefix / "bin" if base == prefix else clone
        passes_on = f'exec "{comparison.program}" "$@"\n'
        script(folder / "tlbridge-model", passes_on)
        note = (
            "tlbridge-compare: the expected beats come from the unverified model tlbridge-model, since tlbridge is not"
            " built\n"
        )
        differences.same(f"{base.name}: the model", run_script(compare, tmp_path), (0, RIGHT, note))
        if base == clone:
            (clone / "crates" / "tlbridge" / "out").mkdir(parents=True)
            script(clone / "tlbridge", "echo 'a hidden build' >&2\nexit 70\n")
            differences.same("clone: the model, and no hidden build", run_script(compare, tmp_path), (0, RIGHT, note))
            differences.same(
                "clone: the model, and no hidden build by PATH",
                run_script(compare, tmp_path, f"{clone}:/usr/bin:/bin"),
                (0, RIGHT, note),
            )
            script(clone / "crates" / "tlbridge" / "out" / "tlbridge", passes_on)
        else:
            script(folder / "tlbridge", passes_on)
        differences.same(f"{base.name}: the program", run_script(compare, tmp_path), (0, RIGHT, ""))
    differences.same(
        "a package that is not there", run_script(shutil.copy(COMPARE, tmp_path / "alone"), tmp_path)[0], 2
    )
    differences.same("no compiled files are left", [*tmp_path.rglob("__pycache__")], [])
    # of several programs, the one of the tree comes first, then the one in PATH; what is not executable is none
    note = (
        "tlbridge-compare: the expected beats come from the unverified model tlbridge-model, since tlbridge is not"
        " built\n"
    )
    compare, own, other = (
        prefix / "bin" / "tlbridge-compare",
        prefix / "bin" / "tlbridge",
        tmp_path / "path" / "tlbridge",
    )
    script(other, "echo 'the one in PATH' >&2\nexit 9\n")
    differences.same(
        "one in the tree and one in PATH",
        run_script(compare, tmp_path, f"{other.parent}:/usr/bin:/bin"),
        (0, RIGHT, ""),
    )
    own.chmod(0o644)
    differences.same("one that is not executable", run_script(compare, tmp_path), (0, RIGHT, note))
    differences.same(
        "and one in PATH",
        run_script(compare, tmp_path, f"{other.parent}:/usr/bin:/bin"),
        (
            2,
            "",
            (
                f"the one in PATH\ntlbridge-compare: {other} ended with status 9, so there is nothing to compare with:"
                " the one in PATH\n"
            ),
        ),
    )
    own.unlink()
    own.mkdir()
    differences.same("a folder of its name", run_script(compare, tmp_path), (0, RIGHT, note))
