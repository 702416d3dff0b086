"""The output of tlbridge-trace for small waveforms that are written by hand. No simulator is needed."""
import contextlib
import gzip
import io
import json
import os
import random
import re
import shutil
import subprocess
import sys
import tempfile
import unittest
from html.parser import HTMLParser
from pathlib import Path
from typing import Any, Dict, List, Optional, Sequence, Tuple, Union
from unittest import mock

from project import ROOT, needs_program
from small_waves import LOW, Wave, simple
from tlbridge import run as runs
from tlbridge.flow import LinkFlow
from tlbridge.waves import chosen, command, links, page, vcd
from tlbridge.protocol import active_lanes
from tlbridge.waves.sampling import hexadecimal

NEAR = ["tilelink-trace 1 client 8 manager 4", LOW, "D 1 0 2 07 00 0 ddccbbaa 0"]
FAR = [
    "tilelink-far 1 client 8 manager 4",
    "A 4 0 2 07 0000000000001004 f 00000000 0",
    "D 1 0 2 07 00 0 ddccbbaa00000000 0",
]


class Case(unittest.TestCase):
    def setUp(self) -> None:
        folder = tempfile.TemporaryDirectory()
        self.addCleanup(folder.cleanup)
        self.folder = Path(folder.name)

    def run_tool(self, text: Union[str, bytes], *words: str, name: str = "dump.vcd") -> Tuple[int, List[str], str]:
        path = self.folder / name
        path.write_bytes(text if isinstance(text, bytes) else text.encode("latin-1"))
        out, said = io.StringIO(), io.StringIO()
        with contextlib.redirect_stdout(out), contextlib.redirect_stderr(said):
            status = command.main([str(path), *words])
        return status, out.getvalue().splitlines(), said.getvalue()

    def trace(
        self, wave: Union[str, bytes, Wave], *words: str, client: str = "in", manager: str = "out"
    ) -> Tuple[List[str], List[str], str]:
        text = wave if isinstance(wave, (str, bytes)) else wave.text()
        status, out, said = self.run_tool(
            text, "--client", client, "--manager", manager, "--far", str(self.folder / "far"), *words
        )
        self.assertEqual(status, 0, said)
        return out, (self.folder / "far").read_text().splitlines(), said

    def refused(self, text: Union[str, bytes], words: str, *options: str, status: int = 3) -> str:
        got, _, said = self.run_tool(text, *options)
        self.assertEqual(got, status, said)
        self.assertIn(words, said)
        return said


class Names(Case):
    def test_conventions(self) -> None:
        for style, stem in (("plain", ""), ("rocket", "auto_"), ("spinal", "io_")):
            with self.subTest(style):
                wave = simple(style)
                near, far, _ = self.trace(wave, client=f"top.{stem}in", manager=f"{stem}out")
                self.assertEqual((near, far), (NEAR, FAR))
                status, out, _ = self.run_tool(wave.text())
                self.assertEqual(status, 0)
                row = next(line for line in out if line.startswith(f"top.{stem}in")).split()
                self.assertEqual(
                    row[1:], [style, "AD", "8", "4", "3", "32", "top.clock", "top.reset", "A", "1", "D", "1"]
                )

    def test_pattern(self) -> None:
        wave = simple("odd")
        status, out, said = self.run_tool(
            wave.text(),
            "--client-pattern",
            "top.IN{CHANNEL}CH{FIELD}",
            "--manager-pattern",
            "top.OUT{CHANNEL}CH{FIELD}",
        )
        self.assertEqual((status, out), (0, NEAR), said)

    def test_other_names_of_fields(self) -> None:
        """addr is the address, and error is denied, in each convention, also in capitals."""
        for style, prefix in (("plain", ""), ("rocket", "auto_"), ("spinal", "io_")):
            names = {"client": f"{prefix}in", "manager": f"{prefix}out"}
            text = self.denied(style).replace("address", "addr").replace("denied", "error")
            for made in (text, text.replace("addr", "ADDR").replace("error", "Error")):
                with self.subTest(style=style, capitals="ADDR" in made):
                    out, far, said = self.trace(made, **names)
                    self.assertEqual((out[1], far[1], out[2]), (NEAR[1], FAR[1], NEAR[2].replace(" 00 0 ", " 00 1 ")))

    def denied(self, style: str) -> str:
        """The same, with a response that is denied on both links."""
        wave = simple(style)
        at = next(i for i, line in enumerate(wave.body) if line == "#15")
        codes = [wave.codes[side, "d", "denied"][0] for side in ("in", "out")]
        wave.body[at + 1 : at + 1] = [f"1{code}" for code in codes]
        return wave.text()

    def test_renamed_field(self) -> None:
        wave = simple("odd")
        text = wave.text().replace("INACHOPCODE", "INACHOP").replace("INDCHOPCODE", "INDCHOP")
        status, out, said = self.run_tool(
            text,
            "--client-pattern",
            "top.IN{CHANNEL}CH{FIELD}",
            "--manager-pattern",
            "top.OUT{CHANNEL}CH{FIELD}",
            "--field",
            "opcode=op",
        )
        self.assertEqual(status, 2)  # the manager's names are the old ones
        text = text.replace("CHOPCODE", "CHOP")
        status, out, said = self.run_tool(
            text,
            "--client-pattern",
            "top.IN{CHANNEL}CH{FIELD}",
            "--manager-pattern",
            "top.OUT{CHANNEL}CH{FIELD}",
            "--field",
            "opcode=op",
        )
        self.assertEqual((status, out), (0, NEAR), said)

    def test_user_bits_are_said(self) -> None:
        wave = simple("rocket")
        wave.add("auto_in_a_bits_user_amba_prot_secure", 1)
        _, out, _ = self.run_tool(wave.text())
        self.assertTrue(any("ignored" in line and "a_user_amba_prot_secure" in line for line in out), out)

    def test_scope_of_its_own(self) -> None:
        """Plain names in an interface's scope."""
        text = simple().text()
        for side in ("in", "out"):
            lines: List[str] = []
            own: List[str] = []
            for line in text.splitlines():
                (own if f" {side}_" in line and line.startswith("$var") else lines).append(
                    line.replace(f" {side}_", " ") if line.startswith("$var") else line
                )
            at = lines.index("$upscope $end")
            text = "\n".join(lines[:at] + [f"$scope interface {side} $end", *own, "$upscope $end"] + lines[at:]) + "\n"
        self.assertEqual(self.trace(text)[:2], (NEAR, FAR))

    def test_names_with_dots(self) -> None:
        """A dump with one scope, whose names have the others: the clock of a link is in any of those above it."""
        wave = simple()
        wave.vars = [
            re.sub(r" ((?:in|out)_\S+)", r" part.deep.\1", line)
            .replace(" clock ", " part.clock ")
            .replace(" reset ", " part.reset ")
            for line in wave.vars
        ]
        wave.add("other.clock", 1)
        self.assertEqual(self.trace(wave, client="top.part.deep.in", manager="top.part.deep.out")[:2], (NEAR, FAR))
        _, out, _ = self.run_tool(wave.text())
        self.assertEqual([line.split()[7:9] for line in out[1:3]], [["top.part.clock", "top.part.reset"]] * 2)

    def test_packed_structs(self) -> None:
        self.assertEqual([sum(bits for _, bits in links.layout_of(text)) for text in (links.H2D, links.D2H)], [109, 66])

        def a(v: int, ready: int) -> str:
            return f"{v}100000" + "10" + f"{7:08b}{0x1004:032b}" + "1111" + "x" * 32 + "0" * 23 + str(ready)

        def d(v: int, ready: int) -> str:
            return f"{v}001000" + "10" + f"{7:08b}0{0xDDCCBBAA:032b}" + "0" * 14 + "1" + str(ready)

        variables = "".join(
            f"$var wire {bits} {code} {name} [{bits - 1}:0] $end\n"
            for name, bits, code in (("tl_h_i", 109, "a"), ("tl_h_o", 66, "b"), ("x_h2d", 109, "c"), ("x_d2h", 66, "d"))
        )
        text = (
            '$scope module top $end\n$var wire 1 ! clk_i $end\n$var wire 1 " rst_ni $end\n'
            + variables
            + "$upscope $end\n$enddefinitions $end\n"
            f'#0\n0!\n1"\nb{a(1, 0)} a\nb{d(0, 1)} b\nb{a(1, 0)} c\nb{d(0, 1)} d\n'
            f"#5\n1!\nb{a(0, 1)} a\nb{d(1, 0)} b\nb{a(0, 1)} c\nb{d(1, 0)} d\n#10\n0!\n#15\n1!\n"
        )
        near, far, said = self.trace(text, client="tl_h", manager="top.x")
        self.assertEqual(near[1:], ["A 4 0 2 07 0000000000001004 f 00000000 0", "D 1 0 2 07 00 1 ddccbbaa 0"])
        self.assertEqual(far[1:], near[1:])
        self.assertIn("!top.rst_ni", said)
        # and joined by hand
        near, _, _ = self.trace(text.replace("tl_h_i", "one").replace("tl_h_o", "two"), client="one+two", manager="x")
        self.assertEqual(len(near), 3)

    def test_another_struct(self) -> None:
        fields = "a_valid:1,a_opcode:3,a_mask:4,a_data:32,d_ready:1", "d_valid:1,d_opcode:3,d_data:32,a_ready:1"
        text = (
            "$scope module top $end\n$var wire 1 ! clk $end\n$var wire 41 a p_h2d $end\n$var wire 37 b p_d2h"
            f" $end\n$upscope $end\n$enddefinitions $end\n#0\n0!\nb1100{'1111'}{5:032b}0 a\nb{'0' * 36}1 b\n#5\n1!\n"
        )
        status, out, said = self.run_tool(text, "--struct", fields[0], "--struct", fields[1])
        self.assertEqual(status, 0, said)
        self.assertIn("A 1 D 0", out[1])

    def test_e_and_absent_channels(self) -> None:
        wave = Wave(channels="ade")
        wave.begin()
        wave.time(5)
        wave.beat("in", "e", sink=5)
        wave.time(10, clock=1)
        near, far, _ = self.trace(wave)
        self.assertEqual((near[1:], far[1:]), (["E 05"], []))

    def test_absent_fields_are_said(self) -> None:
        text = "\n".join(line for line in simple().text().splitlines() if "corrupt" not in line)
        near, far, said = self.trace(text)
        self.assertEqual((near, far), (NEAR, FAR))
        self.assertIn("A has no corrupt: 0 is written", said)
        text = "\n".join(
            line for line in simple().text().splitlines() if "in_a_mask" not in line and "in_d_sink" not in line
        )
        near, far, said = self.trace(text)
        self.assertEqual((near, far), (NEAR, FAR))
        self.assertIn("A has no mask: the active lanes are written", said)

    def test_ambiguous_and_unknown_link(self) -> None:
        self.refused(
            simple().text(),
            "no link is named 'other'. The dump has: top.in, top.out",
            "--client",
            "other",
            "--manager",
            "out",
            status=2,
        )
        text = (
            simple()
            .text()
            .replace(
                "$enddefinitions",
                "$scope module u $end\n"
                + "\n".join(
                    line.replace(" in_", " out_").replace("$var wire 64", "$var wire 64")
                    for line in simple().vars
                    if " in_" in line
                )
                + "\n$upscope $end\n$enddefinitions",
            )
        )
        self.refused(text, "'out' fits 2 links", "--client", "in", "--manager", "out", status=2)

    def test_wide_ids_want_version_2(self) -> None:
        wave = simple()
        code, _ = wave.codes["in", "a", "source"]
        text = wave.text().replace(f"$var wire 4 {code} in_a_source [3:0]", f"$var wire 10 {code} in_a_source [9:0]")
        near, _, _ = self.trace(text)
        self.assertEqual(near[:2], ["tilelink-trace 2 client 8 manager 4", LOW.replace(" 07 ", " 0007 ")])

    def test_no_link(self) -> None:
        self.refused(
            "$scope module top $end\n$var wire 1 ! clk $end\n$upscope $end\n$enddefinitions $end\n#0\n1!\n",
            "no TileLink link",
        )

    def test_no_link_in_an_extended_dump(self) -> None:
        said = self.refused(
            (
                "$scope module top $end\n$var port 1 <0 a $end\n$upscope $end\n$enddefinitions $end\n#0\n$dumpports\npU"
                " 0 6 <0\n$end\n"
            ),
            "no TileLink link",
        )
        self.assertIn("extended VCD ($dumpports), which is not read", said)

    def test_one_link_alone(self) -> None:
        self.refused(simple().text(), "name both", "--client", "in", status=2)


class Sampling(Case):
    def test_values_before_the_edge(self) -> None:
        """The beat of `simple` has valid fall at the time of the edge; here it rises there too, and is not taken."""
        wave = Wave()
        wave.begin()
        wave.time(10)
        wave.beat("in", "a", opcode=4)  # before the clock's line, at its time
        wave.change("clock", 1)
        wave.time(15, clock=0)
        wave.beat("in", "a", valid=0)
        wave.time(20, clock=1)
        self.assertEqual(self.trace(wave)[0], NEAR[:1])

    def test_a_time_said_twice(self) -> None:
        """It is one time still."""
        wave = Wave()
        wave.begin()
        wave.time(10)
        wave.beat("in", "a", opcode=4)
        wave.time(10, clock=1)
        self.assertEqual(self.trace(wave)[0], NEAR[:1])

    def test_both_have_to_be_1(self) -> None:
        wave = Wave()
        wave.begin()
        for at, (valid, ready) in enumerate(((0, 1), (1, 0), (1, 1), (0, 0))):
            wave.time(10 * at + 5, clock=0)
            wave.beat("in", "a", valid=valid, ready=ready, opcode=4, source=at)
            wave.time(10 * at + 10, clock=1)
        self.assertEqual(self.trace(wave)[0][1:], ["A 4 0 0 02 0000000000000000 00 0000000000000000 0"])

    def test_unknown_valid_or_ready(self) -> None:
        wave = Wave()
        wave.begin()
        values: Sequence[Tuple[str, Union[int, str]]] = (("x", 1), ("1", "z"), ("x", "0"), ("0", "x"), ("x", "x"))
        for at, (valid, ready) in enumerate(values):
            wave.time(10 * at + 5, clock=0)
            wave.beat("in", "a", valid=valid, ready=ready)
            wave.time(10 * at + 10, clock=1)
        near, _, said = self.trace(wave)
        self.assertEqual(near, NEAR[:1])
        self.assertIn("top.in_a_valid is unknown at 2 clock edges, first at time 10", said)
        self.assertIn("top.in_a_ready is unknown at 2 clock edges, first at time 20", said)

    def test_unknown_field(self) -> None:
        wave = simple()
        text = wave.text().replace(
            f"b{0x1004:b} {wave.codes['in', 'a', 'address'][0]}", f"b10x0 {wave.codes['in', 'a', 'address'][0]}"
        )
        said = self.refused(text, "time 10: top.in_a_address is unknown", "--client", "in", "--manager", "out")
        self.assertIn("10x0", said)
        near, _, said = self.trace(text, "--unknown-zero")
        self.assertIn("A 4 0 2 07 0000000000000008 f0", near[1])
        self.assertIn("1 fields had unknown bits", said)

    def test_unknown_lanes(self) -> None:
        """x where no mask bit is, or no lane is active, is 0; x in a far beat stays x."""
        wave = Wave()
        wave.begin()
        wave.time(5)
        wave.beat("in", "a", opcode=1, size=3, mask=0b01010101, data="xxxxxxxx00010001" * 4)
        wave.beat("out", "a", opcode=0, size=2, mask=15, data="0001000100010001000z0001xxxxxxxx")
        wave.time(10, clock=1)
        near, far, said = self.trace(wave)
        self.assertEqual(near[1], "A 1 0 3 00 0000000000000000 55 0011001100110011 0")
        self.assertEqual(far[1], "A 0 0 2 00 0000000000000000 f 1111Z1xx 0")
        self.assertIn("1 fields of far beats had unknown bits", said)

    def test_sink_of_no_grant(self) -> None:
        wave = simple()
        code = wave.codes["out", "d", "sink"][0]
        text = wave.text().replace("#15\n", f"#15\nbx {code}\n")
        near, _, said = self.trace(text)
        self.assertEqual(near, NEAR)
        self.assertIn("D sink was unknown in 1 responses", said)

    def test_reset(self) -> None:
        wave = simple()
        text = (
            wave.text()
            .replace("#5\n", f"#5\n1{wave.codes['reset'][0]}\n")
            .replace("#15\n", f"#15\n0{wave.codes['reset'][0]}\n")
        )
        self.assertEqual(self.trace(text)[0], [NEAR[0], NEAR[2]])
        self.assertEqual(self.trace(text, "--reset", "none")[0], NEAR)
        self.assertEqual(self.trace(text, "--reset", "!top.reset")[0], NEAR[:2])
        self.assertEqual(self.trace(text.replace(" reset ", " rst_n "))[0], NEAR[:2])

    def test_reset_after_beats(self) -> None:
        wave = simple()
        said = self.trace(wave.text().replace("#25\n", f"#25\n1{wave.codes['reset'][0]}\n"))[2]
        self.assertIn("reset asserted again at time 30", said)

    def test_reset_amid_a_burst(self) -> None:
        """A burst of A or D is cut by a reset: the next request is a new one, and its response is on its lanes."""
        get = dict(opcode=4, size=2, source=7, address=0x1004)
        for letter, first in (
            ("a", dict(opcode=0, size=4, source=7, address=0x1000)),
            ("d", dict(opcode=1, size=4, source=7)),
        ):
            wave = Wave()
            wave.begin()
            for time, channel, fields in (
                (5, letter, first),
                (45, "a", get),
                (65, "d", dict(opcode=1, size=2, source=7, data=0xDDCCBBAA << 32 | 0x99)),
            ):
                wave.time(time, reset=0)
                wave.beat("in", channel, **fields)
                wave.time(time + 5, clock=1)
                wave.beat("in", channel, valid=0)
                wave.time(time + 10, clock=0, reset=int(time == 5))
                wave.time(time + 15, clock=1)
                wave.time(time + 18, clock=0)
            with self.subTest(letter):
                status, _, said = self.run_tool(
                    wave.text(), "--client", "in", "--manager", "out", "--beats", str(self.folder / "all")
                )
                lines = (self.folder / "all.client.beats").read_text().splitlines()
                self.assertEqual((status, len(lines), lines[-1]), (0, 3, "D 1 0 2 07 00 0 ddccbbaa00000000 0"), said)

    def lanes_of(self, *cycles: Any) -> List[int]:
        """The data of the beats of D, if each of these cycles has a request, a response or both on the client's link;
        or "reset", or a gap of the dump.

        A request is an address, and a response an opcode, plus 16 if it has 16 bytes. All have one source, and the
        others have a byte.
        """
        wave, time = Wave(), 5
        wave.begin()
        for words in cycles:
            wave.time(time, reset=int(words == "reset"))
            for word in words if isinstance(words, tuple) else ():
                if word >= 0x1000:
                    wave.beat("in", "a", opcode=4, size=0, source=7, address=word, mask=1 << word % 8)
                else:
                    wave.beat("in", "d", opcode=word % 16, size=word // 16 * 4, source=7, data=0x0807060504030201)
            if words == "gap":
                wave.body += ["$dumpoff", "$end", f"#{time + 1}", "$dumpon", "$end"]
                wave.change("clock", 0)
            wave.time(time + 5, clock=1)
            for channel in "ad":
                wave.beat("in", channel, valid=0)
            wave.time(time + 10, clock=0)
            time += 20
        status, _, said = self.run_tool(
            wave.text(), "--client", "in", "--manager", "out", "--beats", str(self.folder / "all")
        )
        self.assertEqual(status, 0, said)
        return [
            int(line.split()[7], 16)
            for line in (self.folder / "all.client.beats").read_text().splitlines()
            if line[0] == "D" and line[2] != "6"
        ]

    def test_what_a_response_answers(self) -> None:
        """No ReleaseAck answers a request, and none waits after a reset or a gap: a response is on the lanes of its own
        request."""
        answer, release_ack, burst, first, second, whole = 1, 6, 17, 8 << 56, 2 << 8, 0x0807060504030201
        for cycles, lanes in (
            (((0x1007,), (0x2001, answer), (answer,)), [first, second]),
            (((0x1007,), (release_ack,), (0x2001, answer), (answer,)), [first, second]),
            (((0x1007,), "reset", (0x2001, answer), (0x1007, answer)), [second, first]),
            (((0x1007,), "gap", (0x2001, answer), (0x1007, answer)), [second, first]),
            (((0x1007, answer), (0x2001, answer)), [first, second]),
            (((0x1007,), (answer,), (0x2001, answer)), [first, second]),
            (((0x1000,), (burst,), (0x2001, burst), (0x1007, answer), (answer,)), [whole, whole, second, first]),
        ):
            with self.subTest(cycles=cycles):
                self.assertEqual(self.lanes_of(*cycles), lanes)

    def test_a_clock_that_is_unknown(self) -> None:
        """A clock rises if it becomes 1, also from an unknown level, and not if it becomes unknown."""
        for levels, count in (
            ("1", 1),
            ("x", 0),
            ("z", 0),
            ("x0", 0),
            ("1x", 1),
            ("1x1", 2),
            ("x1", 1),
            ("10", 1),
            ("1x0", 1),
        ):
            wave = Wave()
            wave.begin()
            wave.time(5)
            wave.beat("in", "a", opcode=4, size=0, source=7, address=0x1000, mask=1)
            for at, level in enumerate(levels):
                wave.time(10 + 5 * at, clock=level)
            with self.subTest(levels=levels):
                status, out, said = self.run_tool(wave.text())
                self.assertEqual((status, out[1].split()[-4:-2]), (0, ["A", str(count)]), said)

    def test_two_clocks(self) -> None:
        wave = Wave(two_clocks=True)
        wave.begin()
        wave.time(3)
        wave.beat("in", "a", opcode=4, source=1)
        wave.beat("out", "a", opcode=4, source=2)
        for time in (5, 15):
            wave.time(time, in_clock=1)
            wave.time(time + 5, in_clock=0)
        wave.time(25, out_clock=1)
        near, far, said = self.trace(wave)
        self.assertEqual([line[8:10] for line in near[1:]], ["01", "01"])
        self.assertEqual([line[8:10] for line in far[1:]], ["02"])
        self.assertIn("clock top.out_clock", said)

    def test_same_time_edges(self) -> None:
        wave = Wave(two_clocks=True)
        wave.begin()
        wave.time(3)
        wave.beat("in", "a", opcode=4, source=1)
        wave.beat("out", "d", opcode=0, source=2)
        wave.time(5, in_clock=1, out_clock=1)
        self.assertEqual([line[0] for line in self.trace(wave)[0][1:]], ["A", "D"])

    def test_missing_clock(self) -> None:
        text = "\n".join(line for line in simple().text().splitlines() if " clock " not in line)
        self.refused(
            text, "the dump has no clock in its scope or above it", "--client", "in", "--manager", "out", status=2
        )
        self.refused(
            text, "the dump has no clock 'tick'", "--client", "in", "--manager", "out", "--clock", "tick", status=2
        )
        status, out, _ = self.run_tool(text)
        self.assertEqual(status, 0)
        self.assertTrue(any("no clock" in line for line in out))

    def test_given_clock(self) -> None:
        text = simple().text().replace(" clock ", " tick ")
        self.assertEqual(self.trace(text, "--clock", "tick")[0], NEAR)
        self.assertEqual(self.trace(text, "--clock", "top.tick")[0], NEAR)
        self.refused(text, "has 8 bits", "--client", "in", "--manager", "out", "--clock", "in_a_mask", status=2)

    def test_two_clocks_without_a_hint(self) -> None:
        wave = simple()
        wave.vars = [line.replace(" clock ", " fast_clk ") for line in wave.vars]
        wave.add("slow_clk", 1)
        self.refused(
            wave.text(),
            "more than one clock is there (top.fast_clk, top.slow_clk)",
            "--client",
            "in",
            "--manager",
            "out",
            status=2,
        )
        status, out, _ = self.run_tool(wave.text())
        self.assertEqual((status, [line.split()[7] for line in out[1:3]]), (0, ["?", "?"]), out)

    def test_clock_that_never_rises(self) -> None:
        wave = Wave()
        wave.begin()
        self.assertIn("never rises", self.trace(wave)[2])

    def test_edges(self) -> None:
        """x to 1 is a rising edge, as it is in Verilog; the first value of a dump is none; 1 to 1 is none; down and up
        at one time is none."""
        for values, beats in (("x1", 1), ("1", 0), ("01", 1), ("011", 1), ("0101", 2), ("z1", 1), ("10", 0)):
            with self.subTest(values):
                wave = Wave()
                wave.begin()
                wave.body = [line for line in wave.body if line != f"0{wave.codes['clock'][0]}"]
                wave.beat("in", "a", opcode=4)
                for at, value in enumerate(values):
                    wave.time(10 * at + 10, clock=value)
                self.assertEqual(len(self.trace(wave)[0]) - 1, beats)
        wave = Wave()
        wave.begin()
        wave.beat("in", "a", opcode=4)
        wave.time(10, clock=1)
        wave.time(20, clock=0)
        wave.change("clock", 1)
        self.assertEqual(len(self.trace(wave)[0]) - 1, 1)

    def test_inputs_that_change_with_the_clock(self) -> None:
        text = simple().text().replace("$scope module top", "$scope module TOP")
        self.assertIn(
            "TOP.in_a_valid, an input that a C++ bench drives, changes as the clock rises, 1 times, first at time 10",
            self.trace(text)[2],
        )
        self.assertNotIn("C++", self.trace(simple())[2])

    def test_from_and_to(self) -> None:
        """Nothing is under way before time 10 and from time 20 on."""
        for words, lines, begin in (
            (("--from", "5"), NEAR, ""),
            (("--from", "11"), NEAR, "--from 11: begins at time 10, "),
            (("--from", "18"), NEAR[:1], "--from 18: begins at time 20, "),
            (("--from", "25"), NEAR[:1], ""),
        ):
            with self.subTest(words):
                out, _, said = self.trace(simple(), *words)
                self.assertEqual(out, lines)
                self.assertIn(begin or "reset", said)
                self.assertEqual(bool(begin), "begins at time" in said)
        for words, lines, end in (
            (("--to", "30"), NEAR, ""),
            (("--to", "19"), NEAR, "--to 19: ends at time 20, "),
            (("--to", "3"), NEAR[:1], ""),
            (("--to", "20"), NEAR, ""),
        ):
            with self.subTest(words):
                out, _, said = self.trace(simple(), *words)
                self.assertEqual(out, lines)
                self.assertEqual("ends at time" in said, bool(end), said)
                self.assertIn(end, said)

    def test_from_and_to_of_a_list(self) -> None:
        """The list counts the beats of this time, both ends included."""
        for words, counts in (
            ((), "A 1 D 1"),
            (("--from", "10"), "A 1 D 1"),
            (("--from", "11"), "A 0 D 1"),
            (("--from", "21"), "A 0 D 0"),
            (("--to", "20"), "A 1 D 1"),
            (("--to", "19"), "A 1 D 0"),
            (("--to", "9"), "A 0 D 0"),
            (("--from", "11", "--to", "19"), "A 0 D 0"),
        ):
            with self.subTest(words):
                status, out, said = self.run_tool(simple().text(), *words)
                self.assertEqual((status, [line.split()[-4:] for line in out[1:3]]), (0, [counts.split()] * 2), said)

    def test_response_in_the_cycle_of_its_request(self) -> None:
        wave = Wave()
        wave.begin()
        wave.time(5)
        wave.beat("in", "a", opcode=4, size=2, address=0x1004, mask=0xF0)
        wave.beat("in", "d", opcode=1, size=2, data=0x1111111122222222)
        wave.time(10, clock=1)
        self.assertEqual(self.trace(wave)[1][1], "D 1 0 2 00 00 0 1111111100000000 0")

    def test_lanes(self) -> None:
        self.assertEqual(active_lanes(0, 5, 8), 0x20)
        self.assertEqual(active_lanes(1, 6, 8), 0xC0)
        self.assertEqual(active_lanes(2, 4, 4), 0xF)
        self.assertEqual(active_lanes(12, 0, 128), (1 << 128) - 1)
        self.assertEqual(hexadecimal(b"xxxx1x00zzzz1z00", 4), "xXzZ")


class Forms(Case):
    def check(self, text: Any) -> str:
        near, far, said = self.trace(text)
        self.assertEqual((near, far), (NEAR, FAR))
        return said

    def test_gap(self) -> None:
        wave = simple()
        text = wave.text()
        off = (
            "#12\n$dumpoff\n"
            + "".join(f"x{code}\n" if bits == 1 else f"bx {code}\n" for code, bits in wave.codes.values())
            + "$end\n"
        )
        back = (
            f"#13\n$dumpon\n1{wave.codes['clock'][0]}\n"
            + "".join(
                f"0{code}\n" if bits == 1 else f"b0 {code}\n"
                for key, (code, bits) in wave.codes.items()
                if key != "clock"
            )
            + "$end\n"
        )
        made = text.replace("#15\n", off + back + "#15\n")
        near, far, said = self.trace(made)
        self.assertEqual((near, far), (NEAR[:2], FAR[:2]))
        self.assertIn(
            (
                "nothing was recorded from time 12 to 13: a part of the run ends there, while beats are under way "
                "(A source 07 on the client's link, A source 07 on the manager's link)"
            ),
            said,
        )
        self.assertIn("2 beats after time 13 are left out: messages that began before it were under way", said)
        low = back.replace("#13", "#2").replace(f"1{wave.codes['clock'][0]}\n", f"0{wave.codes['clock'][0]}\n")
        self.assertEqual(self.trace(text.replace("#5\n", off.replace("#12", "#1") + low + "#5\n"))[0], NEAR)
        self.assertIn("nothing was dumped from time 12 to 13", self.run_tool(made)[2])
        said = self.trace(text.replace("#15\n", off + "#15\n").split("#20")[0])[2]
        self.assertIn("nothing was recorded from time 12 to 15", said)

    def test_dumpvars_in_the_middle(self) -> None:
        wave = simple()
        again = f"$dumpvars\n1{wave.codes['clock'][0]}\n0{wave.codes['reset'][0]}\n$end\n"
        self.check(
            wave.text().replace("#15\n", "#12\n" + again + "#13\n" + again.replace("dumpvars", "dumpall") + "#15\n")
        )

    def test_begins_late(self) -> None:
        self.assertIn("the dump begins at time 5", self.trace(simple().text().replace("#0\n", "#5\n"))[2])

    def test_other_variables(self) -> None:
        wave = simple()
        wave.add("noise", 64, code="~r", kind="real")
        wave.add("a_valid_count", 32, code="~i", kind="integer")
        wave.vars += [
            "$var string 1 ~s word $end",
            "$var event 1 ~e ev $end",
            "$var parameter 32 ~p WIDTH $end",
            "$var wire 0 ~z none $end",
        ]
        self.check(
            wave.text().replace("#15\n", "#12\nr1.5e-3 ~r\nr-inf ~r\nshello ~s\ns ~s\n1~e\nb101 ~p\nbx ~i\n#15\n")
        )

    def test_aliases(self) -> None:
        wave = simple()
        wave.vars += ["$upscope $end", "$scope module tb $end", *wave.vars]
        text = wave.text().replace("$upscope $end\n$enddef", "$upscope $end\n$enddef")
        near, far, _ = self.trace(text, client="top.in", manager="tb.out")
        self.assertEqual((near, far), (NEAR, FAR))
        _, out, _ = self.run_tool(text)
        self.assertTrue(any(line.startswith("tb.in") and line.endswith("same as top.in") for line in out), out)

    def test_escaped_names(self) -> None:
        text = (
            simple()
            .text()
            .replace(" in_a_", " \\in_a_")
            .replace(" in_d_", " \\u.in_d_")
            .replace("\\u.in_d_", "\\in_d_")
        )
        self.check(text)
        text = simple().text().replace(" in_", " \\u$x.y.in_")
        near, _, _ = self.trace(text, client="top.u$x.y.in", manager="out")
        self.assertEqual(near, NEAR)

    def test_range_without_a_space(self) -> None:
        self.check(simple().text().replace(" [", "["))

    def test_split_by_bit(self) -> None:
        wave = simple()
        text = wave.text()
        for name in ("in_a_address", "in_a_mask", "out_d_data"):
            side, channel, field = name.split("_")
            code, bits = wave.codes[side, channel, field]
            order = list(range(bits))
            random.Random(1).shuffle(order)
            text = text.replace(
                f"$var wire {bits} {code} {name} [{bits - 1}:0] $end",
                "\n".join(f"$var wire 1 {{{code}{bit} {name} [{bit}] $end" for bit in order),
            )
            lines = []
            for line in text.split("\n"):
                if line.startswith("b") and line.endswith(f" {code}"):
                    value = line[1:].split()[0]
                    value = ("0" if value[0] in "01" else value[0]) * (bits - len(value)) + value
                    lines += [f"{bit}{{{code}{bits - 1 - at}" for at, bit in enumerate(value)]
                else:
                    lines.append(line)
            text = "\n".join(lines)
        self.check(text)

    def test_split_by_range(self) -> None:
        wave = simple()
        code, _ = wave.codes["out", "d", "data"]
        text = wave.text().replace(
            f"$var wire 32 {code} out_d_data [31:0] $end",
            "$var wire 16 {l out_d_data [15:0] $end\n$var wire 16 {h out_d_data[31:16] $end",
        )
        text = text.replace(f"b{0xDDCCBBAA:b} {code}\n", f"b{0xDDCC:b} {{h\nb{0xBBAA:b} {{l\n")
        self.check(text)

    def test_parts_that_are_no_vector(self) -> None:
        """Variables of one name are a vector if their ranges follow each other. With a gap, an overlap or another
        number of bits, the first one counts."""
        for ranges, bits in (
            (((31, 16), (15, 0)), 32),
            (((15, 0), (31, 16)), 32),
            (((31, 17), (15, 0)), 15),
            (((31, 15), (15, 0)), 17),
            (((31, 16), (14, 0)), 16),
            (((7, 0), (15, 8), (31, 16)), 32),
            (((7, 0), (16, 9), (31, 17)), 8),
        ):
            parts = [vcd.Variable(("top",), "data", high - low + 1, high, low, b"!", "wire") for high, low in ranges]
            with self.subTest(ranges=ranges):
                self.assertEqual(links.joined(parts)[("top",), "data"].bits, bits)
        parts = [vcd.Variable(("top",), "data", 8, high, low, b"!", "wire") for high, low in ((31, 16), (15, 0))]
        self.assertEqual(links.joined(parts)[("top",), "data"].bits, 8)

    def test_short_vectors(self) -> None:
        """A vector is extended by 0, or by x where that is its first bit."""
        wave = simple()
        self.check(wave.text().replace("bx ", "bX ").replace("b100 ", "b0100 ", 1))
        self.assertEqual(links.extended(b"x1", 4, ""), b"xxx1")
        self.assertEqual(links.extended(b"1", 4, ""), b"0001")
        self.assertEqual(links.extended(b"z", 2, ""), b"zz")
        self.assertEqual(links.extended(b"0001", 2, ""), b"01")

    def test_free_form(self) -> None:
        """Changes on one line, vectors over two lines, comments among the changes."""
        text = simple().text()
        head, _, body = text.partition("$enddefinitions $end\n")
        words = body.split()
        self.check(head + "$enddefinitions $end " + " ".join(words) + "\n")
        self.check(head + "$enddefinitions $end\n" + "\n".join(words) + "\n")
        self.check(head + "$enddefinitions $end\n" + " \t\n ".join(words) + "\n\n")
        self.check(text.replace("#15\n", "$comment\n1!\n#99\nnonsense b $dumpoff\n$end\n#15\n"))
        self.check(text.replace(" $end", "\n\t$end\n"))

    def test_vhdl_values(self) -> None:
        wave = simple()
        text = wave.text().replace("bxxxx", "bUW-x").replace("bz ", "b- ")
        code, ready = wave.codes["in", "a", "mask"][0], wave.codes["in", "a", "ready"][0]
        self.check(
            text.replace(f"b11110000 {code}", f"bHHH1LLL0 {code}")
            .replace("#5\n", f"#5\nU{wave.codes['in', 'd', 'ready'][0]}\n")
            .replace(f"1{ready}\n", f"H{ready}\n")
        )

    def test_crlf(self) -> None:
        self.check(simple().text().replace("\n", "\r\n"))

    def test_blocks_of_any_size(self) -> None:
        text = simple().text() + "$comment end $end\n"
        kept = vcd.BLOCK
        try:
            for size in (1, 2, 3, 7, 16, 64, 1000):
                vcd.BLOCK = size
                self.check(text)
                self.check(text.replace("\n", "\r\n"))
        finally:
            vcd.BLOCK = kept

    def test_gzip(self) -> None:
        status, out, _ = self.run_tool(
            gzip.compress(simple().text().encode()), "--client", "in", "--manager", "out", name="dump.vcd.gz"
        )
        self.assertEqual((status, out), (0, NEAR))

    def test_standard_input(self) -> None:
        script = ROOT / "tlbridge-trace"
        done = subprocess.run(
            [sys.executable, str(script), "-", "--client", "in", "--manager", "out"],
            input=simple().text(),
            capture_output=True,
            text=True,
            check=False,
        )
        self.assertEqual((done.returncode, done.stdout.splitlines()), (0, NEAR))

    def test_cut_off(self) -> None:
        text = simple().text()
        for end in ("b0101", "b01 ", "#4", "1", "$dump", "r1.5"):
            with self.subTest(end):
                near, far, said = self.trace(text + end)
                self.assertEqual((near, far), (NEAR, FAR))
                self.assertIn("cut off", said)

    @unittest.skipUnless(shutil.which("vcd2fst") and shutil.which("fst2vcd"), "gtkwave's programs are not there")
    def test_fst(self) -> None:
        (self.folder / "a.vcd").write_text(simple().text())
        subprocess.run(["vcd2fst", self.folder / "a.vcd", self.folder / "a.fst"], check=True, capture_output=True)
        status, out, said = self.run_tool(
            (self.folder / "a.fst").read_bytes(), "--client", "in", "--manager", "out", name="b.fst"
        )
        self.assertEqual((status, out), (0, NEAR), said)
        self.refused((self.folder / "a.fst").read_bytes()[:40], "fst2vcd could not read it")

    def test_fst_with_many_messages(self) -> None:
        """fst2vcd does not stop because nobody reads its messages, and they are shown if it fails."""
        (self.folder / "as.vcd").write_text(simple().text())
        for status in (0, 1):
            (self.folder / "fst2vcd").write_text(
                f"#!/bin/sh\nyes 'a damaged block' | head -c 300000 >&2\ncat '{self.folder}/as.vcd'\nexit {status}\n"
            )
            (self.folder / "fst2vcd").chmod(0o755)
            kept = os.environ["PATH"]
            os.environ["PATH"] = f"{self.folder}{os.pathsep}{kept}"
            try:
                got, out, said = self.run_tool(bytes(400), "--link", "in", "--quiet")
            finally:
                os.environ["PATH"] = kept
            if status:
                self.assertEqual(got, 3)
                self.assertIn("fst2vcd could not read it: a damaged block", said)
            else:
                self.assertEqual((got, out[1:], said), (0, [LOW, FAR[2]], ""))

    def test_codes_like_keywords(self) -> None:
        """Codes may begin as times, values and keywords do."""
        wave = simple()
        text = wave.text()
        odd = iter(("#5", "b1", "b10", "1!", "xx", "r~"))
        for key in (
            ("in", "a", "valid"),
            ("in", "a", "address"),
            ("in", "a", "data"),
            ("out", "d", "data"),
            "clock",
            ("in", "a", "mask"),
        ):
            code, bits = wave.codes[key]
            new = next(odd)
            lines = []
            for line in text.split("\n"):
                if line.startswith(f"$var wire {bits} {code} "):
                    line = line.replace(f" {code} ", f" {new} ", 1)
                elif bits == 1 and len(line) == 1 + len(code) and line[1:] == code and line[0] in "01xz":
                    line = line[0] + new
                elif bits > 1 and line.startswith("b") and line.endswith(" " + code):
                    line = line[: -len(code)] + new
                lines.append(line)
            text = "\n".join(lines)
        self.check(text)


HOSTILE: Dict[str, Sequence[Any]] = {
    "empty": ("", "the file is empty"),
    "no definitions": ("$version x $end\n", "before $enddefinitions"),
    "within a keyword": ("$scope module top\n", "ends within $scope"),
    "text": ("hello\n", "line 1: a keyword such as $var is expected here, and not 'hello'"),
    "end alone": ("$end\n", "a keyword such as $var is expected"),
    "binary": (b"\x7fELF\0\0\0\0aaaaaaaaaaa", "neither VCD nor FST"),
    "zeros": (bytes(400), "fst2vcd"),
    "long line": (b"$comment " + b"a" * (1 << 21), "a line of the header has more than"),
    "var of two words": ("$var wire 1 $end\n", "line 1: $var needs a kind"),
    "bits": ("$var wire many ! a $end\n", "'many' is not a number of bits"),
    "negative bits": ("$var wire -1 ! a $end\n", "'-1' is not a number of bits"),
    "too many bits": ("$var wire 99999999999999999999 ! a $end\n", "is not a number of bits"),
    "two million bits": ("$var wire 2000000 ! a $end\n", "is not a number of bits"),
    "unicode digits": ("$var wire \xb2 ! a $end\n", "is not a number of bits"),
    "code": ("$var wire 1 \x80 a $end\n", "a code has printable characters only"),
    "scope": ("$scope module $end\n", "$scope needs a kind and a name"),
    "upscope": ("$scope module a $end\n$upscope $end\n$upscope $end\n", "line 3: $upscope without its $scope"),
    "deep": ("$scope module a $end\n" * 2000, "more than 1000 scopes"),
    "endless var": ("$var " + "a " * 5000 + "\n", "$var has no $end"),
    "no change": (None, "'hello' is neither a change nor a time", "hello\n"),
    "value without a code": (None, "line 4: '1' is a value without a code", "#0\n0!\n#1\n1 !\n"),
    "time": (None, "'#x' is neither a change nor a time", "#x\n"),
    "negative time": (None, "'#-5' is neither a change nor a time", "#-5\n"),
    "no time": (None, "'#' is neither a change nor a time", "#\n1!\n"),
    "time goes back": (None, "line 14: time goes back, from 10 to 5", "#0\n0!\n\n\n\n\n\n\n#10\n1!\n\n\n\n#5\n0!\n"),
    "vector": (None, "'b012' is neither", 'b012 "\n'),
    "underscores": (None, "'b0_1' is neither", 'b0_1 "\n'),
    "unknown keyword": (None, "'$var' has no place among the changes", "#0\n$var wire 1 ! a $end\n"),
    "extended": (None, "extended VCD", "#0\n$dumpports\npD 6 6 !\n$end\n"),
    "extended change": (None, "extended VCD", "#0\npD 6 6 !\n"),
    "comment": (None, "the file ends within $comment", "#0\n$comment a\n"),
    "bytes": (None, "'\\x80\\xff' is neither", "#0\n\x80\xff\n"),
    "nul": (None, "is neither", "#0\n0!\n" * 20 + "\0\0\n"),
    "markup": (None, "neither", "<html>\n"),
    "endless time": (None, "a time has more than 31 digits", "#" + "9" * 5000 + "\n0!\n#" + "9" * 5001 + "\n1!\n"),
    "endless code": ("$var wire 1 " + "a" * 5000 + " a $end\n", "a code has more than 64 characters"),
}


class Failing(io.RawIOBase):
    """A file whose reads fail after its last byte."""

    def __init__(self, text: bytes) -> None:
        self.left = text

    def readable(self) -> bool:
        return True

    def readinto(self, buffer: Any) -> int:
        if not self.left:
            raise OSError(5, "Input/output error")
        count = min(len(buffer), len(self.left))
        buffer[:count], self.left = self.left[:count], self.left[count:]
        return count


class Malformed(Case):
    def test_hostile(self) -> None:
        self.assertGreaterEqual(len(HOSTILE), 25)
        for name, (text, words, *body) in HOSTILE.items():
            with self.subTest(name):
                if text is None:
                    text = Wave().text()
                    # lines are counted from the changes on
                    words = re.sub(r"line (\d+)", lambda found: f"line {text.count(chr(10)) + int(found[1])}", words)
                    text += body[0]
                # (a block of zeros begins as an FST file does)
                is_missing = words == "fst2vcd" and not shutil.which("fst2vcd")
                self.refused(text, words, status=4 if is_missing else 3)

    def test_values_too_long(self) -> None:
        wave = simple()
        code = wave.codes["in", "a", "opcode"][0]
        self.refused(
            wave.text().replace(f"b100 {code}", f"b10100 {code}"),
            "top.in_a_opcode has 3 bits, but a change gives it 5",
            "--client",
            "in",
            "--manager",
            "out",
        )

    def test_widths_that_are_none(self) -> None:
        wave = simple()
        code = wave.codes["in", "a", "data"][0]
        self.refused(
            wave.text().replace(f"$var wire 64 {code} in_a_data [63:0]", f"$var wire 24 {code} in_a_data [23:0]"),
            "its data signals have",
            "--client",
            "in",
            "--manager",
            "out",
            status=2,
        )
        for width in (3, 5, 12, 256):
            with self.subTest(width):
                self.refused(
                    simple(client=width).text().replace("x" * 64, "x"),
                    f"{width} bytes is not a width of a link",
                    "--client",
                    "in",
                    "--manager",
                    "out",
                    status=2,
                )

    def test_no_file(self) -> None:
        status = None
        said = io.StringIO()
        with contextlib.redirect_stderr(said):
            status = command.main([str(self.folder / "none.vcd")])
        self.assertEqual(status, 4)
        self.assertIn("No such file", said.getvalue())

    def test_a_folder(self) -> None:
        said = io.StringIO()
        with contextlib.redirect_stderr(said):
            self.assertEqual(command.main([str(self.folder)]), 4)

    def test_a_read_that_fails(self) -> None:
        """A read fails after some bytes, in the header or among the changes: the message names the dump."""
        text = simple().text().encode()
        for good in (10, len(text) - 50):
            with self.subTest(good=good), mock.patch.object(
                chosen, "open_wave", return_value=(io.BufferedReader(Failing(text[:good])), None, 0)
            ):
                self.assertEqual(
                    self.refused(text, "", "--client", "in", "--manager", "out", status=4).splitlines()[-1],
                    f"tlbridge-trace: {self.folder / 'dump.vcd'}: Input/output error",
                )

    def test_damaged_gzip(self) -> None:
        self.refused(gzip.compress(simple().text().encode())[:200], "ended", "--client", "in", "--manager", "out")
        self.refused(b"\x1f\x8b" + b"a" * 100, "dump.vcd", "--client", "in", "--manager", "out")

    def test_mutations(self) -> None:
        """Whatever bytes change: a refusal, or an answer that is right or has a note; and no traceback."""
        source = random.Random(5)
        text = simple("rocket").text().encode()
        compared = 0
        for number in range(int(os.environ.get("MUTATIONS", "400"))):
            made = mutated(text, source, number % 2 * text.index(b"#0"))
            status, _, said = self.run_tool(made)
            self.assertIn(status, (0, 2, 3), said)
            status, out, said = self.run_tool(made, "--client", "auto_in", "--manager", "auto_out")
            self.assertIn(status, (0, 2, 3), said)
            notes = [
                line
                for line in said.splitlines()
                if not re.search(r"top\.auto_(in|out): AD, [84] bytes, clock top.clock, reset top.reset$", line)
            ]
            if status == 0 and not notes:
                compared += 1
                self.assertEqual(out[1:], plain_beats(made), made.decode("latin-1"))
        if number >= 399:
            self.assertGreater(compared, 10)


def mutated(text: bytes, source: random.Random, first: int = 0) -> bytes:
    """The text with up to five changes after its first bytes."""
    made = bytearray(text)
    for _ in range(source.randrange(1, 6)):
        at = source.randrange(first, len(made))
        kind = source.randrange(4)
        if kind == 0:
            made[at] = source.randrange(256)
        elif kind == 1:
            del made[at : at + source.randrange(1, 30)]
        elif kind == 2:
            made[at:at] = source.choice(
                (b"\n", b" ", b"$end", b"b", b"#", b"x", b"\0", b"$comment ", b"$dumpoff", b"1!")
            )
        else:
            made[at:at] = made[: source.randrange(40)]
    return bytes(made)


def plain_beats(text: bytes) -> List[str]:
    """The near beats of `simple("rocket")`, or of a changed copy, read word by word in the plainest way."""
    words = iter(text.split())
    codes: Dict[str, Tuple[bytes, int]] = {}
    for word in words:
        if word == b"$enddefinitions":
            break
        inside = list(iter(lambda: next(words), b"$end"))
        if word == b"$var":
            codes.setdefault(
                re.sub(r"\[.*", "", inside[3].decode("latin-1").lstrip("\\")).lower(), (inside[2], int(inside[1]))
            )
    next(words)
    values: Dict[bytes, bytes] = {}
    step: Dict[bytes, bytes] = {}
    homes: Dict[int, int] = {}
    lines: List[str] = []
    now = b"0"
    for word in words:
        if word == b"$comment":
            list(iter(lambda: next(words), b"$end"))
        elif word[:1] == b"#":
            if int(word[1:]) != int(now):
                lines += at_edge(values, step, codes, homes)
                values.update(step)
                step, now = {}, word[1:]
        elif word[:1] in b"bB":
            step[next(words)] = word[1:].lower()
        elif word[:1] not in b"$rRsS":
            step[word[1:]] = word[:1].lower()
        elif word[:1] in b"rRsS":
            next(words)
    return lines + at_edge(values, step, codes, homes)


def at_edge(values: Any, step: Any, codes: Any, homes: Any) -> List[str]:
    """The lines of a rising edge; `homes` has the address of each source's last request on the manager's link."""

    def number(name: str) -> int:
        code, bits = codes[name]
        value = values.get(code, b"x")
        return int(value[-bits:].translate(bytes.maketrans(b"xzuw-lh", b"0000001")), 2)

    def is_one(name: str) -> bool:
        return values.get(codes[name][0], b"x")[-1:] in (b"1", b"h")

    clock = codes["clock"][0]
    rises = step.get(clock, b"") in (b"1", b"h") and clock in values and values[clock] not in (b"1", b"h")
    if not rises or is_one("reset"):
        return []
    lines = []
    if is_one("auto_out_a_valid") and is_one("auto_out_a_ready"):
        homes[number("auto_out_a_bits_source")] = number("auto_out_a_bits_address")
    if is_one("auto_in_a_valid") and is_one("auto_in_a_ready"):
        opcode, size, address = (
            number("auto_in_a_bits_opcode"),
            number("auto_in_a_bits_size"),
            number("auto_in_a_bits_address"),
        )
        has_data = opcode < 4

        def is_read(lane: int) -> bool:
            return has_data and lane_is_active(lane, size, address, 8)

        data = "".join(
            f"{number('auto_in_a_bits_data') >> 8 * lane & 255 if is_read(lane) else 0:02x}"
            for lane in reversed(range(8))
        )
        lines.append(
            f"A {opcode:x} {number('auto_in_a_bits_param'):x} {size:x} {number('auto_in_a_bits_source'):02x}"
            f" {address:016x} {number('auto_in_a_bits_mask'):02x} {data} {number('auto_in_a_bits_corrupt')}"
        )
    if is_one("auto_out_d_valid") and is_one("auto_out_d_ready"):
        opcode, size, source = (
            number("auto_out_d_bits_opcode"),
            number("auto_out_d_bits_size"),
            number("auto_out_d_bits_source"),
        )
        active = [
            opcode in (1, 5) and (source not in homes or lane_is_active(lane, size, homes[source], 4))
            for lane in range(4)
        ]
        data = "".join(
            f"{number('auto_out_d_bits_data') >> 8 * lane & 255 if active[lane] else 0:02x}"
            for lane in reversed(range(4))
        )
        lines.append(
            f"D {opcode:x} {number('auto_out_d_bits_param'):x} {size:x} {source:02x} "
            f"{number('auto_out_d_bits_sink'):02x} {number('auto_out_d_bits_denied')} {data} "
            f"{number('auto_out_d_bits_corrupt')}"
        )
    return lines


def lane_is_active(lane: int, size: int, address: int, width: int) -> bool:
    return 1 << size >= width or lane >> size == address % width >> size


STUB = """#!/bin/sh
cat > /dev/null
cat <<'END'
{answer}
END
exit {status}
"""


class Comparing(Case):
    def stub(self, lines: Sequence[str], status: int = 0) -> str:
        path = self.folder / "stub"
        path.write_text(STUB.format(answer="\n".join(lines), status=status))
        path.chmod(0o755)
        return str(path)

    REPORT = ["= A done 1 1", "= B done 0 0", "= C done 0 0", "= D done 1 1", "= E done 0 0"]

    def compared(
        self, lines: Sequence[str], wave: Optional[Wave] = None, status: int = 0, *more: str
    ) -> Tuple[int, List[str], str]:
        return self.run_tool(
            (wave or simple()).text(),
            "--client",
            "in",
            "--manager",
            "out",
            "--compare",
            "--program",
            self.stub(lines, status),
            *more,
        )

    def test_all_as_expected(self) -> None:
        status, out, said = self.compared(FAR + self.REPORT)
        self.assertEqual((status, out[1]), (0, "A: done: 1 near beats, 1 far beats expected"), said)

    def test_a_difference_has_both_times(self) -> None:
        status, out, _ = self.compared([FAR[0], FAR[1].replace(" 07 ", " 06 "), FAR[2]] + self.REPORT)
        self.assertEqual(status, 1)
        self.assertEqual(
            out[3],
            (
                "A: far beat 0, time 10 on the manager's link: source is 07, expected 06; "
                f"its message begins at time 10 on the client's link, line 2 of the trace: {LOW}"
            ),
        )
        self.assertEqual(out[1], "first difference: channel A, time 10")

    def test_missing_and_unexpected(self) -> None:
        status, out, _ = self.compared([FAR[0], FAR[1], FAR[1], FAR[2]] + self.REPORT)
        self.assertIn("A: far beat 1 is expected but missing", "\n".join(out))
        self.assertEqual(status, 1)
        status, out, _ = self.compared([FAR[0], FAR[2]] + self.REPORT)
        self.assertIn("A: far beat 0, time 10 on the manager's link, is unexpected", "\n".join(out))

    def test_refused(self) -> None:
        status, out, _ = self.compared([FAR[0], FAR[2], "= A refused 0 Mask", *self.REPORT[1:]], None, 1)
        self.assertEqual(status, 1)
        self.assertEqual(
            out[2:4],
            [
                (
                    f"A: refused: near beat 0, time 10 on the client's link, line 2 of the trace: Mask: {LOW}; later"
                    " beats of the channel are not judged"
                ),
                "B: done: 0 near beats, 0 far beats expected",
            ],
        )
        self.assertEqual(out[1], "first difference: channel A, time 10")

    def test_program_fails(self) -> None:
        status, _, said = self.compared([], None, 9)
        self.assertEqual(status, 2)
        self.assertIn("ended with status 9, so there is nothing to compare with", said)
        status, _, said = self.compared([""])
        self.assertEqual(status, 2)
        self.assertIn("printed no answer to a trace: line 1 is ''", said)
        for words in (
            [FAR[0]],
            [FAR[0], *self.REPORT[:4]],
            [*FAR, FAR[1], *self.REPORT],
            [*FAR, "A 4", *self.REPORT],
            [*FAR, *self.REPORT, *self.REPORT],
            [FAR[0], FAR[1].replace("A 4 0 2", "A 4 0 fffffff"), *self.REPORT],
            [FAR[0], FAR[1].replace("A 4", "A z"), *self.REPORT],
            [FAR[0], "", *self.REPORT],
        ):
            with self.subTest(words):
                status, _, said = self.compared(words)
                self.assertEqual(status, 2, said)
                self.assertIn("/stub printed ", said)
        status, _, said = self.run_tool(
            simple().text(), "--client", "in", "--manager", "out", "--compare", "--program", str(self.folder / "none")
        )
        self.assertEqual(status, 2)
        self.assertIn("none: No such file", said)

    def test_the_place_of_a_fault(self) -> None:
        path = Path(self.stub([], 3))
        path.write_text("#!/bin/sh\ncat > /dev/null\necho 'tlbridge: line 3: 18 Range' >&2\nexit 3\n")
        status, _, said = self.run_tool(
            simple().text(), "--client", "in", "--manager", "out", "--compare", "--program", str(path)
        )
        self.assertEqual(status, 3)
        self.assertIn(f"time 20 on the manager's link, line 3 of the trace: 18 Range: {NEAR[2]}", said)

    def test_no_beat_is_no_pass(self) -> None:
        wave = Wave()
        wave.begin()
        wave.time(10, clock=1)
        status, out, said = self.compared(FAR + self.REPORT, wave)
        self.assertEqual(status, 2, out)
        self.assertIn("no beat was accepted on either link, so there is nothing to compare", said)

    def test_ignored_lanes(self) -> None:
        wave = Wave()
        wave.begin()
        wave.time(5)
        put = dict(opcode=1, size=2, address=0)
        wave.beat("in", "a", **put, mask=0b0101, data=0x44332211)
        wave.beat("out", "a", **put, mask=0b0101, data=0x99339911)
        wave.time(10, clock=1)
        due = [FAR[0], "A 1 0 2 00 0000000000000000 5 44332211 0"] + [
            "= A done 1 1",
            "= B done 0 0",
            "= C done 0 0",
            "= D done 0 0",
            "= E done 0 0",
        ]
        self.assertEqual(self.compared(due, wave)[0], 1)
        self.assertEqual(self.compared(due, wave, 0, "--ignore-unmasked")[0], 0)

    def test_with_the_program(self) -> None:
        program = str(needs_program("tlbridge"))
        for style, stem in (("plain", "top."), ("rocket", "auto_"), ("spinal", "io_")):
            status, out, said = self.run_tool(
                simple(style).text(),
                "--client",
                stem + "in",
                "--manager",
                stem + "out",
                "--compare",
                "--program",
                program,
            )
            self.assertEqual((status, len(out)), (0, 6), said)

    def test_beats_as_the_monitor_writes_them(self) -> None:
        self.trace(simple(), "--beats", str(self.folder / "m"))
        self.assertEqual((self.folder / "m.client.beats").read_text().splitlines(), [LOW, FAR[2]])
        self.assertEqual((self.folder / "m.manager.beats.times").read_text().splitlines(), ["10", "20"])


# A bridge between links of one width passes each beat on as it is.
SAME_WIDTH = """#!{python}
import sys
head, *lines = sys.stdin.read().splitlines()
print(head.replace("trace", "far"))
print("".join(line + "\\n" for letter in "ABCDE" for line in lines if line[0] == letter), end="")
for letter in "ABCDE":
    count = sum(line[0] == letter for line in lines)
    print("=", letter, "done", count, count)
"""


class Crossing:
    """Reads that cross between links of 8 bytes, one after the other, each 100 time units long: A on the client's link
    at 10, on the manager's at 30, D there at 50, and on the client's link at 70."""

    def __init__(self, count: int, reset_signals: bool = False) -> None:
        self.wave = Wave(client=8, manager=8)
        if reset_signals:
            self.wave = Wave(client=8, manager=8, two_clocks=True)
        self.clocks = ("in_clock", "out_clock") if reset_signals else ("clock",)
        self.wave.begin()
        for number in range(count):
            self.read(100 * number, number % 16)

    def edge(self, time: int, side: str, channel: str, **fields: Any) -> None:
        wave = self.wave
        wave.time(time - 5, **dict.fromkeys(self.clocks, 0))
        wave.beat(side, channel, **fields)
        wave.time(time, **dict.fromkeys(self.clocks, 1))
        wave.beat(side, channel, valid=0)

    def read(self, start: int, source: int, drop: Sequence[int] = (), data: int = 0x1122334455667788) -> None:
        ask, answer = dict(opcode=4, size=3, source=source, address=0x1000, mask=0xFF), dict(
            opcode=1, size=3, source=source, data=data
        )
        for at, (side, channel, fields) in enumerate(
            (("in", "a", ask), ("out", "a", ask), ("out", "d", answer), ("in", "d", answer))
        ):
            if at not in drop:
                self.edge(start + 20 * at + 10, side, channel, **fields)

    def text(self) -> str:
        return self.wave.text()


class LongRuns(Case):
    def setUp(self) -> None:
        super().setUp()
        self.program = self.folder / "same"
        self.program.write_text(SAME_WIDTH.replace("{python}", sys.executable))
        self.program.chmod(0o755)
        kept = runs.PART_BYTES, runs.MOST_BYTES
        self.addCleanup(setattr, runs, "PART_BYTES", kept[0])
        self.addCleanup(setattr, runs, "MOST_BYTES", kept[1])

    def compared(self, text: Any, *words: str) -> Tuple[int, List[str], str]:
        return self.run_tool(
            text, "--client", "in", "--manager", "out", "--compare", "--program", str(self.program), *words
        )

    def parts(self, *words: str) -> List[List[str]]:
        """The files of the parts of a trace, as lines."""
        files = sorted(self.folder.glob("part*"), key=lambda path: int(path.suffix[1:] or 1))
        return [path.read_text().splitlines() for path in files]

    def test_cut_at_quiet_moments(self) -> None:
        runs.PART_BYTES = 300  # three reads and a half
        made = Crossing(10)
        status, out, said = self.compared(
            made.text(), "--trace", str(self.folder / "part"), "--times", str(self.folder / "times")
        )
        self.assertEqual(status, 0, said + "\n".join(out))
        self.assertEqual(out[0], "the dump covers time 0 to 970, in units of 1ns, judged in 3 parts")
        self.assertEqual(out[1], "A: done: 10 near beats, 10 far beats expected")
        parts = self.parts()
        self.assertEqual([len(part) for part in parts], [9, 9, 5])
        self.assertEqual({part[0] for part in parts}, {"tilelink-trace 1 client 8 manager 8"})
        runs.PART_BYTES = 1 << 20
        self.assertEqual(
            sum((part[1:] for part in parts), []),
            self.run_tool(made.text(), "--client", "in", "--manager", "out")[1][1:],
        )
        self.assertEqual((self.folder / "times.2").read_text().split()[:3], ["410", "450", "510"])

    def test_numbers_of_the_whole(self) -> None:
        runs.PART_BYTES = 300
        made = Crossing(9)
        made.read(900, 9, drop=(3,))
        made.edge(970, "in", "d", opcode=1, size=3, source=9, data=0)
        status, out, _ = self.compared(made.text())
        self.assertEqual(status, 1)
        self.assertEqual(
            [line for line in out if "far beat " in line][0],
            (
                "D: far beat 9, time 970 on the client's link: data is 0000000000000000, expected 1122334455667788; its"
                " message begins at time 950 on the manager's link, line 21 of the trace: D 1 0 3 09 00 0"
                " 1122334455667788 0"
            ),
        )

    def test_no_cut_while_a_message_crosses(self) -> None:
        """A write that the design acknowledges before it passes it on: then no request is outstanding, but a message
        crosses."""
        runs.PART_BYTES = 1
        made = Crossing(0)
        for number in range(4):
            ask, answer = dict(opcode=0, size=3, source=number, address=0x1000, mask=0xFF, data=number), dict(
                opcode=0, size=3, source=number
            )
            for at, (side, channel, fields) in enumerate(
                (("in", "a", ask), ("in", "d", answer), ("out", "a", ask), ("out", "d", answer))
            ):
                made.edge(100 * number + 20 * at + 10, side, channel, **fields)
        status, out, said = self.compared(made.text())
        self.assertEqual(status, 0, said + "\n".join(out))
        self.assertIn("judged in 4 parts", out[0])

    def test_standard_output_has_the_first_part(self) -> None:
        runs.PART_BYTES = 300
        status, out, said = self.run_tool(Crossing(10).text(), "--client", "in", "--manager", "out")
        self.assertEqual((status, len(out)), (0, 9))
        self.assertIn(
            (
                "part 2 of the run, from time 410 to 770, is not written, since a trace is one part: --trace FILE"
                " writes each part to a file"
            ),
            said,
        )

    def test_no_quiet_moment(self) -> None:
        """A request that is never answered: the part ends where the trace is full, and its differences are reported."""
        runs.PART_BYTES, runs.MOST_BYTES = 300, 4096 + 600
        made = Crossing(1)
        made.read(100, 15, drop=(1, 2, 3))
        for number in range(2, 20):
            made.read(100 * number, number % 8)
        status, out, said = self.compared(made.text())
        self.assertEqual(status, 1, said)
        self.assertIn("no idle point at which it could be split: A source ", said)
        self.assertTrue(any(line.startswith("A: far beat 1, time 230") for line in out), out)

    def test_stop_in_mid_flight(self) -> None:
        made = Crossing(3)
        made.read(300, 3, drop=(3,))
        status, out, said = self.compared(made.text())
        self.assertEqual(status, 1)
        self.assertIn(
            (
                "the record ends at time 350 while beats are under way: A source 03 on the client's link; --to 270 ends"
                " at the last idle point"
            ),
            said,
        )
        self.assertIn("D: far beat 3 is expected but missing", "\n".join(out))
        self.assertEqual(self.compared(made.text(), "--to", "270")[0], 0)

    def test_second_reset(self) -> None:
        """It ends the part; what was under way is no difference. Both links have one reset, so all is known after
        it."""
        made = Crossing(2)
        made.read(200, 2, drop=(2, 3))
        for time in (260, 280):
            made.wave.time(time, clock=0)
            made.wave.time(time + 5, clock=1, **({"reset": 1} if time == 260 else {}))
        made.wave.time(290, reset=0)
        for number in range(3, 5):
            made.read(100 * number, 2)
        status, out, said = self.compared(made.text())
        self.assertEqual(status, 0, said + "\n".join(out))
        self.assertIn(
            (
                "reset asserted again at time 285: a part of the run ends there, while beats are under way (A source 02"
                " on the client's link"
            ),
            said,
        )
        self.assertIn("judged in 2 parts", out[0])
        self.assertEqual(out[1], "A: done: 5 near beats, 5 far beats expected")

    def test_missing_at_a_reset_is_a_note(self) -> None:
        made = Crossing(1)
        made.read(100, 1, drop=(1, 2, 3))
        made.wave.time(150, clock=0)
        made.wave.time(151, reset=1)
        made.wave.time(155, clock=1)
        made.wave.time(160, clock=0, reset=0)
        made.read(200, 1)
        status, out, said = self.compared(made.text())
        self.assertEqual(status, 0, said + "\n".join(out))
        self.assertIn(
            (
                "channel A: 1 expected far beats had not arrived at time 110, when a part of the run ended; they are"
                " not judged"
            ),
            said,
        )

    def test_a_wrong_beat_after_a_reset_is_seen(self) -> None:
        """A response that no request asked for, after a reset of both links."""
        made = Crossing(1)
        made.wave.time(105, clock=0, reset=1)
        made.wave.time(110, clock=1)
        made.wave.time(115, clock=0, reset=0)
        made.edge(130, "in", "d", opcode=1, size=3, source=5, data=1)
        made.read(200, 1)
        status, out, _ = self.compared(made.text())
        self.assertEqual(status, 1)
        self.assertTrue(any("D: far beat 1, time 130" in line for line in out), out)

    def test_resets_one_after_the_other(self) -> None:
        """The manager's link drains what was under way before its own reset: that is left out, and no difference."""
        made = Crossing(2, reset_signals=True)
        made.read(200, 2, drop=(2, 3))
        made.wave.time(251, in_reset=1)
        made.wave.time(252, in_clock=0, out_clock=0)
        made.wave.time(255, in_clock=1, out_clock=1)
        made.edge(270, "out", "d", opcode=1, size=3, source=2, data=1)
        made.wave.time(272, out_reset=1)
        made.wave.time(275, in_clock=0, out_clock=0)
        made.wave.time(280, in_clock=1, out_clock=1)
        made.wave.time(285, in_clock=0, out_clock=0, in_reset=0, out_reset=0)
        made.read(300, 2)
        status, out, said = self.compared(made.text())
        self.assertEqual(status, 0, said + "\n".join(out))
        self.assertIn("1 beats after time 255 are left out", said)
        self.assertEqual(out[1], "A: done: 4 near beats, 4 far beats expected")

    def test_a_gap_in_mid_flight(self) -> None:
        made = Crossing(2)
        made.read(200, 2, drop=(2, 3))
        made.wave.body += ["#240", "$dumpoff", "$end", "#300", "$dumpon", "$end"]
        made.edge(310, "in", "d", opcode=1, size=3, source=2, data=1)
        for number in range(4, 7):
            made.read(100 * number, 3)
        status, out, said = self.compared(made.text())
        self.assertEqual(status, 0, said + "\n".join(out))
        self.assertIn(
            "nothing was recorded from time 240 to 300: a part of the run ends there, while beats are under way", said
        )
        self.assertIn("1 beats after time 300 are left out", said)
        self.assertEqual(out[1], "A: done: 6 near beats, 6 far beats expected")

    def test_a_late_begin(self) -> None:
        """A dump that begins in mid-flight: the response of before it is left out, and also a request that only the far
        link shows."""
        made = Crossing(0)
        made.edge(120, "in", "d", opcode=1, size=3, source=2, data=1)
        made.read(200, 3, drop=(0,))
        for number in range(3, 6):
            made.read(100 * number, 4)
        status, out, said = self.compared(made.text().replace("#0\n", "#100\n"))
        self.assertEqual(status, 0, said + "\n".join(out))
        self.assertIn("the dump begins at time 100", said)
        self.assertEqual(out[1], "A: done: 3 near beats, 3 far beats expected")
        self.assertIn("4 beats after time 100 are left out", said)

    def test_a_late_begin_while_a_message_crosses(self) -> None:
        """A write that was acknowledged before the dump began, and that only the far link shows."""
        made = Crossing(0)
        made.edge(110, "out", "a", opcode=0, size=3, source=9, address=0x2000, mask=0xFF, data=1)
        made.edge(130, "out", "d", opcode=0, size=3, source=9)
        for number in range(3, 6):
            made.read(100 * number, 4)
        status, out, said = self.compared(made.text().replace("#0\n", "#100\n"))
        self.assertEqual(status, 0, said + "\n".join(out))
        self.assertIn("2 beats after time 100 are left out", said)

    def test_a_gap_between_messages_hides_nothing(self) -> None:
        made = Crossing(2)
        made.wave.body += ["#240", "$dumpoff", "$end", "#300", "$dumpon", "$end"]
        made.read(300, 3, drop=(3,))
        made.edge(370, "in", "d", opcode=1, size=3, source=3, data=1)
        status, out, _ = self.compared(made.text())
        self.assertEqual(status, 1)
        self.assertTrue(any(line.startswith("D: far beat 2, time 370") for line in out), out)

    def test_from_and_to_of_a_comparison(self) -> None:
        text = Crossing(6).text()
        for words, count, said in (
            (("--from", "160"), 4, "--from 160: begins at time 170"),
            (("--from", "120"), 5, "--from 120: begins at time 110"),
            (("--from", "190", "--to", "290"), 1, ""),
            (("--to", "250"), 3, "--to 250: ends at time 270"),
            (("--to", "215"), 2, "--to 215: ends at time 170"),
            (("--from", "5000"), 0, ""),
        ):
            with self.subTest(words):
                status, out, told = self.compared(text, *words)
                self.assertIn(said, told)
                if count:
                    self.assertEqual(
                        (status, out[1]), (0, f"A: done: {count} near beats, {count} far beats expected"), told
                    )
                else:
                    self.assertEqual(status, 2, told)


class Outstanding(unittest.TestCase):
    """The outstanding bursts and requests on a link of 4 bytes, after each beat."""

    A = "0000000000001000 f 00000000 0"
    CASES = {
        "a read": (("A 4 0 2 01 " + A, False), ("D 1 0 2 01 00 0 00000000 0", True)),
        "a read of two beats": (
            ("A 4 0 3 01 " + A, False),
            ("D 1 0 3 01 00 0 00000000 0", False),
            ("D 1 0 3 01 00 0 00000000 0", True),
        ),
        "a write of two beats that is answered early": (
            ("A 0 0 3 01 " + A, False),
            ("D 0 0 3 01 00 0 00000000 0", False),
            ("A 0 0 3 01 " + A, True),
        ),
        "two sources": (
            ("A 4 0 2 01 " + A, False),
            ("A 4 0 2 02 " + A, False),
            ("D 1 0 2 02 00 0 00000000 0", False),
            ("D 1 0 2 01 00 0 00000000 0", True),
        ),
        "a source that is used again in the cycle of its response": (
            ("A 4 0 2 01 " + A, False),
            ("A 4 0 2 01 " + A, False),
            ("D 1 0 2 01 00 0 00000000 0", False),
            ("D 1 0 2 01 00 0 00000000 0", True),
        ),
        "a release": (("C 6 0 2 01 0000000000001000 00000000 0", False), ("D 6 0 2 01 00 0 00000000 0", True)),
        "a release with data": (
            ("C 7 0 3 01 0000000000001000 00000000 0", False),
            ("D 6 0 3 01 00 0 00000000 0", False),
            ("C 7 0 3 01 0000000000001000 00000000 0", True),
        ),
        "a release beside a read of its source": (
            ("C 6 0 2 01 0000000000001000 00000000 0", False),
            ("A 4 0 2 01 " + A, False),
            ("D 1 0 2 01 00 0 00000000 0", False),
            ("D 6 0 2 01 00 0 00000000 0", True),
        ),
        "a probe": (("B 6 0 2 01 " + A, False), ("C 4 0 2 01 0000000000001000 00000000 0", True)),
        "two probes of a source": (
            ("B 6 0 2 01 " + A, False),
            ("B 7 0 2 01 " + A, False),
            ("C 4 0 2 01 0000000000001000 00000000 0", False),
            ("C 5 0 2 01 0000000000001000 00000000 0", True),
        ),
        "a read of the manager": (("B 4 0 2 01 " + A, False), ("C 1 0 2 01 0000000000001000 00000000 0", True)),
        "a grant": (("A 6 0 2 01 " + A, False), ("D 4 0 2 01 05 0 00000000 0", False), ("E 05", True)),
        "a grant with data": (
            ("A 6 0 3 01 " + A, False),
            ("D 5 0 3 01 05 0 00000000 0", False),
            ("D 5 0 3 01 05 0 00000000 0", False),
            ("E 06", False),
            ("E 05", True),
        ),
        "unknown bits": (("D x 0 2 01 00 0 00000000 0", False), ("D 0 0 2 01 00 0 00000000 0", False)),
        "a burst that another message cuts short": (
            ("A 0 0 3 01 " + A, False),
            ("A 4 0 2 02 " + A, False),
            ("D 1 0 2 02 00 0 00000000 0", False),
            ("D 0 0 3 01 00 0 00000000 0", True),
        ),
    }

    def test_each(self) -> None:
        for name, beats in self.CASES.items():
            with self.subTest(name):
                flow = LinkFlow(4, 2)
                self.assertTrue(flow.is_quiet())
                for line, is_quiet in beats:
                    flow.beat(line)
                    self.assertEqual(flow.is_quiet(), is_quiet, line)
                flow.restart()
                self.assertTrue(flow.is_quiet())

    def test_answers_to_nothing(self) -> None:
        """A response whose request was never seen is distinguished from others."""
        flow = LinkFlow(4, 2)
        for line in (
            "D 0 0 2 01 00 0 00000000 0",
            "D 6 0 2 01 00 0 00000000 0",
            "C 4 0 2 01 0000000000001000 00000000 0",
            "E 05",
        ):
            self.assertTrue(flow.beat(line), line)
        for line in (
            "A 4 0 2 01 " + self.A,
            "D 1 0 2 01 00 0 00000000 0",
            "B 6 0 2 01 " + self.A,
            "C 6 0 2 01 0000000000001000 00000000 0",
        ):
            self.assertFalse(flow.beat(line), line)
        self.assertEqual(flow.outstanding(), ["B source 01", "C source 01"])


class OneLink(Case):
    def test_one_link(self) -> None:
        """All beats of the link, in order of time, below a header with its width twice."""
        for name, header, lines in (
            ("in", "tilelink-trace 1 client 8 manager 8", [LOW, FAR[2]]),
            ("out", "tilelink-trace 1 client 4 manager 4", [FAR[1], NEAR[2]]),
        ):
            status, out, said = self.run_tool(simple().text(), "--link", name, "--times", str(self.folder / "times"))
            self.assertEqual((status, out), (0, [header, *lines]), said)
            self.assertEqual((self.folder / "times").read_text(), "10\n20\n")

    def test_pattern_of_one_link(self) -> None:
        for pattern in ("top.IN{CHANNEL}CH{FIELD}", "IN{CHANNEL}CH{FIELD}"):
            status, out, said = self.run_tool(simple("odd").text(), "--link-pattern", pattern)
            self.assertEqual((status, out[1:]), (0, [LOW, FAR[2]]), said)
        self.refused(
            simple("odd").text(),
            "no signal has a name of the pattern 'UP{CHANNEL}CH{FIELD}'",
            "--link-pattern",
            "UP{CHANNEL}CH{FIELD}",
            status=2,
        )

    def test_no_far_link(self) -> None:
        self.refused(simple().text(), "need two links", "--link", "in", "--compare", status=2)
        self.refused(simple().text(), "name both links", "--link", "in", "--client", "in", status=2)

    def test_a_response_without_its_request_is_kept(self) -> None:
        """With one link nothing is judged here, so nothing is left out of a dump that begins at time 0."""
        wave = Wave()
        wave.begin()
        wave.time(5)
        wave.beat("in", "d", opcode=0)
        wave.time(10, clock=1)
        self.assertEqual(self.run_tool(wave.text(), "--link", "in")[1][1:], ["D 0 0 0 00 00 0 0000000000000000 0"])

    def test_either_side_may_be_the_design(self) -> None:
        """The outputs of a Verilated model change as the clock rises. Only if both sides do, inputs do."""
        text = simple().text().replace("$scope module top", "$scope module TOP")
        said = self.run_tool(text, "--link", "in")[2]
        self.assertIn("an input that a C++ bench drives, changes as the clock rises", said)
        wave = Wave(scope="TOP")
        wave.begin()
        for time in (10, 20, 30):
            wave.time(time - 5, clock=0)
            wave.beat("in", "d", opcode=0, source=time)  # the bench's side, at the falling edge
            wave.time(time, clock=1)
            wave.beat("in", "a", opcode=4, source=time)  # the design's
        text = wave.text()
        said = self.run_tool(text, "--link", "in")[2]
        self.assertNotIn("C++", said)


GET_PAGE = ROOT / "examples" / "get.html"
# Prints a stored page as tlexplain would, and leaves its words, the times and the trace in a file.
STAND_IN = """#!{python}
import json, os, sys
from pathlib import Path
mode, option, times, trace = sys.argv[1:]
with open({seen!r}, "a") as seen:
    print(json.dumps([mode, option, Path(times).read_text(), Path(trace).read_text().splitlines()]), file=seen)
sys.stdout.write(Path({page!r}).read_text())
sys.stdout.flush()
print("tlexplain: said", file=sys.stderr, flush=True)
if {status} < 0:
    os.kill(os.getpid(), -{status})
sys.exit({status})
"""


class Markup(HTMLParser):
    """The elements of a page, and whether each is closed by its own end."""

    def __init__(self, text: str) -> None:
        super().__init__()
        self.open: List[Tuple[str, Optional[str]]] = []
        self.items: List[str] = []
        self.is_closed = True
        self.feed(text)
        self.close()
        self.is_closed &= not self.open

    def handle_starttag(self, tag: str, attributes: List[Tuple[str, Optional[str]]]) -> None:
        if tag not in ("meta", "link"):
            self.open.append((tag, dict(attributes).get("class")))
        if tag == "li" and ("aside", "notes") in self.open:
            self.items.append("")

    def handle_endtag(self, tag: str) -> None:
        self.is_closed &= bool(self.open) and self.open.pop()[0] == tag

    def handle_data(self, data: str) -> None:
        if self.open and self.open[-1][0] == "li" and ("aside", "notes") in self.open:
            self.items[-1] += data


class Page(Case):
    """--html, with a stand-in for tlexplain."""

    NOTES = re.compile(r'<aside class="notes"><h2>Notes of tlbridge-trace</h2><ul>.*?</ul></aside>')

    def stand_in(self, status: int = 0, shown: Path = GET_PAGE, name: str = "stand-in", seen: str = "seen") -> str:
        path = self.folder / name
        path.write_text(
            STAND_IN.format(python=sys.executable, seen=str(self.folder / seen), page=str(shown), status=status)
        )
        path.chmod(0o755)
        return str(path)

    def made(
        self,
        text: Any,
        *words: str,
        status: int = 0,
        program: Optional[str] = None,
        name: str = "dump.vcd",
        to: str = "up.html",
    ) -> Tuple[Any, List[str], str]:
        """Runs --html. Returns the page, if there is one, what was printed, and what was said."""
        got, out, said = self.run_tool(
            text, "--html", str(self.folder / to), "--tlexplain", program or self.stand_in(), *words, name=name
        )
        self.assertEqual(got, status, said)
        path = self.folder / to
        return path.read_text() if path.is_file() else None, out, said

    def seen(self) -> List[Any]:
        return [json.loads(line) for line in (self.folder / "seen").read_text().splitlines()]

    def test_one_link(self) -> None:
        """tlexplain gets the trace and its times. The notes are below the header, and the rest of the page is as
        tlexplain wrote it."""
        text, out, said = self.made(simple().text(), "--link", "in")
        self.assertEqual(out, [])
        self.assertIn("tlexplain: said\n", said)
        self.assertEqual(
            self.seen(), [["--html", "--times", "10\n20\n", ["tilelink-trace 1 client 8 manager 8", LOW, FAR[2]]]]
        )
        self.assertRegex(text, r"</header><aside class=\"notes\">.*</aside><nav ")
        self.assertEqual(self.NOTES.sub("", text).replace(page.STYLE.decode(), ""), GET_PAGE.read_text())
        markup = Markup(text)
        self.assertTrue(markup.is_closed)
        self.assertEqual(
            markup.items,
            [
                f"{self.folder / 'dump.vcd'}: top.in, time 0 to 30, in units of 1ns",
                "top.in: AD, 8 bytes, clock top.clock, reset top.reset",
            ],
        )
        for text in markup.items[1:]:
            self.assertIn(f"tlbridge-trace: {text}\n", said)

    def test_standard_input(self) -> None:
        with mock.patch.object(
            sys, "stdin", io.TextIOWrapper(io.BytesIO(simple().text().encode()))
        ), contextlib.redirect_stderr(io.StringIO()):
            status = command.main(
                ["-", "--link", "in", "--html", str(self.folder / "up.html"), "--tlexplain", self.stand_in()]
            )
        self.assertEqual(
            (status, Markup((self.folder / "up.html").read_text()).items[0]),
            (0, "standard input: top.in, time 0 to 30, in units of 1ns"),
        )

    def test_two_links(self) -> None:
        text, _, _ = self.made(
            simple().text(), "--client", "in", "--manager", "out", "--trace", str(self.folder / "trace")
        )
        self.assertEqual(self.seen(), [["--html", "--times", "10\n20\n", NEAR]])
        self.assertEqual((self.folder / "trace").read_text().splitlines(), NEAR)
        items = Markup(text).items
        self.assertIn(": top.in and top.out, time 0 to 30", items[0])
        self.assertEqual([item.split(",")[0] for item in items[1:]], ["top.in: AD", "top.out: AD"])

    def test_style(self) -> None:
        """It has a class of its own, the colours of the page, and rules for print; it uses nothing that the page's
        policy forbids."""
        style = page.STYLE.decode()
        for selector in re.findall(r"([^{}<>]+)\{[^{}]*\}", style.replace("<style>", "").replace("@media print {", "")):
            self.assertTrue(selector.strip().startswith(".notes"), selector)
        self.assertNotIn("notes", GET_PAGE.read_text())
        self.assertNotRegex(style, r"#[0-9a-f]{3}|url\(|@import")
        for name in re.findall(r"var\((--\w+)", style):
            self.assertEqual(GET_PAGE.read_text().count(f" {name}: "), 2, name)  # light and dark
        self.assertRegex(style, r"@media print \{ \.notes .* max-height: none; \} \}")

    def test_notes_are_escaped(self) -> None:
        wave = Wave(scope="a<b>&amp;\x1b\xff")
        wave.begin()
        wave.time(10, clock=1)
        text, _, _ = self.made(wave.text(), "--link", "in", name='<i> & "dump".vcd')
        notes = "".join(self.NOTES.findall(text))
        self.assertIn('&lt;i&gt; &amp; "dump".vcd: a&lt;b&gt;&amp;amp;\\x1b\xff.in, time', notes)
        self.assertEqual(set(re.findall(r"</?(\w+)", notes)), {"aside", "h2", "ul", "li"})
        self.assertNotIn("\x1b", text)
        self.assertEqual(len(Markup(text).items), 3)

    def test_a_bench_in_cpp(self) -> None:
        """The first note, after the line that names the dump, is the one without which the page misleads."""
        text, _, _ = self.made(simple().text().replace("$scope module top", "$scope module TOP"), "--link", "in")
        self.assertRegex(
            Markup(text).items[1],
            (
                r"^TOP\.in_\w+, an input that a C\+\+ bench drives, changes as the clock rises, .*the dump does not"
                r" show what the edge saw"
            ),
        )

    def test_quiet(self) -> None:
        """It prints no notes, and the page has them."""
        text, out, said = self.made(simple().text(), "--link", "in", "--quiet")
        self.assertEqual((out, said), ([], "tlexplain: said\n"))
        self.assertEqual(len(Markup(text).items), 2)

    def test_statuses(self) -> None:
        """0 and 1 of tlexplain are answers. On 3 its page shows the fault, if it wrote one. Nothing else is a page."""
        empty = self.folder / "empty"
        empty.write_text("")
        for status, shown, wanted, words in (
            (1, GET_PAGE, 0, ""),
            (3, GET_PAGE, 3, "ended with status 3: PAGE shows the fault"),
            (3, empty, 3, "ended with status 3: PAGE was not written"),
            (0, empty, 4, "ended with status 0: PAGE was not written"),
            (2, GET_PAGE, 4, "ended with status 2: PAGE was not written"),
            (4, GET_PAGE, 4, "ended with status 4: PAGE was not written"),
            (70, empty, 4, "ended with status 70: PAGE was not written"),
            (-9, GET_PAGE, 4, "ended with signal 9: PAGE was not written"),
        ):
            with self.subTest((status, shown.name)):
                (self.folder / "up.html").unlink(missing_ok=True)
                text, _, said = self.made(
                    simple().text(), "--link", "in", status=wanted, program=self.stand_in(status, shown)
                )
                self.assertIn(words.replace("PAGE", str(self.folder / "up.html")), said)
                self.assertIn("tlexplain: said\n", said)
                self.assertEqual(text is not None, not words or "shows" in words)
                if text is not None:
                    self.assertEqual(len(Markup(text).items), 2)

    def test_no_program(self) -> None:
        """It is missed before the dump is read."""
        with mock.patch.object(chosen, "open_wave", side_effect=AssertionError):
            for words in ((str(self.folder / "none"),), (str(self.folder),), ("no-such-tlexplain",)):
                self.refused(
                    "",
                    f"--tlexplain {words[0]}: there is no program of this name",
                    "--link",
                    "in",
                    "--html",
                    "up.html",
                    "--tlexplain",
                    *words,
                    status=4,
                )
            with mock.patch.object(page, "find_program", return_value=None):
                said = self.refused(
                    "",
                    "--html needs the program tlexplain, and none was found",
                    "--link",
                    "in",
                    "--html",
                    "up.html",
                    status=4,
                )
            self.assertIn("build it in a clone with ./tlexplain --version, or name it with --tlexplain", said)
            self.refused("", "name the links", "--html", "up.html", status=2)
        path = Path(self.stand_in())
        path.write_text("no program")
        _, _, said = self.made(simple().text(), "--link", "in", status=4, program=str(path))
        self.assertIn(f"{path}: Exec format error", said)

    def test_no_file_for_the_page(self) -> None:
        _, _, said = self.made(simple().text(), "--link", "in", status=4, to="none/up.html")
        self.assertIn("up.html: No such file or directory", said)

    def tree(self, package: Any, *folders: Any) -> Path:
        """A copy of the script and of the package, in folders with a space in their names, and a dump."""
        top = self.folder / "a tree"
        shutil.copytree(
            ROOT / "python" / "tlbridge", top / package / "tlbridge", ignore=shutil.ignore_patterns("__pycache__")
        )
        for folder in folders:
            (top / folder).mkdir(parents=True, exist_ok=True)
        (self.folder / "the dump.vcd").write_text(simple().text())
        shutil.copy(ROOT / "tlbridge-trace", top / folders[0])
        return top

    def called(self, script: Path, path: Union[str, Path] = "") -> Tuple[int, bool, str]:
        words = [sys.executable, str(script), "the dump.vcd", "--link", "in", "--html", "the page.html", "--quiet"]
        done = subprocess.run(
            words,
            cwd=self.folder,
            capture_output=True,
            text=True,
            check=False,
            env={**os.environ, "PATH": f"{self.folder}/nothing:{path}"},
        )
        made = self.folder / "the page.html"
        has_notes = made.is_file() and len(Markup(made.read_text()).items) == 2
        made.unlink(missing_ok=True)
        return done.returncode, has_notes, done.stderr

    def test_installed(self) -> None:
        """The program next to the script, and otherwise the one in PATH."""
        top = self.tree("share/tlbridge/python", "bin", "elsewhere")
        shutil.move(self.stand_in(), top / "elsewhere" / "tlexplain")
        self.assertEqual(self.called(top / "bin" / "tlbridge-trace")[:2], (4, False))
        self.assertEqual(self.called(top / "bin" / "tlbridge-trace", top / "elsewhere"), (0, True, "tlexplain: said\n"))
        shutil.move(self.stand_in(1, seen="seen next to the script"), top / "bin" / "tlexplain")
        self.assertEqual(self.called(top / "bin" / "tlbridge-trace", top / "elsewhere"), (0, True, "tlexplain: said\n"))
        self.assertEqual(self.called(top / "bin" / "tlbridge-trace"), (0, True, "tlexplain: said\n"))
        self.assertEqual(
            [len(self.seen()), len((self.folder / "seen next to the script").read_text().splitlines())], [1, 2]
        )

    def test_clone(self) -> None:
        """The program of a clone is used if it is built; its wrapper, which would build it first, is not called."""
        top = self.tree("python", ".", "crates/tlexplain/out", "elsewhere")
        shutil.move(self.stand_in(70, seen="wrapper"), top / "tlexplain")
        status, _, said = self.called(top / "tlbridge-trace")
        self.assertEqual(status, 4)
        self.assertIn("build it in a clone with ./tlexplain --version", said)
        _, _, said = self.made(simple().text(), "--link", "in", status=4, program=str(top / "tlexplain"))
        self.assertIn("tlexplain is not built yet: run ", said)
        shutil.move(self.stand_in(), top / "elsewhere" / "tlexplain")
        self.assertEqual(self.called(top / "tlbridge-trace", top / "elsewhere")[:2], (0, True))
        shutil.move(self.stand_in(seen="built"), top / "crates" / "tlexplain" / "out" / "tlexplain")
        self.assertEqual(self.called(top / "tlbridge-trace", top / "elsewhere")[:2], (0, True))
        self.made(simple().text(), "--link", "in", program=str(top / "tlexplain"))
        self.assertEqual(
            [
                len(self.seen()),
                len((self.folder / "built").read_text().splitlines()),
                (self.folder / "wrapper").exists(),
            ],
            [1, 2, False],
        )

    def test_no_place_for_the_notes(self) -> None:
        """The page is written as it is. Without --quiet the notes were printed; with it they are printed now."""
        other = self.folder / "other.html"
        for without in ("</head>", "</header>"):
            other.write_text(GET_PAGE.read_text().replace(without, "<p>"))
            for words in ((), ("--quiet",)):
                with self.subTest((without, words)):
                    text, _, said = self.made(simple().text(), "--link", "in", *words, program=self.stand_in(0, other))
                    self.assertEqual(text, other.read_text())
                    self.assertIn("up.html: the notes are not on this page, since ", said)
                    self.assertEqual(said.count("top.in: AD, 8 bytes, clock top.clock"), 1)

    def test_long_page(self) -> None:
        """Its end is copied as it is."""
        other = self.folder / "other.html"
        other.write_text(GET_PAGE.read_text() + "<!-- " + "long " * page.HEAD_BYTES + "-->")
        text, _, _ = self.made(simple().text(), "--link", "in", program=self.stand_in(0, other))
        self.assertEqual(self.NOTES.sub("", text).replace(page.STYLE.decode(), ""), other.read_text())

    def test_parts(self) -> None:
        """Each part of a run has its page, which says so, and all notes are on each."""
        with mock.patch.object(runs, "PART_BYTES", 300):
            first, _, said = self.made(Crossing(10).text(), "--client", "in", "--manager", "out")
        self.assertIn(f"part 2 of the run, from time 410 to 770, is in {self.folder / 'up.2.html'}", said)
        self.assertEqual([len(trace) for _, _, _, trace in self.seen()], [9, 9, 5])
        self.assertEqual([times.split()[0] for _, _, times, _ in self.seen()], ["10", "410", "810"])
        pages = [
            Markup(text).items
            for text in (first, *((self.folder / f"up.{number}.html").read_text() for number in (2, 3)))
        ]
        ends = [
            "time 0 to 370, in units of 1ns, part 1 of 3 of the run",
            "time 410 to 770, in units of 1ns, part 2 of 3 of the run",
            "time 810 to 970, in units of 1ns, part 3 of 3 of the run",
        ]
        self.assertEqual([items[0].split(", ", 1)[1] for items in pages], ends)
        self.assertEqual([items[1:] for items in pages], [pages[0][1:]] * 3)
        self.assertFalse((self.folder / "up.4.html").exists())

    def test_too_long(self) -> None:
        for most, patched in ((600, "page"), (4096 + 600, "runs")):
            made = Crossing(1)
            if patched == "runs":  # a request that is never answered
                made.read(100, 15, drop=(1, 2, 3))
            for number in range(2, 20):
                made.read(100 * number, number % 8)
            with (
                self.subTest(patched),
                mock.patch.object(runs, "PART_BYTES", 300),
                mock.patch.object({"page": page, "runs": runs}[patched], "MOST_BYTES", most),
            ):
                text, out, said = self.made(made.text(), "--client", "in", "--manager", "out", status=4)
                self.assertEqual((text, out), (None, []))
                self.assertIn("too long for a page: choose a part of the run with --from and --to", said)
                self.assertFalse((self.folder / "seen").exists())

    def test_from_and_to(self) -> None:
        text, _, _ = self.made(Crossing(6).text(), "--client", "in", "--manager", "out", "--from", "160", "--to", "290")
        items = Markup(text).items
        self.assertIn(", time 170 to 290,", items[0])
        self.assertTrue(any(item.startswith("--from 160: begins at time 170") for item in items), items)
        self.assertEqual(self.seen()[0][2].split(), ["210", "250"])

    def test_with_a_comparison(self) -> None:
        """Both are done, and the status is that of the comparison."""
        program = self.folder / "same"
        program.write_text(SAME_WIDTH.replace("{python}", sys.executable))
        program.chmod(0o755)
        made = Crossing(2)
        for wanted in (0, 1):
            (self.folder / "up.html").unlink(missing_ok=True)
            text, out, _ = self.made(
                made.text(), "--client", "in", "--manager", "out", "--compare", "--program", str(program), status=wanted
            )
            self.assertEqual(out[1 + wanted], f"A: done: {2 + wanted} near beats, {2 + wanted} far beats expected")
            self.assertEqual(len(Markup(text).items), 3 + wanted)
            made.read(200, 2, drop=(3,))

    def test_no_beat(self) -> None:
        wave = Wave()
        wave.begin()
        wave.time(10, clock=1)
        text, _, _ = self.made(wave.text(), "--link", "in")
        self.assertEqual(self.seen(), [["--html", "--times", "", ["tilelink-trace 1 client 8 manager 8"]]])
        self.assertEqual(Markup(text).items[1], "no beat was accepted")

    def test_many_notes(self) -> None:
        printed: List[str] = []
        notes = page.Notes(printed.append)
        for number in range(page.MOST_NOTES + 7):
            notes(f"note {number}")
        self.assertEqual((len(printed), len(notes.texts())), (page.MOST_NOTES + 7, page.MOST_NOTES + 1))
        self.assertEqual(notes.texts()[-2:], [f"note {page.MOST_NOTES - 1}", "7 more notes are left out here"])

    def test_with_the_program(self) -> None:
        program = str(needs_program("tlexplain"))
        dump = (ROOT / "examples" / "waves" / "dump.vcd").read_bytes()
        for links_named, count in ((("--link", "dut.up"), 4), (("--client", "dut.up", "--manager", "dut.down"), 7)):
            text, out, said = self.made(
                dump,
                *links_named,
                "--trace",
                str(self.folder / "trace"),
                "--times",
                str(self.folder / "times"),
                program=program,
            )
            self.assertEqual((out, len(Markup(text).items), Markup(text).is_closed), ([], count, True), said)
            plain = subprocess.run(
                [program, "--html", "--times", str(self.folder / "times"), str(self.folder / "trace")],
                stdout=subprocess.PIPE,
                text=True,
                check=False,
            ).stdout
            self.assertEqual(self.NOTES.sub("", text).replace(page.STYLE.decode(), ""), plain)
            self.assertIn("time 105", text)


class Example(Case):
    """examples/waves, whose dump is stored: three reads through an adapter with a mistake."""

    def test_example(self) -> None:
        folder = Path(__file__).resolve().parents[2] / "examples" / "waves"
        commands = [line.split()[1:] for line in (folder / "run").read_text().splitlines()]
        wanted = (folder / "output").read_text().splitlines()
        program = next(
            (
                path
                for path in (
                    Path(os.environ.get("TLBRIDGE", "")),
                    folder.parents[1] / "crates" / "tlbridge" / "out" / "tlbridge",
                    folder.parents[1] / "tlbridge-model",
                )
                if path.is_file()
            ),
            None,
        )
        made: List[Any] = []
        for words in commands:
            if "--compare" in words:
                if program is None:
                    wanted = wanted[: len(made)]
                    continue
                words = [*words, "--program", str(program)]
            made += self.run_tool((folder / "dump.vcd").read_bytes(), *words[1:])[1]
        self.assertEqual(made, wanted)


class Blocks(Case):
    def test_both_forms_of_the_check(self) -> None:
        """The quick form of the check for plain lines says what the other one says."""
        source = random.Random(3)
        text = simple("rocket").text().encode()
        body = text[text.index(b"#0") - 1 :].replace(b"$dumpvars\n", b"").replace(b"$end\n", b"")
        seen = set()
        for _ in range(2000):
            made = b"\n" + mutated(body, source).strip(b"\n") + b"\n"
            plain = vcd._ODD_LINE.search(made) is None
            self.assertEqual(vcd.is_plain(made), plain, made)
            seen.add(plain)
        self.assertEqual(seen, {False, True})

    def test_fst_without_its_reader(self) -> None:
        kept = os.environ["PATH"]
        os.environ["PATH"] = str(self.folder)
        try:
            self.refused(
                bytes(400),
                "is read by the program fst2vcd, which is not in PATH: install gtkwave, or dump a VCD",
                status=4,
            )
        finally:
            os.environ["PATH"] = kept

    def test_statuses(self) -> None:
        """2 for the command line, 3 for what cannot be understood, 4 for what cannot be read or written."""
        self.refused(simple().text(), "no link is named", "--link", "other", status=2)
        self.refused(simple().text(), "--field 'a=b' is not NAME=WORD", "--link", "in", "--field", "a=b", status=2)
        self.refused(simple().text(), "is not a field of a struct", "--struct", "a_valid", status=2)
        self.refused("hello\n", "line 1: a keyword", status=3)
        self.refused(
            simple().text(),
            "No such file or directory",
            "--link",
            "in",
            "--trace",
            str(self.folder / "none" / "trace"),
            status=4,
        )
        for words in (("--from", "x"), ("--to", "-1"), ("--width", "3"), ("--trace-version", "3"), ("--nothing",)):
            with self.subTest(words), self.assertRaises(SystemExit) as ended:
                self.run_tool(simple().text(), "--link", "in", *words)
            self.assertEqual(ended.exception.code, 2)

    def test_module_and_script(self) -> None:
        """python3 -m tlbridge.waves and the script at the top of the repository are the same command."""
        (self.folder / "a.vcd").write_text(simple().text())
        top = Path(__file__).resolve().parents[2]
        words = ["a.vcd", "--link", "in", "--quiet"]
        starts: Tuple[Tuple[List[str], Dict[str, str]], ...] = (
            ([sys.executable, "-m", "tlbridge.waves"], {"PYTHONPATH": str(top / "python")}),
            ([sys.executable, str(top / "tlbridge-trace")], {}),
        )
        for start, folder in starts:
            done = subprocess.run(
                [*start, *words],
                cwd=self.folder,
                capture_output=True,
                text=True,
                check=False,
                env={**os.environ, **folder},
            )
            self.assertEqual((done.returncode, done.stdout.splitlines()[1:], done.stderr), (0, [LOW, FAR[2]], ""))

    def test_a_closed_pipe(self) -> None:
        (self.folder / "a.vcd").write_text(Crossing(3000).text())
        script = ROOT / "tlbridge-trace"
        done = subprocess.run(
            f"{sys.executable} {script} a.vcd --link in --quiet | head -n 1",
            shell=True,
            cwd=self.folder,
            capture_output=True,
            text=True,
            check=False,
        )
        self.assertEqual((done.stdout, done.stderr), ("tilelink-trace 1 client 8 manager 8\n", ""))
