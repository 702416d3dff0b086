"""tlbridge-trace --all: all links of a waveform in one pass. The waveform is of soc.sv: four designs with two links
each.
"""

import json
import subprocess
import sys
from dataclasses import dataclass
from pathlib import Path
from typing import Any, Dict, List

import pytest
import starter
from project import MODEL, ROOT, needs_tools

LIMIT = 300  # seconds, of one run
SOURCES = [
    ROOT / "tests" / "waves" / "soc.sv",
    ROOT / "tests" / "compare" / "splitter.sv",
    ROOT / "examples" / "start" / "adapter.sv",
    *sorted((ROOT / "rtl").glob("*.sv")),
]
LINKS = [f"soc.{name}" for name in ("split.up", "split.down", "burst.up", "burst.down", "start.up", "start.down")]
LINKS += ["soc.bridge.client", "soc.bridge.manager"]
SIMPLE = """$timescale 1ns $end
$scope module top $end
$var wire 1 ! clock $end
$var wire 1 v in_a_valid $end
$var wire 1 r in_a_ready $end
$var wire 3 o in_a_opcode $end
$var wire 2 z in_a_size $end
$var wire 2 s in_a_source $end
$var wire 8 a in_a_address $end
$var wire 4 m in_a_mask $end
$var wire 32 d in_a_data $end
$var wire 1 V in_d_valid $end
$var wire 1 R in_d_ready $end
$var wire 3 O in_d_opcode $end
$var wire 2 Z in_d_size $end
$var wire 2 S in_d_source $end
$var wire 32 D in_d_data $end
$upscope $end
$enddefinitions $end
"""


@dataclass
class Ended:
    status: int
    lines: List[str]
    error: str

    def row(self, link: str) -> List[str]:
        """The words of a link in the table. Columns are two spaces apart."""
        line = next(line for line in self.lines if line.startswith(link + " "))
        return [word.strip() for word in line.split("  ") if word.strip()]

    def about(self, link: str) -> List[str]:
        return [line[len(link) + 2 :] for line in self.lines if line.startswith(link + ": ")]


def trace(folder: Path, *words: object, program: Path = MODEL) -> Ended:
    command = [str(ROOT / "tlbridge-trace"), "--program", str(program), *map(str, words)]
    done = starter.run_text(command, folder, LIMIT)
    return Ended(done.returncode, done.stdout.splitlines(), done.stderr)


@pytest.fixture(scope="module")
def dumps(tmp_path_factory: pytest.TempPathFactory) -> Dict[int, Path]:
    """The waveforms, by the fault that soc.sv plants; 0 is none."""
    needs_tools("iverilog", "vvp")
    folder, made = tmp_path_factory.mktemp("soc"), {}
    for fault in range(4):
        words = ["iverilog", "-g2012", "-s", "soc", f"-Psoc.FAULT={fault}", "-o", "soc.vvp", *map(str, SOURCES)]
        subprocess.run(words, cwd=folder, check=True, capture_output=True, timeout=LIMIT)
        made[fault] = folder / f"{fault}.vcd"
        words = ["vvp", "-n", "soc.vvp", f"+dump={made[fault]}"]
        subprocess.run(words, cwd=folder, check=True, capture_output=True, timeout=LIMIT)
    return made


@pytest.mark.simulator
def test_eight_links(dumps: Dict[int, Path], tmp_path: Path) -> None:
    """Each link has a row, and none has a fault. The level is the lowest one that has all messages of the link."""
    ended = trace(tmp_path, "--all", dumps[0])
    assert (ended.status, ended.error) == (0, ""), ended
    assert sorted(line.split(" ")[0] for line in ended.lines[1:9]) == sorted(LINKS)
    assert ended.lines[0].split()[:3] == ["link", "level", "beats"]
    levels = {link: ended.row(link)[1] for link in LINKS}
    assert levels == {link: "TL-UH" if link in ("soc.burst.down", "soc.bridge.manager") else "TL-UL" for link in LINKS}
    assert all(ended.row(link)[3] == "none" for link in LINKS)
    assert "an unverified model" in ended.lines[-1] and str(MODEL) in ended.lines[-1]


@pytest.mark.simulator
def test_level(dumps: Dict[int, Path], tmp_path: Path) -> None:
    """At level TL-UL, both links that have bursts are wrong, and no other one."""
    ended = trace(tmp_path, "--all", "--level", "ul", dumps[0])
    assert ended.status == 1
    for link in LINKS:
        wrong = [text for text in ended.about(link) if text.startswith("level TL-UL: ")]
        assert len(wrong) == (link in ("soc.burst.down", "soc.bridge.manager")), (link, wrong)
        assert all("26 BurstNotInLevel" in text for text in wrong)
    assert trace(tmp_path, "--all", "--level", "uh", dumps[0]).status == 0


@pytest.mark.simulator
def test_first_fault(dumps: Dict[int, Path], tmp_path: Path) -> None:
    """A response that is sent twice is the first fault of its link and of the dump, at its time."""
    ended = trace(tmp_path, "--all", dumps[1])
    assert ended.status == 1
    row = ended.row("soc.bridge.manager")
    assert row[3].endswith(": D NoRequest"), row
    moment = row[3].split(":")[0]
    first = next(line for line in ended.lines if line.startswith("first fault of the dump: "))
    assert first.startswith(
        f"first fault of the dump: soc.bridge.manager: D NoRequest: {moment}: a second response"
    ), first
    others = [link for link in LINKS if not link.startswith("soc.bridge")]
    assert all(ended.row(link)[3] == "none" for link in others)


@pytest.mark.simulator
def test_hangs(dumps: Dict[int, Path], tmp_path: Path) -> None:
    """A device that stops answering, and one that keeps ready low, are seen as waits without an end."""
    ended = trace(tmp_path, "--all", dumps[2])
    assert ended.status == 0
    down, up = ended.about("soc.split.down"), ended.about("soc.split.up")
    assert any(text.startswith("A: the request of time ") and "it may hang" in text for text in down), down
    assert any(text.startswith("A: valid without ready since time ") and "it may hang" in text for text in up), up
    channel, cycles, _, since = ended.row("soc.split.up")[5].split(" ")
    assert (
        channel == "A" and int(cycles) > 1000 and any(f"since time {since}, for {cycles} cycles" in text for text in up)
    )
    ended = trace(tmp_path, "--all", dumps[3])
    assert any("valid without ready" in text and "it may hang" in text for text in ended.about("soc.start.down"))
    assert not any("it may hang" in text for text in ended.about("soc.bridge.manager"))


@pytest.mark.simulator
def test_json(dumps: Dict[int, Path], tmp_path: Path) -> None:
    """The object of --json has what the table has."""
    ended = trace(tmp_path, "--all", "--json", dumps[1])
    assert ended.status == 1 and len(ended.lines) == 1
    made: Dict[str, Any] = json.loads(ended.lines[0])
    assert made["judge"] == {"program": str(MODEL), "verified": False}
    links = {link["link"]: link for link in made["links"]}
    assert set(links) == set(LINKS)
    fault = links["soc.bridge.manager"]["faults"][0]
    assert (fault["channel"], fault["name"]) == ("D", "NoRequest")
    assert links["soc.split.up"]["faults"] == [] and links["soc.split.up"]["level"] == "TL-UL"
    assert links["soc.split.up"]["longest_wait"]["cycles"] > 0 and made["unit"] == "1ns"


@pytest.mark.simulator
def test_one_pass(dumps: Dict[int, Path], tmp_path: Path) -> None:
    """The dump is read once: standard input, which cannot be read again, gives the same table."""
    command = [sys.executable, str(ROOT / "tlbridge-trace"), "--program", str(MODEL), "--all", "-"]
    with open(dumps[1], "rb") as dump:
        done = subprocess.run(command, stdin=dump, cwd=tmp_path, capture_output=True, text=True, timeout=LIMIT)
    assert done.returncode == 1 and done.stdout.splitlines() == trace(tmp_path, "--all", dumps[1]).lines


@pytest.mark.simulator
def test_fst(dumps: Dict[int, Path], tmp_path: Path) -> None:
    """An FST file gives the same table as its VCD."""
    needs_tools("vcd2fst", "fst2vcd")
    subprocess.run(["vcd2fst", str(dumps[1]), "dump.fst"], cwd=tmp_path, check=True, capture_output=True, timeout=LIMIT)
    of_vcd, of_fst = trace(tmp_path, "--all", dumps[1]), trace(tmp_path, "--all", "dump.fst")
    assert of_fst.lines == of_vcd.lines and of_fst.status == 1


# ---- waveforms that are written by hand


def simple(*edges: str) -> str:
    """A dump of one link: each string has the changes before a rising edge of the clock, which comes at 10, 20, 30
    and so on.
    """
    text = SIMPLE + "#0\n" + "".join(f"0{code}\n" for code in "!vVrR")
    for number, changes in enumerate(edges, 1):
        text += f"#{10 * number - 5}\n0!\n" + "".join(change + "\n" for change in changes.split(","))
        text += f"#{10 * number}\n1!\n"
    return text


GET = "1v,b100 o,b10 z,b01 s,b1000 a,b1111 m,b0 d"
DATA = "1V,b001 O,b10 Z,b01 S,b101 D"


def test_waits(tmp_path: Path) -> None:
    """Cycles in which valid waited are counted, from the first one on, and a withdrawn valid ends the count."""
    (tmp_path / "dump.vcd").write_text(
        simple(
            GET,
            "1r",
            "0v,0r",
            GET.replace("b01 s", "b10 s"),
            "0v",
            DATA,
            "1R",
            "0V",
            GET.replace("b01 s", "b11 s"),
            "",
            "",
        )
    )
    ended = trace(tmp_path, "--all", "dump.vcd")
    assert ended.status == 0, ended
    assert ended.row("top.in") == ["top.in", "TL-UL", "A 1 D 1", "none", "0", "A 3 at 90"]
    words = "A: valid without ready since time 90, for 3 cycles until the dump ends"
    assert ended.about("top.in")[0] == f"{words} (it may hang: none before waited as long)"


def test_two_names_of_one_link(tmp_path: Path) -> None:
    """A link that the dump has as ports of two modules has one row. Another address, and it is another link."""
    names = SIMPLE.split("$scope module top $end\n")[1].partition("$upscope")[0].splitlines()[1:]
    codes = {line.split(" ")[3]: chr(ord("A") + 32 + at) for at, line in enumerate(names)}
    for address, is_same in (("b1000 a", True), ("b1100 a", False)):
        ports = [line.replace(f" {old} ", f" {new * 2} ") for line, (old, new) in zip(names, codes.items())]
        text = SIMPLE.replace("$upscope", "\n".join(["$scope module dut $end", *ports, "$upscope $end", "$upscope"]), 1)
        for line in simple(GET + ",1r", "0v", DATA + ",1R", "0V")[len(SIMPLE) :].splitlines():
            text += line + "\n"
            value, _, code = line.partition(" ") if line[0] == "b" else (line[0], "", line[1:])
            if code in codes and line[0] != "#":
                value = address.split(" ")[0] if code == "a" else value
                text += f"{value}{' ' if line[0] == 'b' else ''}{codes[code] * 2}\n"
        (tmp_path / "dump.vcd").write_text(text)
        ended = trace(tmp_path, "--all", "dump.vcd")
        assert ended.status == 0, ended
        words = ["has no row: the same beats at the same times as top.in"]
        assert ended.row("top.in")[1] == "TL-UL", ended
        assert (ended.about("top.dut.in") == words) == is_same, ended
        assert sum(line.startswith("top.dut.in ") for line in ended.lines) == (not is_same), ended


def test_stray_response(tmp_path: Path) -> None:
    (tmp_path / "dump.vcd").write_text(simple(DATA + ",1R", "0V", GET + ",1r", "0v", DATA, "0V"))
    ended = trace(tmp_path, "--all", "dump.vcd")
    assert ended.status == 1
    assert ended.row("top.in")[3] == "time 10: D NoRequest"


def test_unknown_bits(tmp_path: Path) -> None:
    """Unknown bits are taken as 0 with a remark, and do not end the judgement of the other links."""
    (tmp_path / "dump.vcd").write_text(simple(GET.replace("b1000 a", "b100x a") + ",1r", "0v", DATA + ",1R", "0V"))
    ended = trace(tmp_path, "--all", "dump.vcd")
    assert ended.status == 0, ended
    assert any("fields had unknown bits, which are written as 0" in text for text in ended.about("top.in"))


def test_same_wires_and_no_clock(tmp_path: Path) -> None:
    """Links that are not judged are named with the reason."""
    twice = SIMPLE.replace("$upscope $end", "", 1)
    again = (
        SIMPLE.split("$scope module top $end\n")[1].replace(" in_", " copy_").replace("$var wire 1 ! clock $end\n", "")
    )
    text = simple(GET + ",1r", "0v", DATA + ",1R", "0V").replace(
        SIMPLE, twice[: twice.index("$enddefinitions")] + again
    )
    (tmp_path / "dump.vcd").write_text(text)
    ended = trace(tmp_path, "--all", "dump.vcd")
    assert ended.status == 0 and "top.copy: not judged: the same wires as top.in" in ended.lines, ended
    (tmp_path / "dump.vcd").write_text(simple(GET).replace("clock $end", "tick $end"))
    ended = trace(tmp_path, "--all", "dump.vcd")
    assert ended.status == 2 and "no link is there that can be judged" in ended.error


def test_command_line(tmp_path: Path) -> None:
    (tmp_path / "dump.vcd").write_text(simple(GET))
    for words, error in (
        (("--all", "--link", "top.in"), "--all judges each link by itself"),
        (("--all", "--trace", "x"), "--all judges each link by itself"),
        (("--all", "--from", "3"), "--all judges the whole dump"),
        (("--json",), "--json needs --all"),
        (("--level", "ul"), "--level is for a whole dump"),
        (("--link", "in", "--level", "ul", "--to", "50"), "--level is for a whole dump"),
    ):
        ended = trace(tmp_path, "dump.vcd", *words)
        assert ended.status == 2 and error in ended.error and not ended.lines, ended


def test_level_of_one_link(tmp_path: Path) -> None:
    """--level with --link writes the trace, names the message, and ends with status 1."""
    (tmp_path / "dump.vcd").write_text(simple(GET.replace("b10 z", "b11 z") + ",1r", "0v"))
    ended = trace(tmp_path, "dump.vcd", "--link", "in", "--level", "ul")
    assert ended.status == 1 and len(ended.lines) == 2
    assert "level TL-UL: top.in, time 10: 26 BurstNotInLevel" in ended.error
