"""Parts of tlbridge-trace: its options, remarks, tables and pages, over small waveforms. No simulator is needed."""

from pathlib import Path
from typing import Any, List, Tuple

import pytest
from project import MODEL
from small_waves import Wave, simple

from tlbridge.run import FailureError
from tlbridge.waves import command, options, page
from tlbridge.waves.all_links import AllLinks
from tlbridge.waves.links import Link
from tlbridge.waves.remarks import why_not


def printed(folder: Path, wave: Wave, capsys: pytest.CaptureFixture[str], *words: str) -> Tuple[int, List[str], str]:
    """The status, the lines and the notes of tlbridge-trace for a waveform, whose dump is removed again."""
    dump = folder / "dump.vcd"
    dump.write_text(wave.text())
    status = command.main([str(dump), *words])
    dump.unlink()
    out, error = capsys.readouterr()
    return status, out.splitlines(), error


# ---- options


def test_a_time_has_at_most_31_digits() -> None:
    """A dump has no larger one."""
    parse = options.command_line().parse_args
    assert parse(["x", "--from", "9" * 31]).first == int("9" * 31)
    for wrong in ("9" * 32, "-1", "", "1.5", "\u0663"):
        with pytest.raises(SystemExit):
            parse(["x", f"--from={wrong}"])


def test_a_level_needs_a_whole_dump(tmp_path: Path, capsys: pytest.CaptureFixture[str]) -> None:
    """Without a link, or with a part of the dump, --level is a wrong command line."""
    for words in (("--level", "ul"), ("--level", "ul", "--link", "in", "--from", "0")):
        status, lines, error = printed(tmp_path, simple(), capsys, *words)
        assert (status, lines) == (2, []) and error.startswith("tlbridge-trace: --level is for a whole dump, "), words


# ---- remarks and tables


def test_why_a_link_is_not_judged() -> None:
    """It has the wires of another link, a problem, or no clock."""
    link, other = Link(("top",), "in_", "plain"), Link(("top",), "out_", "plain")
    assert why_not(link) == "it has no clock"
    link.problems = ["it has no size", "it has no mask", "more"]
    assert why_not(link) == "it has no size, it has no mask, .."
    link.same = other
    assert why_not(link) == "the same wires as top.out"


def reset_twice() -> Wave:
    """The waveform of `simple`, with a reset at its end."""
    wave = simple()
    wave.time(35, clock=0, reset=1)
    wave.time(40, clock=1)
    wave.time(45, clock=0)
    return wave


def test_a_list_says_that_a_link_was_reset_again(tmp_path: Path, capsys: pytest.CaptureFixture[str]) -> None:
    """The list of links and the judgement of all of them say it, and a trace does not: a part of it ends there."""
    said = "top.in: reset asserted again at time 40, after beats"
    status, lines, error = printed(tmp_path, reset_twice(), capsys)
    assert status == 0 and f"tlbridge-trace: {said}\n" in error
    status, lines, error = printed(tmp_path, reset_twice(), capsys, "--all", "--program", str(MODEL))
    assert status == 0 and lines.count(said) == 1
    status, lines, error = printed(tmp_path, reset_twice(), capsys, "--link", "in")
    assert status == 0 and "after beats" not in error


def test_all_links_of_a_dump(
    tmp_path: Path, capsys: pytest.CaptureFixture[str], monkeypatch: pytest.MonkeyPatch
) -> None:
    """The last line has the times of the dump, its unit and the judge. Each judge is closed."""
    closed: List[AllLinks] = []
    close = AllLinks.close

    def noted(judges: AllLinks) -> None:
        closed.append(judges)
        close(judges)

    monkeypatch.setattr(AllLinks, "close", noted)
    status, lines, error = printed(tmp_path, simple(), capsys, "--all", "--program", str(MODEL))
    assert status == 0 and len(closed) == 1 and error == ""
    assert [line.split()[:2] for line in lines[:3]] == [["link", "level"], ["top.in", "TL-UL"], ["top.out", "TL-UL"]]
    assert lines[-1].startswith("the dump covers time 0 to 30, in units of 1ns; judged by ")
    late = Wave()
    late.body += ["#7", "$dumpvars", *(f"b0 {code}" if bits > 1 else f"0{code}" for code, bits in late.codes.values())]
    late.body += ["$end"]
    late.time(10, clock=1)
    status, lines, error = printed(tmp_path, late, capsys, "--all", "--program", str(MODEL))
    assert status == 0 and lines[-1].startswith("the dump covers time 7 to 10, in units of 1ns; judged by ")


def test_more_faults_of_a_link(tmp_path: Path, capsys: pytest.CaptureFixture[str]) -> None:
    """The first one has its line, and the others are counted."""
    wave = simple()
    for number in range(3):
        at = 35 + 10 * number
        wave.time(at, clock=0)
        wave.beat("in", "d", opcode=1, size=2, source=number)
        wave.time(at + 5, clock=1)
    wave.time(70, clock=0)
    status, lines, _ = printed(tmp_path, wave, capsys, "--all", "--program", str(MODEL))
    about = [line for line in lines if line.startswith("top.in: ")]
    assert status == 1 and about[0].startswith("top.in: D NoRequest: time 40: ")
    assert about[1] == "top.in: 2 more faults after it, which may follow from it"


# ---- the reader and the pages


class Dump:
    """A dump without links, which notes that it is closed."""

    variables: List[Any] = []
    is_closed = False

    def close(self) -> None:
        self.is_closed = True


def test_a_dump_is_closed_after_an_error(monkeypatch: pytest.MonkeyPatch) -> None:
    """The process that reads an FST file does not go on."""
    dump = Dump()

    def fails(*_: object) -> None:
        raise FailureError("no link", 3)

    monkeypatch.setattr(command, "opened", lambda *_: dump)
    monkeypatch.setattr(command, "find_links", fails)
    assert command.main(["x"]) == 3 and dump.is_closed


class Part:
    """A part of a run, whose trace has some bytes."""

    number, begin, end = 1, 0, 9

    def __init__(self, folder: Path, size: int) -> None:
        self.trace = str(folder / "trace")
        Path(self.trace).write_bytes(b"x" * size)

    def write_trace(self, out: Any) -> None:
        out.write("a trace")

    write_times = write_trace


def test_a_page_of_a_trace_of_the_largest_size(tmp_path: Path, monkeypatch: pytest.MonkeyPatch) -> None:
    """One more byte is too long. The traces that were kept are removed at the end."""
    monkeypatch.setattr(page, "MOST_BYTES", 100)
    pages = page.Pages("up.html", "tlexplain")
    folder = Path(pages._folder.name)
    largest: Any = Part(tmp_path, 100)
    pages.add(largest)
    assert sorted(path.name for path in folder.iterdir()) == ["times.1", "trace.1"]
    more: Any = Part(tmp_path, 1)
    with pytest.raises(FailureError, match="the trace up to time 9 has more than 100 bytes. That is too long"):
        pages.add(more)
    pages.close()
    assert not folder.exists()


# ---- the links of a dump


def test_a_channel_without_ready_is_listed(tmp_path: Path, capsys: pytest.CaptureFixture[str]) -> None:
    """So that the reader sees which signal is missing, if the signals of the link have a common beginning."""
    wave = simple()
    code, _ = wave.codes.pop(("in", "a", "ready"))
    wave.vars = [line for line in wave.vars if "in_a_ready" not in line]
    wave.body = [line for line in wave.body if line[1:] != code]
    status, lines, error = printed(tmp_path, wave, capsys)
    assert status == 0 and error == "" and lines[-1] == "top.in: A has no ready"
    assert lines[1].split()[:3] == ["top.in", "plain", "AD"]
