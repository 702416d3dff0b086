"""Compares `tlexplain-model`, the unverified model of tlexplain, with the stored outputs of examples/ and of the folder
sentences, and with the verified program on random traces.
"""

import subprocess
import sys
from pathlib import Path
from typing import List, Sequence, Tuple

import pytest
import starter
from project import EXAMPLES, ROOT, needs_program
from random_traces import Maker

EXPLAIN_MODEL = ROOT / "tlexplain-model"
SENTENCES = Path(__file__).resolve().parent / "sentences"
LIMIT = 120
# By the ending of a stored output: the words of the command line. Other outputs there are pages and JSON.
STORED = {
    ".explain": (),
    ".lanes": ("--lanes",),
    ".order": ("--in-order",),
    ".text": (),
    ".in-order.text": ("--in-order",),
    ".times.text": ("--times", "whole.times"),
}
WITH_LANES = ("whole", "mask_without_a_lane", "mask_of_a_partial_put")  # outputs of the folder sentences
TIMES = ("times_too_few", "times_too_many", "times_backwards", "times_no_time", "no_file_of_times")


def outputs() -> List[Tuple[Path, Path, Tuple[str, ...]]]:
    """The stored outputs: the file, its trace, and the words of the command line."""
    found = []
    for ending, words in STORED.items():
        for path in sorted([*EXAMPLES.rglob("*" + ending), *SENTENCES.glob("*" + ending)]):
            trace = path.with_name(path.name.removesuffix(ending) + ".trace")
            if trace.exists():
                lanes = ("--lanes",) if ending == ".text" and trace.stem in WITH_LANES else ()
                found.append((path, trace, (*words, *lanes)))
    return found


def run(words: Sequence[object], text: bytes, program: object = EXPLAIN_MODEL) -> Tuple[bytes, bytes, int]:
    command = [str(word) for word in (program, *words)]
    if program == EXPLAIN_MODEL:
        done = starter.run(command, cwd=SENTENCES, text=text, timeout=LIMIT)
    else:
        done = subprocess.run(command, input=text, capture_output=True, cwd=SENTENCES, timeout=LIMIT)
    return done.stdout, done.stderr.replace(b"tlexplain-model: ", b"tlexplain: "), done.returncode


def test_there_are_stored_outputs() -> None:
    """Each fault of a beat, of a response and of a text has one."""
    names = {path.name for path, _, _ in outputs()}
    assert len(names) > 100
    assert len([name for name in names if name[:2].isdigit()]) >= 16


@pytest.mark.parametrize("path, trace, words", outputs(), ids=lambda value: getattr(value, "name", None))
def test_a_stored_output(path: Path, trace: Path, words: Tuple[str, ...]) -> None:
    """The text is the stored one, byte for byte, and the status says what became of the channels."""
    wanted = path.read_bytes()
    came, error, status = run(words, trace.read_bytes())
    assert came == wanted
    stored = path.with_name(path.name + ".error")
    assert error == (stored.read_bytes() if stored.exists() else error)
    channels = [line for line in wanted.decode().splitlines() if line.startswith("= ")]
    assert status == (0 if channels and all(" done " in line for line in channels) else 1 if channels else 3)
    assert bool(error) == (status == 3)


@pytest.mark.parametrize("name", TIMES)
def test_wrong_times(name: str) -> None:
    stored = (SENTENCES / f"{name}.text.error").read_bytes()
    status = 4 if name == "no_file_of_times" else 3
    assert run(("--times", f"{name}.times"), (SENTENCES / "whole.trace").read_bytes()) == (b"", stored, status)


def test_the_command_line(tmp_path: Path) -> None:
    """Words that it does not know, a missing file, and a full output."""
    assert run(("--html",), b"")[2] == 2
    assert run(("--source", "10000"), b"")[2] == 2
    said, error, status = run((tmp_path / "none.trace",), b"")
    assert (said, error, status) == (b"", b"tlexplain: 21 Read\n    the trace could not be read\n", 4)
    with open("/dev/full", "wb") as full:
        done = subprocess.run(
            [sys.executable, EXPLAIN_MODEL, EXAMPLES / "get.trace"], stdout=full, stderr=subprocess.PIPE, timeout=LIMIT
        )
    assert (done.returncode, b"22 Write" in done.stderr) == (4, True)


def test_the_lines_that_are_shown() -> None:
    """Each choice leaves whole sentences out, and the summary in."""
    text = (SENTENCES / "whole.trace").read_bytes()
    every = run((), text)[0].decode().splitlines()
    for words in (("--only", "problems"), ("--from", "13", "--to", "13"), ("--channel", "D"), ("--source", "3")):
        chosen = run(words, text)[0].decode().splitlines()
        assert 5 < len(chosen) < len(every) and set(chosen) <= set(every), words
        assert [line for line in chosen if line.startswith("= ")] == every[-5:]
    assert any(": refused, " in line for line in run(("--only", "problems"), text)[0].decode().splitlines())


# Options of both programs, one row for each random trace in turn.
OPTIONS = ((), ("--lanes",), ("--in-order",), ("--only", "problems", "--in-order"), ("--no-remarks", "--lanes"))


@pytest.mark.parametrize("part", range(8))
def test_the_verified_program(part: int) -> None:
    """Both programs print the same on random traces: right ones, faulty ones and broken texts."""
    program = needs_program("tlexplain")
    for number in range(32 * part, 32 * part + 32):
        text = Maker("explain model", number).text()
        for words in OPTIONS if number % 8 == 0 else OPTIONS[number % 5 :][:1]:
            assert run(words, text) == run(words, text, program), (number, words)
