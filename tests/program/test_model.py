"""Compares the unverified model, ./tlbridge-model, with the verified program, and with the stored answers.

Both get every trace below examples/, by `run`, `run` with options, and `check`, from a file and from standard input;
then command lines that are wrong, and files and streams that fail. Both have to give the same standard output, exit
status, and first line of standard error, apart from the program's name. Without the program, the model is still
compared with each `.answer` and `.error` file.
"""

import contextlib
import re
import subprocess
import tempfile
from dataclasses import dataclass
from pathlib import Path
from typing import Any, Iterable, List, Optional, Tuple

import pytest
import starter
from project import EXAMPLES, MODEL, ROOT, needs_program

GET = str(EXAMPLES / "get.trace")
TRACES = sorted(EXAMPLES.rglob("*.trace"))
BAD_WORDS = (
    (),
    ("walk",),
    ("Run",),
    ("",),
    ("-",),
    ("--fast",),
    ("--ring", "4"),
    ("help", "walk"),
    ("run", "--fast"),
    ("run", "-x"),
    ("run", "-V"),
    ("run", "--ring"),
    ("run", "--turns"),
    ("run", "--ring", "--sync"),
    ("run", "--sync", "--sync"),
    ("run", "--ring", "1", "--ring", "2"),
    ("run", "--turns=1", "--turns=1"),
    ("run", "a.trace", "b.trace"),
    ("run", "--", "a.trace", "--sync"),
    ("run", b"\xff.trace"),
    (b"run\xff",),
    ("check", "--sync"),
    ("check", "--ring", "1"),
    ("check", "--ring=1"),
    ("check", "a.trace", "b.trace"),
    ("run", "--sync=1"),
    ("run", "--help=1"),
    ("check", "--sync=1"),
    ("--help=1",),
    ("--version=2",),
    ("help", "-h"),
    ("help", "--sync"),
    ("run", "--ring=4=5"),
    ("run", "--", "a.trace", "b.trace"),
    ("check", "--version"),
    *(
        ("run", f"{option}={value}")
        for option in ("--ring", "--turns")
        for value in ("0", "-1", "abc", "", "1 ", "1_0", "4097", "99999", str(2**64))
    ),
    *(("run", option, value) for option in ("--ring", "--turns") for value in ("0", "4097", "x")),
)
GOOD_WORDS = (
    ("run", GET),
    ("run", "--ring=1", GET, "--turns", "1"),
    ("run", "--sync", "--", GET),
    ("run", "--ring", "4096", "--turns", "1000", GET),
    ("run", "--ring", "+16", "--turns", "007", GET),
    ("check", "--", GET),
)
FILES = (str(EXAMPLES), str(ROOT / "none.trace"), f"{GET}/none", "", "-", "/dev/null", "/dev/zero")


@dataclass
class Case:
    """One run of both programs."""

    name: str
    words: Tuple[str, ...]
    text: bytes = b""
    output_to: str = ""


@dataclass
class Ended:
    """How a run ended, without the program's name."""

    status: int
    output: bytes
    error: bytes

    def __str__(self) -> str:
        return f"status {self.status}, standard error {self.error!r}, standard output {self.output[:300]!r}"


def run(program: Path, case: Case) -> Ended:
    words, folder = [str(program), *case.words], tempfile.gettempdir()
    with contextlib.ExitStack() as open_files:
        output = open_files.enter_context(open(case.output_to, "wb")) if case.output_to else None
        if program == MODEL:
            ended = starter.run(words, cwd=folder, text=case.text, stdout=output, timeout=120)
        else:
            ended = subprocess.run(
                words,
                input=case.text,
                stdout=output or subprocess.PIPE,
                stderr=subprocess.PIPE,
                timeout=120,
                cwd=folder,
            )
    first = ended.stderr.partition(b"\n")[0].replace(b"tlbridge-model", b"tlbridge")
    return Ended(ended.returncode, ended.stdout or b"", first)


def stored_end(path: Path) -> Optional[Ended]:
    """How a run of a trace has to end, by its `.answer` or `.error` file."""
    answer, error = path.with_suffix(".answer"), path.with_suffix(".error")
    if error.exists():
        return Ended(3, b"", error.read_bytes().strip())
    if not answer.exists():
        return None
    text = answer.read_bytes()
    verdicts = [line.split()[2] for line in text.splitlines() if line.startswith(b"= ")]
    return Ended(0 if all(verdict == b"done" for verdict in verdicts) else 1, text, b"")


def agree(case: Case) -> None:
    """Fails if the model and the program end in different ways."""
    came, wanted = run(MODEL, case), run(needs_program("tlbridge"), case)
    assert came == wanted, f"{case.name}\nthe model: {came}\nthe program: {wanted}"


def by_path(paths: Iterable[Path]) -> List[Any]:
    return [pytest.param(path, id=str(path.relative_to(ROOT))) for path in paths]


@pytest.mark.parametrize("path", by_path(path for path in TRACES if stored_end(path)))
def test_the_stored_answer(path: Path) -> None:
    """The model gives the answer or the fault that is stored next to a trace."""
    assert run(MODEL, Case(path.name, ("run", str(path)))) == stored_end(path)


@pytest.mark.parametrize("path", by_path(TRACES))
def test_a_trace(path: Path) -> None:
    """The answer to each trace of examples/, from a file and from standard input."""
    text = path.read_bytes()
    agree(Case("run FILE", ("run", str(path))))
    agree(Case("run --sync", ("run", "--sync"), text))
    agree(Case("check", ("check",), text))


@pytest.mark.parametrize("words", (*BAD_WORDS, *GOOD_WORDS), ids=str)
def test_a_command_line(words: Tuple[str, ...]) -> None:
    agree(Case(f"the words {words}", words, (EXAMPLES / "get.trace").read_bytes()))


@pytest.mark.parametrize("file", FILES)
def test_a_file(file: str) -> None:
    """Files that cannot be read, are empty, or never end."""
    agree(Case(f"the file '{file}'", ("run", file), (EXAMPLES / "get.trace").read_bytes()))


@pytest.mark.parametrize("word", ("run", "check"))
def test_a_full_output(word: str) -> None:
    agree(Case(f"{word}, and standard output is full", (word,), (EXAMPLES / "get.trace").read_bytes(), "/dev/full"))


def test_help_to_a_full_output() -> None:
    agree(Case("help, and standard output is full", ("--help",), b"", "/dev/full"))


@pytest.mark.parametrize("count", (64 * 2**20, 64 * 2**20 + 1))
@pytest.mark.parametrize("word", ("run", "check"))
def test_the_longest_text(word: str, count: int) -> None:
    """A text of 64 MiB is read, and one byte more is too long."""
    agree(Case(f"{word} of {count} bytes", (word,), b"\n" * count))


@pytest.mark.parametrize(
    "words", (("--help",), ("run", "--help"), ("check", "--help"), ("help", "run"), ("-h",), ("help",)), ids=" ".join
)
def test_the_help(words: Tuple[str, ...]) -> None:
    """The model's help has each option of the program's, and says that the model is unverified."""
    came, wanted = run(MODEL, Case("", words)), run(needs_program("tlbridge"), Case("", words))
    missing = {*re.findall(rb"--[a-z]+", wanted.output)} - {*re.findall(rb"--[a-z]+", came.output)}
    assert (came.status, wanted.status, missing) == (0, 0, set())
    assert b"unverified model" in came.output
