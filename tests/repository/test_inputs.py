"""Gives bad files, bad paths, bad command lines and broken streams to each command: one message and a status, never a
traceback or a loop.

The commands are tlbridge-compare, tlbridge-trace, tlbridge-model, sv/prove, tlbridge and tlexplain. Of each the right
input is tried first. A file is empty, cut off, binary, compressed, in another encoding, of other words, or too long. A
path is missing, a folder, a link to nothing, without permission, or has odd letters. A stream is closed, full or
broken.
"""

import gzip
import os
import re
import shutil
import subprocess
import sys
from dataclasses import dataclass
from functools import partial
from pathlib import Path
from typing import Any, Callable, Dict, Iterator, List, Optional, Sequence, Tuple

import pytest
import starter
from differences import Differences
from project import ROOT, built, needs_program, needs_tools
from small_waves import simple

LIMIT = 120  # seconds, of one run
MODEL = str(ROOT / "tlbridge-model")
TRACE = (ROOT / "examples" / "get.trace").read_bytes()
BEATS = (
    b"A 4 0 2 07 0000000000001004 f0 0000000000000000 0\nD 1 0 2 07 00 0 ddccbbaa00000000 0\n",
    b"A 4 0 2 07 0000000000001004 f 00000000 0\nD 1 0 2 07 00 0 ddccbbaa 0\n",
)
# Their messages have a fault, and not the name of a file.
NAMELESS = ("tlbridge", "tlbridge-model", "tlexplain", "tlexplain-model")
# root may read each file unless it gives up that right
WITHOUT_RIGHTS = (
    ["setpriv", *(f"--{kind}=-dac_override,-dac_read_search" for kind in ("bounding-set", "inh-caps")), "--"]
    if os.getuid() == 0
    else []
)


@dataclass
class Command:
    """`words` makes the command line for the path of an input; `right` is the right input, which ends with status 0. A
    bad file ends with `of_file`, an empty one with `of_empty`, a path that cannot be read with 4 or `of_path`."""

    name: str
    words: Callable[[str], List[str]]
    right: bytes
    of_file: int = 3
    of_empty: int = 3
    of_path: int = 4
    beginning: str = ""
    bad_words: Tuple[Tuple[str, ...], ...] = ()
    has_one_line: bool = True  # of a message about a file
    longest: bytes = b"A" * (9 << 20)
    outputs: Tuple[str, ...] = ()  # options that name a file to write; a file of --beats has an ending
    streams: bool = True
    explains: bool = False  # a bad file on standard output, and a message in a second line
    tools: Tuple[str, ...] = ()  # that the command needs

    def said(self, error: str) -> bool:
        """Whether the text of standard error is a message of this command."""
        lines = error.splitlines()
        if self.explains:
            return (
                1 <= len(lines) <= 2
                and lines[0].startswith(f"{self.name}: ")
                and all(line.startswith("    ") for line in lines[1:])
            )
        return (
            bool(lines)
            and lines[-1].startswith(self.beginning or f"{self.name}: ")
            and (len(lines) == 1 or not self.has_one_line)
        )


def with_path(words: List[str], path: str) -> List[str]:
    return [*words, path]


def commands(room: Path) -> Iterator[Command]:
    """Each command with a bad client's file, and so on. The right files of both links are in `room`."""
    client, manager = str(room / "client.beats"), str(room / "manager.beats")
    compare = [str(ROOT / "sv" / "compare"), "8", "4"]
    model = ["--program", MODEL]
    wrong: Tuple[Tuple[str, ...], ...] = (
        ("8", "4"),
        ("3", "4", "x", "y"),
        ("8", "4", "x", "y", "z"),
        ("8", "4", "x", "y", "--nothing"),
        ("8", "4", "x", "y", "--program"),
        (),
    )
    yield Command(
        "tlbridge-compare",
        lambda path: [*compare, path, manager, *model],
        BEATS[0],
        of_empty=1,
        bad_words=wrong,
        outputs=("--write-trace",),
    )
    yield Command("tlbridge-compare", lambda path: [*compare, client, path, *model], BEATS[1], of_empty=1)
    yield Command("tlbridge-compare", lambda path: [*compare, path, path, *model], b"", of_empty=2, streams=False)
    wave, dump = [str(ROOT / "tlbridge-trace")], simple().text().encode()
    wrong = (
        (),
        ("--nothing", "x"),
        ("x", "y"),
        ("x", "--struct"),
        ("x", "--trace-version", "3"),
        ("x", "--from", "soon"),
    )
    yield Command("tlbridge-trace", lambda path: [*wave, path], dump, bad_words=wrong)
    yield Command(
        "tlbridge-trace",
        lambda path: [*wave, path, "--quiet", "--client", "in", "--manager", "out"],
        dump,
        outputs=("--trace", "--times", "--far", "--beats"),
    )
    yield Command(
        "tlbridge-trace",
        lambda path: [*wave, path, "--quiet", "--client", "in", "--manager", "out", "--compare", *model],
        dump,
    )
    yield Command("tlbridge-trace", lambda path: [sys.executable, "-m", "tlbridge.waves", path], dump, streams=False)
    wrong = (
        (),
        ("jump",),
        ("run", "--nothing"),
        ("run", "x", "y"),
        ("run", "--ring", "0"),
        ("run", "--ring", "many"),
        ("check", "--sync"),
        ("run", "--turns"),
    )
    for word in ("run", "check"):
        yield Command(
            "tlbridge-model",
            partial(with_path, [MODEL, word]),
            TRACE,
            bad_words=wrong if word == "run" else (),
        )
        yield Command(
            "tlbridge",
            partial(with_path, [str(built("tlbridge")), word]),
            TRACE,
            bad_words=wrong if word == "run" else (),
        )
    options: Tuple[Tuple[str, ...], ...] = ((), ("--json",), ("--html",), ("--lanes", "--to", "4"))
    for words in options:
        yield Command(
            "tlexplain",
            partial(with_path, [str(built("tlexplain")), *words]),
            TRACE,
            bad_words=() if words else (("--nothing",), ("x", "y"), ("--to", "many", "x")),
            explains=True,
        )
    yield Command(
        "tlexplain-model",
        lambda path: [str(ROOT / "tlexplain-model"), path],
        TRACE,
        bad_words=(("--nothing",), ("x", "y"), ("--to", "many", "x")),
        explains=True,
    )
    device = (ROOT / "tests" / "monitor" / "device.sv").read_bytes()
    others = [str(ROOT / "sv" / name) for name in ("tl_checker.sv", "tl_checker_ad.sv")]
    wrong = (
        (),
        ("top", "5"),
        ("top", "0", client),
        ("top", "-1", client),
        ("top", "many", client),
        ("top", "5", client, "--nothing"),
    )
    yield Command(
        "prove",
        lambda path: [str(ROOT / "sv" / "prove"), "device", "2", *others, path],
        device,
        of_file=2,
        of_empty=2,
        of_path=2,
        bad_words=wrong,
        has_one_line=False,
        longest=b"A" * 100_000,
        streams=False,
        tools=("yosys", "yosys-abc"),
    )


# What a bad input is, and how its run fails: nothing if it ends as it has to.
Check = Tuple[str, Callable[[], str]]


def bad_files(command: Command) -> Iterator[Tuple[str, bytes, int]]:
    """Names, texts and the status."""
    right, status = command.right, command.of_file
    yield "an empty file", b"", command.of_empty
    if right:
        for part in (1, len(right) // 4, len(right) // 2):
            yield f"cut after {part} bytes", right[:part].rstrip(b"\n") or b"?", status
        yield "in UTF-16", right.decode().encode("utf-16"), status
        yield "compressed twice", gzip.compress(gzip.compress(right)), status
    yield "each byte", bytes(range(256)) * 40, status
    yield "zeros", bytes(1000), status
    yield "a program", Path(str(shutil.which("true"))).read_bytes(), status
    yield "other words", b"hello world\n", status
    yield "letters of Latin-1", "\u00e9 \u00fc\n".encode("latin-1"), status
    yield "escapes of a terminal", b"\x1b[31m\x1b]0;x\x07\r\x08\n", status
    yield "a long line", command.longest, status


def paths(command: Command, room: Path) -> Iterator[Tuple[str, str, int]]:
    """Names, paths and how a path that cannot be read ends."""
    status = command.of_path
    memory = () if command.name == "prove" else (("memory, which cannot be read from its beginning", "/proc/self/mem"),)
    others = () if command.name in NAMELESS else (("no UTF-8", "\udcff"),)  # (which refuse each such word)
    for name, path in (
        ("missing", "missing"),
        ("a folder", "folder"),
        ("a link to nothing", "dangling"),
        ("a link to itself", "loop"),
        ("below a file", "file/x"),
        ("a long name", "a" * 300),
        ("an escape and a new line", "a\x1b[31m\nb"),
        *memory,
        *others,
    ):
        yield name, str(room / path), status


class Ended:
    def __init__(
        self, command: Command, words: Sequence[str], room: Path, closed: Sequence[int] = (), **more: Any
    ) -> None:
        """Runs words, in which the streams with the numbers `closed` are closed. A command that does not end is a
        failure. Each script in Python starts with closed streams as users start it; other runs of it are forks."""
        environment = {
            **{name: value for name, value in os.environ.items() if name != "PYTHONUNBUFFERED"},
            "PYTHONPATH": str(ROOT / "python"),
            "PYTHONDONTWRITEBYTECODE": "1",
            "LC_ALL": "C.UTF-8",
        }
        if starter.command_of(words) and not (closed and command.bad_words):
            ran = starter.run(words, cwd=room, timeout=LIMIT, env=environment, closed=closed, **more)
        else:
            more = {"stdin": subprocess.DEVNULL, "stdout": subprocess.PIPE, **more}
            closes = " ".join(f"{number}>&-" for number in closed)
            words = ["sh", "-c", f'exec "$@" {closes}', "sh", *words] if closed else words
            ran = subprocess.run(
                words, cwd=room, stderr=subprocess.PIPE, timeout=LIMIT, env=environment, check=False, **more
            )
        self.command, self.status, self.output, self.error = (
            command,
            ran.returncode,
            ran.stdout or b"",
            ran.stderr.decode("utf-8", "backslashreplace"),
        )

    def failure(self, status: int, output: Optional[bytes] = b"", is_silent: bool = False) -> str:
        """What is wrong: the status, standard output, no message or more than one, a traceback, or a control character
        in a message."""
        odd = re.search(r"[^\n\x20-\x7e\u00a0-\uffff]", self.error)
        problems = [
            self.status != status and f"status {self.status}, expected {status}",
            output is not None
            and self.output != output
            and f"standard output {self.output[:200]!r}, expected {output[:200]!r}",
            "Traceback" in self.error and "a traceback",
            odd and f"the control character {odd[0]!r}",
            status and not is_silent and not self.command.said(self.error) and "not one message",
        ]
        found = [problem for problem in problems if problem]
        return f"{'; '.join(found)}: {self.error[-600:]}" if found else ""


def of_files(command: Command, room: Path) -> Iterator[Check]:
    number = 0
    for name, text, status in bad_files(command):
        number += 1
        path = room / f"input{number}"
        path.write_bytes(text)
        output = None if status == 1 or command.explains else b""

        def failure(path: Path = path, status: int = status, output: Optional[bytes] = output) -> str:
            return Ended(command, command.words(str(path)), room).failure(status, output, status == 1)

        yield name, failure


def of_paths(command: Command, room: Path) -> Iterator[Check]:
    def failure(words: Sequence[str], path: str, status: int) -> str:
        ended = Ended(command, words, room)
        is_named = command.name not in NAMELESS and path.isascii() and path.isprintable()
        return ended.failure(status) or (
            f"it does not name the file: {ended.error}" if is_named and path not in ended.error else ""
        )

    for name, path, status in paths(command, room):
        yield f"the path: {name}", partial(failure, command.words(path), path, status)
    secret = str(room / "secret")
    yield "no permission", lambda: failure([*WITHOUT_RIGHTS, *command.words(secret)], secret, command.of_path)


def of_words(command: Command, room: Path) -> Iterator[Check]:
    program = command.words("x")[0]

    def failure(words: Sequence[str]) -> str:
        ended = Ended(command, [program, *words], room)
        lines = [
            line
            for line in ended.error.splitlines()
            if re.match(rf"({command.name}: )?(error: )?\S", line) and "error: " in line or line.startswith("prove: ")
        ]
        found = ended.failure(2, is_silent=True)
        return found if found or len(lines) == 1 else f"not one error: {ended.error}"

    for words in command.bad_words:
        yield f"the words {' '.join(words) or '(none)'}", partial(failure, words)


def of_streams(command: Command, room: Path) -> Iterator[Check]:
    """With the right input, and with a bad one whose message has no place."""
    right, bad = command.words(str(room / "right")), command.words(str(room / "missing"))

    def as_usual(closed: Sequence[int]) -> str:
        usual, ended = Ended(command, right, room), Ended(command, right, room, closed)
        return ended.failure(usual.status, usual.output, True)

    def broken() -> str:
        reading, writing = os.pipe()
        os.close(reading)
        with os.fdopen(writing, "wb") as pipe:
            ended = Ended(command, right, room, stdout=pipe)
        return (
            ""
            if ended.status == 4 and "Traceback" not in ended.error and (not ended.error or command.said(ended.error))
            else f"status {ended.status}: {ended.error}"
        )

    def full() -> str:
        with open("/dev/full", "wb") as device:
            ended = Ended(command, right, room, stdout=device)
        has_name = "standard output: No space" in ended.error or "22 Write" in ended.error
        return ended.failure(4) or ("" if has_name else f"standard output is not named: {ended.error}")

    yield "the right input", lambda: Ended(command, right, room).failure(0, None)
    yield "standard output is closed", lambda: Ended(command, right, room, (1,)).failure(4)
    yield "standard output is full", full
    yield "nobody reads standard output", broken
    yield "standard input is closed", lambda: as_usual((0,))
    yield "standard error is closed", lambda: as_usual((2,))
    yield "no file, and standard error is closed", lambda: Ended(command, bad, room, (2,)).failure(
        command.of_path, is_silent=True
    )
    yield "all streams are closed", lambda: Ended(command, right, room, (0, 1, 2)).failure(4, is_silent=True)


def of_outputs(command: Command, room: Path) -> Iterator[Check]:
    """A file to write on a full disk, in a folder that is missing, and in the place of a folder."""

    def failure(option: str, path: str) -> str:
        ended = Ended(command, [*command.words(str(room / "right")), option, path], room)
        return ended.failure(4, None) or ("" if path in ended.error else f"it does not name the file: {ended.error}")

    for option in command.outputs:
        for ending in (".client.beats", ".manager.beats") if option == "--beats" else ("",):
            full, folder = f"full{ending}", f"folder{ending}"
            if not (room / full).is_symlink():
                (room / full).symlink_to("/dev/full")
            (room / folder).mkdir(exist_ok=True)
            for name, path in (
                ("on a full disk", full),
                ("in a missing folder", f"missing/x{ending}"),
                ("in the place of a folder", folder),
            ):
                whole = str(room / path)
                yield f"{option}{ending} {name}", partial(failure, option, whole[: len(whole) - len(ending)])


def of_standard_input(command: Command, room: Path) -> Iterator[Check]:
    """The dump or the trace on standard input, which is closed, or has nothing."""
    first_words: Dict[str, List[str]] = {
        "tlbridge-trace": ["-"],
        "tlbridge-model": ["run"],
        "tlbridge": ["run"],
        "tlexplain": [],
        "tlexplain-model": [],
    }
    words = first_words.get(command.name)
    if words is None or not command.bad_words:
        return
    given = [command.words("x")[0], *words]
    output = None if command.explains else b""
    yield "standard input is empty", lambda: Ended(command, given, room).failure(3, output)
    yield "standard input is closed, and has the input", lambda: Ended(command, given, room, (0,)).failure(4)


# The commands, by which input they get, and the kinds of bad inputs.
NAMES = [" ".join(os.path.basename(word) for word in command.words("INPUT")) for command in commands(Path("."))]
KINDS = (of_streams, of_files, of_paths, of_words, of_outputs, of_standard_input)


def folder_of(command: Command, folder: Path) -> Path:
    """A folder with the right files of both links, and with the paths that are bad."""
    folder.chmod(0o755)
    for name, text in zip(("client.beats", "manager.beats"), BEATS):
        (folder / name).write_bytes(text)
    own = folder / "own"
    own.mkdir(mode=0o755)
    (own / "folder").mkdir()
    (own / "file").write_bytes(b"")
    (own / "right").write_bytes(command.right)
    (own / "secret").write_bytes(command.right)
    (own / "secret").chmod(0)
    (own / "dangling").symlink_to("nothing")
    (own / "loop").symlink_to("loop")
    return own


def has_inputs(command: Command, made: Any) -> object:
    """Whether a command has bad inputs of this kind."""
    return {
        of_streams: command.streams,
        of_words: command.bad_words,
        of_outputs: command.outputs,
        of_standard_input: command.bad_words and command.name not in ("tlbridge-compare", "prove"),
    }.get(made, True)


CASES = [
    pytest.param(number, made, id=f"{name}: {made.__name__[3:]}")
    for number, (name, command) in enumerate(zip(NAMES, commands(Path("."))))
    for made in KINDS
    if has_inputs(command, made)
]


@pytest.mark.parametrize("number, made", CASES)
def test_bad_inputs(differences: Differences, tmp_path: Path, number: int, made: Any) -> None:
    """Each has its status, one message, and nothing or the usual text on standard output."""
    command = list(commands(tmp_path))[number]
    needs_tools(*command.tools)
    if command.name in ("tlbridge", "tlexplain"):
        needs_program(command.name)
    tests = list(made(command, folder_of(command, tmp_path)))
    for name, test in tests:
        try:
            differences.same(name, test(), "")
        except subprocess.TimeoutExpired:
            differences.holds(name, False, "it does not end")
