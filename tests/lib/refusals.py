"""Runs of a program in which each allocation, start of a thread, read and write fails in turn.

It builds refuse.c, next to this file, and preloads that into the program (LD_PRELOAD), which has to be linked
dynamically to the C library. The expected answers are those of the unverified model, ./tlbridge-model. A growth is an
allocation or a reallocation. tests/program/test_refusals.py says what is tested.
"""

import errno
import itertools
import os
import re
import resource
import signal
import subprocess
import tempfile
from collections import Counter
from pathlib import Path
from typing import Any, Sequence, Tuple
from typing import Counter as CounterOf

from differences import Differences
from project import MODEL, compiler, script

model: Any = script(MODEL)
HERE = Path(__file__).resolve().parent
Words = Tuple[str, ...]
SYNC, RUN, CHECK = ("run", "--sync"), ("run",), ("check",)
SMALL = ("run", "--ring", "1", "--turns", "1")
FILE = "FILE"
ORDERS = (SYNC, RUN, CHECK, SMALL)

# One beat on each channel, the response before its request.
FIVE = b"""tilelink-trace 1 client 4 manager 8
E 07
D 4 0 6 01 07 0 0000000000000000 0
C 4 1 6 00 0000000000000080 00000000 0
B 7 2 6 00 0000000000000080 ff 0000000000000000 0
A 7 2 6 01 0000000000000040 f 00000000 0
"""
NO_TRACE = b"tilelink-trace 1 client 4 manager 8\nE 0A\n"
# The output of a test whose call ran out of memory, and of one in which an earlier call did.
OF_CALL, BEFORE_CALL = (
    rb"(line \d+: )?13 OutOfMemory\n",
    rb"error: (AllocError|TraceFault \{ line: \d+, kind: OutOfMemory \})\n",
)
NO_MEMORY, READ, WRITE = b"tlbridge: 13 OutOfMemory\n", b"tlbridge: 21 Read\n", b"tlbridge: 22 Write\n"


def larger_text() -> bytes:
    """Some 200,000 bytes: bursts on A, with their responses, and beats of E."""
    lines = ["tilelink-trace 1 client 8 manager 4"]
    for k in range(256):
        for j in range(8):
            lines.append(f"A 0 0 6 {k:02x} {64 * k:016x} ff {(0x0101010101010101 * j):016x} 0")
        lines.append(f"D 0 0 6 {k:02x} 00 0 00000000 0")
        lines += [f"E {k:02x}"] * 16
    return "".join(line + "\n" for line in lines).encode()


class Ended:
    """How a run ended, and the log of what it requested: a letter for each event, in upper case if it was refused
    (refuse.c)."""

    def __init__(self, status: int, output: bytes, error: bytes, log: str = "") -> None:
        self.status, self.output, self.error, self.log = status, output, error, log

    def is_answer(self, wanted: Any, order: Words) -> bool:
        there = wanted.status, wanted.output(order[:1] == CHECK), wanted.error("tlbridge")
        return bool((self.status, self.output, self.error) == there)

    def is_fault(self, status: int, error: bytes, output: bytes = b"") -> bool:
        return (self.status, self.output, self.error) == (status, output, error)

    def __str__(self) -> str:
        log = " ".join(f"{len(list(group))}{letter}" for letter, group in itertools.groupby(self.log))
        return f"status {self.status}, log {log[:200]}, output {self.output[:300]!r}, error {self.error[:300]!r}"


class Refusals:
    """Runs of one program. What is wrong in them is noted as a difference."""

    def __init__(self, program: Path, library: Path, differences: Differences) -> None:
        self.program, self.library, self.differences = str(program), str(library), differences

    def judged(self, what: str, is_right: object, ended: object) -> None:
        self.differences.holds(what, is_right, str(ended))

    def run(self, order: Sequence[str], text: bytes, **refused: int) -> Ended:
        """Returns a run, with the log of what was requested and refused. The word FILE is replaced by a file with the
        text. The names of `refused` are those of refuse.c, without REFUSE_ and in lower case."""
        said = {f"REFUSE_{name.upper()}": str(number) for name, number in refused.items()}
        with tempfile.NamedTemporaryFile() as source, tempfile.TemporaryFile() as log:
            source.write(text)
            source.seek(0)  # which also writes it out
            environment = {**os.environ, **said, "REFUSE_LOG": str(log.fileno()), "LD_PRELOAD": self.library}
            ended = subprocess.run(
                [self.program, *(source.name if word == FILE else word for word in order)],
                stdin=source,
                capture_output=True,
                env=environment,
                pass_fds=[log.fileno()],
                timeout=120,
            )
            log.seek(0)
            return Ended(ended.returncode, ended.stdout, ended.stderr, log.read().decode())

    # -- Calls of the libraries

    def call(self, name: str) -> None:
        """A test of the crate bridge_tests, whose executable is the program."""
        usual = self.run((name,), b"").log
        seen: CounterOf[str] = Counter()
        for how in ("growth", "from", "start"):
            number = 0
            while True:
                number += 1
                ended = self.run((name,), b"", **{how: number})
                kind, is_right = of_call(ended, number, usual)
                self.judged(f"{name}, {how} {number}", is_right, ended)
                if ended.log == ended.log.lower():
                    break
                seen[kind] += 1
        self.judged(f"{name}: no growth of its call was refused", seen["OutOfMemory"] > 0, "")

    # -- Memory and threads

    def rounds(self, text: bytes) -> None:
        for words in ((*RUN, "--turns", "1"), (*RUN, "--turns", "1000")):
            logs = [self.run((*words, "--ring", ring), text).log for ring in ("1", "2", "16", "4096")]
            growths = [log.count("g") - log.count("s") for log in logs]
            self.judged(f"{' '.join(words)}: {growths} growths", len(set(growths)) == 1, "")

    def growths(self, text: bytes, order: Words, how: str) -> None:
        wanted = model.answer(text)
        log = self.run(order, text).log
        asked = set("grw") if wanted.status < 2 else set("gr")
        self.judged(f"{order}: what it asks for is not seen", asked <= set(log), log)
        usual = growths_of_words(log)
        was_read, number = False, 0
        while True:
            number += 1
            ended = self.run(order, text, **{how: number})
            if ended.log == ended.log.lower():
                self.judged(f"{order}, with nothing refused", ended.is_answer(wanted, order), ended)
                break
            what = f"{' '.join(order)}, {how} {number}"
            if ended.status == 2:
                is_right = not was_read and "r" not in ended.log and ended.output == b"" and ended.error != b""
            elif ended.is_answer(wanted, order):
                was_asked_again = how == "growth" and number <= usual and growths_of_words(ended.log) > usual
                is_right = was_asked_again or of_starts_alone(ended.log) or of_rounds_alone(ended.log, number, log)
            else:
                was_read = True
                is_right = ended.is_fault(4, NO_MEMORY)
            self.judged(what, is_right, ended)

    def starts(self, text: bytes, order: Words) -> None:
        wanted, number = model.answer(text), 0
        while True:
            number += 1
            ended = self.run(order, text, start=number)
            self.judged(f"{' '.join(order)}, start {number}", ended.is_answer(wanted, order), ended)
            if "S" not in ended.log:
                break

    def limits(self, text: bytes, order: Words) -> None:
        wanted = model.answer(text)
        for size in range(1 << 20, 64 << 20, 256 << 10):

            def limit(size: int = size) -> None:
                resource.setrlimit(resource.RLIMIT_AS, (size, size))

            ran = subprocess.run([self.program, *order], input=text, capture_output=True, preexec_fn=limit)
            ended = Ended(ran.returncode, ran.stdout, ran.stderr)
            if ended.status in (127, -signal.SIGSEGV, -signal.SIGKILL):
                self.judged(f"{' '.join(order)}, {size} bytes", ended.output == b"", ended)
                continue
            is_whole = ended.is_answer(wanted, order)
            is_right = is_whole or ended.is_fault(4, NO_MEMORY) or (ended.status == 2 and ended.output == b"")
            self.judged(f"{' '.join(order)}, {size} bytes", is_right, ended)

    # -- Streams

    def reads(self, text: bytes, order: Words, piece: int = 1) -> None:
        for number in range(1, -(-len(text) // piece) + 2):
            for error in (errno.EIO, errno.EINTR, errno.EAGAIN):
                ended = self.run(order, text, read=number, error=error, piece=piece)
                what = f"{' '.join(order)}, read {number}, {errno.errorcode[error]}"
                self.judged(what, ended.is_fault(4, READ), ended)
            ended = self.run(order, text, read=number, error=0, piece=piece)
            shorter = model.answer(text[: (number - 1) * piece])
            self.judged(f"{' '.join(order)}, the input ends at read {number}", ended.is_answer(shorter, order), ended)

    def writes(self, text: bytes, order: Words, piece: int = 1) -> None:
        whole = model.answer(text).output(order[:1] == CHECK)
        for number in range(1, self.run(order, text, piece=piece).log.count("w") + 1):
            most = (number - 1) * piece
            for error in (errno.EIO, errno.EINTR, errno.EPIPE, 0):
                ended = self.run(order, text, write=number, error=error, piece=piece)
                what = f"{' '.join(order)}, write {number}, {errno.errorcode.get(error, 'takes no byte')}"
                came = ended.output if len(ended.output) <= most else b""
                is_right = whole.startswith(came) and len(came) >= number - 1 and ended.is_fault(4, WRITE, came)
                self.judged(what, is_right, ended)

    def pieces(self, text: bytes, order: Words) -> None:
        wanted = model.answer(text)
        for piece in (1, 2, 3, 7, 64, 4096, 65536):
            ended = self.run(order, text, piece=piece)
            self.judged(f"{' '.join(order)}, in pieces of {piece}", ended.is_answer(wanted, order), ended)


def of_call(ended: Ended, number: int, usual: str) -> Tuple[str, bool]:
    """Returns the kind of answer that a test of bridge_tests gave, and whether it is allowed."""
    is_refused = ended.log != ended.log.lower()
    # The first start of a thread takes a growth itself. From there on a run takes none but those of its starts.
    before_starts = usual[: usual.index("s")].count("g") - 1 if "s" in usual else len(usual)
    if ended.status == 0:
        return "whole", not is_refused or of_starts_alone(ended.log) or number > before_starts
    first = ended.error.partition(b"the test failed: ")[0]
    for kind, text in (("OutOfMemory", OF_CALL), ("before the call", BEFORE_CALL)):
        if ended.status == 101 and re.fullmatch(text, first):
            return kind, is_refused and number <= before_starts
    return "wrong", False


def growths_of_words(log: str) -> int:
    """How many growths came before the first read: those of the words, and the buffer of the reader."""
    return log.lower().partition("r")[0].count("g")


def of_starts_alone(log: str) -> bool:
    """Whether all that was refused was refused within starts of threads."""
    return not any(letter in log for letter in "GRW")


def of_rounds_alone(log: str, number: int, usual: str) -> bool:
    """Whether a growth that was refused, of this number, came between the first start of a thread, which takes a growth
    itself, and the growths of the answer: the rounds take none but those of their starts."""
    if "s" not in usual:
        return False
    before_starts = usual[: usual.index("s")].count("g") - 1
    of_answer = usual[usual.rindex("s") :].count("g")
    return number > before_starts and log[max(log.rfind("s"), 0) :].count("g") == of_answer


def shim(folder: Path) -> Path:
    """Builds refuse.c, for LD_PRELOAD, in this folder. The test is skipped if there is no C compiler."""
    library = folder / "refuse.so"
    flags = ["-O1", "-shared", "-fPIC", "-ftls-model=initial-exec", "-o", str(library)]
    subprocess.run([*compiler().split(), *flags, str(HERE / "refuse.c"), "-ldl"], check=True)
    return library
