"""Hostile runs of the verified program: small rings, broken texts, broken streams and little memory, beyond those of
test_program.py.

This tests facts that no contract states; it proves nothing. The expected output follows from the rules of the link,
never from the program.
"""

import fcntl
import os
import resource
import socket
import subprocess
import sys
import tempfile
import termios
import time
from pathlib import Path
from typing import Any, Dict, Iterable, List, Optional, Tuple

import program_cases as cases
import pytest
from differences import Differences
from program_cases import WHOLE, Trace, compare, runs_of

# Each side in its own thread, and both in one, with the smallest rings and turns. Then sizes around those of stage and
# inbox.
SMALLEST = (
    ("run", "--ring", "1", "--turns", "1"),
    ("run", "--ring", "1", "--turns", "1", "--sync"),
)
RINGS = ("1", "2", "3", "127", "128", "129", "4095", "4096")
TURNS = ("1", "2", "3", "1000")
# The smallest and the largest of each with the usual 16 beats and 4 turns, and the largest ring in one thread.
USUAL = (
    ("run", "--ring", "1"),
    ("run", "--ring", "4096"),
    ("run", "--turns", "1"),
    ("run", "--turns", "1000"),
    ("run", "--ring", "4096", "--sync"),
)

# A channel that waits for another one, bursts that end early, all five channels, and a beat that fills a stage.
CROSSED = (
    "no response before the first far beat of its request",
    "a response inside the burst of its request",
    "a source is free from the first far beat of its response on",
    "a source is busy while no far beat of its response has come",
    "a response of another size to a source used twice",
    "two channels that wait for each other",
    "a source used again after its response",
    *WHOLE,
    "a release of 64 bytes to the narrowest bus, and an acknowledgement that needs no request",
    "two sources that differ only above the eighth bit, both open at once",
    "a response finds its request by all 16 bits of the source",
    "a response to a source that has not asked, and that differs only above the eighth bit",
    "a release of 128 bytes to the narrowest bus: each part is corrupt",
)

# Large traces over rings of other sizes, each with its own number of turns.
LARGE = (
    ("a put of 4,096 bytes, version 1 client 64 manager 1", "64", "1"),
    ("a put of 4,096 bytes, version 2 client 128 manager 1", "128", "1"),
    ("a put of 4,096 bytes, version 2 client 1 manager 128", "16", "1000"),
    ("200 acknowledgements", "4096", "1"),
)


TRACES = cases.stored_traces()
NAMED = {trace.name: trace for trace in TRACES}
EXAMPLES = [trace for trace in TRACES if trace.name.endswith(".trace")]
ON_ALL_SIZES = [*(NAMED[name] for name in CROSSED), *EXAMPLES]


def by_name(things: Iterable[Any]) -> List[Any]:
    """The parameters of a test, each with its name as its id."""
    return [pytest.param(thing, id=thing.name) for thing in things]


@pytest.mark.parametrize("order", SMALLEST, ids=" ".join)
def test_the_smallest_rings(tlbridge: Path, differences: Differences, order: Tuple[str, ...]) -> None:
    """Each trace that has an answer, by the smallest rings."""
    for trace in (*TRACES, *cases.large_traces()):
        if not trace.error:
            compare(differences, tlbridge, runs_of(trace, [order]))


@pytest.mark.parametrize("trace", by_name(ON_ALL_SIZES))
def test_the_answer_is_the_same_for_all_sizes(tlbridge: Path, differences: Differences, trace: Trace) -> None:
    """For every size of the rings and every number of turns."""
    orders = [("run", "--ring", ring, "--turns", turns) for ring in RINGS for turns in TURNS]
    compare(differences, tlbridge, runs_of(trace, (*orders, *USUAL)))


@pytest.mark.parametrize("name, ring, turns", LARGE, ids=[name for name, _, _ in LARGE])
def test_large_traces_over_other_rings(
    tlbridge: Path, differences: Differences, name: str, ring: str, turns: str
) -> None:
    """In two threads and in one."""
    trace = next(trace for trace in cases.large_traces() if trace.name == name)
    order = ("run", "--ring", ring, "--turns", turns)
    compare(differences, tlbridge, runs_of(trace, (order, (*order, "--sync"))))


@pytest.mark.parametrize("order", (("check",), SMALLEST[0]), ids=" ".join)
@pytest.mark.parametrize("name", WHOLE)
def test_broken_texts(tlbridge: Path, differences: Differences, name: str, order: Tuple[str, ...]) -> None:
    """A text cut after each of its bytes, and with bytes replaced: by `check`, and with the smallest rings."""
    whole = NAMED[name]
    for trace in (*cases.cut_traces(whole), *cases.spoilt_traces(whole)):
        compare(differences, tlbridge, runs_of(trace, [order]))


@pytest.mark.parametrize("letters", (b"ABCDE", b"EDCBA"), ids=bytes.decode)
def test_the_order_of_lines_means_nothing_between_channels(
    tlbridge: Path, differences: Differences, letters: bytes
) -> None:
    """Each trace with its lines channel by channel, in two orders."""
    for trace in ON_ALL_SIZES:
        first, *lines = trace.text.splitlines(True)
        text = first + b"".join(line for letter in letters for line in lines if line[0] == letter)
        assert len(text) == len(trace.text)
        name = f"{trace.name}, its lines in the order {letters.decode()}"
        compare(differences, tlbridge, runs_of(Trace(name, text, trace.answer, "", trace.status), SMALLEST))


# ---- Streams

GET, FIVE = NAMED["a Get to a narrower bus"], NAMED[WHOLE[0]]
READ, WRITE, TOO_LONG = (f"tlbridge: {fault}\n".encode() for fault in ("21 Read", "22 Write", "23 TooLong"))
ORDERS = (("run",), ("run", "--sync"), ("check",))


def ended(started: "subprocess.Popen[bytes]", text: Optional[bytes] = None) -> Any:
    """How a run ends: its status and both outputs."""
    try:
        output, error = started.communicate(text, timeout=120)
    except subprocess.TimeoutExpired:
        started.kill()
        return "it does not end"
    return started.returncode, output or b"", error or b""


def start(program: Path, words: Tuple[str, ...], **given: Any) -> "subprocess.Popen[bytes]":
    streams: Dict[str, Any] = {"stdin": subprocess.PIPE, "stdout": subprocess.PIPE, "stderr": subprocess.PIPE, **given}
    return subprocess.Popen([str(program), *words], cwd=tempfile.gettempdir(), **streams)


def start_with(program: Path, words: Tuple[str, ...], text: bytes) -> "subprocess.Popen[bytes]":
    """Starts a run that reads this text one byte at a time, and whose next read then fails. It fails because the other
    end of the socket is closed before it has read what was sent to it."""
    here, there = socket.socketpair(socket.AF_UNIX, socket.SOCK_SEQPACKET)
    there.send(b"x")
    started = start(program, words, stdin=there)
    there.close()
    for at in range(len(text)):
        here.send(text[at : at + 1])
    while int.from_bytes(fcntl.ioctl(here, termios.TIOCOUTQ, bytes(4)), sys.byteorder):
        time.sleep(0)
    here.close()
    return started


def closed(number: int) -> Dict[str, Any]:
    """A standard stream that is closed, by its number."""
    return {("stdin", "stdout", "stderr")[number]: None, "preexec_fn": lambda: os.close(number)}


def answer_by(trace: Trace, words: Tuple[str, ...]) -> bytes:
    """The whole answer to a trace by these words."""
    return (cases.checked(trace.answer) if words == ("check",) else trace.answer).encode()


@pytest.mark.parametrize("words", ORDERS, ids=" ".join)
def test_a_closed_stream(tlbridge: Path, differences: Differences, words: Tuple[str, ...]) -> None:
    """Standard input or output that is closed is a fault; standard error that is closed changes no status."""
    for name, stream, text, wanted in (
        ("standard input", 0, None, (4, b"", READ)),
        ("standard output", 1, GET.text, (4, b"", WRITE)),
        ("standard error", 2, GET.text, (0, answer_by(GET, words), b"")),
        ("standard error, to a fault", 2, b"x", (3, b"", b"")),
    ):
        differences.same(name, ended(start(tlbridge, words, **closed(stream)), text), wanted)


def test_help_to_a_closed_stream(tlbridge: Path) -> None:
    assert ended(start(tlbridge, ("--help",), **closed(1))) == (4, b"", WRITE)


@pytest.mark.parametrize("words", ORDERS, ids=" ".join)
def test_nobody_reads_the_output(tlbridge: Path, words: Tuple[str, ...]) -> None:
    reads, writes = os.pipe()
    os.close(reads)
    try:
        assert ended(start(tlbridge, words, stdout=writes), GET.text) == (4, b"", WRITE)
        assert ended(start(tlbridge, words, stderr=writes), b"x") == (3, b"", b"")
    finally:
        os.close(writes)


@pytest.mark.parametrize("words", ORDERS, ids=" ".join)
def test_an_input_that_never_ends(tlbridge: Path, words: Tuple[str, ...]) -> None:
    with open("/dev/zero", "rb") as zeros:
        assert ended(start(tlbridge, words, stdin=zeros)) == (4, b"", TOO_LONG)


@pytest.mark.parametrize("words", ORDERS, ids=" ".join)
def test_each_read_that_fails(tlbridge: Path, differences: Differences, words: Tuple[str, ...]) -> None:
    """The text comes byte by byte, and the read after each of its bytes fails."""
    for count in range(len(GET.text) + 1):
        came = ended(start_with(tlbridge, words, GET.text[:count]))
        differences.same(f"read {count + 1} fails", came, (4, b"", READ))


@pytest.mark.parametrize("words", ORDERS, ids=" ".join)
def test_an_input_that_is_open_only_for_writes(tlbridge: Path, words: Tuple[str, ...]) -> None:
    source = os.open(os.devnull, os.O_WRONLY)
    try:
        assert ended(start(tlbridge, words, stdin=source)) == (4, b"", READ)
    finally:
        os.close(source)


@pytest.mark.parametrize("trace", (GET, FIVE), ids=lambda trace: str(trace.name))
@pytest.mark.parametrize("words", ORDERS, ids=" ".join)
def test_an_input_that_comes_byte_by_byte(tlbridge: Path, words: Tuple[str, ...], trace: Trace) -> None:
    started = start(tlbridge, words)
    assert started.stdin
    for at in range(len(trace.text)):
        os.write(started.stdin.fileno(), trace.text[at : at + 1])
    assert ended(started) == (0, answer_by(trace, words), b"")


# ---- Memory

# 200,000 acknowledgements, a million bytes.
LONG = cases.LONG_TEXT[: 36 + 5 * 200_000]
LONG_ANSWER = "tilelink-far 1 client 8 manager 8\n" + "E 00\n" * 200_000
LONG_ANSWER += "".join(f"= {channel} done 0 0\n" for channel in "ABCD") + "= E done 200000 200000\n"

# In MiB: with the least the system has no room for the program itself, and the most is enough for each order.
SIZES = (*range(8, 64, 2), 128, 256, 512)


@pytest.mark.parametrize(
    "words", (("run", "--ring", "4096", "--turns", "1000"), ("run", "--sync"), ("check",)), ids=" ".join
)
def test_more_and_more_memory(tlbridge: Path, differences: Differences, words: Tuple[str, ...]) -> None:
    """Each run reports that memory ran out and writes nothing, or writes the whole answer. If memory was too small for
    the program to begin, or to read its arguments, it only has to write nothing. Both ends have to occur."""
    answer = cases.checked(LONG_ANSWER) if words == ("check",) else LONG_ANSWER
    whole, no_memory, seen = (0, answer.encode(), b""), (4, b"", b"tlbridge: 13 OutOfMemory\n"), []
    for size in SIZES:
        most = size << 20

        def limit(most: int = most) -> None:
            resource.setrlimit(resource.RLIMIT_AS, (most, most))

        ran = subprocess.run(
            [str(tlbridge), *words],
            input=LONG,
            capture_output=True,
            cwd=tempfile.gettempdir(),
            preexec_fn=limit,
        )
        came = ran.returncode, ran.stdout, ran.stderr
        seen.append(came)
        is_right = came in (no_memory, whole) if came[0] in (0, 3, 4) else came[1] == b""
        differences.holds(f"{size} MiB", is_right, f"status {came[0]}, {came[1][:80]!r}, {came[2][:80]!r}")
    differences.holds("too little memory", no_memory in seen, "it never came")
    differences.holds("enough memory", whole in seen, "it never came")
