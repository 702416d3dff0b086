"""Runs the verified program `tlbridge`, and compares both its streams and its exit status with the expected ones.

This tests facts that no contract states; it proves nothing. tests/lib/program_cases.py says where the expected output
comes from. That of command lines is in program.words.
"""

import os
import shlex
import subprocess
import tempfile
from pathlib import Path
from typing import Any, Collection, Iterable, Iterator, List, Tuple, Union

import program_cases as cases
import pytest
from differences import Differences
from program_cases import LONG_TEXT, MAX_BYTES, RUNS, WHOLE, WIDE, Run, Trace, compare, expected, fault, runs_of
from project import EXAMPLES, ROOT

TRACES = cases.stored_traces()
NAMED = {trace.name: trace for trace in TRACES}
SYNC_AND_CHECK = (("run", "--sync"), ("check",))
LARGE = tuple(cases.large_traces())
FAULTY = (*cases.faulty_traces(NAMED[WHOLE[0]]), *cases.mask_traces(NAMED[WIDE]))


def by_name(things: Iterable[Any]) -> List[Any]:
    """The parameters of a test, each with its name as its id."""
    return [pytest.param(thing, id=thing.name) for thing in things]


@pytest.mark.parametrize("trace", by_name((*TRACES, *LARGE)))
def test_each_run_gives_the_expected_answer(tlbridge: Path, differences: Differences, trace: Trace) -> None:
    """Worked cases, examples, and the longest messages: by each kind of run and by `check`."""
    compare(differences, tlbridge, runs_of(trace))


@pytest.mark.parametrize("order", SYNC_AND_CHECK, ids=" ".join)
def test_texts_of_several_pieces(tlbridge: Path, differences: Differences, order: Tuple[str, ...]) -> None:
    """Texts of more than two pieces, and faults before, at and after the end of the first one."""
    for trace in cases.long_traces():
        compare(differences, tlbridge, runs_of(trace, [order]))


@pytest.mark.parametrize("name", WHOLE)
def test_a_text_cut_after_each_byte(tlbridge: Path, differences: Differences, name: str) -> None:
    """A text that is cut has an answer, or its first fault, whichever byte is the last one."""
    for trace in cases.cut_traces(NAMED[name]):
        compare(differences, tlbridge, runs_of(trace, RUNS[:1]))


@pytest.mark.parametrize("name", WHOLE)
def test_each_replaced_byte_is_a_fault(tlbridge: Path, differences: Differences, name: str) -> None:
    """The first fault of a text and its line, with each byte replaced in turn."""
    for trace in cases.spoilt_traces(NAMED[name]):
        compare(differences, tlbridge, runs_of(trace, RUNS[:1]))


@pytest.mark.parametrize("trace", by_name(FAULTY))
def test_a_line_that_is_none(tlbridge: Path, differences: Differences, trace: Trace) -> None:
    """A line in place of another one has its fault."""
    compare(differences, tlbridge, runs_of(trace, RUNS[:1]))


@pytest.mark.parametrize("order", SYNC_AND_CHECK, ids=" ".join)
@pytest.mark.parametrize("third", range(3), ids=("whole", "without its end", "with another letter"))
def test_the_end_of_a_piece_within_each_byte(
    tlbridge: Path, differences: Differences, third: int, order: Tuple[str, ...]
) -> None:
    """The end of the first piece divides five lines at each of their bytes."""
    for number, trace in enumerate(cases.parted_traces(NAMED[WHOLE[0]])):
        if number % 3 == third:
            compare(differences, tlbridge, runs_of(trace, [order]))


@pytest.mark.parametrize("order", SYNC_AND_CHECK, ids=" ".join)
def test_bursts_and_waits_across_the_end_of_a_piece(
    tlbridge: Path, differences: Differences, order: Tuple[str, ...]
) -> None:
    """Bursts, waits and faults with the end of the first piece within them."""
    for trace in cases.boundary_traces():
        compare(differences, tlbridge, runs_of(trace, [order]))


@pytest.mark.parametrize("order", (*SYNC_AND_CHECK, ("run", "--ring", "4096", "--turns", "1000")), ids=" ".join)
def test_messages_of_many_pieces(tlbridge: Path, differences: Differences, order: Tuple[str, ...]) -> None:
    """Texts of more than two pieces whose answer the unverified model computes, with their channels in turns and one
    after the other."""
    for trace in cases.pieced_traces():
        compare(differences, tlbridge, runs_of(trace, [order]))


# ---- The words, the streams and the statuses


def stored(part: Any) -> bytes:
    """The part of an output that was read before."""
    assert isinstance(part, bytes)
    return part


def stored_words() -> List[Run]:
    """Runs of command lines that are not a command, with the messages of program.words."""
    found: List[Run] = []
    alike: List[Run] = []
    for mark, rest in cases.marked_lines("program.words", ("words:", ">", "!", "status:")):
        if mark == "words:":
            alike.append(Run(f"words: {rest}", tuple(shlex.split(rest))))
            continue
        for run in alike:
            if mark == ">":
                run.answer = stored(run.answer) + f"{rest}\n".encode()
            elif mark == "!":
                run.error = stored(run.error) + f"{rest}\n".encode()
            else:
                run.status = int(rest)
        if mark == "status:":
            found, alike = [*found, *alike], []
    return found


def refused(message: str) -> bytes:
    """Returns the standard error for a command line that the program itself refuses."""
    return f"error: {message}\n\nUsage: tlbridge <COMMAND>\n\nFor more information, try '--help'.\n".encode()


def runs_of_words() -> Iterator[Run]:
    """Command lines that are refused, and help that can't be written."""
    yield from stored_words()
    for option, most in (("--ring", 4096), ("--turns", 1000)):
        outside = "0", str(most + 1)
        given: List[Tuple[Tuple[str, ...], str]]
        given = [((f"{option}={number}",), number) for number in (*outside, "-1", "abc", "", str(2**64))]
        given += [((option, number), number) for number in outside]
        for words, number in given:
            error = refused(f"invalid value '{number}' for '{option} <N>': it has to be a number from 1 to {most}")
            yield Run(f"refused: {words}", ("run", *words), error=error, status=2)
    not_text = refused("a word of the command line is not UTF-8")
    no_text: Tuple[Tuple[Union[str, bytes], ...], ...] = ((b"run\xff",), ("run", b"\xff.trace"))
    for line in no_text:
        yield Run(f"refused: {line!r}", line, error=not_text, status=2)
    write, full = b"tlbridge: 22 Write\n", "/dev/full"
    yield Run("help that can't be written", ("--help",), error=write, status=4, answer_to=full)
    yield Run("a refusal that can't be written", ("walk",), status=2, error_to=full)


def runs_of_files(get: Trace) -> Iterator[Run]:
    """Traces that a file holds, while standard input holds no trace."""
    nothing = b"no trace\n"
    files = [*EXAMPLES.glob("*.trace"), *(EXAMPLES / "faults").glob("*.trace")]
    for path in sorted(files):
        trace = cases.example(path, str(path.relative_to(ROOT)))
        for words in (("run", str(path)), ("run", str(path), "--sync"), ("check", str(path))):
            name = f"the file {trace.name}, by {words[0]} {' '.join(words[2:])}"
            yield Run(name, words, nothing, expected(trace, words[0]), trace.error.encode(), trace.status)
    get_file = str(EXAMPLES / "get.trace")
    for words in (("run", "--ring=1", get_file, "--turns", "1"), ("run", "--sync", "--", get_file)):
        yield Run(f"a file among other words: {words}", words, nothing, get.answer.encode())
    unreadable = [str(EXAMPLES), str(EXAMPLES / "none.trace"), f"{get_file}/none", "", "-"]
    for order in ("run", "check"):
        for name in unreadable:
            yield Run(f"{order} of the file '{name}'", (order, name), get.text, error=b"tlbridge: 21 Read\n", status=4)
        yield Run(
            f"{order} of a file that never ends",
            (order, "/dev/zero"),
            get.text,
            error=b"tlbridge: 23 TooLong\n",
            status=4,
        )
        yield Run(
            f"{order} of an empty file", (order, "/dev/null"), get.text, error=fault(1, "14 Header").encode(), status=3
        )
        yield Run(f"{order} of standard input by its name", (order, "/dev/stdin"), get.text, expected(get, order))
    # after a subcommand, the name of a subcommand is a file
    yield Run("run of the file 'check'", ("run", "check"), get.text, error=b"tlbridge: 21 Read\n", status=4)


def runs_of_streams(get: Trace, words: Tuple[str, ...]) -> Iterator[Run]:
    """Runs whose streams fail or are too long."""
    read, write = b"tlbridge: 21 Read\n", b"tlbridge: 22 Write\n"
    too_long, header = b"tlbridge: 23 TooLong\n", fault(1, "14 Header").encode()
    root, full = str(ROOT), "/dev/full"
    most = b"\n" * MAX_BYTES
    yield Run("a folder to read", words, error=read, status=4, input_from=root)
    yield Run("a full disk", words, get.text, error=write, status=4, answer_to=full)
    yield Run("a fault that can't be written", words, b"x", status=3, error_to=full)
    yield Run("a byte too many", words, most + b"\n", error=too_long, status=4)
    behind = b"tilelink-trace 1 client 8 manager 8\nG\n" + most
    yield Run("too many bytes behind a fault", words, behind, error=too_long, status=4)
    yield Run("as many bytes as may be", words, most, error=header, status=3)


@pytest.mark.parametrize("run", by_name(runs_of_words()))
def test_the_words(tlbridge: Path, differences: Differences, run: Run) -> None:
    """Help, the version, and each refusal of a command line."""
    compare(differences, tlbridge, [run])


@pytest.mark.parametrize("run", by_name(runs_of_files(NAMED["get.trace"])))
def test_files(tlbridge: Path, differences: Differences, run: Run) -> None:
    """Traces in a file, and files that cannot be read."""
    compare(differences, tlbridge, [run])


@pytest.mark.parametrize("order", ("run", "check"))
def test_streams(tlbridge: Path, differences: Differences, order: str) -> None:
    """Streams that fail, and texts of the longest length or one byte more."""
    compare(differences, tlbridge, runs_of_streams(NAMED["a Get to a narrower bus"], (order,)))


# ---- The threads

# The answer cannot show them: how many a long run is seen to have at one time, at the most. A round
# starts a thread, and waits for its end. The system may still list a few that have ended, when it has
# much to do: so the bound of two threads is a wide one, far below the number of rounds, 15,625 and more.
THREADS = (
    (("run", "--ring", "4096", "--turns", "1000"), range(2, 65)),
    (("run", "--sync"), (1,)),
    (("check",), (1,)),
)


def most_threads(program: Path, words: Tuple[str, ...]) -> int:
    """The most threads that a run over the long text is seen to have."""
    most = 0
    with tempfile.TemporaryFile() as trace:
        trace.write(LONG_TEXT)
        trace.seek(0)
        started = subprocess.Popen([program, *words], stdin=trace, stdout=subprocess.DEVNULL)
        tasks = f"/proc/{started.pid}/task"
        while started.poll() is None:
            most = max(most, len(os.listdir(tasks)))
    return most if started.returncode == 0 else 0


@pytest.mark.parametrize("words, wanted", THREADS, ids=[" ".join(words) for words, _ in THREADS])
def test_the_number_of_threads(tlbridge: Path, words: Tuple[str, ...], wanted: Collection[int]) -> None:
    """A run in one thread has one; a run in two starts a few at a time, and leaves none behind."""
    assert most_threads(tlbridge, words) in wanted
