"""Runs the verified program and the tests of calls, and makes each allocation, start of a thread, read and write fail
in turn.

This tests facts that no contract states; it proves nothing. A growth is an allocation or a reallocation.
tests/lib/refusals.py makes the runs. The expected answers are those of the unverified model. The tests marked `long`
try every kind of run, every byte and many sizes of memory; the others try three kinds of runs, with a few bytes at a
time.
"""

import os
import re
import subprocess
from pathlib import Path

import pytest
from differences import Differences
from project import ROOT, programs_are_required
from refusals import CHECK, FILE, FIVE, NO_TRACE, ORDERS, RUN, SYNC, Refusals, Words, larger_text, shim

# The kinds of runs that are tried in the quick tests.
QUICK = (RUN, SYNC, (*CHECK, FILE))
# The largest number of bytes that a read or a write moves there. No line of the trace ends at the end of a read.
PIECE = 7
LARGEST_RINGS = ("run", "--ring", "4096", "--turns", "1000")
CALLS = ROOT / "crates" / "bridge_tests" / "out" / "bridge_tests_tests"


@pytest.fixture(scope="session")
def library(tmp_path_factory: pytest.TempPathFactory) -> Path:
    """The library that is preloaded."""
    return shim(tmp_path_factory.mktemp("refuse"))


@pytest.fixture
def refusals(tlbridge: Path, library: Path, differences: Differences) -> Refusals:
    return Refusals(tlbridge, library, differences)


@pytest.mark.parametrize("how", ("growth", "from"))
@pytest.mark.parametrize("order", QUICK, ids=" ".join)
def test_each_growth_refused(refusals: Refusals, order: Words, how: str) -> None:
    """A run is seen to allocate, to read and to write. First only the Nth growth fails, and then each one from the Nth
    on, for N from 1 until a run meets no refusal.

    While the command line is read, that is an error of the command line (status 2); after that it is `13 OutOfMemory`
    (status 4). Both leave standard output empty. In two cases the whole answer comes: if only the start of a thread met
    the refusal, and if the library asked again for what was refused once. The second case makes more growths than a run
    without a refusal, while the command line is read.
    """
    refusals.growths(FIVE, order, how)


@pytest.mark.parametrize("order", QUICK, ids=" ".join)
def test_each_start_of_a_thread_refused(refusals: Refusals, order: Words) -> None:
    """The whole answer comes."""
    refusals.starts(FIVE, order)


@pytest.mark.parametrize("order", QUICK, ids=" ".join)
def test_each_read_fails(refusals: Refusals, order: Words) -> None:
    """A read that fails or is interrupted is `21 Read`. One that ends the input gives the answer to the shorter
    text."""
    refusals.reads(FIVE, order, PIECE)


@pytest.mark.parametrize("order", QUICK, ids=" ".join)
def test_each_write_fails(refusals: Refusals, order: Words) -> None:
    """A write that fails, is interrupted or takes no byte is `22 Write`, after some of the bytes before it and no
    others."""
    refusals.writes(FIVE, order, PIECE)


@pytest.mark.long
@pytest.mark.parametrize("text", (FIVE, larger_text()), ids=("five lines", "a larger text"))
def test_rounds_allocate_nothing(refusals: Refusals, text: bytes) -> None:
    """The rounds of a run in two threads allocate nothing, except one growth for each start of a thread. So runs over
    rings of many sizes, and with many numbers of rounds, have the same number of growths beyond those. (In one thread
    the answer grows as the beats come.)
    """
    refusals.rounds(text)


@pytest.mark.long
@pytest.mark.parametrize("how", ("growth", "from"))
@pytest.mark.parametrize("order", ORDERS, ids=" ".join)
def test_each_growth_refused_in_each_kind_of_run(refusals: Refusals, order: Words, how: str) -> None:
    """As above."""
    refusals.growths(FIVE, order, how)


@pytest.mark.long
@pytest.mark.parametrize(
    "text, order",
    ((NO_TRACE, RUN), (larger_text(), SYNC), (larger_text(), LARGEST_RINGS)),
    ids=("a text that is no trace", "a larger text in one thread", "a larger text in two"),
)
def test_each_growth_refused_in_other_texts(refusals: Refusals, text: bytes, order: Words) -> None:
    """As above, by single growths."""
    refusals.growths(text, order, "growth")


@pytest.mark.long
@pytest.mark.parametrize("order", ORDERS, ids=" ".join)
def test_each_start_refused_in_each_kind_of_run(refusals: Refusals, order: Words) -> None:
    """The whole answer comes."""
    refusals.starts(FIVE, order)


@pytest.mark.long
@pytest.mark.parametrize("order", ORDERS, ids=" ".join)
def test_more_and_more_memory_for_the_process(refusals: Refusals, order: Words) -> None:
    """A larger trace gives `13 OutOfMemory`, or the whole answer. If memory is too small for the loader of programs or
    for the stack, the system ends the run, and standard output has to be empty."""
    refusals.limits(larger_text(), order)


@pytest.mark.long
@pytest.mark.parametrize("order", ((*SYNC, FILE), *ORDERS), ids=" ".join)
def test_each_read_of_a_byte_fails(refusals: Refusals, order: Words) -> None:
    """The input comes byte by byte."""
    refusals.reads(FIVE, order)


@pytest.mark.long
@pytest.mark.parametrize("order", ORDERS, ids=" ".join)
def test_each_write_of_a_byte_fails(refusals: Refusals, order: Words) -> None:
    """The output goes byte by byte: `22 Write`, after exactly the bytes before it."""
    refusals.writes(FIVE, order)


@pytest.mark.long
@pytest.mark.parametrize("text", (FIVE, larger_text()), ids=("five lines", "a larger text"))
@pytest.mark.parametrize("order", ORDERS, ids=" ".join)
def test_input_and_output_in_pieces(refusals: Refusals, order: Words, text: bytes) -> None:
    """The answer is the same in pieces of some sizes."""
    refusals.pieces(text, order)


@pytest.mark.long
def test_each_refusal_in_the_tests_of_calls(library: Path, differences: Differences) -> None:
    """The tests in both growth_tests.rt of crates/bridge_tests, as `rt test` leaves them built. A test passes if
    nothing was refused, or only something that starts a thread. Otherwise it has to report that memory ran out: at
    least once in the call that it tests, and else in a call that prepares it."""
    if not os.access(CALLS, os.X_OK):
        reason = f"{CALLS.relative_to(ROOT)} is not built (`rt test` in crates/bridge_tests builds it)"
        pytest.fail(reason) if programs_are_required else pytest.skip(reason)
    listed = subprocess.run([CALLS, "--list"], capture_output=True, text=True, check=True).stdout
    names = re.findall(r"^((?:\w+::)*growth_tests::\w+): test$", listed, re.M)
    differences.holds("there are growth_tests", names != [], listed)
    for name in names:
        Refusals(CALLS, library, differences).call(name)
