"""The library that the tests of this folder load: the scoreboard and the glue, over the plain bridge in C.

With TLBRIDGE_PROVED_BOARD set, it is over the proved archives of out/ instead: test_proved_bridge.py runs the suite so.
"""

import faulthandler
import os
import signal
from pathlib import Path
from typing import Iterator

import pytest
from board_library import PAIRS, plain_library, proved_library

LIMIT = 60  # seconds of processor time of a test, which a busy machine does not shorten


@pytest.fixture(scope="session", autouse=True)
def library(tmp_path_factory: pytest.TempPathFactory) -> Iterator[Path]:
    """The shared library, which the Python package loads. TLBRIDGE_PAIRS has its pairs of widths."""
    if "TLBRIDGE_PROVED_BOARD" in os.environ:
        path, pairs = proved_library(tmp_path_factory)
    else:
        path, pairs = plain_library(tmp_path_factory), list(PAIRS)
    import tlbridge

    with pytest.MonkeyPatch.context() as patch:
        patch.setenv("TLBRIDGE_LIBRARY", str(path))
        patch.setenv("TLBRIDGE_PAIRS", " ".join(pairs))
        tlbridge.load(str(path))
        yield path


@pytest.fixture(autouse=True)
def limited() -> Iterator[None]:
    """Ends the process and shows where it is, if a test exceeds its limit: it may be in a loop of the C library, which
    no exception ends.
    """
    faulthandler.register(signal.SIGVTALRM, all_threads=False, chain=True)
    signal.setitimer(signal.ITIMER_VIRTUAL, LIMIT)
    yield
    signal.setitimer(signal.ITIMER_VIRTUAL, 0)
