"""The library that the tests of the Python package load."""

import os
from pathlib import Path
from typing import Iterator

import pytest
import tlbridge
from board_library import PAIRS, plain_library
from project import LIBRARY, library_pairs


@pytest.fixture(scope="module")
def library(tmp_path_factory: pytest.TempPathFactory) -> Iterator[Path]:
    """The shared library with the pair 8:4: that of TLBRIDGE_LIBRARY or of out/, and without one that over the
    plain bridge in C.
    """
    with pytest.MonkeyPatch.context() as patch:
        if "TLBRIDGE_LIBRARY" in os.environ:
            path = Path(os.environ["TLBRIDGE_LIBRARY"])
        elif "8:4" in library_pairs():
            path = LIBRARY
        else:
            path = plain_library(tmp_path_factory)
            patch.setenv("TLBRIDGE_PAIRS", " ".join(PAIRS))
        patch.setenv("TLBRIDGE_LIBRARY", str(path))
        tlbridge.load(str(path))
        yield path


@pytest.fixture
def proved(library: Path) -> None:
    """Skips a test over the plain bridge, which answers no trace and is slow."""
    if library.with_name("plain_bridge.o").exists():
        pytest.skip("out/libtlbridge.so was not made for 8:4 (`make install PAIRS=..`)")
