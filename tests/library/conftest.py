"""The tree that `make install` makes of the proved library, for the tests that use it as its users do."""

import os
from pathlib import Path
from typing import List

import pytest
from board_library import is_newer
from commands import Word, run, said
from library_tree import PAIRS, programs
from once import made_once
from project import ROOT, needs_library, needs_tools


@pytest.fixture(scope="session")
def prefix(tmp_path_factory: pytest.TempPathFactory) -> Path:
    """An installed tree, made once in a run: TLBRIDGE_PREFIX if it is set. Nothing is proved: the tests are skipped if
    the library is old.
    """
    if "TLBRIDGE_PREFIX" in os.environ:
        return Path(os.environ["TLBRIDGE_PREFIX"]).resolve()
    needs_tools("make")
    needs_library(*PAIRS)
    archives: List[Path] = [ROOT / "out" / f"libtlbridge_{name.replace(':', '_')}.a" for name in (*PAIRS, "trace")]
    old = [path.name for path in archives if not path.is_file() or not is_newer(path)]
    if old:
        pytest.skip(f"out/{old[0]} is older than its sources (`make install PAIRS=\"{' '.join(PAIRS)}\"`)")

    def install(folder: Path) -> None:
        words: List[Word] = [
            "make",
            "-C",
            ROOT,
            "install",
            f"PREFIX={folder}/prefix",
            f"PAIRS={' '.join(PAIRS)}",
            programs(),
        ]
        done = run(words, timeout=3600)
        assert done.returncode == 0, said(done)

    return made_once(tmp_path_factory, "prefix", install) / "prefix"


@pytest.fixture
def program(prefix: Path) -> Path:
    """The installed program."""
    if not os.access(prefix / "bin" / "tlbridge", os.X_OK):
        pytest.skip("the programs are not installed: they were not built (`make programs`)")
    return prefix / "bin" / "tlbridge"
