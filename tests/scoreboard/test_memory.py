"""The C engine under want of memory, and its leaks: memory.c over the plain bridge, also under valgrind."""

import re
from pathlib import Path
from typing import List

import pytest
from board_library import INCLUDES, PLAIN_BRIDGE, STRICT, compile_object, macros
from commands import Word, run, said, succeed
from once import made_once
from project import SCOREBOARD, compiler
from valgrind import has_no_leak

HERE = Path(__file__).resolve().parent
PAIR = ("8:4",)
WRAPPED = [f"-Wl,--wrap={name}" for name in ("malloc", "calloc", "realloc", "free")]


@pytest.fixture(scope="session")
def memory(tmp_path_factory: pytest.TempPathFactory) -> Path:
    """The program of memory.c, which refuses each growth in turn."""

    def make(folder: Path) -> None:
        parts = [compile_object(path, folder, PAIR) for path in (*SCOREBOARD, PLAIN_BRIDGE)]
        words: List[Word] = [
            compiler(),
            "-std=c11",
            "-O1",
            "-g",
            *STRICT,
            *INCLUDES,
            *macros(PAIR),
            HERE / "memory.c",
            *parts,
        ]
        succeed([*words, "-pthread", *WRAPPED, "-o", folder / "memory"])

    return made_once(tmp_path_factory, "memory", make) / "memory"


def test_each_growth_that_is_refused_is_reported(memory: Path) -> None:
    """The board says that there was no memory, or is not opened, and nothing else changes."""
    done = run([memory], timeout=120)
    assert done.returncode == 0, said(done)
    assert re.fullmatch(r"[0-9]+ passed, 0 failed, [0-9]+ of them opened\n", done.stdout)


@pytest.mark.long
def test_no_growth_that_is_refused_leaks(memory: Path) -> None:
    """The same under valgrind."""
    has_no_leak(memory, timeout=600)
