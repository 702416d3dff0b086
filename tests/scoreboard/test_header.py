"""The headers in C and in C++: layouts, limits, the functions that they define, and calls of the library. Also programs
for users of the headers.
"""

import os
import shutil
from pathlib import Path
from typing import List, Sequence

import pytest
from board_library import INCLUDES
from commands import Word, run, said
from project import EXAMPLES, ROOT, compiler

HERE = Path(__file__).resolve().parent
C_OF_LIBRARY = ROOT / "tests" / "library" / "c"
WARNINGS = ["-Wall", "-Wextra", "-Wshadow", "-Wconversion", "-Werror"]
CXX = os.environ.get("CXX", "c++")


def compiler_for(language: str) -> List[str]:
    """The compiler for a language, such as c11 or c++17, with its option. The test is skipped if there is none."""
    if not language.startswith("c++"):
        return [compiler(), f"-std={language}"]
    if shutil.which(CXX) is None:
        pytest.skip(f"there is no {CXX}")
    return [CXX, f"-std={language}"]


def printed(library: Path, words: Sequence[object], folder: Path) -> str:
    """Compiles a program, links it with the library and runs it. Returns what it prints; its status and errors are in
    the message if it fails.
    """
    program = folder / "program"
    linked: List[Word] = ["-x", "none", library, f"-Wl,-rpath,{library.parent}", "-pthread", "-o", program]
    done = run([*map(str, words), INCLUDES[0], *linked])
    assert done.returncode == 0, said(done)
    ran = run([program], timeout=60)
    assert (ran.returncode in (0, 1), ran.stderr) == (True, ""), said(ran)
    return f"status {ran.returncode}\n{ran.stdout}"


@pytest.mark.parametrize("language", ["c11", "c++17"])
def test_layouts_limits_and_functions_of_the_headers(language: str, library: Path, tmp_path: Path) -> None:
    """header.c compares each of them, in C and in C++."""
    kind = ["-x", "c++"] if language == "c++17" else []
    words = [*compiler_for(language), *kind, *WARNINGS, HERE / "header.c"]
    assert printed(library, words, tmp_path).startswith("status 0\n")


def test_the_demos_print_what_is_stored_with_them(library: Path, tmp_path: Path) -> None:
    """examples/c."""
    words = [*compiler_for("c11"), "-Wall", "-Wextra", "-Werror"]
    said_by = [printed(library, [*words, EXAMPLES / "c" / f"{name}.c"], tmp_path) for name in ("demo", "sides")]
    text = "".join(text.partition("\n")[2] for text in said_by)
    assert text == (EXAMPLES / "c" / "output").read_text()


def test_there_are_programs_of_faults() -> None:
    """Those that no trace can show."""
    assert len(list((EXAMPLES / "faults").glob("*.c"))) >= 2


@pytest.mark.parametrize("path", sorted((EXAMPLES / "faults").glob("*.c")), ids=lambda path: str(path.stem))
def test_a_program_of_a_fault_prints_what_is_stored_with_it(path: Path, library: Path, tmp_path: Path) -> None:
    """examples/faults."""
    words = [*compiler_for("c11"), "-Wall", "-Wextra", "-Werror", path]
    assert printed(library, words, tmp_path).partition("\n")[2] == path.with_suffix(".output").read_text()


def test_there_are_programs_for_the_library() -> None:
    """Those of tests/library/c, which need more than this library to be run."""
    assert len(list(C_OF_LIBRARY.glob("*.c*"))) >= 6


@pytest.mark.parametrize(
    "path, language",
    [
        (path, language)
        for path in sorted(C_OF_LIBRARY.glob("*.c*"))
        for language in (("c11",) if path.suffix == ".c" else ("c++17", "c++20"))
    ],
    ids=lambda value: value if isinstance(value, str) else value.name,
)
def test_a_program_for_the_library_compiles_without_a_warning(path: Path, language: str) -> None:
    """It is only read."""
    words = [*compiler_for(language), *WARNINGS, "-Wno-missing-field-initializers", "-DCLIENT=8", "-DMANAGER=4"]
    done = run([*words, INCLUDES[0], "-fsyntax-only", path])
    assert (done.returncode, done.stderr) == (0, ""), said(done)
