"""The scoreboard's C engine and the glue for SystemVerilog as a shared library, over the plain bridge
(plain_bridge.c) or over proved archives.
"""

import os
from pathlib import Path
from typing import List, Sequence, Tuple

import pytest
from commands import Word, run, said
from once import made_once
from project import ROOT, SCOREBOARD, compiler

PLAIN_BRIDGE = ROOT / "tests" / "lib" / "plain_bridge.c"
PAIRS = ("8:4", "4:8", "8:8", "16:2", "2:1", "1:32", "64:16", "128:1", "1:128", "128:128", "32:64")
SOURCES = (*SCOREBOARD, ROOT / "sv" / "tlbridge_dpi.c")
INCLUDES = (f"-I{ROOT}/include", f"-I{ROOT}/packaging/dpi")
STRICT = ("-Wall", "-Wextra", "-Wshadow", "-Wconversion", "-Werror")


def macros(pairs: Sequence[str]) -> List[str]:
    """The macros that link these pairs of widths, such as 8:4."""
    return [f"-DTLBRIDGE_{pair.replace(':', '_')}" for pair in pairs]


def compile_object(source: Path, folder: Path, pairs: Sequence[str], *flags: str) -> Path:
    """The object of a C source, in the folder."""
    made = folder / f"{source.stem}.o"
    words = [compiler(), "-std=c11", "-O1", "-g", "-fPIC", *STRICT, *INCLUDES, *macros(pairs), *flags]
    done = run([*words, "-c", source, "-o", made])
    assert done.returncode == 0, said(done)
    return made


def link_library(folder: Path, pairs: Sequence[str], last: Sequence[Path]) -> None:
    """Compiles the scoreboard and the glue, and links them with `last`, sources and archives, as
    folder/libtlbridge.so.
    """
    objects = [compile_object(path, folder, pairs) if path.suffix == ".c" else path for path in (*SOURCES, *last)]
    # all of an archive: Python calls what no object names
    words: List[Word] = [compiler(), "-shared", "-Wl,--whole-archive", *objects, "-Wl,--no-whole-archive", "-pthread"]
    done = run([*words, "-o", folder / "libtlbridge.so"])
    assert done.returncode == 0, said(done)


def plain_library(factory: pytest.TempPathFactory) -> Path:
    """The shared library over the plain bridge, for PAIRS, made once in a run. plain_bridge.o is beside it."""
    compiler()
    folder = made_once(factory, "plain_library", lambda place: link_library(place, PAIRS, [PLAIN_BRIDGE]))
    return folder / "libtlbridge.so"


def is_newer(archive: Path) -> bool:
    """Whether the archive was made after the last change of what is proved."""
    made = archive.stat().st_mtime
    parts = ("src", "specs", "proofs")
    sources = [path for part in parts for path in (ROOT / "crates").glob(f"*/{part}/**/*") if path.is_file()]
    return all(path.stat().st_mtime <= made for path in sources)


def proved_archives() -> Tuple[List[str], List[Path]]:
    """The pairs of the archives in out/ (TLBRIDGE_ARCHIVES), and their paths; none without the trace library, which has
    the texts of statuses.
    """
    folder = Path(os.environ.get("TLBRIDGE_ARCHIVES", ROOT / "out"))
    found = [
        path for path in sorted(folder.glob("libtlbridge_*_*.a")) if "TLBRIDGE_ARCHIVES" in os.environ or is_newer(path)
    ]
    texts = folder / "libtlbridge_trace.a"
    if not texts.is_file():
        return [], []
    return [":".join(path.stem.split("_")[1:]) for path in found], [*found, texts]


def proved_library(factory: pytest.TempPathFactory) -> Tuple[Path, List[str]]:
    """The shared library over the proved archives, and its pairs. The test is skipped if there are none that are newer
    than their sources.
    """
    pairs, archives = proved_archives()
    if "8:4" not in pairs:
        pytest.skip(
            "out/libtlbridge_8_4.a or out/libtlbridge_trace.a is not there, or is older than its sources (make install)"
        )
    folder = made_once(factory, "proved_library", lambda place: link_library(place, pairs, archives))
    return folder / "libtlbridge.so", pairs
