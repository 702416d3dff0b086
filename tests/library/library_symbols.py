"""The symbols that the library exports: those of installed.symbols, and those of headers, objects and archives."""
import os
import re
import subprocess
import tempfile
from pathlib import Path
from typing import Dict, List, Set, Tuple

from project import ROOT, SCOREBOARD

STORED = ROOT / "tests" / "library" / "installed.symbols"
PAIR, TRACE, GLUE = "libtlbridge_C_M.a", "libtlbridge_trace.a", "scoreboard and glue"
SOURCES = [*SCOREBOARD, ROOT / "sv" / "tlbridge_dpi.c"]
INCLUDES = [f"-I{ROOT}/include", f"-I{ROOT}/packaging/dpi"]
COMPILER = os.environ.get("CC", "cc")
HEAD = """\
# The symbols that the library exports, C_M for the pair of widths, and its SONAME. tests/library/test_installed.py
# writes this file, with WRITE_SYMBOLS in the environment, by the headers and by the compiled scoreboard and glue.
"""


def stored() -> Tuple[str, Dict[str, Set[str]]]:
    """The SONAME, and the symbols of each part."""
    soname = ""
    parts: Dict[str, List[str]] = {}
    for line in STORED.read_text().splitlines():
        if line.startswith("SONAME "):
            soname = line.split()[1]
        elif line.startswith("## "):
            parts[line[3:]] = []
        elif line and not line.startswith("#"):
            parts[list(parts)[-1]].append(line)
    return soname, {part: set(names) for part, names in parts.items()}


def write(soname: str, parts: Dict[str, Set[str]]) -> None:
    lines = [HEAD + f"SONAME {soname}\n"]
    for part, names in parts.items():
        lines.append("\n".join([f"## {part}", *sorted(names)]) + "\n")
    STORED.write_text("\n".join(lines))


def run(*words: str) -> str:
    return subprocess.run(words, capture_output=True, text=True, check=True).stdout


def of_pair(names: Set[str], pair: str) -> Set[str]:
    """The names with C_M in the place of this pair of widths."""
    return {re.sub(rf"^tl_{pair}_", "tl_C_M_", name) for name in names}


def declared() -> Dict[str, Set[str]]:
    """The calls that the headers declare, by part."""
    with tempfile.TemporaryDirectory() as room:
        source = Path(room) / "calls.c"
        source.write_text('#include "tlbridge.h"\nTLBRIDGE(8, 4)\n')
        text = run(COMPILER, "-std=c11", "-E", "-P", *INCLUDES, str(source))
    text = re.sub(r"\bstatic inline [^{]*\{", "", text)
    calls = {
        name
        for line in re.findall(r"[^;{}]+;", text)
        for name in re.findall(r"\b(tl_\w+)\s*\(", line.partition("(")[0] + "(")
    }
    of_each = {name for name in calls if name.startswith("tl_8_4_")}
    return {PAIR: of_pair(of_each, "8_4"), TRACE: calls - of_each}


def defined(path: Path, *options: str) -> Set[str]:
    """The symbols that an archive, an object or a shared library defines for others. With -D they are the dynamic ones.
    Hidden symbols, which the parts of the scoreboard share, are not among them.
    """
    rows = run("readelf", "-W", "--dyn-syms" if "-D" in options else "-s", str(path)).splitlines()
    # number, value, size, type, binding, visibility, section, name
    found = (words for words in map(str.split, rows) if len(words) == 8 and words[4] in ("GLOBAL", "WEAK"))
    return {words[7].partition("@")[0] for words in found if words[5] == "DEFAULT" and words[6] != "UND"}


def compile_object(source: Path, made: Path, pair: str, *words: str) -> None:
    run(
        COMPILER,
        "-std=c11",
        "-fPIC",
        *INCLUDES,
        f"-DTLBRIDGE_{pair}",
        *words,
        "-c",
        str(source),
        "-o",
        str(made),
    )


def of_glue() -> Set[str]:
    """The symbols of the compiled scoreboard and glue."""
    names: Set[str] = set()
    with tempfile.TemporaryDirectory() as room:
        for source in SOURCES:
            made = Path(room) / f"{source.stem}.o"
            compile_object(source, made, "8_4")
            names |= defined(made)
    return names


def imported() -> Set[str]:
    """The functions that the SystemVerilog files import."""
    return {
        name
        for path in (ROOT / "sv").glob("*.sv")
        for name in re.findall(r'import "DPI-C" function [^;(]*?(\w+)\s*\(', path.read_text())
    }


def soname_of(library: Path) -> str:
    found = re.search(r"Library soname: \[(.*)\]", run("readelf", "-d", str(library)))
    return found[1] if found else ""


def interface() -> str:
    """The version of the library's interface, by the header."""
    found = re.search(r"^#define TL_VERSION (\d+)$", (ROOT / "include" / "tlbridge.h").read_text(), re.M)
    assert found
    return found[1]
