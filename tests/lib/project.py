"""The places of the project, the programs that were built, and the tools of this machine."""

import functools
import os
import shutil
import sys
from importlib.machinery import SourceFileLoader
from importlib.util import module_from_spec, spec_from_loader
from pathlib import Path
from types import ModuleType
from typing import List

import pytest

ROOT = Path(__file__).resolve().parent.parent.parent
EXAMPLES = ROOT / "examples"
SV = ROOT / "sv"
RTL = ROOT / "rtl"
# The scoreboard's sources in C.
SCOREBOARD = tuple(SV / f"tlbridge_{name}.c" for name in ("scoreboard", "board_lines", "board_link"))
MODEL = ROOT / "tlbridge-model"
LIBRARY = ROOT / "out" / "libtlbridge.so"
PAIRS = ROOT / "out" / "pairs"

# Both builds of a program: by LLVM, and by Rattle's own compiler, which only `rt ci` leaves there.
BUILDS = ("", ".by-rattle")

# Whether a program that is not built is a failure, by the option --both-builds, and no skip.
programs_are_required = False


def built(name: str, build: str = "") -> Path:
    """The path of a verified program: `tlbridge` or `tlexplain`."""
    return ROOT / "crates" / name / "out" / f"{name}{build}"


def needs_program(name: str, build: str = "") -> Path:
    """The path of a verified program. The test is skipped if it was not built, and fails with --both-builds."""
    path = built(name, build)
    if not os.access(path, os.X_OK):
        how = "`rt ci` builds it" if build else f"`./{name} --version` builds it"
        reason = f"{path.relative_to(ROOT)} is not built ({how})"
        if programs_are_required:
            pytest.fail(reason)
        pytest.skip(reason)
    return path


def needs_tools(*tools: str) -> None:
    """Skips the test if one of these commands is missing."""
    missing = [tool for tool in tools if not shutil.which(tool)]
    if missing:
        pytest.skip(f"there is no {missing[0]} (`tools/install-tools` names its package)")


def compiler() -> str:
    """A C compiler. The test is skipped if there is none."""
    for name in (os.environ.get("CC"), "cc", "clang", "gcc"):
        if name and shutil.which(name):
            return name
    pytest.skip("there is no C compiler")


def library_pairs() -> List[str]:
    """The pairs of widths of the shared library, such as 8:4: those that TLBRIDGE_PAIRS names, or those in out/."""
    named = os.environ.get("TLBRIDGE_PAIRS")
    if named:
        return named.split()
    return PAIRS.read_text().replace("_", ":").split() if PAIRS.is_file() and LIBRARY.is_file() else []


def needs_library(*pairs: str) -> Path:
    """The path of the shared library for these pairs of widths, such as 8:4. The test is skipped if it was not made for
    them."""
    made = library_pairs()
    missing = [pair for pair in pairs if pair not in made]
    if missing or not made:
        pytest.skip(f"out/libtlbridge.so was not made for {(missing or ['any pair'])[0]} (`make install PAIRS=..`)")
    return LIBRARY


@functools.lru_cache(maxsize=None)
def script(path: Path) -> ModuleType:
    """The module of a command of this project, whose name has no ending. It is loaded once."""
    loader = SourceFileLoader(path.name.replace("-", "_"), str(path))
    spec = spec_from_loader(loader.name, loader)
    assert spec
    module = module_from_spec(spec)
    # (dataclasses look for their module there)
    sys.modules[loader.name] = module
    loader.exec_module(module)
    return module
