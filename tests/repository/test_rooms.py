"""Who may import whom and which crates a check depends on, as docs/ARCHITECTURE.md says, and where random traffic
comes from."""

import ast
import re
import subprocess
import sys
from pathlib import Path
from typing import Dict, FrozenSet, Iterator, List, Set

import pytest
from project import ROOT

# What the tests need of others.
STANDARD: FrozenSet[str] = getattr(sys, "stdlib_module_names")  # (Python 3.10 has it)
PACKAGES = {"pytest", "hypothesis", "_pytest", "xdist"}
# Packages that a part of the product needs, which its users have. The tests have stand-ins.
OF_USERS = {
    "python/tlbridge/scoreboard.py": {"cocotb"},
    "python/hatch_build.py": {"hatchling"},
    "tests/python/test_tlbridge.py": {"cocotb"},
}
# The name by which mypy finds tlbridge-model, which has no ending. No program imports it.
FOR_TYPES = {"tlexplain-model": {"tlbridge_model"}}
# Tools that use a module of tests/lib, each with the reason.
TOOLS_WITH_TESTS = {"tools/pictures": "the browser of the tests of the page makes the picture of README"}
# Files that use `random` and do not draw messages, or not by the maker: each with the reason.
OTHER_RANDOMNESS = {
    "tests/checker/test_levels.py": "half of its beats are illegal, and it draws cycles of five channels",
    "tests/compare/test_first_fault.py": "the order in which the exchanges of its script take place",
    "tests/lib/records.py": "which bytes of a text change",
    "tests/repository/test_progress.py": "how long the crates of a build take",
    "tests/waves/test_waves.py": "the order of declarations, and values of signals that belong to no link",
    "tests/waves/wave_dump.py": "the values of signals that belong to no link",
    "tools/mutants": "which mistakes are planted",
}


def listed() -> List[Path]:
    """The files of the repository in Python, except examples, by the git index."""
    done = subprocess.run(["git", "ls-files", "-z"], cwd=ROOT, capture_output=True, check=False)
    paths = [ROOT / name for name in done.stdout.decode().split("\0") if name]
    if not paths:
        pytest.skip("there is no git index")
    return [path for path in paths if path.is_file() and not path.is_symlink() and is_python(path)]


def is_python(path: Path) -> bool:
    if path.relative_to(ROOT).parts[0] in ("crates", "docs", "examples", "out"):
        return False
    if path.suffix:
        return path.suffix == ".py"
    with open(path, "rb") as file:
        return bool(re.match(rb"#!.*\bpython3\b", file.readline(200)))


def room_of(path: Path) -> str:
    """The folder whose files may import each other: tests/lib, each other folder of tests/, bench, tools, python, or
    `.` for the commands at the top."""
    first, *rest = path.relative_to(ROOT).parts
    if first == "tests":
        return f"tests/{rest[0]}" if len(rest) > 1 else "tests"
    return first if rest else "."


def imported(path: Path) -> Iterator[str]:
    """The first name of each module that a file imports, without those of its own package."""
    for node in ast.walk(ast.parse(path.read_text())):
        if isinstance(node, ast.Import):
            yield from (alias.name.partition(".")[0] for alias in node.names)
        elif isinstance(node, ast.ImportFrom) and not node.level:
            yield (node.module or "").partition(".")[0]


def rooms_of_modules(paths: List[Path]) -> Dict[str, Set[str]]:
    """By name of a module: the rooms that have one of this name."""
    rooms: Dict[str, Set[str]] = {"tlbridge": {"python"}}
    for path in paths:
        if path.suffix == ".py" and room_of(path).startswith(("tests", "bench", "tools")):
            rooms.setdefault(path.stem, set()).add(room_of(path))
            rooms.setdefault(path.parent.name, set()).add(room_of(path))
    return rooms


def allowed_rooms(path: Path) -> Set[str]:
    """The rooms whose modules a file may import."""
    room, name = room_of(path), str(path.relative_to(ROOT))
    if room == "python":
        return {"python"}
    if room == "tools":
        return {"python", "tools", *(["tests/lib"] if name in TOOLS_WITH_TESTS else [])}
    if room == "bench":
        return {"python", "tests/lib", room}
    if room.startswith("tests"):
        return {"python", "tests/lib", "tools", room}
    return {"python"}


def test_no_file_imports_from_a_room_that_it_may_not() -> None:
    """The package imports itself only, tools the package, tests and benches also tests/lib, and tests the tools that
    they test. Nothing imports a bench, and no test the folder of another one."""
    paths = listed()
    rooms = rooms_of_modules(paths)
    wrong = []
    for path in paths:
        for name in imported(path):
            if name in STANDARD and not (rooms.get(name, set()) & allowed_rooms(path)):
                continue
            known = rooms.get(name)
            is_of_tests = room_of(path).startswith("tests") and name in PACKAGES
            is_other = any(name in table.get(str(path.relative_to(ROOT)), ()) for table in (OF_USERS, FOR_TYPES))
            if not is_of_tests and not is_other and not (known and known & allowed_rooms(path)):
                wrong.append(f"{path.relative_to(ROOT)} imports {name}")
    assert wrong == []


def test_benches_and_tests_name_no_file_of_each_other() -> None:
    """Except tests/lib. Pages may be tested anywhere."""
    wrong = []
    for path in listed():
        text, room = path.read_text(), room_of(path)
        if room == "bench":
            wrong += [f"{path.relative_to(ROOT)}: {found}" for found in re.findall(r'tests"? ?/ ?"?(?!lib)\w+', text)]
        elif room.startswith("tests") and room != "tests/repository":
            wrong += [f"{path.relative_to(ROOT)}: {found}" for found in re.findall(r'ROOT / "bench"|\bbench/\w+', text)]
    known = {"tests/lib/records.py: bench/explain"}  # a docstring
    assert set(wrong) == known


def test_a_check_depends_on_no_crate_of_the_bridge() -> None:
    """Neither tl_ring nor a crate above it is below tl_check."""
    lines = [line.partition("#")[0].partition(":") for line in (ROOT / "crates.txt").read_text().splitlines()]
    named = {left.split()[0]: set(right.split()) for left, colon, right in lines if colon}
    below: Set[str] = set()
    found = named["tl_check"]
    while found - below:
        below |= found
        found = set().union(*(named.get(crate, set()) for crate in below))
    assert "tl_trace" in below and "tl_ring" not in below


def test_random_traffic_comes_from_the_maker() -> None:
    """A file that draws random numbers draws messages by python/tlbridge/traffic.py, or is in the table above."""
    others = set()
    for path in listed():
        text = path.read_text()
        if re.search(r"^import random$|^from random import", text, re.M):
            by_maker = re.search(
                r"tlbridge\.traffic import|\.\.traffic import|from (lawful|random_traces) import", text
            )
            if not by_maker and path.name != "traffic.py":
                others.add(str(path.relative_to(ROOT)))
    assert others == {*OTHER_RANDOMNESS}
