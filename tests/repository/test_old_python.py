"""The commands of the Python package say which Python they need, to a Python that is too old."""

import shutil
import sys
from pathlib import Path

import pytest
from commands import run
from project import ROOT

COMMANDS = ("sv/compare", "tlbridge-trace", "tlbridge-verify", "tlbridge-prove")
OLD = """import runpy, sys
sys.version_info, sys.version = (3, 8, 20, "final", 0), "3.8.20 (main)"
runpy.run_path(sys.argv[1], run_name="__main__")
"""


@pytest.mark.parametrize("command", COMMANDS)
def test_an_old_python_is_refused(command: str) -> None:
    """In one line, with status 2, before the package is read."""
    done = run([sys.executable, "-c", OLD, ROOT / command, "--help"])
    name = "tlbridge-compare" if command == "sv/compare" else command
    wanted = f"{name}: it needs Python 3.9 or later, and this is 3.8.20\n"
    assert (done.returncode, done.stdout, done.stderr) == (2, "", wanted)


@pytest.mark.parametrize("command", COMMANDS)
def test_a_copy_without_its_package(command: str, tmp_path: Path) -> None:
    """It says what to do, with status 2."""
    script = shutil.copy(ROOT / command, tmp_path)
    done = run([sys.executable, "-I", script, "--help"], tmp_path)
    name = "tlbridge-compare" if command == "sv/compare" else command
    assert (done.returncode, done.stdout) == (2, "")
    assert done.stderr.startswith(f"{name}: the package tlbridge was not found next to this script (No module named ")
    assert "run `make install` again" in done.stderr.lower() and done.stderr.count("\n") == 1


@pytest.mark.parametrize("command", COMMANDS)
def test_a_copy_with_its_package(command: str, tmp_path: Path) -> None:
    """It prints its help with status 0, and leaves no compiled files, which nobody would remove."""
    folder = tmp_path / ("sv" if command == "sv/compare" else ".")
    folder.mkdir(exist_ok=True)
    script = shutil.copy(ROOT / command, folder)
    package = tmp_path / "python" / "tlbridge"
    shutil.copytree(ROOT / "python" / "tlbridge", package, ignore=shutil.ignore_patterns("__pycache__"))
    done = run([sys.executable, script, "--help"], tmp_path, environment={"PYTHONDONTWRITEBYTECODE": ""})
    assert (done.returncode, done.stderr) == (0, "") and done.stdout.startswith("usage: tlbridge-")
    assert list(tmp_path.rglob("__pycache__")) == []
