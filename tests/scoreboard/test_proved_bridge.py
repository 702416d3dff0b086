"""The same tests over the proved archives of out/, in a process of their own: a process loads one library."""

import sys

import pytest
from board_library import proved_library
from commands import run, said
from project import ROOT

SUITES = [f"tests/scoreboard/test_{name}.py" for name in ("board", "engine", "header")]


@pytest.mark.library
@pytest.mark.long
def test_the_suite_over_the_proved_bridge(tmp_path_factory: pytest.TempPathFactory) -> None:
    """Both bridges have the same calls, so a scoreboard says the same over both."""
    proved_library(tmp_path_factory)
    words = [sys.executable, "-m", "pytest", "-p", "no:cacheprovider", "-p", "no:xdist", *SUITES]
    done = run(words, ROOT, 1800, {"TLBRIDGE_PROVED_BOARD": "1", "PYTEST_XDIST_WORKER": ""})
    assert done.returncode == 0, said(done)
