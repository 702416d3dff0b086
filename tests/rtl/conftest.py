"""The room of the simulations, which all tests of this folder share: each is built once in a run."""

import pytest
from once import run_folder
from rtl_simulations import Room


@pytest.fixture(scope="session")
def room(tmp_path_factory: pytest.TempPathFactory) -> Room:
    """Traces, answers and built simulations."""
    return Room(run_folder(tmp_path_factory) / "made" / "rtl")
