"""The models of parts of the bridge by themselves, and of the bridge between two checkers."""
from __future__ import annotations

import re
from pathlib import Path
from typing import Mapping, Sequence

from tlbridge.prove.model import Recipe
from tlbridge.prove.tools import proof_files

from .links import module
from .rows import LARGEST, Part

HERE = Path(__file__).resolve().parent
PART_NAMES = r"^(Invented|Doubled|Moved|Lost|Settles|Drained|InReset)$"  # of assertions that need one invariant
LINK_CLOCKS = {"client_clock": "client_tick", "manager_clock": "manager_tick"}
FIFO_CLOCKS = {"w_clock": "w_tick", "r_clock": "r_tick"}
CHECKER = "tl_checker.sv"


def place_of_part(part: Part) -> str:
    """Returns the first two cells of the line of a part."""
    if part.kind == "resets":
        return "FIFO and reset | -"
    return f"{'converter' if part.kind == 'convert' else 'both links'} | {part.client}:{part.manager}"


def with_values(file: str, values: Mapping[str, int]) -> str:
    """Returns the text of a file of this folder with these values of its parameters."""
    text = (HERE / file).read_text()
    for name, value in values.items():
        text, count = re.subn(rf"(parameter int {name}) = \d+", rf"\1 = {value}", text)
        assert count == 1, f"{file} has no parameter {name}"
    return text


def recipe_of_part(part: Part, files: Sequence[str], synchronizer: Path, path: Path) -> Recipe:
    """Writes the proof of a part to `path`, and returns the recipe of its model. `files` are those of the bridge."""
    named = {Path(file).name: file for file in files}
    if part.kind == "resets":
        stages = part.sync_stages
        times = {"SETTLE": 4 * (stages + 1), "SETTLES": 12 * (stages + 1), "DRAINS": part.depth + 3 * stages + 1}
        path.write_text(with_values("fifo_resets.sv", {"FIFO_DEPTH": part.depth, "SYNC_STAGES": stages, **times}))
        fifo = (named["tl_async_fifo.sv"], named["tl_reset.sv"], str(synchronizer))
        return Recipe("tl_fifo_resets", fifo, (str(path),), ticks=FIFO_CLOCKS, free_initial="*")
    if part.kind == "convert":
        values = {"NEAR": part.client, "FAR": part.manager, "MOST": LARGEST.bit_length() - 1}
        path.write_text(with_values("convert.sv", values))
        converters = (named["tl_widen.sv"], named["tl_narrow.sv"])
        inside = "narrows.narrow" if part.client > part.manager else "widens.widen"
        return Recipe("tl_converts", converters, (str(path),), free_initial=inside)
    path.write_text(module(part.client, part.manager, settings=f", .FIFO_DEPTH({part.depth})"))
    # without the initial values of its text, each register of the bridge begins with 0, as a reset leaves it
    checker = next(str(file) for file in proof_files() if Path(file).name == CHECKER)
    return Recipe(
        "tl_links", tuple(files), (checker, str(path)), ticks=LINK_CLOCKS, free_initial="bridge", zero_initial=True
    )
