"""The clocks of a netlist: each register has to have a clock of the proof, and two clocks become one."""
from __future__ import annotations

import json
import re
from pathlib import Path
from typing import Any, Dict, Mapping

from .errors import UNREADABLE, ProveError

REMEDY = (
    "a proof needs registers at rising edges of the clocks of the two links: replace gated or derived clocks "
    "by enables, and latches by registers"
)


def settle_clocks(source: Path, target: Path, ticks: Mapping[str, str], step: str = "clock") -> None:
    """Copies a flat netlist of yosys' `write_json` whose registers have no enable, and checks the clock of each
    register.

    `step` is the input that is time. `ticks` maps each other clock to the input that says in which steps it has an
    edge: its registers get this enable and the clock `step`. So a proof for all values of the ticks is one for all
    frequencies and phases. Errors: a register has another clock or a falling edge, or is a latch (3).
    """
    design = json.loads(source.read_text())
    ((_, module),) = design["modules"].items()
    wires: Dict[str, Any] = {name: wire["bits"] for name, wire in module["netnames"].items()}
    tick_of = {wires[clock][0]: wires[tick] for clock, tick in ticks.items()}
    for name, cell in module["cells"].items():
        kind = cell["type"]
        if kind == "$ff":  # time itself
            cell["type"] = "$dff"
            cell["parameters"]["CLK_POLARITY"] = "1"
            cell["connections"]["CLK"] = wires[step]
            cell["port_directions"]["CLK"] = "input"
        elif kind == "$dff":
            clock = cell["connections"]["CLK"]
            rises = int(str(cell["parameters"].get("CLK_POLARITY", "1")), 2) == 1
            if not rises:
                raise ProveError(f"{place_of(name, cell)} is clocked by a falling edge: {REMEDY}", UNREADABLE)
            if clock[0] in tick_of:
                cell["type"] = "$dffe"
                cell["parameters"]["EN_POLARITY"] = "1"
                cell["connections"]["EN"] = tick_of[clock[0]]
                cell["port_directions"]["EN"] = "input"
                cell["connections"]["CLK"] = wires[step]
            elif clock != wires[step]:
                raise ProveError(f"{place_of(name, cell)} has another clock than the links: {REMEDY}", UNREADABLE)
        elif "dff" in kind or "latch" in kind or kind == "$sr":
            raise ProveError(f"{place_of(name, cell)} is a {kind.strip('$_')}: {REMEDY}", UNREADABLE)
    target.write_text(json.dumps(design))


def place_of(name: str, cell: Mapping[str, Any]) -> str:
    """Returns the line of a cell's source, or its name."""
    place = line_of(str(cell.get("attributes", {}).get("src", "")))
    return f"the register of {place}" if place else f"the register {name}"


def line_of(source: str) -> str:
    """Returns the file and line of an attribute `src` of yosys, without its end.

    For what is inside of instances, yosys lists their places, too: each `flatten` puts one in front of the list in
    reverse order, so the place of the thing itself is in the middle.
    """
    places = source.split("|")
    return re.sub(r"-\d+\.\d+$", "", places[len(places) // 2])
