"""Checks of a flat netlist: yosys accepts latches, two drivers of a wire and a clock as data, and its model of each
would be another design.
"""
from __future__ import annotations

import json
import re
from pathlib import Path
from typing import Any, Dict, Mapping, Sequence

from .clocks import REMEDY, line_of
from .errors import UNREADABLE, ProveError

LATCHES = ("$dlatch", "$adlatch", "$dlatchsr", "$sr")
CLOCK_PORTS = ("CLK", "WR_CLK", "RD_CLK")
ONE_DRIVER = "has two drivers: remove one of them, or choose between them by a multiplexer"
_ASSIGNED = re.compile(r"^  connect (\\\S+(?: \[\d+(?::\d+)?\])?) (?=\S)", re.M)


def check_netlist(path: Path, clocks: Sequence[str]) -> None:
    """Refuses a netlist with a latch, with two drivers of one bit, or with logic that reads a clock.

    `path` is a flat netlist of `write_json` before any optimization, and `clocks` names its clock inputs. Errors:
    status 3, with the line.
    """
    ((_, module),) = json.loads(path.read_text())["modules"].items()
    inputs = {name: port["bits"] for name, port in module["ports"].items() if port["direction"] == "input"}
    ticks = {bit for name in clocks for bit in inputs.get(name, ())}
    for name, cell in module["cells"].items():
        if cell["type"] in LATCHES:
            raise ProveError(f"{_register(module, cell)} is a latch: {REMEDY}", UNREADABLE)
        for port, bits in cell["connections"].items():
            reads = cell["port_directions"].get(port) == "input" and port not in CLOCK_PORTS
            if reads and ticks.intersection(bits):
                raise ProveError(f"{_line(cell) or name}: a clock is used as data: {REMEDY}", UNREADABLE)
    _check_drivers(module, inputs)


def _check_drivers(module: Mapping[str, Any], inputs: Mapping[str, Sequence[Any]]) -> None:
    """yosys joins two drivers of one bit, so an input of the proof could have a fixed value."""
    driven: Dict[Any, str] = {}
    for name, cell in module["cells"].items():
        for port, bits in cell["connections"].items():
            if cell["port_directions"].get(port) != "output":
                continue
            if any(bit in ("0", "1") or bit in driven for bit in bits):
                raise ProveError(f"{_line(cell) or name}: a wire that is assigned here {ONE_DRIVER}", UNREADABLE)
            driven.update({bit: name for bit in bits if isinstance(bit, int)})
    for name, bits in inputs.items():
        if any(bit in ("0", "1") or bit in driven for bit in bits):
            raise ProveError(
                f"a wire of the design that gets its value from the input {name.replace('free_', '', 1)} {ONE_DRIVER}",
                UNREADABLE,
            )
        driven.update({bit: name for bit in bits})


def check_assignments(text: str) -> None:
    """Refuses a wire that is assigned twice. `text` is the flat design in RTLIL. Errors: status 3, with the line."""
    seen = set()
    for name in _ASSIGNED.findall(text):
        if name in seen:
            wire = re.escape(name.split(" ")[0])
            found = re.search(rf'attribute \\src "([^"]*)"\n(?:  attribute [^\n]*\n)*  wire [^\n]*{wire}\n', text)
            place = f"{line_of(found[1])}: " if found else ""
            raise ProveError(f"{place}{name[1:].replace('dut.', '', 1)} {ONE_DRIVER}", UNREADABLE)
        seen.add(name)


def loop_in(said: str, path: Path) -> str:
    """Returns the line of the first loop that yosys' `check` reports, or nothing. `path` is the netlist that it
    checked.
    """
    found = re.search(r"found logic loop[^\n]*\n((?:    .*\n)*)", said)
    if not found:
        return ""
    ((_, module),) = json.loads(path.read_text())["modules"].items()
    places = [_line(module["cells"].get(name, {})) for name in re.findall(r"^ +cell (\S+)", found[1], re.M)]
    return next((place for place in places if place), "the design")


def _register(module: Mapping[str, Any], cell: Mapping[str, Any]) -> str:
    """Returns the line and name of a wire that a register drives. yosys gives a latch no line of its own."""
    bits = set(cell["connections"].get("Q", ()))
    wires = {name: wire for name, wire in module["netnames"].items() if bits.intersection(wire["bits"])}
    name = min(wires, key=lambda one: (bool(wires[one].get("hide_name")), len(one)), default="")
    return f"{_line(wires[name])}: {name.replace('dut.', '', 1)}" if name else "a register"


def _line(cell: Mapping[str, Any]) -> str:
    return line_of(str(cell.get("attributes", {}).get("src", "")))
