"""Checks rtl/tl_bridge.sdc against the synthesized netlist: each name is a register that is still there and is no other
one, each path from one
clock to the other has a constraint, and each constraint has a path.
"""
import collections
import os
import re
from pathlib import Path
from typing import DefaultDict, Iterable, Iterator, List, Mapping, Optional, Set, Tuple

from .tools import Failure, run
from .netlists import TOP, Bit, Flat, build, registers, top_of

# The command, its limit, and the cells from and to which it is.
Constraint = Tuple[str, float, Set[str], Set[str]]
HERE = Path(__file__).resolve().parent
SETTINGS = {
    "BRIDGE": "top/bridge",
    "CLIENT_CLOCK": "core",
    "CLIENT_PERIOD": "2.0",
    "MANAGER_CLOCK": "bus",
    "MANAGER_PERIOD": "3.5",
}


def evaluate(sdc: Path, cells: Iterable[str], room: Path, **settings: str) -> List[Constraint]:
    """The constraints of the file: (command, limit, set of cells, set of cells)."""
    (room / "cells").write_text("\n".join(cells) + "\n")
    words = "; ".join(f"set {name} {value}" for name, value in {**SETTINGS, **settings}.items())
    surroundings = {
        **os.environ,
        "SDC": str(Path(sdc).resolve()),
        "CELLS": str(room / "cells"),
        "OUT": str(room / "constraints"),
        "SETTINGS": words,
    }
    status, said = run(["yosys", "-q", "-c", str(HERE / "constraints.tcl")], 120, env=surroundings)
    if status:
        raise Failure(said.strip())
    rows = [line.split("\t") for line in (room / "constraints").read_text().splitlines()]
    return [(command, float(limit or 0), set(split(first)), set(split(last))) for command, limit, first, last in rows]


def split(tcl_list: str) -> List[str]:
    return tcl_list.replace("{", "").replace("}", "").split()


class Bridge:
    """The register bits as the RTL names them, and what synthesis made of them."""

    def __init__(self, rtl: Path, parameters: Mapping[str, int], room: Path) -> None:
        hierarchy = build(rtl, parameters, "proc; memory_map", room)
        prefix = SETTINGS["BRIDGE"] + "/"
        self.place = {prefix + cell: (name, index) for name, index, cell in registers(hierarchy, top_of(hierarchy))}
        self.netlist = Flat(build(rtl, parameters, f"synth -flatten -top {TOP}", room))
        # of each register bit of the netlist, the cells that it has come to be
        self.cells_at: DefaultDict[Bit, Set[str]] = collections.defaultdict(set)
        for cell in self.place:
            bit = self.bit(cell)
            if bit is not None:
                self.cells_at[bit].add(cell)

    def bit(self, cell: str) -> Optional[Bit]:
        """The register bit of the netlist that a cell is, or None if synthesis removed it."""
        name, index = self.place[cell]
        bits = self.netlist.bits.get(name, [])
        return bits[index] if index < len(bits) and bits[index] in self.netlist.clock_of else None


def check(sdc: Path, rtl: Path, parameters: Mapping[str, int], room: Path, **settings: str) -> str:
    """Returns a sentence about the constraints that were checked. Errors: Failure with each fault on a line."""
    bridge = Bridge(rtl, parameters, room)
    found = evaluate(sdc, bridge.place, room, **settings)
    delays = [(first, last) for command, _, first, last in found if command == "set_max_delay"]
    together = [(first, last) for command, _, first, last in found if command == "set_bus_skew"]
    faults = [fault for first, last in delays for fault in names_are_kept(bridge, first | last)]
    used: Set[int] = set()
    paths = 0
    for start, end, straight in bridge.netlist.crossings():
        paths += 1
        starts, ends = bridge.cells_at[start], bridge.cells_at[end]
        covers = [number for number, (first, last) in enumerate(delays) if starts & first and ends & last]
        used.update(covers)
        path = f"{', '.join(sorted(starts)) or '?'} to {', '.join(sorted(ends)) or '?'}"
        if not covers:
            faults.append(f"no constraint: {path}")
        if "stages_reg" in path:
            if not straight:
                faults.append(f"logic before a synchronizer: {path}")
            gray = "_gray_reg" in path
            if (
                gray
                and settings.get("TL_TOOL", "vivado") == "vivado"
                and not any(starts & first and ends & last for first, last in together)
            ):
                faults.append(f"no limit of skew: {path}")
    faults += [
        f"no path: {shown(first)} to {shown(last)}" for number, (first, last) in enumerate(delays) if number not in used
    ]
    if faults:
        raise Failure("\n".join(faults[:10]))
    return (
        f"{len(delays)} constraints over {len(set().union(*(first | last for first, last in delays)))} registers,"
        f" {paths} paths between the clocks"
    )


def names_are_kept(bridge: Bridge, cells: Set[str]) -> Iterator[str]:
    """A register that is read across the clocks is its own: synthesis neither removed it nor merged it with one of
    another name.
    """
    for cell in sorted(cells):
        bit = bridge.bit(cell)
        kind = re.sub(r"\[\d+\]", "", cell)
        if bit is None and not re.search("/(words|r_data)_reg", cell):  # a bit of a word may be constant
            yield f"synthesis removed {cell}"
        others = [
            other
            for other in (bridge.cells_at.get(bit, ()) if bit is not None else ())
            if re.sub(r"\[\d+\]", "", other) != kind
        ]
        if others:
            yield f"synthesis merged {cell} with {', '.join(others)}"


def shown(cells: Set[str]) -> str:
    return sorted(cells)[0] if cells else "nothing"
