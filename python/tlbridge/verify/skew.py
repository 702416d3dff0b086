"""Makes a netlist of a design with yosys in which each bit that enters a flip-flop of another clock may arrive one edge
late (sv/tl_skew.sv).

A zero-delay simulation lets all bits of a word arrive together, so it never sees a binary pointer that crosses clocks.
"""
from __future__ import annotations

import dataclasses
import json
import shlex
import shutil
import subprocess
from pathlib import Path
from typing import Any, Dict, List, Mapping, Set, Tuple

from .bench import SimulatorError
from .design import Design, Port, Source
from .plain import plain

_FLIP_FLOPS = ("$dff", "$adff", "$sdff", "$aldff")
_DATA_BITS = 8  # of one register that cross together: more are taken for data that wait, with a flag beside them


def _run_yosys(script: str) -> None:
    done = subprocess.run(["yosys", "-q", "-p", script], capture_output=True, text=True, errors="replace")
    if done.returncode:
        lines = (done.stderr or done.stdout).strip().splitlines() or ["no message"]
        raise SimulatorError(f"--skew: yosys cannot read the design: {lines[-1]}", 3)


def _written_plain(source: Source, copy: Path) -> bool:
    """Writes the design as one file in which forms that yosys does not read are replaced. Returns whether Verilator
    could preprocess it."""
    words = ["verilator", "-E", "-P", "-sv", "-Wno-fatal", *source.words("verilator")]
    done = subprocess.run(words, capture_output=True, text=True, errors="replace")
    if not done.returncode:
        copy.write_text(plain(done.stdout))
    return not done.returncode


def skewed(design: Design, room: Path) -> Tuple[Design, int, List[str]]:
    """Returns the design as a netlist with late bits, how many there are, and the names of lone flip-flops between two
    clocks. Errors: there is no yosys, or it cannot read the design."""
    if not shutil.which("yosys"):
        raise SimulatorError("--skew needs yosys, which was not found: install it (`apt install yosys`)")
    source = design.source.absolute()
    top = source.top
    parameters = "".join(f"chparam -set {name} {value} {top}; " for name, value in source.parameters.items())
    macros = " ".join([*(f"-D{name}" for name in source.defines), *(f"-I{folder}" for folder in source.includes)])
    netlist, out = room / "netlist.json", room / "skewed.v"
    files = " ".join(map(shlex.quote, source.files))
    steps = "proc; flatten; opt_expr; opt_dff; opt_clean"
    rest = parameters + "; ".join([f"hierarchy -top {top}", steps, f"write_json {netlist}"])
    try:
        _run_yosys(f"read_verilog -sv {macros} {files}; {rest}")
    except SimulatorError as error:
        copy = room / "plain.sv"
        if not _written_plain(source, copy):
            raise
        try:
            _run_yosys(f"read_verilog -sv {shlex.quote(str(copy))}; {rest}")
        except SimulatorError:
            raise error from None
    whole = json.loads(netlist.read_text())
    name, module = next((n, m) for n, m in whole["modules"].items() if int(m["attributes"].get("top", "0"), 2))
    single = lone(module)
    count = _delay(module)
    changed = room / "skewed.json"
    changed.write_text(json.dumps(whole))
    rename = f"rename {name} {top}; " if name != top else ""
    _run_yosys(f"read_json {changed}; {rename}write_verilog -noattr {out}")
    ports = {port: Port(found.direction, found.bits) for port, found in design.ports.items()}
    return dataclasses.replace(design, source=Source(top, (str(out),)), ports=ports), count, single


def lone(module: Mapping[str, Any]) -> List[str]:
    """Returns the registers that take a bit directly from another clock, at each edge, and that something else than the
    next flip-flop of the same clock reads: synchronizers with one flip-flop."""
    flops = [c for c in module["cells"].values() if c["type"].startswith(_FLIP_FLOPS) and "CLK" in c["connections"]]
    clock_of = {bit: cell["connections"]["CLK"][0] for cell in flops for bit in cell["connections"]["Q"]}
    read: Dict[Any, Set[Any]] = {}  # bit -> clocks of the flip-flops that take it, or None for anything else
    for cell in module["cells"].values():
        is_flop = cell["type"].startswith(_FLIP_FLOPS)
        for pin, bits in cell["connections"].items():
            if cell.get("port_directions", {}).get(pin) != "output":
                for bit in bits:
                    read.setdefault(bit, set()).add(cell["connections"]["CLK"][0] if is_flop and pin == "D" else None)
    for port in module["ports"].values():
        for bit in port["bits"] if port["direction"] == "output" else ():
            read.setdefault(bit, set()).add(None)
    found = set()
    for cell in flops:
        pins = cell["connections"]
        clock = pins["CLK"][0]
        crossing = [at for at, bit in enumerate(pins["D"]) if clock_of.get(bit, clock) != clock]
        if cell["type"] not in _FLIP_FLOPS or len(crossing) > _DATA_BITS:
            continue
        for at in crossing:
            if read.get(pins["Q"][at], {clock}) != {clock}:
                found.add(_name_of(module, pins["Q"][at]))
    return sorted(found)


def _name_of(module: Mapping[str, Any], bit: Any) -> str:
    names = [name for name, net in module["netnames"].items() if bit in net["bits"] and not net.get("hide_name")]
    return min(names, key=lambda name: (name in module["ports"], len(name)), default="a flip-flop")


def _delay(module: Dict[str, Any]) -> int:
    """Puts a late bit in front of each flip-flop whose input comes directly from another clock. Returns how many."""
    clock_of: Dict[Any, Any] = {}
    flops: List[Dict[str, Any]] = []
    for cell in module["cells"].values():
        pins = cell["connections"]
        if cell["type"].startswith(_FLIP_FLOPS) and "CLK" in pins:
            flops.append(cell)
            for bit in pins["Q"]:
                clock_of[bit] = pins["CLK"][0]
    bits = [bit for cell in module["cells"].values() for pin in cell["connections"].values() for bit in pin]
    bits += [bit for net in module["netnames"].values() for bit in net["bits"]]
    most = max([bit for bit in bits if isinstance(bit, int)] + [0])
    added: Dict[str, Any] = {}
    for cell in flops:
        pins = cell["connections"]
        clock = pins["CLK"][0]
        for at, bit in enumerate(pins["D"]):
            if clock_of.get(bit, clock) == clock:
                continue
            most += 1
            added[f"skew_{len(added)}"] = {
                "type": "tl_skew",
                "parameters": {"ID": f"{len(added):032b}"},
                "attributes": {},
                "port_directions": {"CLK": "input", "D": "input", "Q": "output"},
                "connections": {"CLK": [clock], "D": [bit], "Q": [most]},
            }
            pins["D"][at] = most
    module["cells"].update(added)
    return len(added)
