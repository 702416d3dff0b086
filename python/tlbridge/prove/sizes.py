"""Compares the sizes of a design's variables as yosys and Verilator read them.

yosys 0.23 drops the bounds of an array whose elements have a type with a name, without a word: of `beat_t fifo[2]` it
reads one beat.
"""
from __future__ import annotations

import json
import xml.etree.ElementTree as tree
from pathlib import Path
from typing import Any, Dict, Iterator, Mapping, Optional, Tuple

from ..verify.design import Source
from .clocks import line_of
from .errors import TOOL, UNREADABLE, ProveError
from .tools import run_tool

SECONDS = 3600.0
ONE_BIT = ("logic", "bit", "reg")


def sizes_of(source: Source, folder: Path) -> Dict[str, int]:
    """Returns the bits of each variable of a design, by its name below the top such as `fifo.words`, as Verilator reads
    them. Errors: Verilator died (4).
    """
    out = folder / "design.xml"
    words = ["verilator", "--xml-only", "--xml-output", str(out), "-sv", "-Wno-fatal", "-Wno-lint", "-Wno-style"]
    words += ["--timing", "--top-module", source.top, "-DSYNTHESIS"]
    words += [f"-G{name}={value}" for name, value in source.parameters.items()]
    done = run_tool([*words, *source.words("verilator")], SECONDS, folder)
    if done.status or not out.is_file():
        raise ProveError(f"verilator ended with status {done.status} before it was done: nothing is proved", TOOL)
    root = tree.parse(out).getroot()
    types = {node.get("id", ""): node for node in root.iter() if node.get("id") and node.tag.endswith("dtype")}
    modules = {module.get("name", ""): module for module in root.iter("module")}
    found: Dict[str, int] = {}
    for cell in root.iter("cell"):
        module = modules.get(cell.get("submodname", ""))
        below = cell.get("hier", "").partition(".")[2]
        if module is not None:
            found.update(_variables(module, types, f"{below}." if below else ""))
    return found


def _variables(node: tree.Element, types: Mapping[str, tree.Element], prefix: str) -> Iterator[Tuple[str, int]]:
    for child in node:
        name = prefix + child.get("name", "")
        if child.tag == "begin":
            yield from _variables(child, types, f"{name}.")
        elif child.tag == "var" and not child.get("param") and not child.get("localparam"):
            bits = _bits(types, child.get("dtype_id", ""))
            if bits is not None:
                yield name, bits


def _bits(types: Mapping[str, tree.Element], type_id: str) -> Optional[int]:
    """Returns the bits of a type, with all its dimensions. None: it is none of bits."""
    node = types.get(type_id)
    if node is None:
        return None
    if node.tag == "basicdtype":
        if node.get("left") is not None:
            return abs(int(node.get("left", "0")) - int(node.get("right", "0"))) + 1
        return 1 if node.get("name") in ONE_BIT else None
    if node.tag in ("structdtype", "uniondtype"):
        members = [_bits(types, member.get("sub_dtype_id", "")) for member in node.findall("memberdtype")]
        known = [bits for bits in members if bits is not None]
        if len(known) < len(members) or not known:
            return None
        return max(known) if node.tag == "uniondtype" else sum(known)
    inner = _bits(types, node.get("sub_dtype_id", ""))
    if inner is None or node.tag in ("refdtype", "enumdtype"):
        return inner
    if node.tag in ("packarraydtype", "unpackarraydtype"):
        ends = [int(constant.get("name", "").split("h")[1], 16) for constant in node.iter("const")]
        return (abs(ends[0] - ends[1]) + 1) * inner if len(ends) == 2 else None
    return None


def check_sizes(path: Path, sizes: Mapping[str, int], instance: str = "dut") -> None:
    """Refuses a design of which yosys reads a variable with another number of bits.

    `path` is a flat netlist of `write_json`, in which the design is `instance`. Errors: status 3, with the line.
    """
    ((_, module),) = json.loads(path.read_text())["modules"].items()
    for name, bits in sizes.items():
        seen = _bits_in(module, f"{instance}.{name}")
        if seen is not None and seen[0] != bits:
            raise ProveError(
                f"{seen[1]}{name} has {bits} bits, of which yosys reads {seen[0]}: it drops the bounds of an array of "
                "a type with a name. Declare a vector or an array of vectors, and assign an element to a variable of "
                "the type; `sv2v` does that, too",
                UNREADABLE,
            )


def _bits_in(module: Mapping[str, Any], name: str) -> Optional[Tuple[int, str]]:
    """Returns the bits of a wire or a memory, and its line."""
    wire, memory = module["netnames"].get(name), module.get("memories", {}).get(name)
    if wire is None and memory is None:
        return None
    bits = len(wire["bits"]) if wire is not None else int(memory["width"]) * int(memory["size"])
    place = line_of(str((wire or memory)["attributes"].get("src", "")))
    return bits, f"{place}: " if place else ""
