"""Netlists of the bridge by yosys, and what can be read from them: registers and their names, the logic before a bit,
paths between clocks.
"""
import collections
import json
import re
from pathlib import Path
from typing import Any, DefaultDict, Dict, Iterable, Iterator, List, Mapping, Optional, Set, Tuple, Union

from .tools import yosys

TOP = "tl_bridge"
Bit = Union[int, str]  # a number, or a constant such as "0"
Cell = Dict[str, Any]
Modules = Dict[str, Dict[str, Any]]


def rtl_files(folder: Path) -> str:
    return " ".join(
        str(path) for path in sorted(Path(folder).resolve().glob("*.sv")) if not path.name.startswith(f"{TOP}_")
    )


def build(folder: Path, parameters: Mapping[str, int], script: str, room: Path) -> Modules:
    """A netlist of tl_bridge, as JSON; `script` follows the elaboration."""
    sets = "".join(f"chparam -set {name} {value} {TOP}; " for name, value in parameters.items())
    yosys(
        f"read_verilog -sv {rtl_files(folder)}; {sets}hierarchy -check -top {TOP}; {script}; write_json netlist.json",
        room,
    )
    made: Modules = json.loads((room / "netlist.json").read_text())["modules"]
    return made


class Flat:
    """A flat netlist: which cell drives a bit, the bits of each name, and the registers with their clocks."""

    def __init__(self, modules: Modules) -> None:
        (self.module,) = modules.values()
        self.cells = self.module["cells"]
        self.bits = {name: wire["bits"] for name, wire in self.module["netnames"].items()}
        self.inputs = {
            bit: name
            for name, port in self.module["ports"].items()
            if port["direction"] == "input"
            for bit in port["bits"]
        }
        self.outputs = {
            name: port["bits"] for name, port in self.module["ports"].items() if port["direction"] == "output"
        }
        self.driver: Dict[Bit, Cell] = {}
        self.clock_of: Dict[Bit, Optional[str]] = {}
        for cell in self.cells.values():
            for port, direction in cell["port_directions"].items():
                if direction == "output":
                    for bit in cell["connections"][port]:
                        self.driver[bit] = cell
            if is_register(cell):
                clock = self.inputs.get(cell["connections"].get("C", cell["connections"].get("CLK"))[0])
                for bit in cell["connections"]["Q"]:
                    self.clock_of[bit] = clock
        self.named: DefaultDict[Bit, List[Tuple[str, int]]] = collections.defaultdict(list)
        for name, bits in self.bits.items():
            for index, bit in enumerate(bits):
                self.named[bit].append((name, index))

    def cone(self, bits: Iterable[Bit]) -> Set[Bit]:
        """The inputs and register bits before these bits, without those behind a register."""
        found: Set[Bit] = set()
        seen: Set[Bit] = set()
        waiting = list(bits)
        while waiting:
            bit = waiting.pop()
            if isinstance(bit, str) or bit in seen:
                continue
            seen.add(bit)
            cell = self.driver.get(bit)
            if bit in self.inputs or bit in self.clock_of or cell is None:
                found.add(bit)
                continue
            for port, direction in cell["port_directions"].items():
                if direction == "input":
                    waiting += cell["connections"][port]
        return found

    def crossings(self) -> Iterator[Tuple[Bit, Bit, bool]]:
        """(from bit, to bit, whether it comes straight) for each path from a register of one clock to a register of
        another.
        """
        for cell in self.cells.values():
            if not is_register(cell):
                continue
            (to,) = cell["connections"]["Q"]
            for port in cell["connections"]:
                if port in ("Q", "C"):
                    continue
                for bit in self.cone(cell["connections"][port]):
                    if bit in self.clock_of and self.clock_of[bit] != self.clock_of[to]:
                        yield bit, to, port == "D" and bit == cell["connections"]["D"][0]


def is_register(cell: Cell) -> bool:
    return "dff" in cell["type"].lower() or "latch" in cell["type"].lower()


def registers(modules: Modules, module: str, dots: str = "", path: str = "") -> Iterator[Tuple[str, int, str]]:
    """Each register bit below a module, by its name in the RTL: (name in a flat netlist, index, name of its cell in the
    words of Vivado).
    """
    ports = modules[module]["ports"]
    wires = {name: wire["bits"] for name, wire in modules[module]["netnames"].items() if not wire.get("hide_name")}
    wires_of: DefaultDict[Bit, Set[str]] = collections.defaultdict(set)
    for name, bits in wires.items():
        for bit in bits:
            wires_of[bit].add(name)
    for name, cell in modules[module]["cells"].items():
        if cell["type"] in modules:
            # a block behind `else if` has no name of its own around it in the standard, but one in yosys
            yield from registers(
                modules, cell["type"], f"{dots}{name}.", f"{path}{re.sub(r'genblk[0-9]+[.]', '', name)}/"
            )
        elif is_register(cell):
            whole = set(cell["connections"]["Q"])
            for bit in whole:  # of several names, one whose bits are all of this register, and that is no port
                own = min(
                    (wire for wire in wires_of[bit] if whole.issuperset(wires[wire])),
                    key=lambda wire: (wire in ports, -len(wires[wire])),
                    default=None,
                )
                if own:
                    ((base, brackets),) = re.findall(r"^(.*?)((?:\[\d+\])*)$", own)
                    index = wires[own].index(bit)
                    yield dots + own, index, f"{path}{base}_reg{brackets}[{index}]"


def top_of(modules: Modules) -> str:
    return next(name for name, module in modules.items() if int(module["attributes"].get("top", "0"), 2))
