"""No valid of the bridge depends on a ready within a cycle, and no ready on a valid: the logic before each has no such
port in it.
"""
from pathlib import Path
from typing import Mapping

from .tools import Failure
from .netlists import Flat, build

SCRIPT = "proc; flatten; opt_clean"


def check(rtl: Path, parameters: Mapping[str, int], room: Path, only_resets: bool = True) -> str:
    """Returns a sentence about the outputs that were checked. Errors: Failure with each dependence on a line.

    With `only_resets` the logic before a valid or a ready may have no input except a reset; with two clocks, that of
    its link.
    """
    netlist = Flat(build(rtl, parameters, SCRIPT, room))
    ends = {name: bits for name, bits in netlist.outputs.items() if name.endswith(("_valid", "_ready"))}
    faults = []
    for name, bits in ends.items():
        side = name.split("_")[0]
        for bit in netlist.cone(bits):
            port = netlist.inputs.get(bit)
            if (
                port is None
                or port == f"{side}_reset"
                or (port.endswith("_reset") and not int(parameters.get("ASYNC", 1)))
            ):
                continue
            other = "_ready" if name.endswith("_valid") else "_valid"
            if only_resets or port.endswith(other):
                faults.append(f"{name} depends on {port}")
    if len(ends) != 10:
        faults.append(f"{len(ends)} valids and readys, expected 10")
    if faults:
        raise Failure("\n".join(sorted(set(faults))))
    return f"{len(ends)} outputs"
