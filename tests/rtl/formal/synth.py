"""The size of the bridge in generic cells of yosys, and its longest path; a latch or a loop is a failure."""
import re
from pathlib import Path
from typing import Mapping

from .tools import Failure, yosys
from .netlists import TOP, rtl_files

GATES = "AND,OR,XOR,MUX"


def measure(rtl: Path, parameters: Mapping[str, int], room: Path) -> str:
    """Cells and flip-flops after `synth -flatten`; the longest path from flip-flop or input to flip-flop or output, in
    gates of two inputs.
    """
    sets = "".join(f"chparam -set {name} {value} {TOP}; " for name, value in parameters.items())
    yosys(
        (
            f"read_verilog -sv {rtl_files(rtl)}; {sets}synth -flatten -top {TOP}; tee -o check check; select -write"
            f" latches t:$_DLATCH* t:$_SR*; tee -o stat stat; abc -g {GATES}; opt_clean; tee -o path ltp -noff"
        ),
        room,
    )
    if (room / "latches").read_text().strip():
        raise Failure(f"latches: {(room / 'latches').read_text().split()[:3]}")
    checked = (room / "check").read_text()
    if "Found and reported 0 problems" not in checked:
        raise Failure("\n".join(line for line in checked.splitlines() if "Warning" in line)[:600])
    stat, path = (room / "stat").read_text(), (room / "path").read_text()
    cells = int(re.findall(r"Number of cells: *(\d+)", stat)[-1])
    flops = sum(int(count) for count in re.findall(r"\$_\w*DFF\w* +(\d+)", stat))
    gates = int(re.findall(r"length=(\d+)", path)[0])
    return f"{cells} cells, {flops} flip-flops, longest path {gates} gates"
