"""Writes the harness as a project of SymbiYosys, or as Tcl for JasperGold. tlbridge-prove runs neither."""
from __future__ import annotations

import shutil
from pathlib import Path
from typing import Sequence

from ..verify.design import Source
from .errors import ProveError
from .harness import TOP

SBY = """# Written by tlbridge-prove, which did NOT run it: SymbiYosys was not available. yosys ran its script.
# The harness is that of tlbridge-prove. `sby -f prove.sby` runs all tasks.
#   bmc    looks for a counterexample in {cycles} cycles
#   prove  proves each assertion for any number of cycles
# Show with tlbridge-prove that the assumptions exclude nothing.
[tasks]
bmc
prove

[options]
bmc: mode bmc
bmc: depth {depth}
prove: mode prove

[engines]
bmc: abc bmc3
prove: abc pdr

[script]
read_verilog -sv -formal{flags} {proof}
read_verilog -sv -noassert -noassume -norestrict{flags} {design}
hierarchy -check -top {top}
proc
flatten
memory_map -formal
setattr -unset init w:dut.*
async2sync
chformal -assume -early
chformal -assert -remove t:$assert */*neighbours.* %i
opt_clean

[files]
{files}
"""

TCL = """# Written by tlbridge-prove for JasperGold: jg -batch prove.tcl. It was NEVER run: no such tool was there.
# The harness is that of tlbridge-prove. Assertions in the design itself are proved, too, and its initial values are
# used. Show with tlbridge-prove that the assumptions exclude nothing.
clear -all
analyze -sv12 +define+FORMAL{defines} {proof}
analyze -sv12 +define+SYNTHESIS{defines}{includes} {design}
elaborate -top {top}
clock clock
# the harness holds the reset for {resets} cycles by itself
reset -none
# rules of the design's own side of each link: docs/FORMAL.md proves these
assert -disable *neighbours*
set_max_trace_length {depth}
prove -all
report
"""


def _copied(folder: Path, source: Source, proof_files: Sequence[Path], two_clocks: bool, option: str) -> None:
    """Copies the proof's files into the folder. Errors: the design has two clocks."""
    if two_clocks:
        raise ProveError(
            f"{option}: it is for one clock only: two free clocks need steps of time that such a tool does not have"
        )
    folder.mkdir(parents=True, exist_ok=True)
    for path in proof_files:
        if path.parent.resolve() != folder.resolve():
            shutil.copy(path, folder / path.name)


def write_sby(
    folder: Path, source: Source, proof_files: Sequence[Path], cycles: int, reset_cycles: int, two_clocks: bool
) -> Path:
    """Writes `prove.sby` and a copy of the proof's files into `folder`.

    Errors: the design has two clocks, or two files have one name.
    """
    _copied(folder, source, proof_files, two_clocks, "--sby")
    flags = "".join(f" -D{name}" for name in source.defines) + "".join(f" -I{path}" for path in source.includes)
    names = [Path(name).name for name in source.files]
    if len({*names, *(path.name for path in proof_files)}) < len(names) + len(proof_files):
        raise ProveError("--sby: two files have one name: SymbiYosys copies them into one folder")
    path = folder / "prove.sby"
    path.write_text(
        SBY.format(
            cycles=cycles,
            depth=cycles + reset_cycles,
            flags=flags,
            design=" ".join(names),
            proof=" ".join(path.name for path in proof_files),
            top=TOP,
            files="\n".join([*source.files, *(path.name for path in proof_files)]),
        )
    )
    return path


def write_tcl(
    folder: Path, source: Source, proof_files: Sequence[Path], cycles: int, reset_cycles: int, two_clocks: bool
) -> Path:
    """Writes `prove.tcl` and a copy of the proof's files into `folder`. Errors: the design has two clocks."""
    _copied(folder, source, proof_files, two_clocks, "--tcl")
    path = folder / "prove.tcl"
    path.write_text(
        TCL.format(
            defines="".join(f" +define+{name}" for name in source.defines),
            includes="".join(f" +incdir+{name}" for name in source.includes),
            proof=" ".join(path.name for path in proof_files),
            design=" ".join(source.files),
            top=TOP,
            resets=reset_cycles,
            depth=cycles + reset_cycles,
        )
    )
    return path
