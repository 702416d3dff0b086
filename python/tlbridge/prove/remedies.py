"""The remedies for errors of yosys."""
from __future__ import annotations

from typing import Dict

REMEDIES: Dict[str, str] = {
    "unexpected tok_pkg_user_type": (
        "It does not read a type of a package in an expression, as $bits(some_pkg::type_t): write the number, or $bits "
        "of a variable"
    ),
    "syntax error": (
        "It reads less of SystemVerilog than simulators do: convert the files, as by `sv2v`, or write "
        "the line in a simpler way"
    ),
    "index in generate block prefix": (
        "It does not read a member of an element, as x[i].y: assign x[i] to a variable first. For an array of structs, "
        "declare an array of vectors, too"
    ),
    "not part of the design": "Name the file of that module, too",
    "re-definition of module": "Name each file once, and the files of one variant of a module only",
    "unsupported cell type": (
        "Registers with asynchronous loads, latches and tristates have no model: write a synthesizable variant"
    ),
    "combinational loop": "Break the loop: a model needs logic without loops",
    "logic loop": "Break the loop: a model needs logic without loops",
}


def remedy_of(error: str) -> str:
    """Returns the remedy for an error of yosys."""
    for words, remedy in REMEDIES.items():
        if words in error.lower():
            return remedy
    return (
        "It reads less of SystemVerilog than simulators do: write that line in a simpler way, or convert the files, as "
        'by `sv2v`. `yosys -p "read_verilog -sv FILE"` tries one file'
    )
