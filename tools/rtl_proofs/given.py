"""Models of the steps of a row: some assertions of a model are to be proved, others, which are proved, are assumed."""
from __future__ import annotations

import re
from pathlib import Path
from typing import Sequence

from tlbridge.prove.engine import ask
from tlbridge.prove.errors import TOOL, ProveError
from tlbridge.prove.model import Model


def step_model(model: Model, proves: Sequence[int], given: Sequence[int], folder: Path) -> Model:
    """Returns the model with only the assertions `proves`, while those in `given` are constraints. Both are numbers of
    labels.

    In the file (AIGER 1.9, as yosys writes it) an assertion is the literal of its failure, and a constraint one that
    is 1 in each step.
    """
    head, _, rest = model.path.read_bytes().partition(b"\n")
    words = head.split()
    if len(words) < 8 or words[0] != b"aig":
        raise ProveError(f"{model.path} is no model with constraints: nothing is proved", TOOL)
    top, inputs, latches, outputs, gates, bad, constraints = map(int, words[1:8])
    if outputs or bad != len(model.labels) or words[8:] not in ([], [b"0"], [b"0", b"0"]):
        raise ProveError(f"{model.path} has {bad} assertions for {len(model.labels)} labels: nothing is proved", TOOL)
    *lines, gates_part = rest.split(b"\n", latches + bad + constraints)
    fails = lines[latches : latches + bad]
    kept = [fails[number] for number in proves]
    assumed = [*lines[latches + bad :], *(b"%d" % (int(fails[number]) ^ 1) for number in given)]
    sizes = b"aig %d %d %d 0 %d %d %d" % (top, inputs, latches, gates, len(kept), len(assumed))
    folder.mkdir(parents=True)
    (folder / "model.aig").write_bytes(b"\n".join([sizes, *lines[:latches], *kept, *assumed, gates_part]))
    fold(folder, len(kept))
    return Model(folder, tuple(model.labels[number] for number in proves))


def fold(folder: Path, outputs: int) -> None:
    """Writes `small.aig`, in which the constraints are part of the assertions. abc simplifies it for each question."""
    said, _ = ask(folder / "model.aig", ["fold", "strash", f"write_aiger {folder / 'small.aig'}", "print_stats"], 60)
    found = re.search(r"i/o *= *\d+/ *(\d+)", re.sub(r"\x1b\[[0-9;]*m", "", said))
    if not found or int(found[1]) != outputs or not (folder / "small.aig").is_file():
        raise ProveError(f"the model of a step does not have {outputs} outputs: nothing is proved", TOOL)
