"""Rewrites the outputs of a model in the binary AIGER format."""
from __future__ import annotations

from pathlib import Path
from typing import List, Sequence

from .errors import TOOL, ProveError


def write_assumed(source: Path, target: Path, asked: Sequence[int], assumed: Sequence[int]) -> None:
    """Copies a model with some of its outputs as bad states, and the negations of others as constraints, as of AIGER
    1.9.

    Each output of `source` is 1 if an assertion fails. So `target` asks about the assertions `asked` in runs
    in which the assertions `assumed` have not failed before or at that time. Errors: `source` is no such file (4).
    """
    head, _, rest = source.read_bytes().partition(b"\n")
    words = head.split()
    if len(words) != 6 or words[0] != b"aig" or not all(word.isdigit() for word in words[1:]):
        raise ProveError(f"{source.name} is not a model as abc writes it: nothing is proved", TOOL)
    last, inputs, latches, outputs, gates = map(int, words[1:])
    lines: List[bytes] = []
    for _ in range(latches + outputs):
        line, _, rest = rest.partition(b"\n")
        lines.append(line)
    fails = lines[latches:]
    bad = [fails[number] for number in asked]
    constraints = [b"%d" % (int(fails[number]) ^ 1) for number in assumed]
    counts = b" ".join(b"%d" % count for count in (last, inputs, latches, 0, gates, len(bad), len(constraints)))
    target.write_bytes(b"\n".join([b"aig " + counts, *lines[:latches], *bad, *constraints]) + b"\n" + rest)
