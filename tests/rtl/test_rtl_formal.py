"""Proofs and measurements over rtl/ with open-source tools: yosys and its abc, nothing else.

- The rows of docs/RTL_PROOFS.md about the FIFO with resets at any time, about the converters by themselves, and about
  the bridge between two checkers, as `tools/prove-rtl` runs them.
- cones: no valid depends on a ready and no ready on a valid within a cycle: the logic before each, with two clocks and
  with one.
- constraints: rtl/tl_bridge.sdc against the synthesized netlist: names, merged registers, each path between the clocks.
- synth: cells, flip-flops, longest path, no latch, no loop.

Each has mistakes (formal/bugs.txt) that are planted in a copy and that it has to find. PROOF_SECONDS (600) is the
processor time that abc has for each assertion. `-k` picks tests.
"""

import os
import shutil
import sys
from pathlib import Path
from typing import Any, Dict, List, Mapping, Optional, Tuple

import pytest
from planted import Planted, mistakes
from project import ROOT, RTL, needs_tools

from formal import cones, constraints, synth
from formal.tools import Failure

sys.path.insert(0, str(ROOT / "tools"))
from rtl_proofs.given import step_model  # noqa: E402
from rtl_proofs.rows import OTHER_ROWS, ROWS, Part, Stage, row_named  # noqa: E402
from rtl_proofs.run import conjunction, line_of, prove, recipe_of  # noqa: E402

from tlbridge.prove import engine  # noqa: E402
from tlbridge.prove.harness import is_cover  # noqa: E402
from tlbridge.prove.model import build  # noqa: E402

pytestmark = [pytest.mark.long, pytest.mark.simulator]

HERE = Path(__file__).resolve().parent / "formal"
SECONDS = int(os.environ.get("PROOF_SECONDS", "600"))
WIDTHS = (1, 2, 4, 8, 16)
BUGS = mistakes(HERE / "bugs.txt")


def by_planted(part: str) -> pytest.MarkDecorator:
    """A test for each mistake that a part has to find."""
    return pytest.mark.parametrize("planted", [bug for bug in BUGS if bug.seen == part], ids=str)


@pytest.fixture(autouse=True)
def tools() -> None:
    """yosys and its abc."""
    needs_tools("yosys", "yosys-abc")


@pytest.fixture
def rtl(request: pytest.FixtureRequest, tmp_path: Path) -> Path:
    """The folder of the design, with the planted mistake of this test if it has one."""
    planted: Optional[Planted] = getattr(request.node, "callspec", None) and request.node.callspec.params.get("planted")
    return planted.plant(ROOT, tmp_path / "planted") if planted else RTL


# ---- the rows of tools/prove-rtl about parts of the bridge, and about the bridge between two checkers

PARTS = [row for row in (*ROWS, *OTHER_ROWS) if isinstance(row, Part)]
SEEN_IN = {"fifo": "FIFO-2-resets", "links": "links-4-2"}  # the row whose model has a planted mistake, except `convert`
FRAMES = 40


@pytest.mark.parametrize("row", PARTS, ids=[row.name for row in PARTS])
def test_a_row_of_a_part_holds(row: Part, tmp_path: Path) -> None:
    """Each assertion is proved or has the bound of the row, and each kind of beat can arrive."""
    outcome = prove(row, RTL, 2, SECONDS, None)
    print(line_of(outcome))
    assert outcome.is_complete, outcome.left
    assert outcome.reached == outcome.covers >= 3, outcome.not_reached


def verdict_of(row: Part, rtl: Path, tmp_path: Path) -> engine.Verdict:
    """What abc finds of all assertions of a row together: of the bridge by a search of FRAMES, else by a proof."""
    model, _ = build(recipe_of(row, Stage(), rtl, tmp_path), None)
    asserted = [number for number, label in enumerate(model.labels) if not is_cover(label)]
    part = step_model(model, asserted, (), tmp_path / "step")
    shutil.rmtree(model.folder)
    if row.kind == "links":
        steps = ["scorr", "dc2", f"bmc3 -F {FRAMES} -T {SECONDS}"]
        return engine.verdict(*engine.ask(part.small, steps, SECONDS))
    return conjunction(part, 0, len(asserted), SECONDS)


@pytest.mark.parametrize("planted", [bug for bug in BUGS if bug.seen in ("fifo", "convert", "links")], ids=str)
def test_a_row_of_a_part_finds_a_planted_mistake(planted: Planted, rtl: Path, tmp_path: Path) -> None:
    """In the FIFO or the reset agreement, in a converter, or in the bridge, where A narrows at 4:2 and B widens."""
    widens = planted.changes[0].file == "rtl/tl_widen.sv"
    row = row_named(SEEN_IN.get(planted.seen, "convert-1-4" if widens else "convert-4-1"))
    assert isinstance(row, Part)
    found = verdict_of(row, rtl, tmp_path)
    print(f"{planted} {row.name}: frame {found.frames}, {found.seconds:.1f} s")
    assert found.kind == engine.FAILS, found


@by_planted("harmless")
def test_the_proof_of_the_fifo_holds_with_a_harmless_change(planted: Planted, rtl: Path, tmp_path: Path) -> None:
    """Which no simulation sees, either."""
    row = row_named(SEEN_IN["fifo"])
    assert isinstance(row, Part) and verdict_of(row, rtl, tmp_path).kind == engine.PROVED


# ---- the netlist

MORE = [{"ASYNC": 0, "FIFO_DEPTH": 0, "MAX_OUTSTANDING": 4}, {"MAX_OUTSTANDING": 4}, {"HAS_B_C_E": 0}]
CONES: List[Dict[str, int]] = [
    *(dict(CLIENT_BYTES=x, MANAGER_BYTES=y, ASYNC=clocks) for x in WIDTHS for y in WIDTHS for clocks in (1, 0)),
    *(dict(CLIENT_BYTES=x, MANAGER_BYTES=y, **more) for more in MORE for x, y in ((8, 4), (4, 8))),
]
SMALL = {"CLIENT_BYTES": 2, "MANAGER_BYTES": 1, "FIFO_DEPTH": 2}


def values(parameters: Mapping[str, int]) -> str:
    """The name of a test with these parameters."""
    return " ".join(f"{name}={value}" for name, value in parameters.items())


@pytest.mark.parametrize("parameters", CONES, ids=values)
def test_no_valid_depends_on_a_ready_and_no_ready_on_a_valid(
    parameters: Mapping[str, int], rtl: Path, tmp_path: Path
) -> None:
    """Within a cycle."""
    given = {"FIFO_DEPTH": 2, **parameters}
    print(cones.check(rtl, given, tmp_path, given["FIFO_DEPTH"] != 0))


@by_planted("cones")
def test_a_planted_dependence_is_found(planted: Planted, rtl: Path, tmp_path: Path) -> None:
    """Of a valid or a ready."""
    with pytest.raises(Failure):
        cones.check(rtl, {"CLIENT_BYTES": 8, "MANAGER_BYTES": 4, "FIFO_DEPTH": 2}, tmp_path)


CONSTRAINED: List[Tuple[Dict[str, int], Dict[str, Any]]] = [
    (dict(CLIENT_BYTES=8, MANAGER_BYTES=4), {}),
    (dict(CLIENT_BYTES=4, MANAGER_BYTES=8, SYNC_STAGES=3), {"TL_TOOL": "synopsys"}),
    (dict(CLIENT_BYTES=8, MANAGER_BYTES=8, HAS_B_C_E=0, MAX_OUTSTANDING=4), {"TL_HAS_B_C_E": 0}),
    (dict(CLIENT_BYTES=16, MANAGER_BYTES=64), {}),
]


@pytest.mark.parametrize("parameters, settings", CONSTRAINED, ids=values)
def test_the_constraints_cover_each_path_between_the_clocks(
    parameters: Mapping[str, int], settings: Mapping[str, Any], rtl: Path, tmp_path: Path
) -> None:
    """In the synthesized netlist; each name is a register of it."""
    print(constraints.check(rtl / "tl_bridge.sdc", rtl, {**parameters, "FIFO_DEPTH": 4}, tmp_path, **settings))


def test_one_clock_for_both_links_is_refused(rtl: Path, tmp_path: Path) -> None:
    """By the constraints."""
    clock = constraints.SETTINGS["CLIENT_CLOCK"]
    with pytest.raises(Failure):
        constraints.check(rtl / "tl_bridge.sdc", rtl, SMALL, tmp_path, MANAGER_CLOCK=clock)


@by_planted("constraints")
def test_a_planted_gap_of_the_constraints_is_found(planted: Planted, rtl: Path, tmp_path: Path) -> None:
    """In the constraints, or in the design."""
    with pytest.raises(Failure):
        constraints.check(rtl / "tl_bridge.sdc", rtl, SMALL, tmp_path)


@pytest.mark.parametrize("clocks", [0, 1], ids=["one clock", "two clocks"])
@pytest.mark.parametrize("near, far", [(8, 4), (4, 8), (8, 8), (16, 64)])
def test_the_netlist_has_no_latch_and_no_loop(near: int, far: int, clocks: int, rtl: Path, tmp_path: Path) -> None:
    """It prints the cells, the flip-flops and the longest path."""
    print(synth.measure(rtl, {"CLIENT_BYTES": near, "MANAGER_BYTES": far, "ASYNC": clocks}, tmp_path))


@by_planted("synth")
def test_a_planted_latch_or_loop_is_found(planted: Planted, rtl: Path, tmp_path: Path) -> None:
    """By yosys' own check."""
    with pytest.raises(Failure):
        synth.measure(rtl, SMALL, tmp_path)
