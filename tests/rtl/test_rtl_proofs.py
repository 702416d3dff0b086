"""tools/prove-rtl: the bridge against the layout of messages, and a planted bug for each assertion of the watch.

The quick tests prove channel E and the contract of the FIFO in one clock, and find two bugs, in less than a minute of
processor time. `-m long` plants a bug for each assertion, and prints its frame and seconds. The rows of
docs/RTL_PROOFS.md are made by `tools/prove-rtl`.
"""

import dataclasses
import re
import shutil
import sys
from pathlib import Path
from typing import Dict, NamedTuple, Sequence

import pytest
from project import ROOT, RTL, needs_tools

sys.path.insert(0, str(ROOT / "tools"))
from rtl_proofs.given import step_model  # noqa: E402
from rtl_proofs.rows import NOT_TRIED, OTHER_ROWS, ROWS, Bound, Refinement, Stage  # noqa: E402
from rtl_proofs.run import Outcome, induction, line_of, name_of, prove, recipe_of  # noqa: E402
from rtl_proofs.table import STORED, Stored, page_of, pairs_text, read_lines, table, write_lines  # noqa: E402

from tlbridge.prove import engine  # noqa: E402
from tlbridge.prove.model import Recipe, build  # noqa: E402

pytestmark = pytest.mark.simulator
PAGE = ROOT / "docs" / "RTL_PROOFS.md"
ROW = {row.name: row for row in (*ROWS, *OTHER_ROWS)}


class Bug(NamedTuple):
    """A change of one file, the row whose model it is looked for in, and the assertion that has to fail."""

    assertion: str
    row: str
    file: str
    old: str
    new: str


FIFO, WIDEN, NARROW, CHANNEL, TABLE = "tl_fifo.sv", "tl_widen.sv", "tl_narrow.sv", "tl_channel.sv", "tl_outstanding.sv"
ASYNC_FIFO, RESET, GATE, CROSSING = "tl_async_fifo.sv", "tl_reset.sv", "tl_gate.sv", "tl_crossing.sv"
BUGS = (
    Bug("e.Invented", "E-2-2", FIFO, "assign r_valid = w_count != r_count;", "assign r_valid = 1'b1;"),
    Bug("e.Head", "E-2-2", FIFO, "words[w_count[LOG-1:0]] <= w_data;", "words[0] <= w_data;"),
    Bug("e.Room", "E-2-2", FIFO, "if (r_valid && r_ready) r_count <= r_count + 1'b1;", "r_count <= w_count;"),
    Bug("a.Early", "A-2-4", WIDEN, "wire whole = !has_data || &(slot | ~span);", "wire whole = 1'b1;"),
    Bug("a.Data0", "A-2-4", WIDEN, "gathers ? next_slot : first_slot", "gathers ? next_slot : '0"),
    Bug("a.Corrupt", "A-2-4", WIDEN, "in_corrupt || (gathers && corrupt_held)", "in_corrupt"),
    Bug("a.Mask", "A-2-4", WIDEN, "has_data ? byte_out[8] : active", "active"),
    Bug("a.Lanes", "A-2-4", WIDEN, "has_data ? byte_out[8] : active", "has_data ? byte_out[8] : active && i < NARROW"),
    Bug("a.Zeros", "A-4-2", NARROW, "has_data && active ?", "has_data ?"),
    Bug("d.SourceD", "D-4-2", FIFO, "assign r_valid = w_count != r_count;", "assign r_valid = 1'b1;"),
    Bug(
        "d.SourceA",
        "D-4-2",
        NARROW,
        "assign in_ready  = out_ready && last;",
        "assign in_ready  = out_ready && last && begun;",
    ),
    Bug(
        "d.Data0",
        "D-4-2",
        TABLE,
        "if (a_valid && a_ready) lanes",
        "if (a_valid && a_ready && lanes[a_source] == 0) lanes",
    ),
    Bug(
        "lane_lemmas.Lane",
        "D-2-4-two-clocks",
        TABLE,
        "if (a_valid && a_ready) lanes",
        "if (a_valid && a_ready && lanes[a_source] == 0) lanes",
    ),
    Bug("d.Data0", "D-2-4-two-clocks", NARROW, "begun ? next_slot : first_slot", "begun ? next_slot : '0"),
    Bug(
        "e.Late",
        "E-2-2-within-2",
        FIFO,
        "assign r_valid = w_count != r_count;",
        "assign r_valid = w_count != r_count && w_count[0];",
    ),
    Bug(
        "e.Ready",
        "E-2-2-within-2",
        FIFO,
        "assign w_ready = w_count != (r_count ^ {1'b1, {LOG{1'b0}}});",
        "assign w_ready = !w_count[LOG];",
    ),
    Bug("Ready", "FIFO-2-two-clocks", ASYNC_FIFO, "(r_gray_seen ^ LAP)", "(r_gray_seen ^ LAP ^ 1'b1)"),
    Bug(
        "Valid",
        "FIFO-2-two-clocks",
        ASYNC_FIFO,
        "wire loads = r_gray != w_gray_seen && (!r_valid || r_ready);",
        "wire loads = !r_valid || r_ready;",
    ),
    Bug(
        "bits[0].same.Data",
        "FIFO-2-two-clocks",
        ASYNC_FIFO,
        "wire loads = r_gray != w_gray_seen && (!r_valid || r_ready);",
        "wire loads = r_gray != w_gray_seen;",
    ),
    Bug(
        "Run",
        "FIFO-2-two-clocks",
        RESET,
        "asks ? reset || !(agreed && clear) : (reset || waits) && !agreed;",
        "asks ? reset || !(agreed && clear) : (reset || waits || run) && !agreed;",
    ),
    Bug("Clear", "FIFO-2-two-clocks", RESET, "assign run = idle && !clear && !reset;", "assign run = idle && !reset;"),
    Bug("c.Head", "C-4-2", CHANNEL, "MASKED ? !far_opcode[2] : far_opcode[0]", "!far_opcode[2]"),
    # only rows of one kind find each of these
    Bug("e.Head", "E-4-2-depth-4", FIFO, "words[w_count[LOG-1:0]] <= w_data;", "words[w_count[0]] <= w_data;"),
    Bug("a.Early", "A-2-4-depth-0", CROSSING, "assign r_valid = w_valid;", "assign r_valid = 1'b1;"),
    Bug("d.Data0", "D-4-2-entries-2", TABLE, "~used & (used + 1'b1);", "{{(MAX_OUTSTANDING - 1) {1'b0}}, 1'b1};"),
    Bug("a.Data0", "A-4-2-resets-of-manager", GATE, "discards <= !first;", "discards <= 1'b0;"),
    Bug("a.Data0", "A-1-4", WIDEN, "next_slot <= slot + 1'b1;", "next_slot <= '1;"),
    Bug("a.Data0", "A-4-1", NARROW, "next_slot <= slot + 1'b1;", "next_slot <= '1;"),
    Bug("a.Data0", "A-8-4", NARROW, "~inner & 8'(WIDE - 1)) >>", "~inner & 8'(WIDE - 1) & 8'd3) >>"),
    Bug("Ready", "FIFO-4-two-clocks", ASYNC_FIFO, "{2'b11, {(LOG - 1) {1'b0}}}", "{(LOG + 1) {1'b1}}"),
    Bug(
        "far_rules.Rules",
        "A-4-2-rules",
        NARROW,
        "assign out_mask    = in_mask[slot*NARROW+:NARROW];",
        "assign out_mask    = '1;",
    ),
    Bug(
        "far_rules.Rules",
        "B-4-2-rules",
        WIDEN,
        "has_data ? byte_out[8] : active",
        "has_data ? byte_out[8] : i < NARROW",
    ),
    Bug(
        "far_rules.Rules",
        "C-2-4-rules",
        CHANNEL,
        "assign far_corrupt = r_corrupt;",
        "assign far_corrupt = far_opcode[1];",
    ),
    Bug(
        "far_rules.Rules",
        "D-4-2-rules",
        CHANNEL,
        "assign far_corrupt = r_corrupt;",
        "assign far_corrupt = far_opcode[1];",
    ),
    Bug(
        "request_rules.SourceBusy",
        "D-4-2-rules",
        NARROW,
        "assign in_ready  = out_ready && last;",
        "assign in_ready  = out_ready && last && begun;",
    ),
    Bug(
        "request_rules.NoRequest", "D-4-2-rules", FIFO, "assign r_valid = w_count != r_count;", "assign r_valid = 1'b1;"
    ),
    Bug(
        "request_rules.SizeMismatch",
        "D-4-2-rules",
        CHANNEL,
        "{near_opcode, near_size, near_head,",
        "{near_opcode, near_has_data ? near_size : SIZE_BITS'(0), near_head,",
    ),
)
QUICK = [bug for bug in BUGS if bug.row == "E-2-2" and bug.assertion in ("e.Invented", "e.Head")]
FRAMES, FRAMES_OF_REFINEMENT = 14, 40  # its reset takes 12


def found(bug: Bug, tmp_path: Path, seconds: int = 600) -> engine.Verdict:
    """The failure of the assertion in the model with the bug. Of the lemmas those about sources are assumed, except for
    what follows from them.
    """
    rtl = tmp_path / "rtl"
    shutil.copytree(RTL, rtl)
    text = (rtl / bug.file).read_text()
    assert text.count(bug.old) == 1, f"the text of the bug is not once in {bug.file}"
    (rtl / bug.file).write_text(text.replace(bug.old, bug.new))
    row = ROW[bug.row]
    refines = isinstance(row, Refinement)
    stage = next((one for one in row.stages if not one.cuts), Stage())
    model, _ = build(recipe_of(row, stage, rtl, tmp_path), None)
    names = [name_of(label) for label in model.labels]
    of_sources = "Source" in bug.assertion or bug.assertion.startswith("request_rules.")
    lemmas = [number for number, name in enumerate(names) if "Source" in name and not of_sources]
    part = step_model(model, [names.index(bug.assertion)], lemmas, tmp_path / "step")
    verdict = engine.bounded(part, 0, FRAMES_OF_REFINEMENT if refines else FRAMES, seconds)
    shutil.rmtree(model.folder)
    assert verdict.kind == engine.FAILS, f"{bug.assertion} does not fail: {verdict}"
    print(f"{bug.assertion} {bug.row}: frame {verdict.frames}, {verdict.seconds:.1f} s")
    return verdict


def test_channel_e_is_proved(tmp_path: Path) -> None:
    needs_tools("yosys", "yosys-abc", "verilator")
    outcome = prove(ROW["E-2-2"], RTL, 2, 300, tmp_path)
    assert outcome.is_complete, outcome.verdicts
    assert line_of(outcome).startswith("| E | 2:2 | 1 | 2 | - | all 5: Corrupt, Early, Head, Invented, Room | - |")
    assert sorted(outcome.proved) == ["e.Corrupt", "e.Early", "e.Head", "e.Invented", "e.Room"]
    assert outcome.reached == outcome.covers >= 3, outcome.not_reached


def test_fifo_keeps_its_contract(tmp_path: Path) -> None:
    """In one clock; with two it takes half a minute."""
    needs_tools("yosys", "yosys-abc")
    outcome = prove(ROW["FIFO-2"], RTL, 2, 300, tmp_path)
    assert outcome.is_complete, outcome.verdicts
    assert sorted(outcome.proved) == ["Ready", "Valid", "bits[0].same.Data"]
    assert outcome.reached == outcome.covers == 2, outcome.not_reached


INDUCTION = """
module small (input wire clock, input wire step);
    logic [3:0] count = 0, twin = 0, lap = 0;
    logic wrong = 1;
    always @(posedge clock) begin
        if (step) {count, twin} <= {count + 4'd1, twin + 4'd1};
        lap <= lap == 9 ? 4'd0 : lap + 4'd1;
        wrong <= wrong;
    end
    always @* begin
        Same: assert (count == twin);
        NotInductive: assert (lap != 13);
        FailsLater: assert (count != 9);
        FailsAtOnce: assert (!wrong);
    end
endmodule
"""


def test_induction_proves_only_what_is_inductive(tmp_path: Path) -> None:
    """An assertion that is true and not inductive, and one that fails later, are open. One that fails at once fails."""
    needs_tools("yosys", "yosys-abc")
    (tmp_path / "small.sv").write_text(INDUCTION)
    model, _ = build(Recipe("small", (), (str(tmp_path / "small.sv"),), free_initial=""), tmp_path / "cache")
    kinds = {
        label: induction(step_model(model, [number], (), tmp_path / label), 0, 1).kind
        for number, label in enumerate(model.labels)
    }
    expected = {"Same": engine.PROVED, "NotInductive": engine.OPEN, "FailsLater": engine.OPEN}
    assert kinds == {**expected, "FailsAtOnce": engine.FAILS}
    both = [model.labels.index(label) for label in ("Same", "NotInductive")]
    assert induction(step_model(model, both, (), tmp_path / "both"), 0, 2).kind == engine.OPEN
    given = step_model(model, both[:1], both[1:], tmp_path / "given")
    assert induction(given, 0, 1).kind == engine.PROVED


@pytest.mark.gate
@pytest.mark.parametrize("bug", QUICK, ids=[one.assertion for one in QUICK])
def test_planted_bug_fails_quickly(bug: Bug, tmp_path: Path) -> None:
    needs_tools("yosys", "yosys-abc", "verilator")
    assert found(bug, tmp_path).frames <= 6


@pytest.mark.long
@pytest.mark.parametrize("bug", BUGS, ids=[f"{one.assertion}-{one.row}" for one in BUGS])
def test_planted_bug_fails(bug: Bug, tmp_path: Path) -> None:
    needs_tools("yosys", "yosys-abc", "verilator")
    found(bug, tmp_path)


@pytest.mark.long
def test_beats_come_on_e(tmp_path: Path) -> None:
    """`Late` and `Ready` are proved, and the line says which of them fails with a smaller bound."""
    needs_tools("yosys", "yosys-abc", "verilator")
    outcome = prove(ROW["E-2-2-within-2"], RTL, 2, 300, tmp_path)
    assert outcome.is_complete and sorted(outcome.proved) == ["e.Late", "e.Ready"], outcome.verdicts
    assert "| all 2: Late, Ready within 2; within 1 not Ready | - |" in line_of(outcome)


@pytest.mark.long
def test_lemmas_and_data_of_d(tmp_path: Path) -> None:
    """D at 4:2: the lemmas about the inside, and then the watch."""
    needs_tools("yosys", "yosys-abc", "verilator")
    outcome = prove(ROW["D-4-2"], RTL, 2, 900, tmp_path)
    assert outcome.is_complete, outcome.verdicts
    assert {"d.Data0", "d.SourceA", "d.SourceD", "d.SourceOne", "d.SourceRoom"} <= set(outcome.proved)


# ---- what a line says, without a tool


def outcome_of(kinds: Sequence[str], row: str = "A-4-2", tried_all: bool = True) -> Outcome:
    verdicts = {f"a.Data{number}": engine.Verdict(kind, 0, 1.0) for number, kind in enumerate(kinds)}
    return Outcome(ROW[row], verdicts, 2.0, ("Data0", 1.0), 3, 4, ["SeesShort"], tried_all)


def test_line_claims_no_more_than_was_proved() -> None:
    proved = [engine.PROVED] * 8
    assert line_of(outcome_of(proved)) == (
        "| A | 4:2 | 1 | 2 | - | all 8: Data0 to Data7 | - | 3 of 4, not SeesShort | 2 | Data0 1 |"
    )
    assert "| a part: Data0 to Data7 |" in line_of(outcome_of(proved, tried_all=False))
    assert "open: Data7" in line_of(outcome_of([*proved[1:], engine.BOUNDED]))
    assert not outcome_of([]).is_complete and not outcome_of([engine.OPEN]).is_complete


def test_line_of_a_bound_is_no_proof() -> None:
    """Only what has all cycles of the row's bound counts, and nothing of it is called proved."""
    row = dataclasses.replace(ROW["A-4-2"], bound=Bound(9, "No invariant was found."))
    enough, fewer = (engine.Verdict(engine.BOUNDED, frames, 1.0) for frames in (9, 8))
    whole = Outcome(row, {"a.Head": enough, "a.Mask": enough}, 2.0, reached=4, covers=4)
    assert whole.is_complete and not whole.proved
    assert "| nothing | 9 cycles, all 2: Head, Mask. No invariant was found. | 4 of 4 | 2 | - |" in line_of(whole)
    part = Outcome(row, {"a.Head": enough, "a.Mask": fewer}, 2.0, reached=4, covers=4)
    assert not part.is_complete and "| a part: nothing; open: Mask | 9 cycles, 1 of 2: Head. " in line_of(part)
    without = Outcome(ROW["A-4-2"], {"a.Head": enough}, 2.0, reached=4, covers=4)
    assert not without.is_complete and "| a part: nothing; open: Head | - |" in line_of(without)


def test_line_of_a_part_names_it() -> None:
    """With the resets or the sizes that its model has."""
    start = "| FIFO and reset | - | 2 | 2 | later resets of each side, `SYNC_STAGES` 3 | a part: nothing |"
    assert line_of(Outcome(ROW["FIFO-2-resets-stages-3"])).startswith(start)
    assert line_of(Outcome(ROW["convert-4-2"])).startswith("| converter | 4:2 | 1 | - | messages up to 8 bytes |")
    assert line_of(Outcome(ROW["links-4-2"])).startswith("| both links | 4:2 | 2 | 2 | all channels, `SYNC_STAGES` 2 |")


# ---- the page


def test_each_row_has_its_line() -> None:
    """The lines of results.md are those of the rows of the script, in the same order, and each row is complete."""
    lines = read_lines()
    assert list(lines) == [row.name for row in ROWS]
    assert len(STORED.read_text().partition("|---|")[2].splitlines()) == len(ROWS) + 1, "a row has two lines"
    for row in ROWS:
        line = lines[row.name]
        start = line_of(Outcome(row)).split(" | a part")[0] + " | "
        assert line.startswith(start), row.name
        proved, bound = line[len(start) :].split(" | ")[:2]
        assert "a part" not in proved and "open" not in proved, row.name
        assert (f" within {row.name[-1]}" in proved) == ("within" in row.name), row.name
        if row.bound:
            assert bound.startswith(f"{row.bound.cycles} cycles, ") and bound.endswith(row.bound.obstacle), row.name
        else:
            assert proved.startswith("all ") and bound == "-", row.name


def test_page_has_the_tables_of_these_lines() -> None:
    """The tables of the page are those that `tools/prove-rtl --table` makes, and the page names what has no row."""
    text = PAGE.read_text()
    assert page_of(text, read_lines()) == text
    for row in OTHER_ROWS:
        assert f"`{row.name}`" in text, row.name
    for what, _ in NOT_TRIED:
        words = re.split(r"[ (,]", what)[0]
        assert words.lower() in text.lower(), what


def stored(widths: str = "4:2", **changes: str) -> Stored:
    """The line of a row, with other values in some columns."""
    line = Stored("A", widths, "1", "2", "-", "all 16: Head, Mask; by 33 lemmas", "-", "9 of 9", "2", "Marks 1")
    return dataclasses.replace(line, **changes)


def test_stored_lines_are_read_again(tmp_path: Path) -> None:
    """They are stored in the order of the rows, below the text of the file."""
    path = tmp_path / "results.md"
    path.write_text("Some text.\n\n| Row |\n")
    lines = {"A-4-2": "| A | 4:2 | 1 |", "A-2-2": "| A | 2:2 | 1 |", "gone": "| A | 2:4 | 1 |"}
    write_lines(lines, ["A-2-2", "A-4-2"], path)
    assert list(read_lines(path).items()) == [("A-2-2", lines["A-2-2"]), ("A-4-2", lines["A-4-2"])]
    assert path.read_text().startswith("Some text.\n\n| Row | Channel | ")


def test_one_line_for_rows_that_differ_in_widths() -> None:
    """It has the range of lemmas and of seconds, the slowest proof, and the widths at which a beat does not arrive."""
    others = {"proved": "all 16: Head, Mask; by 40 lemmas", "kinds": "8 of 9, not SeesLastBeat"}
    rows = [stored("2:2"), stored("8:1", also="messages up to 16 bytes", seconds="9", slowest="Put 4", **others)]
    assert table(rows)[2:] == [
        "| A | 2:2, 8:1 | 1 | 2 | messages up to 16 bytes with a beat of 8 | all 16; by 33 to 40 lemmas | - | "
        "9 of 9; 8 of 9 at 8:1, not SeesLastBeat | 2 to 9 | Put 4 at 8:1 |"
    ]
    assert table([stored()])[2:] == ["| A | 4:2 | 1 | 2 | - | all 16; by 33 lemmas | - | 9 of 9 | 2 | Marks 1 |"]


@pytest.mark.parametrize(
    "changes",
    [
        {"channel": "B"},
        {"clocks": "2"},
        {"depth": "4"},
        {"also": "later resets of the client alone"},
        {"proved": "all 1: Head; by 33 lemmas"},
        {"proved": "all 16: Head, Mask"},
        {"bounded": "8 cycles, all 2: Head, Mask. No invariant was found."},
        {"kinds": "8 of 8"},
    ],
    ids=lambda changes: "-".join(changes),
)
def test_other_rows_have_lines_of_their_own(changes: Dict[str, str]) -> None:
    assert len(table([stored(), stored("2:2", **changes)])) == 4


def test_line_has_no_assertions_of_other_rows() -> None:
    """Assertions that are not those of most rows of the channel are named."""
    rows = [stored(), stored("2:2"), stored("2:4", proved="all 15: Mask; by 33 lemmas")]
    assert [line.split(" | ")[5] for line in table(rows)[2:]] == ["all 16; by 33 lemmas", "all 15: Mask; by 33 lemmas"]


def test_all_pairs_are_named_together() -> None:
    """Up to three that are missing are named."""
    pairs = [f"{client}:{manager}" for client in (1, 2, 4, 8) for manager in (1, 2, 4, 8)]
    assert pairs_text(pairs) == "all 16 pairs up to 8"
    assert pairs_text([pair for pair in pairs if pair != "8:1"]) == "all 16 pairs up to 8 except 8:1"
    assert pairs_text(["4:2", "2:4"]) == "2:4, 4:2"


def test_every_assertion_of_the_watch_has_a_bug() -> None:
    """Each label of sv/tl_bridge_watch.sv is one that a planted bug breaks, or the page says why none does. Helpers
    follow from the others, and no row has them.
    """
    labels = set(re.findall(r"`TL_WATCH_ASSERT\((\w+),", (ROOT / "sv" / "tl_bridge_watch.sv").read_text()))
    labels = {re.sub(r"^Data\d$", "Data0", label) for label in labels if not re.match("Sees|Helper", label)} - {"label"}
    broken = {bug.assertion.partition(".")[2] for bug in BUGS}
    page = PAGE.read_text()
    for label in sorted(labels - broken):
        assert re.search(rf"`{label}`", page), label
