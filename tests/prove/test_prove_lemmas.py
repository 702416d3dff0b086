"""Proofs that assume other assertions: only those that were proved before, on the same model, and with the meaning that
abc gives to constraints.
"""

from pathlib import Path
from typing import Any, Dict, List, Sequence, Tuple

import pytest
from project import needs_tools
from test_prove_parts import a_design, error_of
from test_prove_run import a_session

from tlbridge.prove import engine
from tlbridge.prove.aiger import write_assumed
from tlbridge.prove.engine import BOUNDED, FAILS, OPEN, PROVED, Verdict
from tlbridge.prove.errors import ProveError
from tlbridge.prove.harness import is_helper, is_of_design
from tlbridge.prove.model import Model, Recipe, build
from tlbridge.prove.options import command_line, options_of
from tlbridge.prove.search import FIRST_PROOF_SECONDS, LEMMA, Search
from tlbridge.prove.session import Session

# Three counters: `low` stays below 6, `copy` is `low`, and `high` counts rounds of `low` and reaches 3.
COUNTERS = """module top (input clock, input go);
    reg [2:0] low = 0, copy = 0;
    reg [1:0] high = 0;
    always @(posedge clock) if (go) begin
        low <= low == 5 ? 0 : low + 1;
        copy <= copy == 5 ? 0 : copy + 1;
        if (low == 5 && high != 3) high <= high + 1;
    end
    always @* begin
        Bound: assert (low < 6);
        High: assert (high != 3);
        Same: assert (low == copy);
        Wrong: assert (low != 4 || !go);
        End: assert (high != 3 || low < 4);
    end
endmodule
"""


@pytest.fixture(scope="module")
def counters(tmp_path_factory: pytest.TempPathFactory) -> Model:
    needs_tools("yosys", "yosys-abc")
    folder = tmp_path_factory.mktemp("counters")
    (folder / "top.sv").write_text(COUNTERS)
    made, _ = build(Recipe("top", (), (str(folder / "top.sv"),), free_initial=""), folder / "cache")
    return made


def at(made: Model, *names: str) -> Tuple[int, ...]:
    """Returns the numbers of assertions."""
    return tuple(made.labels.index(name) for name in names)


def asked(made: Model, name: str, *assumed: str) -> Tuple[str, int]:
    found = engine.unbounded(made, made.labels.index(name), 20, assumed=at(made, *assumed))
    return found.kind, found.frames


@pytest.mark.simulator
def test_a_failure_stays_one_under_what_is_proved(counters: Model) -> None:
    """Proved assertions exclude no run: what fails without them fails with them, in the same cycle."""
    known = [name for name in ("Bound", "Same") if name in counters.labels]
    assert known and all(asked(counters, name) == (PROVED, 0) for name in known)
    for name in ("High", "Wrong"):
        alone = asked(counters, name)
        assert alone[0] == FAILS and asked(counters, name, *known) == alone


@pytest.mark.simulator
def test_what_is_assumed_holds_in_each_run(counters: Model) -> None:
    """Under an assertion that fails, the runs end before its failure, so other assertions hold. The constraints have
    this meaning and not the opposite one: under High, End holds, and without it End fails.
    """
    assert asked(counters, "End")[0] == FAILS
    assert asked(counters, "End", "High") == (PROVED, 0)
    assert asked(counters, "High", "Wrong") == (PROVED, 0)  # `low` never passes 4
    assert asked(counters, "Wrong", "High")[0] == FAILS


@pytest.mark.simulator
def test_two_assertions_at_once_under_another(counters: Model) -> None:
    """A proof is one of both, and a failure may be one of either."""
    high = counters.labels.index("High")
    assert counters.labels[high - 1] == "End"
    assert engine.unbounded(counters, high, 20, True, at(counters, "Wrong")).kind == PROVED
    assert engine.unbounded(counters, high, 20, True, at(counters, "Bound")).kind == FAILS


@pytest.mark.parametrize("text", (b"", b"aag 1 1 0 1 0\n2\n2\n", b"aig 1 1 0 0 0 1 1\n2\n3\n", b"aig 1 1 0 x 0\n"))
def test_a_file_that_is_no_model_is_refused(text: bytes, tmp_path: Path) -> None:
    (tmp_path / "small.aig").write_bytes(text)
    with pytest.raises(ProveError, match="small.aig is not a model as abc writes it: nothing is proved") as error:
        write_assumed(tmp_path / "small.aig", tmp_path / "assumed.aig", [0], [])
    assert error.value.status == 4


def test_the_outputs_of_a_rewritten_model(tmp_path: Path) -> None:
    """The registers and gates stay, an output becomes a bad state, and the negation of another one a constraint."""
    (tmp_path / "small.aig").write_bytes(b"aig 3 1 1 3 1\n6\n2\n5\n0\n\x01\x02comment\n")
    write_assumed(tmp_path / "small.aig", tmp_path / "new.aig", [1], [2, 0])
    assert (tmp_path / "new.aig").read_bytes() == b"aig 3 1 1 0 1 1 2\n6\n5\n1\n3\n\x01\x02comment\n"


# ---- the rounds, with made-up answers

LABELS = (
    "watch.SourceA",
    "watch.SourceOne",
    "watch.d.watch.Data0",
    "watch.d.watch.Head",
    "watch.d.watch.Mask",
)
Answer = Dict[str, Tuple[str, Tuple[str, ...]]]  # the verdict of an assertion if these are assumed, otherwise OPEN


def rounds(
    folder: Path, monkeypatch: pytest.MonkeyPatch, answers: Answer, **words: Any
) -> Tuple[List[Tuple[str, int, Tuple[str, ...]]], Search]:
    """Proves all labels with these answers. Returns the questions about the smaller model, and the search."""
    given: Dict[str, Any] = {"seconds": 50, "unbounded": True, **words}
    made = a_session(folder, LABELS, **given)
    small = Model(folder / "small", ("dut.fifo.Order", "watch.HelperRequest", *LABELS))
    questions: List[Tuple[str, int, Tuple[str, ...]]] = []

    def unbounded(
        model: Model, index: int, seconds: int, with_previous: bool = False, assumed: Sequence[int] = ()
    ) -> Verdict:
        name = model.labels[index].rpartition(".")[2]
        names = tuple(model.labels[one].rpartition(".")[2] for one in assumed)
        if model is small:
            questions.append((name, seconds, names))
        kind, needed = answers.get(name, (OPEN, ()))
        return Verdict(kind if set(needed) <= set(names) else OPEN, 0, 0.5)

    monkeypatch.setattr(engine, "unbounded", unbounded)
    monkeypatch.setattr(engine, "bounded", lambda model, index, frames, seconds: Verdict(BOUNDED, frames, 0.1))
    monkeypatch.setattr(Session, "build_small", lambda _, letter: {"D": small}[letter])
    made.harness = made.harness.__class__("", "D", {}, {}, (), ())
    search = Search(made)
    search.run(range(len(LABELS)))
    return questions, search


def test_a_proof_assumes_what_was_proved_before(tmp_path: Path, monkeypatch: pytest.MonkeyPatch) -> None:
    """Data0 needs Head and a helper, which needs SourceOne. It is asked again with them. The assertions of the design
    are proved first, and the helpers of the watch only if the first round leaves something open.
    """
    answers: Answer = {
        "Order": (PROVED, ()),
        "SourceA": (PROVED, ()),
        "SourceOne": (PROVED, ("SourceA",)),
        "HelperRequest": (PROVED, ("SourceOne",)),
        "Data0": (PROVED, ("HelperRequest", "Head")),
        "Head": (PROVED, ()),
        "Mask": (PROVED, ("Data0",)),
    }
    questions, search = rounds(tmp_path, monkeypatch, answers)
    kinds = [search.verdicts[at].kind for at in range(len(LABELS))]
    assert kinds == [PROVED, PROVED, PROVED, PROVED, BOUNDED]  # a proof never assumes Data0
    names = [name for name, _, _ in questions]
    assert names[:6] == ["Order", "SourceA", "SourceOne", "Head", "Data0", "Mask"]  # lemmas first
    assert names[6:] == ["HelperRequest", "Data0", "Mask"]
    proved: List[str] = []
    for name, seconds, assumed in questions:
        assert set(assumed) <= set(proved) and name not in assumed
        proved += [name] if set(answers[name][1]) <= set(assumed) else []
        assert seconds in (FIRST_PROOF_SECONDS, 50)
    assert [seconds for name, seconds, _ in questions if name == "Data0"] == [FIRST_PROOF_SECONDS, 50]


def test_what_is_open_or_fails_is_never_assumed(tmp_path: Path, monkeypatch: pytest.MonkeyPatch) -> None:
    """The search ends as soon as nothing new is proved, and each question is asked once in a round."""
    questions, search = rounds(tmp_path, monkeypatch, {"SourceA": (FAILS, ()), "Head": (OPEN, ())})
    assert all(assumed == () for _, _, assumed in questions)
    assert [search.verdicts[at].kind for at in range(len(LABELS))] == [FAILS, BOUNDED, BOUNDED, BOUNDED, BOUNDED]
    later = [name for name, seconds, _ in questions if seconds == 50]
    assert sorted(later) == ["Data0", "Head", "HelperRequest", "Mask", "Order", "SourceOne"]
    assert len(questions) == 6 + len(later)


def test_a_short_limit_has_one_round(tmp_path: Path, monkeypatch: pytest.MonkeyPatch) -> None:
    """If the command line gives less time than the first round has, nothing is asked twice without a new lemma."""
    questions, _ = rounds(tmp_path, monkeypatch, {}, seconds=7)
    assert sorted(questions) == [(name, 7, ()) for name in sorted({name for name, _, _ in questions})]


def test_helpers_are_not_needed_if_all_is_proved_at_once(tmp_path: Path, monkeypatch: pytest.MonkeyPatch) -> None:
    names = [label.rpartition(".")[2] for label in LABELS]
    questions, search = rounds(tmp_path, monkeypatch, {name: (PROVED, ()) for name in names})
    assert {name for name, _, _ in questions} == {"Order", *names} and len(questions) == 6
    assert {search.verdicts[at].kind for at in range(len(LABELS))} == {PROVED}


def test_lemmas_are_small() -> None:
    """Assertions about data and masks would make each model larger, so no proof assumes them."""
    assert [name for name in ("d.Head", "a.Early", "d.SourceOne", "d.HelperAligned") if not LEMMA.search(name)] == []
    assert [name for name in ("d.Data0", "a.Mask", "a.Lanes", "d.Corrupt", "a.Late") if LEMMA.search(name)] == []
    assert is_helper("watch.HelperAligned") and is_helper("dut.fifo.Order") and not is_helper("watch.d.watch.Head")


# ---- assertions in the design

DESIGN = """module part (input clock, input go, output reg [2:0] low);
    always @(posedge clock) if (go) low <= low == 5 ? 0 : low + 1;
    initial low = 0;
    always @* Bound: assert (low < 6);
    always @* assert (low != 7);
    always @* assume (!go);
endmodule
"""
PROOF = """module top (input clock, input go);
    wire [2:0] low;
    part dut (.clock(clock), .go(go), .low(low));
    always @* Moves: assert (low != 3);
endmodule
"""


@pytest.mark.simulator
@pytest.mark.parametrize("design_asserts", (False, True))
def test_assertions_in_the_design(design_asserts: bool, tmp_path: Path) -> None:
    """They are in the model if they are asked for, with or without a label. Assumptions never are, so `low` moves."""
    needs_tools("yosys", "yosys-abc")
    (tmp_path / "part.sv").write_text(DESIGN)
    (tmp_path / "proof.sv").write_text(PROOF)
    files = (str(tmp_path / "part.sv"),), (str(tmp_path / "proof.sv"),)
    made, _ = build(Recipe("top", *files, free_initial="", design_asserts=design_asserts), tmp_path / "cache")
    helpers = [label for label in made.labels if is_helper(label)]
    assert asked(made, "Moves") == (FAILS, 3)
    if not design_asserts:
        assert made.labels == ("Moves",)
        return
    assert len(made.labels) == 3 and len(helpers) == 2 and "dut.Bound" in helpers
    assert all(map(is_of_design, helpers)) and not is_of_design("Moves") and not is_of_design("watch.HelperAligned")
    assert all(asked(made, label) == (PROVED, 0) for label in helpers)
    assert asked(made, "Moves", *helpers) == (FAILS, 3)


def test_the_option_lemmas(tmp_path: Path, monkeypatch: pytest.MonkeyPatch, capsys: pytest.CaptureFixture[str]) -> None:
    """Only the smaller models have the design's assertions. It needs --unbounded, and says if there are none."""
    built: List[Tuple[Any, ...]] = []

    def build_one(_: Session, harness: Any, *words: Any) -> Model:
        built.append(words)
        return Model(tmp_path / "small", LABELS)

    monkeypatch.setattr(Session, "build", build_one)
    for lemmas in (False, True):
        Search(a_session(tmp_path, LABELS, lemmas=lemmas)).smaller([0])
    assert built == [("smaller model of D",), ("smaller model of D", True)]
    assert capsys.readouterr().out.startswith("  --lemmas: there is no assertion in the design, ")
    words = command_line().parse_args(["dut.sv", "--top", "dut", "--lemmas"])
    error, status = error_of(options_of, words, a_design())
    assert error.endswith("add --unbounded") and status == 2
