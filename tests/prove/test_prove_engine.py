"""The parts of tlbridge-prove that decide what is claimed, without yosys: verdicts, dead tools, models, clocks."""

import argparse
import json
import os
import stat
import time
from pathlib import Path
from typing import Any, Dict, List, Sequence, Tuple

import pytest

from tlbridge.prove import engine, model, netlist, sizes, user_bits
from tlbridge.prove.clocks import line_of, settle_clocks
from tlbridge.prove.covers import check_needed, reach
from tlbridge.prove.engine import BOUNDED, FAILS, OPEN, PROVED, Verdict
from tlbridge.prove.errors import ProveError
from tlbridge.prove.failure import sends_offered
from tlbridge.prove.harness import Harness, Options, spread, write_harness
from tlbridge.prove.model import Model, short_name
from tlbridge.prove.report import Progress, words_of
from tlbridge.prove.search import Search
from tlbridge.prove.session import Session
from tlbridge.verify.design import Design, Port, Signal, Source, find_links

VERIFIED = "Verification of invariant with 42 clauses was successful.  Time = 0.01 sec\n"
LABELS = ("watch.a.watch.Data0", "watch.a.watch.SeesBeat", "watch.a.watch.SeesByte")


@pytest.fixture
def fake_abc(tmp_path: Path, monkeypatch: pytest.MonkeyPatch) -> Path:
    """The path of a script that takes the place of yosys-abc; a test writes it."""
    path = tmp_path / "bin" / "yosys-abc"
    path.parent.mkdir()
    path.write_text("#!/bin/sh\n")
    path.chmod(path.stat().st_mode | stat.S_IXUSR)
    monkeypatch.setenv("PATH", f"{path.parent}:/usr/bin:/bin")
    return path


def a_model(folder: Path) -> Model:
    return Model(folder, LABELS)


@pytest.mark.parametrize(
    "said, kind, frames",
    [
        (VERIFIED + "Property proved.  Time = 2.05 sec", PROVED, 0),
        ("Property proved.  Time = 2.05 sec", OPEN, 0),  # the invariant was not verified
        (VERIFIED, OPEN, 0),
        ("Verification of invariant with 42 clauses failed.\nProperty proved.", OPEN, 0),
        ('Output 0 of miter "small" was asserted in frame 5. Time = 0.1 sec', FAILS, 5),
        (VERIFIED + 'Property proved.\nOutput 0 of miter "m" was asserted in frame 0.', FAILS, 0),
        ("No output asserted in 3 frames.\nNo output asserted in 12 frames. Resource limit reached", BOUNDED, 12),
        ("Networks are equivalent.", OPEN, 0),
        ("", OPEN, 0),
    ],
)
def test_verdict(said: str, kind: str, frames: int) -> None:
    found = engine.verdict(said, 1.0)
    assert (found.kind, found.frames) == (kind, frames)


@pytest.mark.parametrize(
    "end, how",
    [
        ("kill -9 $$", "was ended by signal 9"),
        ("exit 0", "ended with status 0"),  # without its last word
        ("echo tlbridge-prove-has-ended; exit 1", "ended with status 1"),
        ("echo tlbridge-prove-has-ended; kill -11 $$", "was ended by signal 11"),
    ],
)
def test_solver_that_dies_proves_nothing(end: str, how: str, fake_abc: Path, tmp_path: Path) -> None:
    """abc prints a whole proof, and then does not end as it should."""
    fake_abc.write_text(f"#!/bin/sh\nprintf '{VERIFIED.strip()}\\nProperty proved.\\n'\n{end}\n")
    with pytest.raises(ProveError) as error:
        engine.unbounded(a_model(tmp_path), 0, 1)
    assert error.value.status == 4
    assert how in str(error.value) and "nothing is claimed" in str(error.value)


def test_solver_that_ends_proves(fake_abc: Path, tmp_path: Path) -> None:
    fake_abc.write_text(
        f"#!/bin/sh\nprintf '{VERIFIED.strip()}\\nProperty proved.\\n'\necho tlbridge-prove-has-ended\n"
    )
    assert engine.unbounded(a_model(tmp_path), 0, 1).kind == PROVED


def test_solver_that_reaches_its_limit_proves_nothing(
    fake_abc: Path, tmp_path: Path, monkeypatch: pytest.MonkeyPatch
) -> None:
    """abc runs on after twice the time of its search, and at least a minute more. The system ends it, so the assertion
    keeps its bound, whatever abc has printed.
    """
    fake_abc.write_text(f"#!/bin/sh\nprintf '{VERIFIED.strip()}\\nProperty proved.\\n'\nwhile :; do :; done\n")
    monkeypatch.setattr(engine, "MORE_SECONDS", 1)
    found = engine.unbounded(a_model(tmp_path), 0, 0)
    assert (found.kind, found.frames) == (OPEN, 0) and 0.5 < found.seconds < 20


@pytest.mark.parametrize("seconds, limit", [(10, 70), (300, 600)])
def test_limit_of_a_question(seconds: int, limit: int, fake_abc: Path, tmp_path: Path) -> None:
    """The search has the seconds of the question, and the whole tool twice that or a minute more."""
    given = "while [ $(ulimit -t) = unlimited ]; do sleep 0.01; done; ulimit -t"  # it is set after the start
    fake_abc.write_text(f'#!/bin/sh\necho "$2" > {tmp_path}/asked\n{given} >> {tmp_path}/asked\n')
    with pytest.raises(ProveError):
        engine.bounded(a_model(tmp_path), 0, 9, seconds)
    asked, seen = (tmp_path / "asked").read_text().splitlines()
    assert f"bmc3 -F 9 -T {seconds};" in asked and int(seen) == limit


def test_two_assertions_at_once(fake_abc: Path, tmp_path: Path) -> None:
    """abc gets both outputs as one, so that a proof is one of each."""
    fake_abc.write_text(f'#!/bin/sh\necho "$2" > {tmp_path}/asked\necho tlbridge-prove-has-ended\n')
    engine.unbounded(a_model(tmp_path), 2, 7, True)
    assert "cone -s -O 1 -R 2; orpos; scorr; dc2; pdr -T 7" in (tmp_path / "asked").read_text()
    engine.unbounded(a_model(tmp_path), 2, 7)
    assert "cone -s -O 2; scorr" in (tmp_path / "asked").read_text()


def test_one_dead_solver_ends_the_run(fake_abc: Path, tmp_path: Path) -> None:
    """The verdicts of other assertions that come later are not claimed either."""
    fake_abc.write_text("#!/bin/sh\ncase $2 in *'-O 1'*) kill -9 $$ ;; esac\necho tlbridge-prove-has-ended\n")
    questions = [(number, lambda number=number: engine.bounded(a_model(tmp_path), number, 3, 1)) for number in range(3)]
    with pytest.raises(ProveError):
        list(engine.in_parallel(1, questions))


def test_error_ends_the_tools_that_run(fake_abc: Path, tmp_path: Path) -> None:
    """One abc dies while another one has hours to go."""
    fake_abc.write_text(
        f"#!/bin/sh\ncase $2 in *'-O 1'*) while [ ! -s {tmp_path}/id ]; do sleep 0.01; done; kill -9 $$ ;; esac\n"
        f"echo $$ > {tmp_path}/id\nexec sleep 3600\n"
    )
    questions = [(number, lambda number=number: engine.bounded(a_model(tmp_path), number, 3, 1)) for number in range(4)]
    began = time.monotonic()
    with pytest.raises(ProveError, match="ended by signal 9"):
        list(engine.in_parallel(2, questions))
    assert time.monotonic() - began < 600
    with pytest.raises(ProcessLookupError):
        os.kill(int((tmp_path / "id").read_text()), 0)


def test_progress_without_a_terminal(monkeypatch: pytest.MonkeyPatch, capsys: pytest.CaptureFixture[str]) -> None:
    """A note each half minute, with the time since the run began."""
    times = [100.0]
    monkeypatch.setattr(time, "monotonic", lambda: times[0])
    shown = Progress()
    for second in range(100, 192):
        times[0] = float(second)
        shown.show("proofs: 3 of 32")
    said = capsys.readouterr()
    assert said.out == ""
    assert said.err.splitlines() == [f"tlbridge-prove: proofs: 3 of 32, {seconds} s so far" for seconds in (30, 60, 90)]


def test_progress_while_nothing_ends(fake_abc: Path, tmp_path: Path) -> None:
    """A question that takes long has a tick each second."""
    fake_abc.write_text("#!/bin/sh\nsleep 2.5\necho tlbridge-prove-has-ended\n")
    ticks: List[int] = []
    questions = [(7, lambda: engine.bounded(a_model(tmp_path), 0, 3, 1))]
    found = list(engine.in_parallel(1, questions, lambda: ticks.append(1)))
    assert [number for number, _ in found] == [7] and len(ticks) >= 2


def test_missing_solver(tmp_path: Path, monkeypatch: pytest.MonkeyPatch) -> None:
    monkeypatch.setenv("PATH", str(tmp_path))
    with pytest.raises(ProveError, match="yosys-abc was not found in PATH: install it") as error:
        engine.bounded(a_model(tmp_path), 0, 3, 1)
    assert error.value.status == 4


def test_model_without_assertions(tmp_path: Path) -> None:
    (tmp_path / "labels").write_text("\n")
    with pytest.raises(ProveError, match="the model has no assertion: nothing is proved") as error:
        model._read(tmp_path)
    assert error.value.status == 4


def test_simplification_that_dies_leaves_no_model(fake_abc: Path, tmp_path: Path) -> None:
    (tmp_path / "small.aig").write_text("from before")
    for end in ("echo simplified; kill -9 $$", "echo simplified; echo 'i/o = 1/ 2'", "echo 'i/o = 1/ 3'", ""):
        fake_abc.write_text(f"#!/bin/sh\n{end}\n")
        with pytest.raises(ProveError, match="nothing is proved") as error:
            model.simplify(tmp_path, 3)
        assert error.value.status == 4


# ---- assumptions that exclude everything


def a_session(verdicts: Dict[str, str], monkeypatch: pytest.MonkeyPatch, folder: Path) -> Session:
    """A session with a model of three labels, for each of which abc finds what `verdicts` says."""
    made = Session.__new__(Session)
    made.words = argparse.Namespace(reset_cycles=1, jobs=1, only="", cycles=20, lemmas=False)
    made.options = Options()
    made.frames = 21
    made.shown = Progress()
    made.model = a_model(folder)
    kinds = {number: verdicts[label.rpartition(".")[2]] for number, label in enumerate(LABELS)}
    monkeypatch.setattr(engine, "bounded", lambda _, index, frames, seconds: an_end(kinds[index], frames))
    return made


def an_end(kind: str, frames: int) -> Verdict:
    """A failure in frame 3, or a search to the end."""
    return Verdict(kind, 3 if kind == FAILS else frames, 0.1)


def test_no_beat_can_arrive(tmp_path: Path, monkeypatch: pytest.MonkeyPatch) -> None:
    made = a_session({"Data0": BOUNDED, "SeesBeat": BOUNDED, "SeesByte": BOUNDED}, monkeypatch, tmp_path)
    with pytest.raises(ProveError, match="nothing is proved: no beat of channel A can arrive") as error:
        reach(made)
    assert error.value.status == 2


def test_kinds_that_do_not_arrive_are_named(
    tmp_path: Path, monkeypatch: pytest.MonkeyPatch, capsys: pytest.CaptureFixture[str]
) -> None:
    reach(a_session({"Data0": BOUNDED, "SeesBeat": FAILS, "SeesByte": BOUNDED}, monkeypatch, tmp_path))
    said = capsys.readouterr().out
    assert "1 of 2 kinds of beats arrive" in said
    assert "not seen on A in up to 16 cycles, so nothing is said of it: a byte of data" in said


def test_assumptions_that_end_time(tmp_path: Path, monkeypatch: pytest.MonkeyPatch) -> None:
    """Beats arrive, but no run goes on to the last cycle: then everything would hold."""
    made = a_session({"Data0": BOUNDED, "SeesBeat": FAILS, "SeesByte": FAILS}, monkeypatch, tmp_path)
    made.model = Model(tmp_path, (*LABELS, "SeesTime"))
    kinds = {0: BOUNDED, 1: FAILS, 2: FAILS, 3: BOUNDED}
    monkeypatch.setattr(engine, "bounded", lambda _, index, frames, seconds: an_end(kinds[index], frames))
    with pytest.raises(ProveError, match="the assumptions exclude every run of 16 cycles") as error:
        reach(made)
    assert error.value.status == 2


@pytest.mark.parametrize(
    "label, what", [(LABELS[1], "a run with a beat of channel A"), ("SeesTime", "a run of 16 cycles")]
)
def test_search_for_a_beat_that_takes_too_long(label: str, what: str) -> None:
    """That is not the same as an assumption that excludes every beat."""
    found = {LABELS[1]: Verdict(FAILS, 3, 0.1), "SeesTime": Verdict(FAILS, 3, 0.1)}
    check_needed(found, 17, "16 cycles")
    found[label] = Verdict(BOUNDED, 5, 120.0)
    with pytest.raises(ProveError, match=f"nothing is proved: {what} was not found in 120 seconds. Make the") as error:
        check_needed(found, 17, "16 cycles")
    assert error.value.status == 2
    found[LABELS[2]] = Verdict(FAILS, 4, 0.1)
    if label != "SeesTime":  # another beat of the channel was found
        check_needed(found, 17, "16 cycles")


def test_channel_whose_covers_yosys_removes(
    tmp_path: Path, monkeypatch: pytest.MonkeyPatch, capsys: pytest.CaptureFixture[str]
) -> None:
    """A cover that cannot be reached at all is a constant, which is not in the model: it counts as not seen."""
    made = a_session({"Data0": BOUNDED, "SeesBeat": FAILS, "SeesByte": FAILS}, monkeypatch, tmp_path)
    made.model = Model(tmp_path, LABELS, ("watch.a.watch.SeesShort", "watch.a.watch.Zeros"))
    reach(made)
    assert "2 of 3 kinds of beats arrive\n  not seen on A" in capsys.readouterr().out
    made.model = Model(tmp_path, LABELS, ("watch.d.watch.SeesBeat", "watch.d.watch.SeesByte"))
    with pytest.raises(ProveError, match="nothing is proved: no beat of channel D can arrive") as error:
        reach(made)
    assert error.value.status == 2


@pytest.mark.parametrize(
    "name, last, option, hint",
    [
        ("a.Invented", {"free_client_a_valid": 1}, False, True),
        ("d.SourceA", {"free_client_a_valid": 1}, False, True),
        ("d.Early", {"free_manager_d_valid": 1}, False, True),
        ("a.Invented", {"free_client_a_valid": 0}, False, False),  # nothing is offered that it could have sent
        ("a.Invented", {"free_client_a_valid": 1}, True, False),
        ("a.Data0", {"free_client_a_valid": 1}, False, False),
    ],
)
def test_hint_to_forwards_offered(name: str, last: Dict[str, int], option: bool, hint: bool) -> None:
    assert sends_offered(Options(forwards_offered=option), name, last) == hint


def test_no_assertion_of_that_name(tmp_path: Path, monkeypatch: pytest.MonkeyPatch) -> None:
    made = a_session({"Data0": BOUNDED, "SeesBeat": FAILS, "SeesByte": FAILS}, monkeypatch, tmp_path)
    assert made.chosen() == [0]
    made.words.only = "b.Data"
    with pytest.raises(
        ProveError, match="no assertion of the model has such a name. There are a.Data0: nothing is proved"
    ):
        made.chosen()


@pytest.mark.parametrize(
    "found, words",
    [
        (Verdict(PROVED, 0, 1.0), "proved"),
        (Verdict(BOUNDED, 21, 1.0), "no counterexample in 20 cycles"),
        (Verdict(OPEN, 0, 1.0), "no counterexample in 0 cycles"),
        (Verdict(FAILS, 4, 1.0), "fails in cycle 3"),
    ],
)
def test_words(found: Verdict, words: str) -> None:
    assert words_of(found, Options()) == words


# ---- the steps of --unbounded


def test_smaller_model_assumes_less(tmp_path: Path, monkeypatch: pytest.MonkeyPatch) -> None:
    """It has one channel, and only the rules about it and about the watched source."""
    made = a_session(dict.fromkeys(("Data0", "SeesBeat", "SeesByte"), FAILS), monkeypatch, tmp_path)
    made.design, _ = a_design()
    texts: List[str] = []

    def build(harness: Harness, _: str) -> Model:
        texts.append(harness.text)
        return made.model

    monkeypatch.setattr(made, "build", build)
    assert made.build_small("D") is made.model
    for words in ("CHANNELS(5'd8)", "ALL_SOURCES(1'b0)", "ALL_CHANNELS(1'b0)", "COVERS(1'b0)"):
        assert f".{words}" in texts[0]


def a_search(
    monkeypatch: pytest.MonkeyPatch, folder: Path, small: Verdict, whole: Verdict, later: Verdict
) -> List[Tuple[str, str]]:
    """The questions about one assertion, in which model and of which kind; and its verdict as the last one. `later` is
    the end of the search for counterexamples in the smaller model.
    """
    made = a_session(dict.fromkeys(("Data0", "SeesBeat", "SeesByte"), BOUNDED), monkeypatch, folder)
    made.words = argparse.Namespace(
        reset_cycles=1, jobs=1, only="", cycles=20, unbounded=True, seconds=9, keep_going=False, lemmas=False
    )
    made.harness = Harness("", "A", {}, {}, (), ())
    asked: List[Tuple[str, str]] = []
    models = {"whole": made.model, "small": Model(folder / "small", LABELS)}

    def ask(kind: str, found: Dict[str, Verdict]) -> Any:
        def answer(model: Model, index: int, *more: int) -> Verdict:
            name = next(name for name, one in models.items() if one is model)
            asked.append((name, f"{kind} {more[0]}"))
            return found[name]

        return answer

    monkeypatch.setattr(made, "build_small", lambda letter: models["small"])
    monkeypatch.setattr(engine, "bounded", ask("bounded", {"whole": Verdict(BOUNDED, 9, 0.1), "small": later}))
    monkeypatch.setattr(engine, "unbounded", ask("unbounded", {"small": small, "whole": whole}))
    search = Search(made)
    search.run([0])
    found = search.verdicts[0]
    return [*asked, ("verdict", f"{found.kind} {found.frames}" if found.kind == BOUNDED else found.kind)]


PROOFS = [("small", "unbounded 9"), ("whole", "unbounded 9")]


@pytest.mark.parametrize(
    "small, whole, later, asked",
    [
        (PROVED, OPEN, BOUNDED, [*PROOFS[:1], ("verdict", PROVED)]),
        (FAILS, PROVED, BOUNDED, [*PROOFS, ("verdict", PROVED)]),
        (FAILS, FAILS, BOUNDED, [*PROOFS, ("verdict", FAILS)]),
        (OPEN, PROVED, BOUNDED, [*PROOFS[:1], ("small", "bounded 21"), ("verdict", "bounded 14")]),
        (FAILS, OPEN, BOUNDED, [*PROOFS, ("small", "bounded 21"), ("verdict", "bounded 14")]),
        # a counterexample in the smaller model is none in the whole one, which has a bound of 9
        (OPEN, OPEN, FAILS, [*PROOFS[:1], ("small", "bounded 21"), ("whole", "bounded 21"), ("verdict", "bounded 9")]),
        # abc is ended before it prints a bound: the one of the first step holds
        (OPEN, OPEN, OPEN, [*PROOFS[:1], ("small", "bounded 21"), ("verdict", "bounded 9")]),
    ],
)
def test_a_failure_in_the_smaller_model_is_none(
    small: str, whole: str, later: str, asked: List[Tuple[str, str]], tmp_path: Path, monkeypatch: pytest.MonkeyPatch
) -> None:
    """The smaller model assumes less, so a proof or a bound in it counts, and a counterexample in it does not."""
    ends = Verdict(later, {BOUNDED: 14, FAILS: 6, OPEN: 0}[later], 0.1)
    found = a_search(monkeypatch, tmp_path, Verdict(small, 4, 0.1), Verdict(whole, 5, 0.1), ends)
    assert found == [("whole", "bounded 9"), *asked]


@pytest.mark.parametrize(
    "cycles, words, later",
    [
        (20, {"unbounded": False, "keep_going": True}, [("bounded", 0, 21, 300)]),
        (20, {"unbounded": True, "keep_going": True}, [("prove", 0, 0, 0), ("bounded", 0, 21, 300)]),
        (20, {"unbounded": False, "keep_going": False}, []),
        (20, {"unbounded": True, "keep_going": False}, []),
        (8, {"unbounded": True, "keep_going": True}, [("prove", 0, 0, 0)]),
        (8, {"unbounded": False, "keep_going": False}, []),
    ],
)
def test_short_counterexamples_come_first(
    cycles: int,
    words: Dict[str, bool],
    later: List[Tuple[str, int, int, int]],
    tmp_path: Path,
    monkeypatch: pytest.MonkeyPatch,
    capsys: pytest.CaptureFixture[str],
) -> None:
    """Each assertion is searched in 8 cycles before one is in all cycles. After a failure the run ends, and each
    assertion has the verdict that it has by then.
    """
    made = a_session(dict.fromkeys(("Data0", "SeesBeat", "SeesByte"), BOUNDED), monkeypatch, tmp_path)
    made.model = Model(tmp_path, ("watch.a.watch.Data0", "watch.d.watch.Head"))
    made.frames = cycles + 1
    made.words = argparse.Namespace(reset_cycles=1, jobs=1, seconds=300, **words)
    asked: List[Tuple[str, int, int, int]] = []

    def ask(model: Model, index: int, frames: int, seconds: int) -> Verdict:
        asked.append(("bounded", index, frames, seconds))
        return an_end(FAILS if index else BOUNDED, frames)

    def prove(index: int) -> Verdict:
        asked.append(("prove", index, 0, 0))
        return Verdict(OPEN, 0, 0.1)

    monkeypatch.setattr(engine, "bounded", ask)
    search = Search(made)
    monkeypatch.setattr(search, "smaller", lambda indices: {})
    monkeypatch.setattr(search, "prover", lambda small: prove)
    search.run([0, 1])
    limit = 300 if cycles == 8 and not words["unbounded"] else 20
    assert asked == [("bounded", 0, 9, limit), ("bounded", 1, 9, limit), *later]
    bound = 21 if later and later[-1][0] == "bounded" else 9
    assert search.verdicts == {0: Verdict(BOUNDED, bound, 0.1), 1: Verdict(FAILS, 3, 0.1)}
    assert search.first_failure() == 1
    said = capsys.readouterr().out
    assert f"a.Data0          no counterexample in {bound - 1} cycles" in said and "d.Head           fails in" in said


def test_the_cause_comes_first(tmp_path: Path, monkeypatch: pytest.MonkeyPatch) -> None:
    """If several assertions fail in the same cycle, the counterexample is of the cause."""
    made = a_session(dict.fromkeys(("Data0", "SeesBeat", "SeesByte"), BOUNDED), monkeypatch, tmp_path)
    names = ("watch.SourceA", "watch.d.watch.Data0", "watch.d.watch.Early", "watch.a.watch.Head")
    made.model = Model(tmp_path, names)
    search = Search(made)
    search.verdicts = {index: Verdict(FAILS, 4, 0.1) for index in range(3)}
    assert search.first_failure() == 2
    search.verdicts[3] = Verdict(FAILS, 3, 0.1)
    assert search.first_failure() == 3
    search.verdicts = {0: Verdict(FAILS, 4, 0.1), 1: Verdict(FAILS, 4, 0.1), 3: Verdict(PROVED, 0, 0.1)}
    assert search.first_failure() == 1


def test_source_room_is_proved_with_source_one(tmp_path: Path, monkeypatch: pytest.MonkeyPatch) -> None:
    """It follows from SourceOne. If the two fail together in the smaller model, it is tried alone in the whole one."""
    labels = ("watch.SourceOne", "watch.SourceRoom")
    made = a_session(dict.fromkeys(("Data0", "SeesBeat", "SeesByte"), BOUNDED), monkeypatch, tmp_path)
    made.words = argparse.Namespace(seconds=9, lemmas=False)
    made.harness = Harness("", "D", {}, {}, (), ())
    made.model, small = Model(tmp_path, labels), Model(tmp_path / "small", labels)
    monkeypatch.setattr(made, "build_small", lambda letter: small)
    asked: List[Tuple[bool, int, bool]] = []

    def ask(
        model: Model, index: int, seconds: int, with_previous: bool = False, assumed: Sequence[int] = ()
    ) -> Verdict:
        asked.append((model is small, index, with_previous))
        return Verdict(FAILS if model is small else PROVED, 3, 0.5)

    monkeypatch.setattr(engine, "unbounded", ask)
    search = Search(made)
    prove = search.prover(search.smaller([0, 1]))
    assert prove(1) == Verdict(PROVED, 3, 1.0) and asked == [(True, 1, True), (False, 1, False)]
    asked.clear()
    assert prove(0).kind == PROVED and asked == [(True, 0, False), (False, 0, False)]


# ---- user bits, later resets, memories


def a_design(**names: Tuple[int, str]) -> Tuple[Design, List[Tuple[str, Signal]]]:
    """A design with two links of 4 bytes, and further signals: name, bits, direction."""
    fields = {"opcode": 3, "size": 2, "source": 2, "address": 8, "mask": 4, "data": 32, "valid": 1, "ready": 1}
    signals: List[Tuple[str, Signal]] = []
    for stem, to in (("in_", "input"), ("out_", "output")):
        for letter in "ad":
            for word, bits in fields.items():
                there = to if (letter == "a") != (word == "ready") else {"input": "output", "output": "input"}[to]
                name = f"{stem}{letter}_{word}"
                signals.append((name, Signal(name, 0, bits, there)))
    signals += [(name, Signal(name, 0, bits, there)) for name, (bits, there) in names.items()]
    links = find_links(signals)
    ports = {name: Port(signal.direction, signal.bits) for name, signal in signals}
    links["in_"].clock = links["out_"].clock = "clock"
    return Design(Source("adapter", ("adapter.sv",)), ports, links["in_"], links["out_"]), signals


def test_user_bits_are_found(monkeypatch: pytest.MonkeyPatch) -> None:
    """Those that both links have are compared; one that only one link has, or of another size, is named."""
    design, signals = a_design(
        in_a_user=(3, "input"),
        out_a_user=(3, "output"),
        in_d_bits_echo_id=(2, "output"),
        out_d_bits_echo_id=(2, "input"),
        out_a_echo=(1, "output"),
        in_d_user=(2, "output"),
        out_d_user=(4, "input"),
    )
    monkeypatch.setattr(user_bits, "read_ports", lambda source, structs: (design.ports, signals))
    found = user_bits.find_user_bits(design)
    assert {letter: found.bits(letter) for letter in "ACD"} == {"A": 3, "C": 0, "D": 2}
    assert sorted(found.others) == ["in_d_user", "out_a_echo", "out_d_user"]
    text = write_harness(design, Options(level="ul", largest=4, user_bits=found)).text
    assert ".REQUEST_USER_BITS(3), .RESPONSE_USER_BITS(2)" in text
    assert ".in_a_user({client_a_user[2:0]})" in text
    assert "wire [2:0] manager_a_user = {port_out_a_user[2:0]};" in text
    assert ".out_d_user(4'd0)" in text


def test_channel_without_valid_is_named() -> None:
    design, _ = a_design()
    del design.ports["out_a_valid"]
    design.manager = None
    with pytest.raises(ProveError, match="has one link.* The ports out_a_.. have no valid: name the port so"):
        write_harness(design, Options())


def test_later_resets_are_an_input() -> None:
    design, _ = a_design()
    for later in (False, True):
        harness = write_harness(design, Options(level="ul", largest=4, later_resets=later))
        assert (("reset_again", 1) in harness.inputs) == ("if (reset_again" in harness.text) == later


def test_memory_that_does_not_fit() -> None:
    model.check_memories('  attribute \\src "ram.sv:3.5-3.9"\n  memory width 8 size 64 \\words\n')
    with pytest.raises(
        ProveError, match=r"^ram.sv:3.5: the memory words has 2097152 bits.* smaller by a parameter"
    ) as error:
        model.check_memories('  attribute \\src "ram.sv:3.5-3.9"\n  memory width 32 size 65536 \\words\n')
    assert error.value.status == 3


@pytest.mark.parametrize(
    "words, message",
    [
        ("client_a_opcod == 4", "there is no signal client_a_opcod, but client_a_opcode, "),
        ("nonsense > 1", "there is no signal nonsense: names are such as client_a_opcode"),
        ("1; end", "this is not an expression"),
    ],
)
def test_assumption_about_no_signal(words: str, message: str) -> None:
    """SystemVerilog would make a wire of the name, of which the assumption says nothing."""
    design, _ = a_design()
    with pytest.raises(ProveError) as error:
        write_harness(design, Options(level="ul", largest=4, assumptions=(words,)))
    assert f"--assume '{words}': {message}" in str(error.value)


def test_assumption_about_signals() -> None:
    design, _ = a_design()
    words = ("client_a_opcode == 3'h4 && !reset", "dut.state != 'd3", "watch.a.watch.held < 2")
    text = write_harness(design, Options(level="ul", largest=4, assumptions=words)).text
    assert all(f"assume ({one});" in text for one in words)


# ---- what yosys accepts without a word


def a_cell(kind: str, line: int, **connections: Tuple[str, List[Any]]) -> Dict[str, Any]:
    """A cell of a netlist: each port with its direction and bits."""
    return {
        "type": kind,
        "attributes": {"src": f"proof.sv:9.1-9.9|adapter.sv:{line}.3-{line}.9" if line else ""},
        "port_directions": {name: there for name, (there, _) in connections.items()},
        "connections": {name: bits for name, (_, bits) in connections.items()},
    }


AND = a_cell("$and", 4, A=("input", [2]), B=("input", [3]), Y=("output", [6]))


@pytest.mark.parametrize(
    "cells, message",
    [
        ([AND, a_cell("$dff", 5, CLK=("input", [1]), D=("input", [6]), Q=("output", [7]))], ""),
        (
            [a_cell("$dlatch", 0, EN=("input", [2]), D=("input", [3]), Q=("output", [8]))],
            "adapter.sv:7.1: held is a latch: ",
        ),
        ([a_cell("$and", 4, A=("input", [1]), Y=("output", [6]))], "adapter.sv:4.3: a clock is used as data: "),
        ([AND, a_cell("$or", 6, A=("input", [2]), Y=("output", [6]))], "adapter.sv:6.3: a wire that is assigned here"),
        ([a_cell("$or", 6, A=("input", [2]), Y=("output", ["1"]))], "adapter.sv:6.3: a wire that is assigned here"),
        ([a_cell("$or", 6, A=("input", [2]), Y=("output", [3]))], "from the input manager_a_ready has two drivers"),
    ],
)
def test_netlist_of_another_design(cells: List[Dict[str, Any]], message: str, tmp_path: Path) -> None:
    ports = {name: {"direction": "input", "bits": [bit]} for name, bit in (("clock", 1), ("x", 2))}
    ports["free_manager_a_ready"] = {"direction": "input", "bits": [3]}
    names = {"dut.held": {"bits": [8], "attributes": {"src": "proof.sv:9.1-9.9|adapter.sv:7.1-7.5"}}}
    module = {"ports": ports, "netnames": names, "cells": {f"c{number}": cell for number, cell in enumerate(cells)}}
    (tmp_path / "flat.json").write_text(json.dumps({"modules": {"top": module}}))
    if not message:
        netlist.check_netlist(tmp_path / "flat.json", ("clock",))
        return
    with pytest.raises(ProveError) as error:
        netlist.check_netlist(tmp_path / "flat.json", ("clock",))
    assert message in str(error.value) and error.value.status == 3


def test_wire_that_is_assigned_twice() -> None:
    wires = '  attribute \\hdlname "dut ready"\n  attribute \\src "p.sv:1.1-1.2|b.sv:6.2-6.9"\n  wire \\dut.ready\n'
    once = wires + "  connect \\dut.ready \\go\n  connect \\dut.x [0] 1'1\n  connect \\dut.x [1] 1'1\n"
    netlist.check_assignments(once)
    with pytest.raises(ProveError, match=r"^b.sv:6.2: ready has two drivers: remove one") as error:
        netlist.check_assignments(once + "  connect \\dut.ready 1'1\n")
    assert error.value.status == 3


def test_variable_of_which_yosys_reads_a_part(tmp_path: Path) -> None:
    src = {"src": "proof.sv:9.1-9.9|adapter.sv:7.9-7.13"}
    wires = {"dut.fifo": {"bits": [*range(8)], "attributes": src}}
    memories = {"dut.a.words": {"width": 8, "size": 4, "attributes": src}}
    (tmp_path / "flat.json").write_text(json.dumps({"modules": {"top": {"netnames": wires, "memories": memories}}}))
    sizes.check_sizes(tmp_path / "flat.json", {"fifo": 8, "a.words": 32, "removed": 5})
    for name, bits, seen in (("fifo", 16, 8), ("a.words", 64, 32)):
        with pytest.raises(ProveError) as error:
            sizes.check_sizes(tmp_path / "flat.json", {name: bits})
        assert error.value.status == 3
        assert f"adapter.sv:7.9: {name} has {bits} bits, of which yosys reads {seen}: " in str(error.value)


@pytest.mark.parametrize(
    "places, line",
    [
        ("own.sv:3.5-3.9", "own.sv:3.5"),
        ("proof.sv:7.1-7.9|/home/a-b/own.sv:3.5-3.9", "/home/a-b/own.sv:3.5"),
        ("proof.sv:7.1-7.9|own.sv:3.5-3.9|adapter.sv:4.1-4.9", "own.sv:3.5"),
        ("proof.sv:7.1-7.9|deep.sv:5.1-5.9|own.sv:3.5-3.9|adapter.sv:4.1-4.9", "own.sv:3.5"),
    ],
)
def test_line_inside_of_instances(places: str, line: str) -> None:
    assert line_of(places) == line


def test_loop_has_a_line(tmp_path: Path) -> None:
    said = (
        "Warning: found logic loop in module top:\n    cell $auto$1 ($_AND_)\n    cell $auto$2 ($_XOR_)\n    wire \\x\n"
    )
    cells = {"$auto$1": a_cell("$_AND_", 0), "$auto$2": a_cell("$_XOR_", 34)}
    (tmp_path / "gates.json").write_text(json.dumps({"modules": {"top": {"cells": cells}}}))
    assert netlist.loop_in(said, tmp_path / "gates.json") == "adapter.sv:34.3"
    assert netlist.loop_in("Found and reported 0 problems.\n", tmp_path / "gates.json") == ""


# ---- clocks


def a_netlist(cells: Dict[str, Any]) -> str:
    wires = {"clock": 1, "client_clock": 2, "client_tick": 3, "other": 4}
    names = {name: {"bits": [bit]} for name, bit in wires.items()}
    return json.dumps({"modules": {"top": {"netnames": names, "cells": cells}}})


def register(clock: int, kind: str = "$dff", polarity: str = "1") -> Dict[str, Any]:
    return {
        "type": kind,
        "parameters": {"CLK_POLARITY": polarity},
        "connections": {"CLK": [clock]},
        "port_directions": {},
        "attributes": {"src": "adapter.sv:42.3-42.20"},
    }


def settled(cell: Dict[str, Any], folder: Path) -> Dict[str, Any]:
    (folder / "in.json").write_text(a_netlist({"r": cell}))
    settle_clocks(folder / "in.json", folder / "out.json", {"client_clock": "client_tick"})
    found: Dict[str, Any] = json.loads((folder / "out.json").read_text())["modules"]["top"]["cells"]["r"]
    return found


def test_a_clock_with_a_tick_becomes_an_enable(tmp_path: Path) -> None:
    cell = settled(register(2), tmp_path)
    assert (cell["type"], cell["connections"]) == ("$dffe", {"CLK": [1], "EN": [3]})
    assert settled(register(1), tmp_path)["type"] == "$dff"


@pytest.mark.parametrize(
    "cell, words",
    [
        (register(1, polarity="0"), "is clocked by a falling edge"),
        (register(4), "has another clock than the links"),
        (register(1, "$dlatch"), "is a dlatch"),
        (register(1, "$adff"), "is a adff"),
    ],
)
def test_registers_that_have_no_model(cell: Dict[str, Any], words: str, tmp_path: Path) -> None:
    with pytest.raises(ProveError) as error:
        settled(cell, tmp_path)
    assert error.value.status == 3
    assert f"the register of adapter.sv:42.3 {words}" in str(error.value)


# ---- names, free bits, counterexamples


def test_names() -> None:
    assert short_name("watch.a.watch.Data0") == "a.Data0"
    assert short_name("SourceOne") == "d.SourceOne"
    assert short_name("watch.d.watch.SeesBeat") == "d.SeesBeat"


def test_free_bits() -> None:
    """The lowest bits, and with two or more also the highest: two ids may differ in the highest bit alone."""
    assert spread("x", 4, 4) == "x"
    assert spread("x", 1, 4) == "{3'd0, x}"
    assert spread("x", 2, 10) == "{x[1], 8'd0, x[0:0]}"


def test_counterexample_is_read(tmp_path: Path) -> None:
    (tmp_path / "map").write_text("input 0 0 pick\ninput 1 1 pick\ninput 2 0 client_a_valid\ninit 3 0 dut.upper\n")
    (tmp_path / "cex").write_text("0101010\n1010\n0111\n0000 # this is the end\n")
    rows: List[Dict[str, int]] = engine.rows_of(tmp_path / "map", tmp_path / "cex")
    assert rows[0] == {"pick": 1, "client_a_valid": 1, "init dut.upper": 0}
    assert rows[1] == {"pick": 2, "client_a_valid": 1, "init dut.upper": 1}


def test_same_files_have_one_key(tmp_path: Path, fake_abc: Path) -> None:
    """A model of the cache is used again only if no file changed: also one that is included."""
    yosys = fake_abc.parent / "yosys"
    yosys.write_text("#!/bin/sh\necho Yosys 0.23\n")
    yosys.chmod(yosys.stat().st_mode | stat.S_IXUSR)
    (tmp_path / "sizes.svh").write_text("`define BYTES 4\n")
    (tmp_path / "dut.sv").write_text('`include "sizes.svh"\nmodule dut; endmodule\n')
    recipe = model.Recipe("top", (str(tmp_path / "dut.sv"),), ())
    first = model.key_of(recipe)
    assert model.key_of(recipe) == first
    assert model.key_of(model.Recipe("top", recipe.design_files, (), ("BUG",))) != first
    (tmp_path / "sizes.svh").write_text("`define BYTES 8\n")
    assert model.key_of(recipe) != first
