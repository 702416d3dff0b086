"""Looks for a counterexample to each assertion, and with --unbounded for a proof."""
from __future__ import annotations

import re
from contextlib import closing
from dataclasses import replace
from functools import partial
from pathlib import Path
from typing import Callable, Dict, List, Optional, Sequence, Tuple

from . import engine
from .engine import FAILS, PROVED, Verdict
from .harness import is_helper, is_of_design
from .model import Model, short_name
from .report import say, words_of
from .session import Session

Small = Dict[str, Tuple[Model, int]]  # the smaller model of an assertion, by its label, and its number there
CAUSES = (".Invented", ".Early", ".Room")  # after one of these, other assertions fail with it
FIRST_CYCLES, FIRST_SECONDS = (8, 20)  # of the search for counterexamples with which --unbounded begins
FIRST_PROOF_SECONDS = 20  # of the first search for each proof
# Those that say nothing of data and masks: they make a model little larger, and help to prove others.
LEMMA = re.compile(r"\.(?:Invented|Early|Room|Head|Source\w+|Helper\w+)$")


def is_lemma(label: str) -> bool:
    """Returns whether a proof may assume an assertion after it was proved."""
    return is_helper(label) or bool(LEMMA.search(f".{short_name(label)}"))


class Lemmas:
    """The assertions that were proved in this run on each model, which its other proofs may assume."""

    def __init__(self) -> None:
        self.proved: Dict[Path, List[int]] = {}
        self.tried: Dict[Tuple[Path, int], Tuple[int, Tuple[int, ...]]] = {}

    def of(self, model: Model) -> Tuple[int, ...]:
        """Returns the numbers of the assertions that a proof on a model may assume."""
        return tuple(self.proved.get(model.folder, ()))

    def prove(self, model: Model, index: int, seconds: int, with_previous: bool = False) -> Verdict:
        """Looks for a proof of an assertion on a model, under what was proved on it before."""
        assumed = self.of(model)
        self.tried[model.folder, index] = (seconds, assumed)
        if assumed:
            found = engine.unbounded(model, index, seconds, with_previous, assumed)
        elif with_previous:
            found = engine.unbounded(model, index, seconds, True)
        else:
            found = engine.unbounded(model, index, seconds)
        if found.kind == PROVED and is_lemma(model.labels[index]):
            self.proved.setdefault(model.folder, []).append(index)
        return found

    def is_new(self, model: Model, index: int, seconds: int) -> bool:
        """Returns whether the last search for a proof of an assertion had another time, or less to assume."""
        now = (seconds, self.of(model))
        return self.tried.get((model.folder, index), now) != now


class Search:
    """The verdict of each assertion so far."""

    def __init__(self, session: Session):
        self.session = session
        self.verdicts: Dict[int, Verdict] = {}
        self.lemmas = Lemmas()
        self.limit: Optional[int] = None  # of a search for a proof in this round

    def run(self, indices: Sequence[int]) -> None:
        """Looks for short counterexamples to all, with --unbounded for proofs, then for counterexamples to what is
        still open. After a short counterexample it goes on with --keep-going only.
        """
        words, frames = self.session.words, self.session.frames
        first = min(frames, FIRST_CYCLES + words.reset_cycles)

        def bounded(frames: int, limit: int) -> Callable[[int], Verdict]:
            return lambda index: engine.bounded(self.session.model, index, frames, limit)

        is_last = first == frames and not words.unbounded
        limit = words.seconds if is_last else min(words.seconds, FIRST_SECONDS)
        left = self.look("counterexamples", indices, bounded(first, limit), is_last, limit)
        if is_last:
            return
        if len(left) < len(indices) and not words.keep_going:
            for index in left:
                self.print_verdict(index)
            return
        small: Small = {}
        if words.unbounded:
            is_last = first == frames
            small = self.smaller(left)
            left = self.prove(left, small, is_last)
        if not is_last:
            self.look("counterexamples", left, self.searcher(small), True, words.seconds)

    def prove(self, left: Sequence[int], small: Small, is_last: bool) -> List[int]:
        """Looks for proofs in rounds, and returns the assertions that are still open. The first round is short. Each
        later one proves helpers, and asks again about those that have more to assume, or had little time.
        """
        seconds = min(self.session.words.seconds, FIRST_PROOF_SECONDS)
        again: Sequence[int] = sorted(left, key=lambda index: not is_lemma(self.session.model.labels[index]))
        still, is_first = set(left), True
        while again:
            self.prove_helpers(small, seconds, is_first)
            self.limit = seconds
            found = self.look("proofs", again, self.prover(small), False, seconds)
            still -= set(again) - set(found)
            seconds, is_first = self.session.words.seconds, False
            again = [index for index in again if index in still and self.is_new(small, index, seconds)]
        for index in left:
            if is_last and index in still:
                self.print_verdict(index)
        return [index for index in left if index in still]

    def is_new(self, small: Small, index: int, seconds: int) -> bool:
        label = self.session.model.labels[index]
        model, place = small.get(label, (self.session.model, index))
        return self.lemmas.is_new(model, place, seconds)

    def prove_helpers(self, small: Small, seconds: int, of_design: bool) -> None:
        """Looks for proofs of assertions of the smaller models that only help: at first those of the design, later also
        those of the watch.
        """
        models = {model.folder: model for model, _ in small.values()}
        helpers = [
            (model, place)
            for model in models.values()
            for place, label in enumerate(model.labels)
            if is_of_design(label) or (is_helper(label) and not of_design)
        ]
        open_ones = [
            (number, partial(self.lemmas.prove, model, place, seconds))
            for number, (model, place) in enumerate(helpers)
            if (model.folder, place) not in self.lemmas.tried
            or (place not in self.lemmas.of(model) and self.lemmas.is_new(model, place, seconds))
        ]
        done = 0

        def tick() -> None:
            self.session.progress("helpers", done, len(open_ones), seconds)

        with closing(engine.in_parallel(self.session.words.jobs, open_ones, tick)) as results:
            for _ in results:
                done += 1

    def look(
        self, what: str, left: Sequence[int], ask: Callable[[int], Verdict], is_last: bool, seconds: int
    ) -> List[int]:
        """Asks about some assertions, and returns those that are still open. `seconds` is the limit of each."""
        questions = [(index, partial(ask, index)) for index in left]
        done = 0

        def tick() -> None:
            self.session.progress(what, done, len(left), seconds)

        with closing(engine.in_parallel(self.session.words.jobs, questions, tick)) as results:
            for index, found in results:
                done += 1
                before = self.verdicts.get(index)
                if before is None or found.kind in (PROVED, FAILS) or found.frames > before.frames:
                    self.verdicts[index] = found
                if is_last or self.verdicts[index].kind in (PROVED, FAILS):
                    self.print_verdict(index, found.seconds)
        return [index for index in left if self.verdicts[index].kind not in (PROVED, FAILS)]

    def smaller(self, indices: Sequence[int]) -> Small:
        """Makes the smaller models of the channels of some assertions."""
        session, small = self.session, {}
        wanted = {session.name(index)[0].upper() for index in indices}
        for letter in (one for one in session.harness.channels if one in wanted):
            model = session.build_small(letter)
            small.update({label: (model, index) for index, label in enumerate(model.labels)})
        if session.words.lemmas and not any(map(is_of_design, small)):
            say("  --lemmas: there is no assertion in the design, or yosys simplified each to true")
        return small

    def prover(self, small: Small) -> Callable[[int], Verdict]:
        """Returns how an assertion is proved, in `limit` seconds or those of the command line.

        First in the smaller model of its channel. A proof with its assumptions is one with all of them. If the
        assertion fails there, it is tried with all assumptions.
        """
        session, seconds = self.session, self.limit or self.session.words.seconds

        def ask(index: int) -> Verdict:
            label, before = session.model.labels[index], 0.0
            if label in small:
                model, place = small[label]
                # follows from the assertion in front of it, and is slow to prove without it
                both = label.endswith("SourceRoom") and place > 0 and model.labels[place - 1].endswith("SourceOne")
                both = both and place - 1 not in self.lemmas.of(model)
                found = self.lemmas.prove(model, place, seconds, both)
                if found.kind != FAILS:
                    return found
                before = found.seconds
            again = self.lemmas.prove(session.model, index, seconds)
            return replace(again, seconds=before + again.seconds)

        return ask

    def searcher(self, small: Small) -> Callable[[int], Verdict]:
        """Returns how a counterexample is looked for in all cycles.

        First in the smaller model of the channel, if there is one. A bound with its assumptions is one with all of
        them. If the assertion fails there, it is tried with all assumptions.
        """
        session, frames, seconds = self.session, self.session.frames, self.session.words.seconds

        def ask(index: int) -> Verdict:
            label, before = session.model.labels[index], 0.0
            if label in small:
                found = engine.bounded(*small[label], frames, seconds)
                if found.kind != FAILS:
                    return found
                before = found.seconds
            again = engine.bounded(session.model, index, frames, seconds)
            return replace(again, seconds=before + again.seconds)

        return ask

    def print_verdict(self, index: int, seconds: Optional[float] = None) -> None:
        """Prints a verdict with the seconds of the last question, or of the one that found it."""
        found = self.verdicts[index]
        taken = found.seconds if seconds is None else seconds
        say(f"  {self.session.name(index):16} {words_of(found, self.session.options):36} {taken:7.1f} s")

    def first_failure(self) -> Optional[int]:
        """Returns the assertion that fails first. If several fail in the same cycle, a cause such as a beat that comes
        too early is in front of wrong data, and the assertions about a source come last.
        """
        order = []
        for index, found in self.verdicts.items():
            name = self.session.name(index)
            if found.kind == FAILS:
                order.append((found.frames, ".Source" in name, not name.endswith(CAUSES), index))
        return min(order)[-1] if order else None
