"""Shows that the assumptions of a proof exclude nothing: each kind of beat can arrive, and time goes on."""
from __future__ import annotations

from contextlib import closing
from functools import partial
from typing import Mapping, Tuple

from . import engine
from .engine import BOUNDED, FAILS, OPEN, Verdict
from .errors import ProveError
from .harness import COVER_FRAMES, is_cover
from .model import short_name
from .report import say
from .session import Session

COVER_SECONDS = 10
NEEDED_SECONDS = 120  # for the covers without which nothing is claimed
# Kinds of beats, as covers name them. Without the first one of a channel, the proofs of the channel say nothing.
COVERS = {
    "SeesBeat": "a beat",
    "SeesNoData": "a message without data",
    "SeesOneAhead": "a message after another one that was still inside",
    "SeesLater": "another message after the watched one",
    "SeesByte": "a byte of data",
    "SeesLastBeat": "the last beat of a burst",
    "SeesCorrupt": "a corrupt beat",
    "SeesShort": "one byte on the highest lane",
    "SeesMaskedOut": "a byte that the mask excludes",
}


def reach(session: Session) -> None:
    """Prints which kinds of beats can arrive. Errors: no beat of a channel can, no run goes on, or none was found in
    time (2).
    """
    model, words = session.model, session.words
    frames = max(COVER_FRAMES + words.reset_cycles, session.frames if session.options.two_clocks else 0)
    questions = [
        (index, partial(engine.bounded, model, index, frames, NEEDED_SECONDS if is_needed(label) else COVER_SECONDS))
        for index, label in enumerate(model.labels)
        if is_cover(label)
    ]
    # yosys removes those that are impossible from the model
    found = {label: Verdict(OPEN, 0, 0.0) for label in model.folded if is_cover(label)}
    done = 0

    def tick() -> None:
        session.progress("kinds of beats", done, len(questions), NEEDED_SECONDS)

    with closing(engine.in_parallel(words.jobs, questions, tick)) as results:
        for index, verdict in results:
            done += 1
            found[model.labels[index]] = verdict
    within = f"{frames - words.reset_cycles} {session.unit}"
    check_needed(found, frames, within)
    kinds = {
        name_of(label): verdict.kind == FAILS for label, verdict in found.items() if not label.endswith("SeesTime")
    }
    say(f"possible: {sum(kinds.values())} of {len(kinds)} kinds of beats arrive")
    for channel in sorted({channel for channel, _ in kinds}):
        names = [name for name in COVERS if not kinds.get((channel, name), True)]
        if names:
            listed = ", ".join(COVERS[name] for name in names)
            say(f"  not seen on {channel} in up to {within}, so nothing is said of it: {listed}")


def is_needed(label: str) -> bool:
    return label.endswith(("SeesBeat", "SeesTime"))


def name_of(label: str) -> Tuple[str, str]:
    """Returns the channel of a cover, and its name."""
    channel, _, name = short_name(label).rpartition(".")
    return channel.upper(), name


def check_needed(found: Mapping[str, Verdict], frames: int, within: str) -> None:
    """Refuses a proof that would say nothing. Errors: as of `reach`."""
    seen = {name_of(label)[0] for label, verdict in found.items() if verdict.kind == FAILS}
    for label in sorted(filter(is_needed, found), key=name_of):
        channel, verdict = name_of(label)[0], found[label]
        if channel in seen:
            continue
        if verdict.kind == BOUNDED and verdict.frames < frames:
            what = f"a run with a beat of channel {channel}" if channel else f"a run of {within}"
            raise ProveError(
                f"nothing is proved: {what} was not found in {NEEDED_SECONDS} seconds. Make the model smaller by a "
                "parameter of the design (-P NAME=VALUE), --largest or --source-bits 1"
            )
        if not channel:
            raise ProveError(f"nothing is proved: the assumptions exclude every run of {within}. Check --assume")
        raise ProveError(
            f"nothing is proved: no beat of channel {channel} can arrive at its receiver in {within}. "
            "The assumptions exclude every beat, or the design passes none on: check --assume, --tie and the reset"
        )
