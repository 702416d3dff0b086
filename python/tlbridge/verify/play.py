"""One seed of a session: its rounds, and the verdict with what the user reads."""
from __future__ import annotations

import collections
import concurrent.futures
import itertools
import json
import math
import os
import re
import shutil
import subprocess
import time
from dataclasses import dataclass, replace
from pathlib import Path
from typing import Deque, Dict, Generator, Iterator, List, NamedTuple, Optional, Set, Tuple

from ..judge import find_program
from .bench import Cancel, IDLE_CYCLES, OverTimeError, Run, Settings, Simulation, SimulatorError, repeat_text
from .design import DesignError
from .host import REFERENCES, Reference
from .judge import Beat, Beats, Judge, Problem, is_near, name_of, trace_of
from .options import DEFAULT_MESSAGES, SECONDS, seeds_of
from .outcome import Condition, INCOMPLETE, MISTAKE, Outcome, RIGHT
from .report import Coverage, speed_of
from .restored import Restored
from .session import FIRST_ROUNDS, LONG, Late, MIDDLE, SHORT, Session, Voice
from .shrink import Shrinker, needs_of, options_of
from .strict import DENIED_ALIKE, RULES, Denials
from .traffic import HOST_STYLES, Message, STYLES, Traffic, style_of

_LEAST_ROUNDS = 6  # in Icarus, even if Verilator is ready earlier
_STYLES_SECONDS = 50  # in which the first simulator plays each style once, with shorter rounds on a slow machine
_MORE_SECONDS = 25  # for a machine on which that was not enough
_LEAST_MESSAGES = 30  # of a shorter round
_ALL_SECONDS = 112  # until a mistake is shrunk
_LATE_SHARE = 0.3  # of the messages, with bits that arrive late at another clock
_PATIENCE = 4  # a hang has to last this many times as long, when the round is played again
# What is tried of a right design when all else is over: rounds and seconds for each.
_TRIED_ROUNDS, _TRIED_SECONDS = 16, 2
_MORE_RESETS = 3  # short rounds with a reset, beside each one in the list of styles
_UNLESS_SECONDS = 6  # in which a run is shrunk that fails under a condition
_LEAST_TRIED = 2000  # messages: a shorter run tries no more
_HOST_ROUNDS, _HOST_CYCLES = 10, 3000  # of a host, which sends by itself: rounds in Icarus, and their cycles
_HOST_SILENCE = 2500  # cycles without a beat, after which a host does not go on


@dataclass(frozen=True)
class Round:
    """A script with its settings, and the bench that plays it."""

    name: str
    script: List[Message]
    settings: Settings
    style: str = ""
    is_patient: bool = False  # it is played again, since it seemed to hang
    is_reference: bool = False  # a calm run of a host


class Unless(NamedTuple):
    """A condition that a right design need not hold. Its run has the setting, or is judged by the strict rule of its
    name."""

    name: str
    unless: str
    option: str  # that makes it a mistake
    setting: str = ""
    style: str = ""  # of its rounds


UNLESS = {
    kind.name: kind
    for kind in (
        Unless("same-cycle", "an answer comes in the cycle of its request", "--same-cycle", "same_cycle", "same cycle"),
        Unless(
            "after-reset",
            "a request comes in the first cycles after a reset",
            "--after-reset",
            "at_once",
            "after reset",
        ),
        Unless("withdraw", "a valid may fall before ready", "--withdraw", "withdraw", "withdraw"),
        Unless("denied-is-corrupt", "denied data have to be corrupt", "--denied-is-corrupt"),
        Unless("denied-alike", "equal requests have to be denied alike", "--denied-alike"),
        Unless("done-not-denied", "what was done behind it must not be denied", "--done-not-denied"),
        Unless("reads-accepted", "a read has to see each write that was accepted before it", "--reads-accepted"),
        Unless("reads-no-later", "a read must not see a write that was accepted after it", "--reads-no-later"),
        Unless("reads-alike", "what nobody writes has to stay the same", "--reads-alike"),
        Unless("corrupt-stays", "data that it got as corrupt have to stay corrupt", "--corrupt-stays"),
        Unless("copies-all", "all that it writes has to be what it read, over one distance", "--copies-all"),
    )
}


class Kept(NamedTuple):
    """A run that failed, in its smallest form, with what a reader gets."""

    script: List[Message]
    settings: Settings
    problems: List[Problem]
    text: List[str]


@dataclass(frozen=True)
class Played:
    """A round that was played and judged. `run` is None if time was over before it ended."""

    round: Round
    simulation: Simulation
    run: Optional[Run]
    beats: Beats
    problems: List[Problem]


class Play:
    """One seed of a session.

    Each simulator has its own sequence of rounds, which depends on the seed only. How many rounds of each are played
    depends on the time that there is, unless the number of messages is given.
    """

    def __init__(self, session: Session, seed: int, say: Voice, room: Path):
        self.session, self.seed, self.say, self.room = session, seed, say, room
        self.coverage = Coverage(session.design, session.is_bridge)
        options = session.options
        self.start = session.start if options.seeds is None else time.monotonic()
        self.sent = 0
        self.most = options.messages or DEFAULT_MESSAGES
        is_endless = options.seconds is None and (options.messages is not None or options.seeds is not None)
        seconds = options.seconds or SECONDS
        self.until = math.inf if is_endless else self.start + seconds
        self.latest = self.until + _MORE_SECONDS * seconds / SECONDS
        self.styles: Set[str] = set()  # that were played
        self.finished = 0  # messages of the scripts that were played
        self.begun = time.monotonic()  # of the rounds
        compares = session.design.client is None and session.has_memory
        self.reference = Reference(session.design) if compares else None
        self.denials: Denials[Round] = Denials()
        is_device = session.rules.is_memory and session.design.manager is None
        self.restored = Restored(session.design) if is_device else None
        self.broken: Dict[str, Round] = {}  # the first round that breaks a strict rule, by its name

    def traffic(self, sequence: int) -> Traffic:
        """The maker of the rounds of one sequence."""
        session = self.session
        has_two = session.bench.has_two
        seed = self.seed + (sequence << 32)
        return Traffic(session.design, session.limits, seed, session.is_bridge, has_two, session.has_memory)

    @property
    def is_over(self) -> bool:
        """Whether enough was played: a slow machine gets more time for styles that were not played."""
        now = time.monotonic()
        return self.sent >= self.most or now > (self.latest if self.not_played() else self.until)

    def not_played(self) -> List[str]:
        """The styles that were not played."""
        styles = STYLES if self.session.design.client is not None else HOST_STYLES
        return [style for style in dict.fromkeys(styles) if style not in self.styles]

    def fitting(self, script: List[Message]) -> List[Message]:
        """Returns the beginning of a script, so that each style can be played once in time."""
        now = time.monotonic()
        if self.until == math.inf or not self.finished:
            return script
        rests = max(0.0, self.start + _STYLES_SECONDS - now) / (len(self.not_played()) + 1)
        return script[: max(_LEAST_MESSAGES, int(self.finished * rests / max(0.1, now - self.begun)))]

    def rounds(self, first: str) -> Iterator[Optional[Round]]:
        """Yields the rounds, and None if those before have to be judged first."""
        session = self.session
        long = session.long_simulator(first)
        is_short = first == "icarus"
        for number, found in enumerate(self.sequence(first, 0, SHORT, self.most) if is_short else ()):
            yield found
            if number == 0 and session.options.seeds is None:
                session.build_in_background(session.later_builds(first))
            if (long != first or session.has_late) and self.is_enough(number + 1, long):
                break
        if session.options.seeds is None:
            session.build_in_background(session.later_builds(first))
        if not self.is_over:
            yield from self.mixed(long)
        yield None
        yield from self.aimed(long if long in session.compiled else first)

    def is_enough(self, played: int, long: str) -> bool:
        """Whether the first simulator has played enough rounds."""
        session = self.session
        most = FIRST_ROUNDS if session.design.client is not None else _HOST_ROUNDS
        if self.until == math.inf:
            return played >= most
        return played >= _LEAST_ROUNDS and not session.is_building(long) and long in session.compiled

    def mixed(self, long: str) -> Iterator[Round]:
        """The rounds of the second simulator, and among them those with late bits."""
        session = self.session
        session.explore_sizes(session.simulation(long), self.say)
        netlist, share = f"{long} late", self.most * _LATE_SHARE if session.has_late else 0
        plain, late = self.sequence(long, 1, MIDDLE, self.most - share), self.sequence(netlist, 2, MIDDLE, self.most)
        while not self.is_over:
            found: Optional[Round] = None
            for found in itertools.islice(plain, 2):
                yield found
            if session.has_late:
                while (found is None or self.until == math.inf) and session.is_building(netlist) and not self.is_over:
                    time.sleep(0.05)
                if session.is_building(netlist):
                    continue
                if session.build(netlist):
                    yield from itertools.islice(late, 1)
                elif session.options.skew:
                    raise session.failed[netlist]
                else:
                    session.has_late = False
            elif found is None:
                return

    def sequence(self, name: str, number: int, length: int, most: float) -> Iterator[Round]:
        """The rounds of one bench, until `most` messages were sent in all. `number` tells the sequences apart."""
        session, options, traffic = self.session, self.session.options, self.traffic(number)
        begin = 2 if number == 2 else _LEAST_ROUNDS if number and "icarus" in session.compiled else 0
        for at in itertools.count(begin):
            if self.is_over or self.sent >= most:
                return
            length = LONG if number and at >= begin + FIRST_ROUNDS else length
            is_reference = False
            if session.design.client is None:
                turn = at - begin - len(REFERENCES)
                is_reference = turn < 0
                style = "calm" if is_reference else HOST_STYLES[turn % len(HOST_STYLES)]
                script, settings = self.host_round(traffic, style, turn, number > 0)
                self.sent += self.most // 24 + 1
            else:
                style = style_of(at)
                if style == "large" and self.until != math.inf:
                    session.explore_sizes(session.simulation(name), self.say)
                    traffic.limits = session.limits
                if style == "reset" and number:
                    yield from itertools.islice(self.resets(traffic, name, number), _MORE_RESETS)
                script, settings = traffic.round(at, min(length, self.most - self.sent))
                script = (script if number or at < 2 else self.fitting(script))[: self.most - self.sent]
                self.sent += len(script)
            if options.after_reset and style == "reset":
                settings["at_once"] = 1
            if options.same_cycle and at % 2:
                settings["same_cycle"] = 1
            if options.withdraw and at % 3 == 1:
                settings["withdraw"] = 1
            if number == 2:
                settings["skew"] = 1
            yield Round(name, script, {**settings, **session.forced}, style, is_reference=is_reference)

    def resets(self, traffic: Traffic, name: str, number: int) -> Iterator[Round]:
        """Short rounds with a reset: a state that no reset clears shows only after a few of them."""
        while not self.is_over and self.sent < self.most:
            script, settings = traffic.styled("reset", SHORT)
            self.sent += len(script)
            if self.session.options.after_reset:
                settings["at_once"] = 1
            yield Round(
                name, script, {**settings, **self.session.forced, **({"skew": 1} if number == 2 else {})}, "reset"
            )

    def host_round(self, traffic: Traffic, style: str, turn: int, is_long: bool) -> Tuple[List[Message], Settings]:
        """Returns a calm round if `turn` is below 0. Every other one after it, and those with a reset, deny nothing
        and are compared as a whole."""
        size = self.session.limits.largest.bit_length() - 1
        has_probes = "B" in self.session.design.channels
        script = [traffic.message("probe", min(size, 6), 0) for _ in range(60)] if has_probes else []
        cycles: Settings = {"most": _HOST_CYCLES * (6 if is_long else 1), "end": _HOST_SILENCE}
        if turn < 0:
            calm: Settings = dict(in_order=1, denied=0, corrupt=0, patient=0, serial=0)
            return script, {**traffic.settings(0x3FF), **calm, **REFERENCES[turn], **cycles}
        _, settings = traffic.styled(style, 1)
        if turn % 2 or style == "reset":
            settings.update(denied=0, corrupt=0)
        return script, {**settings, **cycles}

    def aimed(self, name: str) -> Iterator[Round]:
        """A round for what no other round has sent."""
        holes = self.coverage.holes(self.session.limits)[:2000]
        if holes and self.most >= 2000 and self.session.design.client is not None:
            traffic = self.traffic(3)
            sources = range(traffic.sources)
            script = [
                traffic.message(
                    kind,
                    size,
                    traffic.random.choice(sources),
                    traffic.random.getrandbits(48) // traffic.wide * traffic.wide + offset,
                )
                for kind, size, offset in holes
            ]
            yield Round(name, script, {**traffic.settings(0x3FF), **self.session.forced})

    def played(self, first: str) -> Generator[Played, None, None]:
        """Plays the rounds, two at a time, and yields them in their order."""
        workers = 2 if self.session.options.seeds is None else 1
        cancel = Cancel()
        waiting: Deque["concurrent.futures.Future[Played]"] = collections.deque()
        with concurrent.futures.ThreadPoolExecutor(workers) as pool:
            try:
                for number, found in enumerate(self.rounds(first)):
                    if found is not None:
                        folder = self.room / f"run-{number % (workers + 1)}"
                        simulation = self.session.simulation(found.name)
                        waiting.append(pool.submit(self.judged, found, simulation, folder, cancel))
                    while len(waiting) > (workers - 1 if found else 0):
                        yield waiting.popleft().result()
                while waiting:
                    yield waiting.popleft().result()
            finally:
                cancel.set()

    def judged(
        self,
        found: Round,
        simulation: Simulation,
        folder: Path,
        cancel: Optional[Cancel] = None,
        judge: Optional[Judge] = None,
    ) -> Played:
        session = self.session
        limit = max(5.0, self.latest - time.monotonic() + 3)
        try:
            run = simulation.run(found.script, found.settings, folder, seconds=limit, cancel=cancel)
        except OverTimeError:
            if self.coverage.counts["runs"]:
                return Played(found, simulation, None, Beats.none(session.design), [])
            raise
        beats = Beats(session.design, run)
        problems = (judge or session.judge).problems(run, beats)
        if problems and problems[0].kind == "hang" and not found.is_patient:
            idle = _PATIENCE * found.settings.get("idle", IDLE_CYCLES)
            patient = replace(found, settings={**found.settings, "idle": idle}, is_patient=True)
            again = self.judged(patient, simulation, folder, cancel)
            return again if again.run is not None else Played(found, simulation, run, beats, problems)
        return Played(found, simulation, run, beats, problems)

    def outcome(self, first: str, out: Path) -> Outcome:
        """Plays all rounds. Writes what is found into `out`."""
        session = self.session
        last = session.simulation(first)
        is_first = True
        rounds = self.played(first)
        for done in rounds:
            if done.run is None:
                break
            last = done.simulation
            problems = done.problems
            if self.reference is not None and not problems:
                if done.round.is_reference:
                    self.reference.add(done.run, done.beats)
                problems = self.reference.problems(done.run, done.beats)
                session.judge.reference = self.reference if problems else None
            self.styles.add(done.round.style)
            self.finished += len(done.round.script)
            if is_first:
                is_first = False
                found = problems[0].kind if problems else "no mistake"
                seconds = time.monotonic() - self.start
                self.say(f"  first verdict after {seconds:.1f} s: {found} in {len(done.beats)} beats")
            self.coverage.add(done.beats, done.run, done.round.settings, session.bench.has_two)
            self.say.progress(
                f"{self.coverage.counts['runs']} rounds, {self.sent} messages, {self.coverage.counts['beats']} beats,"
                f" {time.monotonic() - self.start:.0f} s"
            )
            if problems and done.round.settings.get("skew"):
                checked = self.without_skew(done)
                if checked is None:
                    continue
                done, problems = checked, checked.problems
            if problems:
                rounds.close()
                return self.failed(done, problems[0], out)
            if self.restored is not None and done.run is not None:
                if done.run.reset_time >= 0 or self.coverage.counts["runs"] <= FIRST_ROUNDS:
                    self.restored.add(done.run)
            if not session.rules.is_bridge:
                self.denials.add(session.design, done.beats, done.round)
            unbroken = [name for name in RULES if name not in self.broken and name != DENIED_ALIKE]
            for name in session.judge.broken_rules(done.beats, unbroken) if unbroken else ():
                self.broken[name] = done.round
        rounds.close()
        return self.passed(last, out)

    def without_skew(self, done: Played) -> Optional[Played]:
        """A mistake that was seen with late bits: returns the same round without them if it fails, too. Returns None if
        yosys made a netlist that differs from the design, which nobody may be blamed for."""
        session = self.session
        still = Round(done.round.name, done.round.script, {**done.round.settings, "skew": 0})
        if not self.judged(still, done.simulation, self.room / "still").problems:
            return done
        name = done.round.name.partition(" ")[0]
        same = self.judged(still, session.simulation(name), self.room / "still")
        if same.problems:
            return same
        session.has_late = False
        return None

    def base(self, verdict: str, words: str = "") -> Outcome:
        counts = self.coverage.counts
        seconds, processor = round(time.monotonic() - self.start, 2), round(sum(os.times()[:4]), 2)
        return Outcome(
            self.seed,
            verdict,
            words,
            self.session.judge.name,
            counts["beats"],
            counts["cycles"],
            seconds,
            processor,
            seconds,
            coverage=self.coverage.as_json(),
        )

    def passed(self, simulation: Simulation, out: Path) -> Outcome:
        session, coverage = self.session, self.coverage
        unseen = coverage.unseen(session.limits, session.is_bridge)
        conditions: List[Condition] = []
        for kind, done in self.under_conditions() if not unseen else ():
            if kind.setting and not done.round.settings.get(kind.setting):
                return self.failed(done, done.problems[0], out)
            kept = self.kept_under(kind, done, out)
            conditions.append(Condition(kind.unless, kept.problems[0].words, kind.option, kind.name, len(kept.script)))
        conditions += self.seen() if not unseen else ()
        outcome = self.base(INCOMPLETE if unseen else RIGHT, "; ".join(unseen))
        outcome.conditions = conditions
        seconds = max(outcome.seconds, 0.01)
        processor = sum(os.times()[:4])
        size = (
            f"{outcome.beats} beats, {coverage.messages_sent()} messages, {outcome.cycles} cycles, {seconds:.0f} s "
            f"({outcome.beats / max(processor, 0.01):.0f} beats a processor second)"
        )
        if unseen:
            outcome.text.append(
                f"NOT CALLED RIGHT: these never arrived: {'; '.join(unseen)}. No other mistake in {size}"
            )
            outcome.text.append("  More --messages may bring them; --only leaves out what the design need not pass.")
        else:
            outcome.text.append(f"NO MISTAKE in {size}")
        for condition in conditions:
            outcome.text.append(f"RIGHT, {condition.line}")
            if condition.folder:
                outcome.text.append(
                    f"  The smallest run has {condition.messages} messages: {session.options.out}/{condition.folder}."
                    f" With {condition.option} it is a mistake."
                )
        if self.reference is not None and not self.reference.is_used:
            outcome.text.append(
                f"  The values that it writes were not compared between the runs: {self.reference.why_not}"
            )
        if self.not_played():
            left, option = ("message", "messages") if self.sent >= self.most else ("time", "seconds")
            styles = ", ".join(self.not_played())
            outcome.text.append(f"  No {left} was left for these styles: {styles} (--{option})")
        if session.background is not None and session.is_mixed and "verilator" not in session.compiled:
            outcome.text.append(f"  Verilator played nothing: {session.failed.get('verilator', 'it still compiles')}")
        if session.most_bytes > session.limits.largest and session.design.client is not None:
            outcome.text.append(f"  No message above {session.limits.largest} bytes was tried (--largest)")
        late = next((error for name, error in session.failed.items() if name.endswith(" late")), None)
        if late:
            outcome.text.append(f"  No bit arrived late at another clock: {late}")
        outcome.text += coverage.table(session.limits)
        if session.is_bridge:
            outcome.text += speed_of(self.traffic(4), simulation, session.judge, session.limits, self.room / "speed")
        outcome.seconds = round(time.monotonic() - self.start, 2)
        self.store(outcome, out)
        return outcome

    def under_conditions(self) -> Iterator[Tuple[Unless, Played]]:
        """Yields what a right design does not hold of that which many right designs do not hold, each with a run that
        fails."""
        session, options = self.session, self.session.options
        if options.seeds is not None and self.seed != seeds_of(options)[0] or self.most < _LEAST_TRIED:
            return
        unlike = self.denials.unlike()
        if unlike is not None:
            self.broken[DENIED_ALIKE] = unlike
        for name, found in self.broken.items():
            judge = self.strict_judge(name)
            done = self.judged(found, session.simulation(found.name), self.room / "again", judge=judge)
            if done.problems:
                yield UNLESS[name], done
        tried = []
        if session.design.manager is not None and not (options.same_cycle or options.no_same_cycle):
            tried.append(UNLESS["same-cycle"])
        has_resets = all(link.reset for link in session.design.links.values())
        if session.design.client is not None and has_resets and not (options.after_reset or options.no_reset):
            tried.append(UNLESS["after-reset"])
        if not options.withdraw:
            tried.append(UNLESS["withdraw"])
        for kind in tried:
            failing = self.failing_with(kind)
            if failing is not None:
                yield kind, failing

    def strict_judge(self, name: str) -> Judge:
        """The judge to which a strict rule counts."""
        judge = Judge(self.session.design, replace(self.session.rules, strict=(name,)))
        judge.known = self.denials.known
        return judge

    def failing_with(self, kind: Unless) -> Optional[Played]:
        """Plays a few rounds with what a right design need not hold, until one fails. If it also fails without that,
        that run is returned."""
        session = self.session
        long = session.long_simulator("icarus" if "icarus" in session.compiled else "verilator")
        simulation = session.compiled.get(long) or session.compiled.get("icarus")
        begun, traffic = time.monotonic(), self.traffic(5 + list(UNLESS).index(kind.name))
        for turn in range(_TRIED_ROUNDS if simulation else 0):
            if self.until != math.inf and time.monotonic() - begun > _TRIED_SECONDS:
                break
            assert simulation
            if session.design.client is None:
                script, settings = self.host_round(traffic, kind.style, turn, False)
            else:
                script, settings = traffic.styled(kind.style, SHORT)
            found = Round("", script, {**settings, **session.forced, kind.setting: 1})
            failing = self.judged_as_all(found, simulation, self.room / kind.name)
            if failing.problems:
                calm = replace(found, settings={**found.settings, kind.setting: 0})
                without = self.judged_as_all(calm, simulation, self.room / f"no-{kind.name}")
                return without if without.problems else failing
        return None

    def judged_as_all(self, found: Round, simulation: Simulation, folder: Path) -> Played:
        """Plays and judges a round, also by what a host wrote in calm runs."""
        self.session.judge.reference = None
        done = self.judged(found, simulation, folder)
        if done.run is not None and not done.problems and self.reference is not None:
            problems = self.reference.problems(done.run, done.beats)
            self.session.judge.reference = self.reference if problems else None
            return replace(done, problems=problems)
        return done

    def netlist(self) -> Optional[Late]:
        """The netlist with late bits, if the design has one, also if there was no time to play it."""
        session = self.session
        try:
            return session.netlist() if session.has_late else session.late
        except DesignError:
            return None

    def seen(self) -> Iterator[Condition]:
        """Yields conditions that no run shows."""
        limits = self.session.limits
        if limits.far and limits.window:
            words = f"it answers at {limits.far:#x}, and denies what is right above its own addresses"
            yield Condition("all bits of an address count", words)
        if self.session.too_large:
            words, option = self.session.too_large, f"--largest {2 * limits.largest}"
            yield Condition(f"messages above {limits.largest} bytes have to pass", words, option)
        if self.restored is not None and self.restored.words:
            yield Condition("a reset has to bring back what it held at first", self.restored.words)
        late = self.netlist() if self.most >= _LEAST_TRIED else None
        if late and late.single:
            more = f" and {len(late.single) - 3} more" if len(late.single) > 3 else ""
            words = f"logic reads {', '.join(late.single[:3])}{more} after one"
            yield Condition("a bit that crosses to another clock has to pass two flip-flops", words)

    def kept_under(self, kind: Unless, done: Played, out: Path) -> Kept:
        """Shrinks a run that fails under a condition, and writes it into a folder of its own."""
        session = self.session
        judge = session.judge if kind.setting else self.strict_judge(kind.name)
        folder = out / kind.name
        most = min(session.options.shrink_seconds, _UNLESS_SECONDS)
        if self.until != math.inf:
            most = min(most, max(2.0, self.start + _ALL_SECONDS - time.monotonic()))
        kept = self.kept(done, done.problems[0], judge, folder, most, kind.setting)
        text = [f"RIGHT, unless {kind.unless}: {kept.problems[0].words}", *kept.text[1:]]
        (folder / "report.txt").write_text("\n".join(text) + "\n")
        session.judge.reference = None
        return kept

    def store(self, outcome: Outcome, out: Path) -> None:
        out.mkdir(parents=True, exist_ok=True)
        try:
            (out / "coverage.json").write_text(json.dumps(outcome.coverage) + "\n")
            (out / "report.txt").write_text("\n".join(outcome.text) + "\n")
            (out / "verdict.json").write_text(json.dumps(outcome.as_json(), indent=1) + "\n")
        except OSError as error:
            raise SimulatorError(f"{out} cannot be written: {error.strerror}") from error

    def failed(self, done: Played, problem: Problem, out: Path) -> Outcome:
        session = self.session
        found = self.base(MISTAKE, problem.words)
        self.say(f"  found after {found.seconds:.1f} s, {found.beats} beats: {problem.words}", "  shrinking ..")
        most = session.options.shrink_seconds
        if self.until != math.inf and session.options.seconds is None:
            most = min(most, max(5.0, self.start + _ALL_SECONDS - time.monotonic()))
        kept = self.kept(done, problem, session.judge, out, most)
        outcome = self.base(MISTAKE, kept.problems[0].words)
        outcome.found_seconds, outcome.messages = found.seconds, len(kept.script)
        outcome.found_processor_seconds = found.found_processor_seconds
        outcome.text = kept.text
        written = ["trace", *(f"{side}.beats" for side in session.design.links), "repeat.sh"]
        written += [name for name in ("waves.vcd", "page.html") if (out / name).exists()]
        outcome.text.append(f"Written: {session.options.out}: {', '.join(written)}. Judged by {session.judge.name}.")
        self.store(outcome, out)
        return outcome

    def kept(
        self, done: Played, problem: Problem, judge: Judge, out: Path, most: float, needed: Optional[str] = None
    ) -> Kept:
        """Shrinks a run that fails, and writes its smallest form into `out`. `needed` is a setting that stays as it is,
        or empty. If it is None, nothing comes after this run, and time is spent on its waveform."""
        session, simulation, run = self.session, done.simulation, done.run
        script, settings = done.round.script, done.round.settings
        assert run
        begun, is_last = time.monotonic(), needed is None
        shrinker = Shrinker(simulation, judge, self.room / "shrink", most, problem)
        shrinker.needed = needed or ""
        if simulation.simulator == "icarus" and session.options.simulator == "auto":
            shrinker.faster = lambda: session.compiled.get("verilator")
        before = len(script)
        script, settings = shrinker.shrink(script, settings, run.folder)
        simulation = shrinker.simulation
        if is_last:
            session.cancel_background()
        waver = self.with_waves(simulation, settings, is_last)
        out.mkdir(parents=True, exist_ok=True)
        run = waver.run(script, settings, out, waves=not session.options.no_waves)
        beats = Beats(session.design, run)
        problems = judge.problems(run, beats)
        if not problems:  # the last run is no longer than the one that failed, and must fail as it did
            run = simulation.run(script, settings, out)
            beats = Beats(session.design, run)
            problems = judge.problems(run, beats) or [problem]
        (out / "trace").write_text(trace_of(session.design, beats.near()))
        shutil.copy(simulation.bench, out / simulation.bench.name)
        repeat = out / "repeat.sh"
        place = session.options.out.resolve() / ("" if is_last else out.name)
        place = place if session.options.seeds is None else out.resolve()
        repeat.write_text(repeat_text(waver, script, settings, place))
        repeat.chmod(0o755)
        self.page(out)
        for name in out.glob("*.sent"):
            name.unlink()
        seconds = time.monotonic() - begun
        text = self.explained(problems, beats.all(), script, settings, shrinker, before, seconds)
        return Kept(script, settings, problems, text)

    def with_waves(self, simulation: Simulation, settings: Settings, may_compile: bool) -> Simulation:
        """The simulation that writes waves: Icarus if it can compile the bench, or Verilator compiled again."""
        session = self.session
        if session.options.no_waves or simulation.simulator == "icarus":
            return simulation
        is_late = bool(settings.get("skew"))
        made = session.build("icarus late" if is_late else "icarus") if shutil.which("iverilog") else None
        if made is not None or not may_compile:
            return made or simulation
        if time.monotonic() - self.start + session.build_seconds > _ALL_SECONDS - 10:
            self.say("  no waves.vcd, since Verilator would have to compile again: repeat.sh writes it")
            return simulation
        self.say("  compiling again for waves.vcd ..")
        try:
            return simulation.with_waves(session.room / "waves")
        except DesignError:
            return simulation

    def page(self, out: Path) -> None:
        program = find_program("tlexplain")
        if program:
            done = subprocess.run([program, "--html", "--in-order", str(out / "trace")], capture_output=True)
            if done.stdout:
                (out / "page.html").write_bytes(done.stdout)

    def explained(
        self,
        problems: List[Problem],
        beats: List[Beat],
        script: List[Message],
        settings: Settings,
        shrinker: Shrinker,
        before: int,
        seconds: float,
    ) -> List[str]:
        """The text of a mistake: one line, the lanes, what it needs, and the shrunk run."""
        design, problem = self.session.design, problems[0]
        has_two = self.session.bench.has_two
        lines = [f"MISTAKE: {problem.words}"] + [f"    {line}" for line in problem.picture]
        if seems_to_split(problems):
            lines.append(
                "This design seems to split messages. It is compared with a bridge that keeps messages whole;"
                " --rules-only judges one that splits them (--rules-only --level UL for TL-UL)."
            )
        if problem.kind == "hang" and all(is_near(beat.side, beat.channel) for beat in beats):
            lines.append(
                "    Nothing ever came out. Is the polarity of the reset right? (--client-reset !NAME is active low)"
            )
        needs = "; ".join(needs_of(settings, design, has_two))
        if shrinker.is_cut:
            lines.append(f"It may need: {needs}. Not all was tried: --shrink-seconds.")
        else:
            lines.append(f"It needs: {needs}.")
        lines.append(f"The shrunk run has {len(script)} of {before} messages ({shrinker.runs} runs, {seconds:.1f} s):")
        last = sum(beat.time <= problem.time for beat in beats)
        first = max(0, last - 30) if len(beats) > 40 else 0
        if first:
            lines.append(f"    .. {first} beats before")
        for beat in beats[first : last + 8]:
            mark = f"  <-- {problem.kind}" if beat == problem.beat else ""
            lines.append(f"    {beat.time / 1000:>9.1f} ns  {beat.side:7} {beat.line}   {name_of(beat.line)}{mark}")
        if len(beats) > last + 8:
            lines.append(f"    .. {len(beats) - last - 8} beats after")
        options = [] if shrinker.is_cut else options_of(settings, script, design, has_two, problem.kind)
        if options:
            lines.append(f"If the design need not hold this: {', or '.join(options)}.")
        others = [other for other in problems[1:] if other.words != problem.words][:2]
        return lines + [f"Also: {other.words}" for other in others]


def seems_to_split(problems: List[Problem]) -> bool:
    """Whether a request left the design with a smaller size than it has to have."""
    wrong = re.compile(r"^manager link: .*\bsize is ([0-9a-f]), expected ([0-9a-f])")
    sizes = (wrong.search(problem.words) for problem in problems)
    return any(found and int(found[1], 16) < int(found[2], 16) for found in sizes)
