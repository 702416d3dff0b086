"""Shrinks a run that fails: fewer messages, calmer timing, simpler messages, as long as it fails in the same way.

Each message is first pinned to the cycle in which it was sent. Then the others can be removed, and its timing stays.
"""
from __future__ import annotations

import math
import time
from pathlib import Path
from typing import Any, Callable, Dict, Iterator, List, Optional, Sequence, Tuple

from .bench import Settings, Simulation
from .design import Design, DesignError
from .judge import Beats, Judge, Problem
from .traffic import Message

Script = List[Message]
# Each setting when it does not disturb. One that cannot be calmed is needed for the failure, and the report says so.
CALM = {
    "serial": 1,
    "in_order": 1,
    "early": 0,
    "reuse": 0,
    "denied": 0,
    "corrupt": 0,
    "patient": 0,
    "quiet": 1,
    "blocking": 0,
    "gather": 0,
    "slow": 0,
    "long_stalls": 0,
    "reset_at": 0,
    "held": 0,
    "at_once": 0,
    "same_cycle": 0,
    "withdraw": 0,
    "skew": 0,
}
_DEFAULTS = {"serial": 0, "in_order": 0, "early": 1, "reuse": 1, "denied": 1, "corrupt": 1, "patient": 1, "quiet": 0}
_NEEDS = {
    "serial": "several requests outstanding",
    "in_order": "responses out of order",
    "early": "a response before the last beat of its request",
    "reuse": "a source that is used again before the last beat of its response",
    "denied": "denied responses",
    "corrupt": "corrupt response data",
    "patient": "a ready that waits for valid",
    "quiet": "fields that are not 0 while valid is 0",
    "blocking": "a side that accepts nothing while it has work on a channel of higher priority",
    "gather": "many requests outstanding before the first response",
    "slow": "responses that come hundreds of cycles after their request",
    "long_stalls": "stalls of hundreds of cycles",
    "reset_at": "a reset while messages are under way",
    "held": "beats that wait in the design when the reset comes",
    "at_once": "a request in the first cycles after a reset",
    "same_cycle": "responses in the cycle of their request",
    "withdraw": "a valid that falls before ready",
    "skew": "bits that cross to another clock and arrive one edge late",
}
# The options of a user whose design need not hold one of these.
_OPTIONS = {
    "in_order": "--in-order",
    "early": "--no-early",
    "reuse": "--no-reuse",
    "denied": "--no-denied",
    "reset_at": "--no-reset",
    "blocking": "--no-blocking",
    "skew": "--no-skew",
}


def kin(kind: str) -> str:
    """The kinds of mistakes that count as the same while a run shrinks."""
    return kind if kind in ("hang", "unsteady", "memory") else "wrong"


class Shrinker:
    """Shrinks one run. `problem_of` plays and judges."""

    def __init__(self, simulation: Simulation, judge: Judge, room: Path, seconds: float, problem: Problem):
        self.simulation, self.judge, self.room = simulation, judge, room
        self.channels = simulation.design.channels
        self.has_two = simulation.has_two
        self.until = time.monotonic() + seconds
        self.kin, self.time = kin(problem.kind), problem.time
        self.runs = 0
        self.begin = 0
        self.faster: Optional[
            Callable[[], Optional[Simulation]]
        ] = None  # another simulation of the design, once it is compiled
        self.needed = ""  # a setting that stays as it is
        self.best: Tuple[Script, Settings] = ([], {})  # the last run that failed
        self.is_cut = False  # time was over before all was tried

    @property
    def ended_early(self) -> bool:
        return time.monotonic() > self.until

    def problem_of(self, script: Script, settings: Settings) -> Optional[Problem]:
        self.runs += 1
        starts = sorted(message.at for message in script if message.at) or [0]
        gaps = [after - before for before, after in zip(starts, starts[1:])]
        gap = max(gaps + [starts[0] - settings.get("client_offset", 0)])
        slower = max(1, settings.get("manager_half", 1) // settings.get("client_half", 1))
        idle = settings.get("idle", 2000) // (1 if settings.get("long_stalls") else 3)
        idle += gap + 2 * (settings.get("gather", 0) + settings.get("slow", 0)) * slower
        idle = max(idle, settings.get("reset_at", 0) - settings.get("client_offset", 0))
        end = max(settings.get("end", 200) // 3, gap if settings.get("reset_at") else 0)
        settings = {**settings, "end": end, "idle": idle, "stop": int(self.kin != "hang")}
        try:
            run = self.simulation.run(script, settings, self.room)
            problems = self.judge.problems(run, Beats(self.simulation.design, run))
        except DesignError:
            return None
        return problems[0] if problems else None

    def fails(self, script: Script, settings: Settings, seeds: int = 1) -> Optional[Settings]:
        """Returns the settings with which it fails as it did, perhaps with another seed; or None."""
        self.hurry()
        first = settings["seed"]
        for seed in range(first, first + (seeds if len(script) <= 12 else 1)):
            if self.ended_early:
                return None
            found = self.problem_of(script, {**settings, "seed": seed})
            if found and kin(found.kind) == self.kin:
                self.best = script, {**settings, "seed": seed}
                return self.best[1]
        return None

    def hurry(self) -> None:
        """Goes on with a faster simulation once it is compiled, if the last run that failed also fails there."""
        faster = self.faster() if self.faster and self.best[0] else None
        if faster:
            self.faster = None
            slower, self.simulation = self.simulation, faster
            found = self.problem_of(*self.best)
            if not found or kin(found.kind) != self.kin:
                self.simulation = slower

    def shrink(self, script: Script, settings: Settings, folder: Path) -> Tuple[Script, Settings]:
        """Returns the smallest run that was found. `folder` is that of the run that failed."""
        if settings.get("most"):  # a host sends by itself: the run ends soon after the mistake
            cycles = self.time // (2 * settings.get("manager_half", 5000)) + 30
            settings = self.fails(script, {**settings, "most": min(settings["most"], cycles)}) or settings
        script, settings = self.window(script, settings, self.pinned(script, folder))
        settings = self.calmer(script, settings)
        script, settings = self.fewer(script, settings)
        while True:
            before = (list(script), dict(settings))
            free = [message._replace(at=0) for message in script]
            begin = {**settings, "client_offset": 0, "manager_offset": 0, "skipped": 0}
            better = self.fails(free, begin, 8) if free != script else None
            if better:
                script, settings = free, better
            settings = self.calmer(script, settings)
            script, settings = self.simpler(script, settings)
            script, settings = self.fewer(script, settings)
            self.is_cut = self.ended_early
            if (script, settings) == before or self.is_cut:
                return script, settings

    def pinned(self, script: Script, folder: Path) -> Script:
        """Returns the messages that were sent, each not before its cycle."""
        sent: Dict[str, List[int]] = {channel: [] for channel in "ABC"}
        links = self.simulation.design.links
        for side in links:
            path = folder / f"{side}.sent"
            for line in path.read_text().splitlines() if path.exists() else []:
                number, cycle = map(int, line.split())
                if number < 3:
                    sent["ABC"[number]].append(cycle)
                elif side == "client" or len(links) == 1:
                    self.begin = cycle
        taken = {channel: 0 for channel in "ABC"}
        pinned = []
        for message in script:
            at = taken[message.channel]
            taken[message.channel] += 1
            if at < len(sent[message.channel]):
                pinned.append(message._replace(at=sent[message.channel][at]))
        return pinned

    def window(self, script: Script, settings: Settings, pinned: Script) -> Tuple[Script, Settings]:
        """Only the last messages before the mistake, with the stalls that they had; or else all before it, or all."""
        cut = [message for message in pinned if message.at <= self.cycle(settings, message.channel)]
        last = max([message.at for message in cut], default=0)
        cycles = 8
        while cycles < last and self.kin != "hang":
            kept = [message for message in cut if message.at >= last - cycles]
            found = self.fails(kept, self.moved(settings, last - cycles))
            if found:
                return kept, found
            cycles *= 2
        for some in (cut, pinned):
            found = self.fails(some, settings) if some and (self.kin != "hang" or some is pinned) else None
            if found:
                return (some, found) if some is cut else self.prefix(some, found)
        return self.prefix(script, settings)

    def cycle(self, settings: Settings, channel: str) -> int:
        """The cycle of the mistake, as the sender of a channel counts."""
        side = "manager" if channel == "B" else "client"
        if not self.has_two:
            return self.time // (2 * settings.get("client_half", 5000)) + 1
        return (self.time - settings.get(f"{side}_phase", 0)) // (2 * settings.get(f"{side}_half", 5000)) + 1

    def moved(self, settings: Settings, cycle: int) -> Settings:
        """The settings of a run that begins at this cycle of the client."""
        skipped = max(0, cycle - self.begin - 1)
        if settings.get("reset_at"):
            skipped = min(skipped, max(0, settings["reset_at"] - self.begin - 20))
        if not self.has_two:
            return {**settings, "client_offset": skipped, "manager_offset": skipped}
        client, manager = settings["client_half"], settings["manager_half"]
        step = manager // math.gcd(client, manager)
        skipped -= skipped % step
        offsets = {"client_offset": skipped, "manager_offset": skipped * client // manager}
        return {**settings, **offsets, "skipped": 2 * client * skipped}

    def prefix(self, script: Script, settings: Settings) -> Tuple[Script, Settings]:
        low, high = 1, len(script)
        while low < high and not self.ended_early:
            middle = (low + high) // 2
            if self.fails(script[:middle], settings):
                high = middle
            else:
                low = middle + 1
        if high < len(script) and self.fails(script[:high], settings):
            return script[:high], settings
        return script, settings

    def fewer(self, script: Script, settings: Settings) -> Tuple[Script, Settings]:
        size = max(1, len(script) // 2)
        while not self.ended_early:
            at = 0
            while at < len(script) and len(script) > 1 and not self.ended_early:
                rest = script[:at] + script[at + size :]
                better = self.fails(rest, settings, 3) if rest else None
                if better:
                    script, settings = rest, better
                else:
                    at += size
            if size == 1:
                break
            size = max(1, size // 2)
        return script, settings

    def calmer(self, script: Script, settings: Settings) -> Settings:
        def attempt(changes: Dict[str, int]) -> Settings:
            return self.fails(script, {**settings, **changes}, 2) or settings

        if self.has_two and (settings["client_half"], settings["manager_half"]) != (5000, 5000):
            clocks = {"client_half": 5000, "manager_half": 5000, "client_phase": 0, "manager_phase": 2500}
            settings = attempt({**clocks, "idle": 2000, "end": 200})
        for name, value in CALM.items():
            if name != self.needed and settings.get(name, _DEFAULTS.get(name, 0)) != value:
                settings = attempt({name: value})
        for calm in (0x3FF, 0x155, 0x2AA):  # all, the valids, the readies
            if settings["calm"] | calm != settings["calm"]:
                settings = attempt({"calm": settings["calm"] | calm})
        for bit in range(10):
            if not settings["calm"] >> bit & 1 and "ABCDE"[bit // 2] in self.channels:
                settings = attempt({"calm": settings["calm"] | 1 << bit})
        return settings

    def simpler(self, script: Script, settings: Settings) -> Tuple[Script, Settings]:
        for at in range(len(script)):
            for changes in _simplifications(script[at]):
                if self.ended_early:
                    return script, settings
                changed = script[:at] + [script[at]._replace(**changes)] + script[at + 1 :]
                better = self.fails(changed, settings) if changed[at] != script[at] else None
                if better:
                    script, settings = changed, better
        return script, settings


def _simplifications(message: Message) -> Iterator[Dict[str, Any]]:
    yield {"corrupt_seed": 0}
    yield {"mask_seed": 0}
    if message.channel == "A" and message.opcode != 4:
        yield {"opcode": 4, "param": 0, "mask_seed": 0, "corrupt_seed": 0}
        if message.opcode:
            yield {"opcode": 0, "param": 0, "mask_seed": 0}
    for size in range(message.size):
        yield {"size": size}
    yield {"source": 0}
    yield {"address": message.address & 0xFF}
    if message.address >> 12:
        yield {"address": message.address & 0xFFF}
    yield {"param": 0}


def options_of(settings: Settings, script: Sequence[Message], design: Design, has_two: bool, kind: str) -> List[str]:
    """Returns options with which this failure does not happen, each with what it says of the design."""
    words = [
        f"{option} (without {_NEEDS[name]})"
        for name, option in _OPTIONS.items()
        if settings.get(name, _DEFAULTS.get(name, 0)) != CALM[name]
    ]
    narrow = min(link.width for link in design.links.values())
    sizes = [1 << message.size for message in script if message.channel == "A"]
    if sizes and min(sizes) > 64:
        words.append("--largest 64 (without larger messages)")
    elif sizes and min(sizes) > narrow:
        words.append(f"--largest {narrow} (without bursts)")
    if sizes and all(message.opcode in (2, 3) for message in script if message.channel == "A"):
        words.append("--only get,put,partial (without atomics)")
    if has_two and settings["client_half"] != settings["manager_half"]:
        words.append("--one-clock (both clock inputs get one clock)")
    if kind in ("invented", "lost"):
        words.append("--rules-only (it answers or makes messages itself, so it is no plain bridge)")
    if kind == "memory":
        words.append("--no-memory (reads need not return what was written)")
    return words


def needs_of(settings: Settings, design: Design, has_two: bool) -> List[str]:
    """Returns what the failure needs, in words: all that could not be calmed."""
    words = [
        _NEEDS[name]
        for name, value in CALM.items()
        if name != "quiet" and settings.get(name, _DEFAULTS.get(name, 0)) != value
    ]
    names = [
        f"{'valid' if bit % 2 == 0 else 'ready'} of {'ABCDE'[bit // 2]}"
        for bit in range(10)
        if not settings["calm"] >> bit & 1 and "ABCDE"[bit // 2] in design.channels
    ]
    if names:
        words.append("pauses on " + ", ".join(names))
    if has_two and (settings["client_half"], settings["manager_half"]) != (5000, 5000):
        words.append(f"clock periods of {2 * settings['client_half']} and {2 * settings['manager_half']} ps")
    return words or ["nothing special: no pauses, one request at a time"]
