"""Judges a run: the far beats of both links against the expected ones, and what the bench and the checkers reported.

Beats are read in bulk as lines of a trace, and each channel is first compared as text. Only a channel that differs is
read beat by beat.
"""
from __future__ import annotations

import operator
import os
import subprocess
from dataclasses import dataclass
from importlib.machinery import SourceFileLoader
from importlib.util import module_from_spec, spec_from_loader
from pathlib import Path
from typing import TYPE_CHECKING, Any, Dict, Iterator, List, Mapping, Optional, Sequence, Set, Tuple

from ..protocol import CARRIES_DATA, CHANNELS, FIELDS, FROM_CLIENT, OPCODES, beat_count
from ..judge import find_program
from .bench import Run, SimulatorError, version_of
from .design import Design, DesignError

if TYPE_CHECKING:
    from .host import Reference
    from .strict import Key

# By channel and opcode, the name of the message.
NAMES = {
    channel: [kinds[opcode].name if opcode in kinds else "?" for opcode in range(8)]
    for channel, kinds in OPCODES.items()
    if channel != "E"
}
# The fields of a line, in order.
_ORDER = ("opcode", "param", "size", "source", "sink", "denied", "address", "mask", "data", "corrupt")
ORDER = {channel: [name for name in _ORDER if name in FIELDS[channel]] for channel in CHANNELS}
GRANTS = "45"


@dataclass(frozen=True)
class Beat:
    """A beat of the bench: its time in ps, the side whose link it was on, and its line of a trace."""

    time: int
    side: str
    line: str

    @property
    def channel(self) -> str:
        return self.line[0]

    def values(self) -> Dict[str, str]:
        return values_of(self.line)


@dataclass(frozen=True)
class Problem:
    """A mistake. Its kind is wrong, unknown, lost, invented, rule, unsteady, memory, hang, or follow if the tool itself
    broke a rule after it."""

    kind: str
    channel: str
    words: str
    time: int
    picture: Tuple[str, ...] = ()
    beat: Optional[Beat] = None


def is_unknown(text: str) -> bool:
    """Whether a line has an unknown bit. %h writes X for a digit of which only some bits are unknown."""
    return "x" in text or "X" in text or "z" in text or "Z" in text


def values_of(line: str) -> Dict[str, str]:
    return dict(zip(ORDER[line[0]], line.split(" ")[1:]))


def name_of(line: str) -> str:
    """Returns a beat in words."""
    if line[0] == "E":
        return "GrantAck"
    word = line.split(" ")
    try:
        return f"{NAMES[line[0]][int(word[1], 16)]} of {1 << int(word[3], 16)} bytes, source {word[4]}"
    except ValueError:
        return "a beat"


def is_near(side: str, channel: str) -> bool:
    """Whether this side of the bench sends this channel."""
    return (channel in FROM_CLIENT) == (side == "client")


# ---- the beats of a run


class Beats:
    """The beats of a run. `lines` and `times` have those of each side, in order of time. Beats before a reset in the
    middle are left out."""

    def __init__(self, design: Design, run: Run):
        self.lines: Dict[str, List[str]] = {}
        self.times: Dict[str, List[int]] = {}
        for side in design.links:
            lines, times = self._read(run.folder / f"{side}.beats")
            first = next((at for at, time in enumerate(times) if time > run.reset_time), len(times))
            self.lines[side], self.times[side] = (lines[first:], times[first:]) if first else (lines, times)
        self._split: Dict[str, Dict[str, Tuple[List[str], List[int]]]] = {}  # of each side, if it was asked for

    @classmethod
    def none(cls, design: Design) -> "Beats":
        """No beats."""
        return cls(design, Run(Path(os.devnull), ""))

    @staticmethod
    def _read(path: Path) -> Tuple[List[str], List[int]]:
        try:
            lines, times = path.read_text().splitlines(), list(map(int, Path(f"{path}.times").read_text().split()))
            return lines[: len(times)], times  # a run may end between the two writes of its last beat
        except (FileNotFoundError, NotADirectoryError):
            return [], []
        except (OSError, ValueError) as error:
            raise SimulatorError(f"the simulator left no beats that can be read: {error}") from error

    def __len__(self) -> int:
        return sum(map(len, self.lines.values()))

    def _by_channel(self, side: str) -> Dict[str, Tuple[List[str], List[int]]]:
        """The lines and times of each channel of a side, which are split once."""
        if side not in self._split:
            parts: Dict[str, Tuple[List[str], List[int]]] = {channel: ([], []) for channel in CHANNELS}
            for line, time in zip(self.lines[side], self.times[side]):
                lines, times = parts[line[0]]
                lines.append(line)
                times.append(time)
            self._split[side] = parts
        return self._split[side]

    def of(self, side: str, channel: str) -> List[str]:
        return self._by_channel(side)[channel][0]

    def times_of(self, side: str, channel: str) -> List[int]:
        return self._by_channel(side)[channel][1]

    def near(self) -> List[str]:
        """The near beats of both links, in order of time."""
        found: List[Tuple[int, str]] = []
        for side in self.lines:
            for channel in "ACE" if side == "client" else "BD":
                lines, times = self._by_channel(side)[channel]
                found += zip(times, lines)
        found.sort(key=operator.itemgetter(0))
        return [line for _, line in found]

    def all(self) -> List[Beat]:
        """All beats, in order of time."""
        beats = [
            Beat(time, side, line) for side, lines in self.lines.items() for time, line in zip(self.times[side], lines)
        ]
        beats.sort(key=lambda beat: beat.time)
        return beats


def trace_of(design: Design, lines: Sequence[str]) -> str:
    """Returns the trace of near beats."""
    widths = {side: link.width for side, link in design.links.items()}
    client, manager = (widths.get("client") or widths["manager"], widths.get("manager") or widths["client"])
    return "\n".join([f"tilelink-trace {version_of(design)} client {client} manager {manager}", *lines, ""])


# ---- the expected beats


class Model:
    """Computes the expected far beats: by the verified program if it is built, else by the unverified model in this
    process."""

    def __init__(self) -> None:
        self.program = find_program("tlbridge")
        self._model: Any = None
        if self.program is None:
            path = _model_path()
            loader = SourceFileLoader("tlbridge_model", str(path))
            spec = spec_from_loader(loader.name, loader)
            assert spec
            import sys

            self._model = sys.modules[loader.name] = module_from_spec(spec)
            loader.exec_module(self._model)

    @property
    def name(self) -> str:
        return "the verified program tlbridge" if self.program else "the unverified model tlbridge-model"

    def expected(self, trace: str) -> Dict[str, List[str]]:
        """Returns the far beats of each channel, as lines. Errors: the trace is no trace, or the program fails."""
        if self.program:
            done = subprocess.run([self.program, "run", "--sync"], input=trace.encode(), capture_output=True)
            if done.returncode > 1:
                raise SimulatorError(f"{self.program} refused the trace of a run: {done.stderr.decode().strip()[:200]}")
            answer = done.stdout.decode()
        else:
            made = self._model.answer(trace.encode())
            if made.fault:
                raise SimulatorError(f"tlbridge-model refused the trace of a run: {made.fault}")
            answer = made.output(False).decode()
        expected: Dict[str, List[str]] = {channel: [] for channel in CHANNELS}
        for line in answer.splitlines()[1:]:
            if line[0] in expected:
                expected[line[0]].append(line)
        return expected


def _model_path() -> Path:
    here = Path(__file__).resolve().parents
    for folder in (here[3], *([here[5] / "bin"] if len(here) > 5 else [])):
        if (folder / "tlbridge-model").is_file():
            return folder / "tlbridge-model"
    raise DesignError(
        "neither tlbridge nor tlbridge-model was found next to this program: run `make install-files` again"
    )


# ---- the comparison


def lanes_of(data: str) -> List[str]:
    """The bytes of a data field, lane 0 first."""
    return [data[at : at + 2] for at in range(len(data) - 2, -1, -2)]


def active_lanes(channel: str, values: Dict[str, str], width: int, home: int) -> Set[int]:
    """Returns the lanes of a beat whose data count. `home` is the address that places its message."""
    opcode, size = int(values["opcode"], 16), int(values["size"], 16)
    if opcode not in CARRIES_DATA[channel]:
        return set()
    lanes = {lane for lane in range(width) if (1 << size) >= width or ((lane ^ home) & (width - 1)) >> size == 0}
    if channel in "AB" and opcode == 1:
        mask = int(values["mask"], 16)
        lanes = {lane for lane in lanes if mask >> lane & 1}
    return lanes


def homes_of(channel: str, lines: Sequence[str], width: int, near: Sequence[str], near_width: int) -> List[int]:
    """Returns for each far line the address that places its data. The n-th response of a source has that of its n-th
    request."""
    if channel == "E":
        return [0] * len(lines)
    if channel != "D":
        return [int(line.split(" ")[5], 16) for line in lines]
    asked: Dict[str, List[int]] = {}
    left = 0
    for line in near:
        if line[0] == "A":
            values = values_of(line)
            if left == 0:
                asked.setdefault(values["source"], []).append(int(values["address"], 16))
                left = beat_count("A", int(values["opcode"], 16), int(values["size"], 16), near_width)
            left -= 1
    homes, left, home = [], 0, 0
    for line in lines:
        values = values_of(line)
        opcode = int(values["opcode"], 16)
        if left == 0:
            left = beat_count("D", opcode, int(values["size"], 16), width)
            if opcode != 6:
                waiting = asked.get(values["source"], [])
                home = waiting.pop(0) if waiting else 0
        left -= 1
        homes.append(home)
    return homes


def differing(channel: str, got: str, expected: str, width: int, skip: Set[str], home: int) -> List[str]:
    """Returns the fields in which two lines differ. A sink counts only in a Grant, and data only on active lanes."""
    if got == expected:
        return []
    have, want = values_of(got), values_of(expected)
    names = []
    for name in ORDER[channel]:
        if have[name] == want[name] or name in skip:
            continue
        if name == "sink" and channel == "D" and want["opcode"] not in GRANTS:
            continue
        if name == "data":
            came, due = lanes_of(have["data"]), lanes_of(want["data"])
            if all(came[lane] == due[lane] for lane in active_lanes(channel, want, width, home)):
                continue
        names.append(name)
    return names


def picture_of(channel: str, got: str, expected: str, width: int, home: int) -> Tuple[str, ...]:
    """Returns the data of both lines, lane by lane."""
    have, want = values_of(got), values_of(expected)
    if width > 32:
        return (f"expected data {want['data']}", f"got data      {have['data']}")
    came, due, active = (lanes_of(have["data"]), lanes_of(want["data"]), active_lanes(channel, want, width, home))
    order = list(reversed(range(width)))
    marks = " ".join("^^" if lane in active and came[lane] != due[lane] else "  " for lane in order)
    return (
        "lane     " + " ".join(f"{lane:2d}" for lane in order),
        "expected " + " ".join(due[lane] if lane in active else ".." for lane in order),
        "got      " + " ".join(came[lane] for lane in order),
        ("         " + marks).rstrip(),
    )


@dataclass(frozen=True)
class Rules:
    """How a design is judged."""

    is_bridge: bool  # the far beats of each link follow from the near beats of both
    is_memory: bool  # reads on the link to the client return what was written
    strict: Tuple[str, ...] = ()  # the rules of verify/strict.py that count as mistakes


class Judge:
    """Judges runs of one design."""

    def __init__(self, design: Design, rules: Rules):
        self.design, self.rules = design, rules
        self.model = Model() if rules.is_bridge else None
        self.reference: Optional["Reference"] = None  # what a host has to write
        self.known: Mapping["Key", bool] = {}  # requests that have to be denied, by a strict rule, and that must not

    @property
    def name(self) -> str:
        checker = "the checker sv/tl_checker.sv"
        if self.model:
            return f"{self.model.name} and {checker}"
        return checker + (" and the judge of memories" if self.rules.is_memory else "")

    def problems(self, run: Run, beats: Beats) -> List[Problem]:
        """Returns the mistakes of a run, the one to show first. An empty list: there is none."""
        found = [self._complaint(*complaint) for complaint in run.complaints]
        found += [self._fault(*fault) for fault in run.faults]
        if self.rules.is_bridge:
            found += self._compared(run, beats)
        if self.rules.is_memory:
            from .memory import memory_problems

            found += memory_problems(self.design, beats)
            if self.design.is_bridge:
                from .corrupt import corrupt_problems

                found += corrupt_problems(self.design, beats)
        if self.reference is not None:
            found += self.reference.problems(run, beats)
        if self.rules.strict:
            found += self.broken_rules(beats, self.rules.strict).values()
        if run.hang:
            found.append(Problem("hang", "", f"hang: {run.hang.rstrip(',:')}", run.time))
        # a hang comes after all others; of two at one time, the wrong beat says more than the rule that it breaks
        group = {"unsteady": 1, "follow": 2, "lost": 2, "hang": 3}
        rank = {"wrong": 0, "unknown": 0, "invented": 1}
        found.sort(key=lambda problem: (group.get(problem.kind, 0), problem.time, rank.get(problem.kind, 2)))
        return found

    def broken_rules(self, beats: Beats, names: Optional[Sequence[str]] = None) -> Dict[str, Problem]:
        """Returns the first beat that breaks a strict rule, by the name of the rule: of these rules, or of all. The
        rules of memories are tried only if reads return what was written."""
        from .strict import OF_MEMORIES, RULES, broken_rules

        is_tried = self.rules.is_memory or self.design.client is None
        tried = [name for name in names or RULES if is_tried or name not in OF_MEMORIES]
        return {} if self.rules.is_bridge else broken_rules(self.design, beats, tried, self.known)

    @staticmethod
    def _complaint(time: int, side: str, channel: str, words: str) -> Problem:
        kind = "unknown" if " x" in words else "unsteady"
        more = ""
        if kind == "unsteady":
            more = ". TileLink permits this, and most receivers do not expect it: --may-withdraw accepts it"
        return Problem(kind, channel, f"{side} link, channel {channel}: {words}{more}", time)

    @staticmethod
    def _fault(time: int, side: str, channel: str, words: str) -> Problem:
        mine = is_near(side, channel)
        more = " (this tool sent it, because of an earlier mistake of the design)" if mine else ""
        return Problem("follow" if mine else "rule", channel, f"{side} link, channel {channel}: {words}{more}", time)

    def _compared(self, run: Run, beats: Beats) -> Iterator[Problem]:
        assert self.model
        near = beats.near()
        trace = trace_of(self.design, near)
        if is_unknown(trace[trace.index("\n") :]):
            line = next(line for line in near if is_unknown(line))
            yield Problem(
                "unknown",
                line[0],
                f"this tool sent an unknown bit, because of an earlier mistake of the design: {line}",
                run.time,
            )
            return
        expected = self.model.expected(trace)
        for channel in CHANNELS:
            side = "manager" if channel in FROM_CLIENT else "client"
            got, due = beats.of(side, channel), expected[channel]
            if got != due:
                problem = self._first(run, beats, side, channel, got, due, near)
                if problem:
                    yield problem

    def _first(
        self, run: Run, beats: Beats, side: str, channel: str, got: List[str], due: List[str], near: List[str]
    ) -> Optional[Problem]:
        """Returns the first mistake of a channel whose lines are not as expected, if they differ in what counts."""
        width = self.design.links[side].width
        other = self.design.links["manager" if side == "client" else "client"].width
        skip = {name for name in FIELDS[channel] if not self.design.has(channel, name)}
        homes = homes_of(channel, due, width, near, width if channel == "D" else other)
        for number, line in enumerate(got):
            if number >= len(due):
                beat = Beat(beats.times_of(side, channel)[number], side, line)
                words = (
                    f"{side} link: {name_of(line)}, beat {number + 1} of {channel}, comes out, and no more is expected:"
                    f" {line}"
                )
                return Problem("invented", channel, words, beat.time, beat=beat)
            if line == due[number]:
                continue
            names = differing(channel, line, due[number], width, skip, homes[number])
            if names:
                beat = Beat(beats.times_of(side, channel)[number], side, line)
                return self._wrong(beat, number, due[number], names, width, homes[number])
        if len(got) == len(due):
            return None
        missing = f"beat {len(got) + 1} of {channel}"
        line = due[len(got)]
        if run.hang:
            words = f"{side} link: {missing} does not come out, and nothing moves: {name_of(line)}: {line}"
            return Problem("hang", channel, words, run.time)
        return Problem("lost", channel, f"{side} link: {missing} never comes out: {name_of(line)}: {line}", run.time)

    @staticmethod
    def _wrong(beat: Beat, number: int, due: str, names: List[str], width: int, home: int) -> Problem:
        have, want = beat.values(), values_of(due)
        words = [
            f"{n} is {have[n]}, expected {want[n]}" for n in names[:3] if n != "data" or width <= 8 and len(names) == 1
        ]
        if "data" in names and not (words and words[0].startswith("data")):
            words.append("data differ")
        kind = "unknown" if is_unknown(beat.line) else "wrong"
        picture = picture_of(beat.channel, beat.line, due, width, home) if "data" in names else ()
        said = f"{beat.side} link: {name_of(beat.line)}, beat {number + 1} of {beat.channel}: {', '.join(words)}"
        return Problem(kind, beat.channel, said, beat.time, picture, beat)
