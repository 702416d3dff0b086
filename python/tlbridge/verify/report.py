"""What a run has reached, and what it has not: opcodes by size by lane offset, order, stalls, clocks; and the speed of
the design."""
from __future__ import annotations

import operator
from collections import Counter
from pathlib import Path
from typing import Any, Dict, List, Mapping, Optional, Sequence, Set, Tuple

from ..protocol import FIELDS, FROM_CLIENT, beat_count
from .bench import EndlessError, OverTimeError, Run, Settings, Simulation, channels_of, version_of
from .design import Design
from .judge import NAMES, Beats, Judge, is_near, is_unknown
from .traffic import REQUESTS, Limits, Message, Traffic

Key = Tuple[
    str, str, str, int, int
]  # side, channel, name, size, lane offset (0 if the message fills whole beats, or has no address)
_PERIOD = 10000  # ps, of one clock
_SPEED_SECONDS = 20  # of the run that measures one channel
_ORDERED_LINES = 6000  # of a run, in which responses are followed


class Coverage:
    """Counts what the beats of many runs have reached. `as_json` and `merged` carry it from run to run."""

    def __init__(self, design: Optional[Design] = None, is_bridge: bool = True):
        self.widths = {side: link.width for side, link in design.links.items()} if design else {}
        letters = {channels_of(design, side, is_bridge) for side in design.links} if design else set()
        self.channels = "".join(sorted(set("".join(letters))))
        self.is_bridge = is_bridge
        self.digits = 4 if design and version_of(design) == 2 else 2
        self.messages: Counter[Key] = Counter()
        self.counts: Counter[str] = Counter()
        self.ratios: Set[float] = set()

    # ---- counting

    def add(self, beats: Beats, run: Run, settings: Settings, has_two: bool) -> None:
        """Adds a run. The beats of each channel are counted in bulk."""
        counts = self.counts
        counts["beats"] += len(beats)
        counts["cycles"] += run.cycles
        counts["runs"] += 1
        counts["resets"] += run.reset_time >= 0
        for name in ("gather", "blocking", "long_stalls", "same_cycle", "withdraw", "skew"):
            counts[f"runs with {name.replace('_', ' ')}"] += bool(settings.get(name))
        for (side, channel), number in run.stalls.items():
            counts[f"stalled cycles, {side} {channel}"] += number
        if has_two:
            self.ratios.add(round(settings["client_half"] / settings["manager_half"], 2))
        for side, width in self.widths.items():
            period = 2 * settings.get(f"{side}_half", _PERIOD // 2)
            for channel in self.channels:
                lines = beats.of(side, channel)
                times = beats.times_of(side, channel)
                self._count(side, channel, width, lines)
                counts[f"back to back, {side} {channel}"] += [*map(operator.sub, times[1:], times)].count(period)
            for at, channel in enumerate(self.channels[:-1]):
                moments = set(beats.times_of(side, channel))
                for other in self.channels[at + 1 :]:
                    both = moments.intersection(beats.times_of(side, other))
                    counts[f"in one cycle, {side} {channel}{other}"] += len(both)
        self._order(next(iter(self.widths)), beats)

    def _count(self, side: str, channel: str, width: int, lines: Sequence[str]) -> None:
        if channel == "E":
            self.messages[side, "E", "GrantAck", 0, 0] += len(lines)
            return
        low = 8 + self.digits + 1 + 16 - 2
        if channel == "D":
            found = Counter([line[2:7:4] for line in lines])
            denied = 8 + 2 * self.digits + 2
            self.counts[f"denied beats, {side}"] += [line[denied] for line in lines].count("1")
            self.counts[f"corrupt beats, {side}"] += [line[-1] for line in lines].count("1")
        else:
            found = Counter([line[2:7:4] + line[low : low + 2] for line in lines])
        for key, number in found.items():
            try:
                opcode, size = int(key[0], 16), int(key[1], 16)
                offset = int(key[2:] or "0", 16) % width if 1 << size < width else 0
            except ValueError:  # an unknown bit: a mistake of its own
                continue
            each = beat_count(channel, opcode, size, width)
            self.messages[side, channel, NAMES[channel][opcode & 7], size, offset] += -(-number // each)

    def _order(self, side: str, beats: Beats) -> None:
        """Follows requests and responses on the first link: how many are outstanding, and whether responses change the
        order."""
        order: List[str] = []
        left_a = left_d = most = again = answered = overtaken = 0
        width, end = self.widths[side], 8 + self.digits
        freed: Dict[str, int] = {}
        lengths: Dict[str, int] = {}  # in beats, by the channel, opcode, param and size of a line
        lines = beats.lines[side][:_ORDERED_LINES]
        has_unknown = is_unknown("".join([line[:end] for line in lines]))
        for number, line in enumerate(lines):
            channel = line[0]
            if channel not in "AD" or has_unknown and is_unknown(line[:end]):
                continue
            if channel == "A" and left_a:
                left_a -= 1
                continue
            if channel == "D" and left_d:
                left_d -= 1
                continue
            source, head = line[8:end], line[:7]
            if head not in lengths:
                lengths[head] = beat_count(channel, int(line[2], 16), int(line[6], 16), width)
            if channel == "A":
                left_a = lengths[head] - 1
                order.append(source)
                most = max(most, len(order))
                again += freed.get(source, -9) >= number - 2
                continue
            left_d = lengths[head] - 1
            if line[2] != "6" and source in order:
                answered += 1
                overtaken += order[0] != source
                order.remove(source)
                freed[source] = number
        if most:
            self.counts["most outstanding"] = max(self.counts["most outstanding"], most)
            self.counts["sources used again at once"] += again
        if answered:
            self.counts["responses out of order"] += overtaken

    # ---- storing and merging

    def as_json(self) -> Dict[str, Any]:
        return {
            "widths": self.widths,
            "channels": self.channels,
            "messages": [[*key, number] for key, number in sorted(self.messages.items())],
            "counts": dict(sorted(self.counts.items())),
            "clock ratios": sorted(self.ratios),
        }

    def merge(self, stored: Mapping[str, Any]) -> None:
        """Adds what `as_json` returned. Errors: KeyError, TypeError or ValueError if it is something else."""
        if self.widths and dict(stored["widths"]) != self.widths:
            raise ValueError("the widths of the links differ")
        self.widths, self.channels = dict(stored["widths"]), str(stored["channels"])
        for side, channel, name, size, offset, number in stored["messages"]:
            self.messages[side, channel, name, int(size), int(offset)] += int(number)
        for name, number in stored["counts"].items():
            if name == "most outstanding":
                self.counts[name] = max(self.counts[name], int(number))
            else:
                self.counts[name] += int(number)
        self.ratios |= {float(ratio) for ratio in stored["clock ratios"]}

    # ---- in words

    def number(self, side: str, channel: str, name: str, size: Optional[int] = None) -> int:
        return sum(
            number
            for (s, c, n, z, _), number in self.messages.items()
            if (s, c, n) == (side, channel, name) and size in (None, z)
        )

    def messages_sent(self) -> int:
        return sum(number for (side, channel, *_), number in self.messages.items() if is_near(side, channel))

    def unseen(self, limits: Limits, is_bridge: bool) -> List[str]:
        """Returns the kinds of messages that should have passed and never arrived, by name and link."""
        missing = []
        for kind in limits.kinds:
            channel = {"release": "C", "probe": "B"}.get(kind, "A")
            names = {"release": ("Release", "ReleaseData"), "probe": ("ProbeBlock", "ProbePerm")}.get(kind)
            for name in names or (REQUESTS[kind],):
                near = "client" if channel in FROM_CLIENT else "manager"
                sides = list(self.widths) if is_bridge else [near] if near in self.widths else []
                missing += [f"{name} on the {side} link" for side in sides if not self.number(side, channel, name)]
        if "client" not in self.widths and not any(key[1] == "A" for key in self.messages):
            missing.append("a request of the host")
        if "client" in self.widths and not any(key[:2] == ("client", "D") for key in self.messages):
            missing.append("a response on the client link")
        return missing

    def holes(self, limits: Limits) -> List[Tuple[str, int, int]]:
        """Returns the messages of the client that were never sent: kind, size and offset on the wider link."""
        if "client" not in self.widths:
            return []
        side = max(self.widths, key=lambda name: self.widths[name]) if self.is_bridge else "client"
        wide = self.widths[side]
        found = []
        for kind in limits.kinds:
            if kind == "probe":
                continue
            names = ("Release", "ReleaseData") if kind == "release" else (REQUESTS[kind],)
            channel = "C" if kind == "release" else "A"
            for size in range(min(limits.largest_of(kind), 64).bit_length()):
                for offset in range(0, wide, 1 << size) if 1 << size < wide else (0,):
                    if not any(self.messages.get((side, channel, name, size, offset)) for name in names):
                        found.append((kind, size, offset))
        return found

    def table(self, limits: Limits) -> List[str]:
        """Returns what was reached, holes first."""
        holes = [f"{kind} of {1 << size} bytes at offset {offset}" for kind, size, offset in self.holes(limits)]
        counts = self.counts
        for name in ("responses out of order", "sources used again at once"):
            if "client" in self.widths and not counts[name]:
                holes.append(name)
        if counts["most outstanding"] < 2:
            holes.append("several requests outstanding")
        more = f", and {len(holes) - 12} more" if len(holes) > 12 else ""
        lines = ["not covered: " + ("; ".join(holes[:12]) + more if holes else "nothing of the list in docs/VERIFY.md")]
        sizes = range(max([key[3] for key in self.messages] + [0]) + 1)
        for side in self.widths:
            lines.append(f"{side} link: messages by size in bytes")
            lines.append(f"  {'':18}" + "".join(f"{1 << size:>7}" for size in sizes))
            for channel, name in sorted({key[1:3] for key in self.messages if key[0] == side}):
                if channel == "E":
                    lines.append(f"  E {name:16}{self.number(side, channel, name):>7}")
                    continue
                row = [self.number(side, channel, name, size) for size in sizes]
                lines.append(f"  {channel} {name:16}" + "".join(f"{number or '-':>7}" for number in row))
        lines.append(
            f"most outstanding {counts['most outstanding']}, responses out of order {counts['responses out of order']},"
            f" sources used again at once {counts['sources used again at once']}, runs {counts['runs']}, with a reset"
            f" in the middle {counts['resets']}"
        )
        for head in ("back to back", "in one cycle", "stalled cycles", "denied beats", "corrupt beats", "runs with"):
            lines.append(f"{head}: {self._listed(head)}")
        if self.ratios:
            lines.append("period of the client's clock by the manager's: " + ", ".join(map(str, sorted(self.ratios))))
        return lines

    def _listed(self, head: str) -> str:
        found = [
            f"{key[len(head):].lstrip(', ')} {n}"
            for key, n in sorted(self.counts.items())
            if key.startswith(head) and n
        ]
        return ", ".join(found) or "none"


def speed_of(traffic: Traffic, simulation: Simulation, judge: Judge, limits: Limits, room: Path) -> List[str]:
    """Returns throughput and latency without stalls beside the ideal of the two widths, for A, D and C."""
    design, lines = simulation.design, []  # a bridge
    settings: Settings = dict(
        seed=1, calm=0x3FF, in_order=1, early=0, reuse=1, denied=0, corrupt=0, patient=0, quiet=0, serial=0
    )
    if simulation.has_two:
        settings.update(client_half=5000, manager_half=5000, client_phase=0, manager_phase=1000)
    for kind, channel in (("put", "A"), ("get", "D"), ("release", "C")):
        if kind not in limits.kinds:
            continue
        size = min(limits.largest, 64).bit_length() - 1
        script = [
            _plain(traffic.message(kind, size, number % traffic.sources, number << size)) for number in range(120)
        ]
        try:
            run = simulation.run(script, settings, room, seconds=_SPEED_SECONDS)
        except (OverTimeError, EndlessError):  # the verdict stands without this line
            continue
        beats = Beats(design, run)
        if judge.problems(run, beats):
            continue
        near, far = ("manager", "client") if channel == "D" else ("client", "manager")
        came, went = beats.times_of(near, channel), beats.times_of(far, channel)
        per = {side: max(1, (1 << size) // link.width) for side, link in design.links.items()}
        if min(len(came) // per[near], len(went) // per[far]) < len(script):
            continue
        cycles = (went[-1] - went[0]) / _PERIOD / max(1, len(went) - 1)
        ideal = max(1.0, per[near] / per[far])
        waits = [(went[n * per[far]] - came[n * per[near]]) / _PERIOD for n in range(len(script))]
        lines.append(
            f"speed of {channel} ({kind}, {1 << size} bytes): {cycles:.2f} cycles for each beat of the {far} link"
            f" (ideal {ideal:.2f}); latency of the first beat {min(waits):.1f} to {max(waits):.1f} cycles (ideal 0)"
        )
    return lines


def _plain(message: Message) -> Message:
    opcode, param = (7, 0) if message.channel == "C" else (message.opcode, message.param)
    return message._replace(corrupt_seed=0, mask_seed=0, opcode=opcode, param=param)


def not_compared(design: Design) -> List[str]:
    """Returns the fields that only one of two links has."""
    return [
        f"{channel} {name}"
        for channel in design.channels
        for name in FIELDS[channel]
        if not design.has(channel, name) and any(link.has(channel, name) for link in design.links.values())
    ]
