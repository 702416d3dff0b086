"""With times, the first wrong request or response of a long run is the first thing that tlbridge-compare,
tlbridge-trace and tlexplain report.

A run of 600 messages crosses an adapter from 8 bytes to 4: reads on A and D, or Releases on C and D. After a third of
them one response is stray, lost, doubled or early, on the link of the manager or of the client. A trace without times
pairs all later responses of that source wrongly, and names the last one.
"""

import random
import re
import subprocess
import sys
from dataclasses import dataclass, field
from pathlib import Path
from typing import Dict, List, Sequence, Tuple

import pytest
import starter
from project import MODEL, ROOT, SV, needs_program

MESSAGES, FAULTY, SOURCES = 600, 200, 8
LIMIT = 600  # seconds, of one run
CLIENT, MANAGER = "client", "manager"
KINDS = ("stray", "lost", "doubled", "early")
READS, RELEASES = "A", "C"  # the channel of the requests; the responses are on D
PERIOD = 10  # of the clock


@dataclass
class Beat:
    time: int
    line: str


@dataclass
class Recorded:
    """The beats of both links, and the number of the request at which the run is changed."""

    beats: Dict[str, List[Beat]] = field(default_factory=lambda: {CLIENT: [], MANAGER: []})

    def write(self, folder: Path) -> None:
        for side, beats in self.beats.items():
            beats.sort(key=lambda beat: (beat.time, beat.line[0]))
            (folder / f"{side}.beats").write_text("".join(f"{beat.line}\n" for beat in beats))
            (folder / f"{side}.beats.times").write_text("".join(f"{beat.time}\n" for beat in beats))


def record(
    channel: str = READS, messages: int = MESSAGES, sources: int = SOURCES
) -> Tuple[Recorded, List[Dict[str, Beat]]]:
    """A right run: reads or Releases of 4 bytes, several at a time. Returns also the beats of each message: near and
    far request, near and far response.
    """
    chance, made, all_messages = random.Random(1), Recorded(), []
    free = {source: 0 for source in range(sources)}
    time, last_response = 100, 0
    for number in range(messages):
        source = min(free, key=lambda name: free[name])
        time = max(time + PERIOD, free[source] + PERIOD)
        address = 0x1000 + 4 * (number % 1024)
        answer = max(time + 3 * PERIOD + PERIOD * chance.randrange(6), last_response + PERIOD)
        last_response = answer
        if channel == READS:
            upper, data = bool(address & 4), f"{number:08x}"
            near = f"A 4 0 2 {source:02x} {address:016x} {'f0' if upper else '0f'} {0:016x} 0"
            far = f"A 4 0 2 {source:02x} {address:016x} f 00000000 0"
            wide = data + "00000000" if upper else "00000000" + data
            responses = f"D 1 0 2 {source:02x} 00 0 {data} 0", f"D 1 0 2 {source:02x} 00 0 {wide} 0"
        else:
            near = f"C 6 1 2 {source:02x} {address:016x} {0:016x} 0"
            far = f"C 6 1 2 {source:02x} {address:016x} 00000000 0"
            responses = f"D 6 0 2 {source:02x} 00 0 00000000 0", f"D 6 0 2 {source:02x} 00 0 {0:016x} 0"
        beats = {
            "request": Beat(time, near),
            "far request": Beat(time + PERIOD, far),
            "response": Beat(answer, responses[0]),
            "far response": Beat(answer + PERIOD, responses[1]),
        }
        made.beats[CLIENT] += [beats["request"], beats["far response"]]
        made.beats[MANAGER] += [beats["far request"], beats["response"]]
        free[source] = answer + PERIOD
        all_messages.append(beats)
    return made, all_messages


def planted(kind: str, side: str, channel: str = READS, at: int = FAULTY) -> Tuple[Recorded, int]:
    """A run with one fault on one link, and the time at which it has to be reported first."""
    made, messages = record(channel)
    name = "response" if side == MANAGER else "far response"
    response = messages[at][name]
    source = response.line[8:10]
    again = next(beats for beats in messages[at + 1 :] if beats["request"].line[8:10] == source)
    request = again["far request" if side == MANAGER else "request"]
    beats = made.beats[side]
    if kind == "lost":
        beats.remove(response)
        asked = messages[at]["far request" if side == MANAGER else "request"]
        return made, asked.time if side == MANAGER else response.time
    if kind == "stray":
        beats.append(Beat(response.time + 1, response.line[:8] + f"{SOURCES + 3:02x}" + response.line[10:]))
        return made, response.time + 1
    if kind == "doubled":
        beats.append(Beat(response.time + 1, response.line))
        return made, response.time + 1
    late = again[name]
    late.time = request.time - 1
    return made, late.time


def run(command: Sequence[object], folder: Path) -> Tuple[int, List[str], str]:
    words = [str(word) for word in command]
    if starter.command_of(words):
        done = starter.run_text(words, folder, LIMIT)
    else:
        done = subprocess.run(words, cwd=folder, capture_output=True, text=True, timeout=LIMIT)
    return done.returncode, done.stdout.splitlines(), done.stderr


def times_of(line: str) -> List[int]:
    return [int(time) for time in re.findall(r"time (\d+)", line)]


def is_first(lines: List[str], time: int) -> bool:
    """Whether the first line of a report names this time before any other."""
    if lines[0].startswith("first fault: "):
        return times_of(lines[0])[:1] == [time]
    # a lost response is seen at the next beat of its channel
    return lines[0].startswith("first difference: ") and time <= times_of(lines[0])[0] <= time + 20 * PERIOD


@pytest.mark.parametrize("channel", (READS, RELEASES))
@pytest.mark.parametrize("side", (MANAGER, CLIENT))
@pytest.mark.parametrize("kind", KINDS)
def test_compare(tmp_path: Path, kind: str, side: str, channel: str) -> None:
    made, time = planted(kind, side, channel)
    made.write(tmp_path)
    status, lines, error = run(
        [sys.executable, SV / "compare", 8, 4, "client.beats", "manager.beats", "--program", MODEL], tmp_path
    )
    assert status == 1 and is_first(lines, time), (time, lines, error)
    if lines[0].startswith("first fault: "):
        later = [line for line in lines[1:] if times_of(line) and not line.startswith("first")]
        assert all("after the first fault" in line for line in later if times_of(line)[0] > time), lines
    request, response = ("request", "response") if channel == READS else ("Release", "ReleaseAck")
    words = {
        "stray": f"which has no {request}",
        "lost": "",
        "doubled": f"a second {response}",
        "early": f"before its {request}",
    }
    assert side == CLIENT or words[kind] in lines[0], lines


@pytest.mark.parametrize("is_verified", (False, True))
@pytest.mark.parametrize("channel", (READS, RELEASES))
@pytest.mark.parametrize("side", (MANAGER, CLIENT))
@pytest.mark.parametrize("kind", KINDS)
def test_explain(tmp_path: Path, kind: str, side: str, channel: str, is_verified: bool) -> None:
    """tlexplain names the beat on the same link, whose lines are in the order of time. So does its model."""
    program = needs_program("tlexplain") if is_verified else ROOT / "tlexplain-model"
    made, time = planted(kind, side, channel)
    if kind == "lost":  # the request is named
        _, messages = record(channel)
        time = messages[FAULTY]["far request" if side == MANAGER else "request"].time
    made.write(tmp_path)
    width = 4 if side == MANAGER else 8
    header = f"tilelink-trace 1 client {width} manager {width}\n"
    (tmp_path / "one.trace").write_text(header + (tmp_path / f"{side}.beats").read_text())
    command = [program, "--only", "problems", "--times", f"{side}.beats.times", "one.trace"]
    _, lines, error = run(command, tmp_path)
    assert times_of(lines[0])[:1] == [time], (time, lines[:3], error)


@pytest.mark.parametrize("channel", (READS, RELEASES))
def test_right_run(tmp_path: Path, channel: str) -> None:
    """The run itself is right, and nothing is said about it."""
    made, _ = record(channel)
    made.write(tmp_path)
    status, lines, error = run(
        [sys.executable, SV / "compare", 8, 4, "client.beats", "manager.beats", "--program", MODEL], tmp_path
    )
    assert (status, len(lines), error) == (0, 5, ""), (lines, error)


def test_without_times(tmp_path: Path) -> None:
    """Without times, the beat that is named is the last one of its source: the reason for matching in time."""
    made, time = planted("stray", MANAGER)
    made.write(tmp_path)
    for side in (CLIENT, MANAGER):
        (tmp_path / f"{side}.beats.times").unlink()
    status, lines, _ = run(
        [sys.executable, SV / "compare", 8, 4, "client.beats", "manager.beats", "--program", MODEL], tmp_path
    )
    assert status == 1 and not lines[0].startswith("first ")


# ---- the same runs as waveforms

SIGNALS = {
    "A": (("opcode", 3), ("size", 4), ("source", 8), ("address", 32), ("mask", 0), ("data", 0), ("corrupt", 1)),
    "C": (("opcode", 3), ("param", 3), ("size", 4), ("source", 8), ("address", 32), ("data", 0), ("corrupt", 1)),
    "D": (("opcode", 3), ("size", 4), ("source", 8), ("sink", 1), ("denied", 1), ("data", 0), ("corrupt", 1)),
}
PLACES = {
    "opcode": 1,
    "param": 2,
    "size": 3,
    "source": 4,
    "address": 5,
    "mask": 6,
    "sink": 5,
    "denied": 6,
    "data": -2,
    "corrupt": -1,
}


def write_vcd(made: Recorded, path: Path) -> None:
    """Writes both links as a VCD. A beat of time t is accepted at the rising edge at 2t, and its fields come one unit
    before it.
    """
    header, codes = ["$timescale 1ns $end", "$scope module dut $end"], {}
    number = 0

    def declared(scope: str, name: str, bits: int) -> None:
        nonlocal number
        codes[scope, name] = (f"v{number}", bits)
        header.append(f"$var wire {bits} v{number} {name} $end")
        number += 1

    for side, width in ((CLIENT, 8), (MANAGER, 4)):
        declared(side, f"{side}_clock", 1)
        for channel, fields in SIGNALS.items():
            for name, bits in (("valid", 1), ("ready", 1), *fields):
                bits = bits or (width if name == "mask" else 8 * width)
                declared(side, f"{side}_{channel.lower()}_{name}", bits)
    steps: Dict[int, List[str]] = {0: [f"0{code}" for code, bits in codes.values() if bits == 1]}
    edges: Dict[Tuple[str, int], List[str]] = {}
    for side, beats in made.beats.items():
        for beat in beats:
            edges.setdefault((side, beat.time), []).append(beat.line)
    for side in (CLIENT, MANAGER):
        for channel in SIGNALS:
            steps[0].append("1" + codes[side, f"{side}_{channel.lower()}_ready"][0])
    for (side, time), lines in edges.items():
        rise, before = 2 * time, steps.setdefault(2 * time - 1, [])
        clock = codes[side, f"{side}_clock"][0]
        for line in lines:
            channel, words = line[0], line.split(" ")
            prefix = f"{side}_{channel.lower()}_"
            before.append("1" + codes[side, prefix + "valid"][0])
            for name, _ in SIGNALS[channel]:
                code, bits = codes[side, prefix + name]
                value = f"{int(words[PLACES[name]], 16):b}"
                before.append(f"{value}{code}" if bits == 1 else f"b{value} {code}")
        steps.setdefault(rise, []).append(f"1{clock}")
        after = [f"0{clock}"] + [f"0{codes[side, f'{side}_{line[0].lower()}_valid'][0]}" for line in lines]
        steps.setdefault(rise + 1, [])[:0] = after
    with open(path, "w", encoding="ascii") as out:
        out.write("\n".join([*header, "$upscope $end", "$enddefinitions $end"]) + "\n")
        for time in sorted(steps):
            out.write(f"#{time}\n" + "".join(change + "\n" for change in steps[time]))


@pytest.mark.parametrize("channel", (READS, RELEASES))
@pytest.mark.parametrize("kind", KINDS)
def test_trace(tmp_path: Path, kind: str, channel: str) -> None:
    """tlbridge-trace --compare and --all name the same beat of a waveform."""
    made, time = planted(kind, MANAGER, channel)
    made.write(tmp_path)
    write_vcd(made, tmp_path / "dump.vcd")
    command = [sys.executable, ROOT / "tlbridge-trace", "dump.vcd", "--program", MODEL, "--quiet"]
    status, lines, error = run([*command, "--client", "client", "--manager", "manager", "--compare"], tmp_path)
    assert status == 1, error
    assert is_first(lines[1:], 2 * time), (time, lines)
    status, lines, error = run([*command, "--all"], tmp_path)
    row = next(line for line in lines if line.startswith("dut.manager "))
    assert status == 1 and f"time {2 * time}: " in row, (time, lines, error)


def test_remark(tmp_path: Path) -> None:
    """A ReleaseAck without a Release that crosses the adapter is a remark: the model accepts it, and the adapter is
    right.
    """
    made, messages = record(RELEASES, 200)
    for side, name in ((MANAGER, "response"), (CLIENT, "far response")):
        beat = messages[150][name]
        made.beats[side].append(Beat(beat.time + 1, beat.line))
    made.write(tmp_path)
    status, lines, error = run(
        [sys.executable, SV / "compare", 8, 4, "client.beats", "manager.beats", "--program", MODEL], tmp_path
    )
    assert (status, len(lines), error) == (0, 6, ""), (lines, error)
    assert lines[-1].startswith("remark: channel D, ") and "a second ReleaseAck" in lines[-1], lines
    assert lines[-1].endswith(" (the first of 2 requests and responses that do not fit)"), lines
