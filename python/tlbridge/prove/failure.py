"""Writes the counterexample of an assertion that fails, and says what other judges see."""
from __future__ import annotations

import re
import shutil
import subprocess
import sys
from pathlib import Path
from typing import Dict, Sequence, Set, Tuple

from ..judge import find_program
from . import engine
from .harness import Options
from .replay import replay, without_parameters, write_plain
from .report import say
from .session import Session
from .tools import share


def show(session: Session, index: int, frame: int) -> None:
    """Writes the counterexample of an assertion: inputs, waveform, beats of both links and trace. Says what two other
    judges see.
    """
    name, words = session.name(index), session.words
    out = Path(words.out or f"tlbridge-prove.{words.top}").absolute()
    out.mkdir(parents=True, exist_ok=True)
    table = engine.counterexample(session.model, index, frame, 10 * words.seconds, session.folder / "counterexample")
    (out / "proof.sv").write_text(session.harness.text)
    (out / "inputs.txt").write_text(steps_of(table))
    say(f"counterexample of {name}, in {out}:")
    if sends_offered(session.options, name, table[-1] if table else {}):
        say(
            "  a near beat is offered then. If the design sends parts of a beat before it accepts the beat, add "
            "--forwards-offered"
        )
    bytes_sent, widths = largest_message(table), sorted(link.width for link in session.design.links.values())
    cut = [width for width in widths if bytes_sent > width]  # the links on which it has more than one beat
    if cut and not words.largest:
        which = "both links" if len(cut) == len(widths) else "the narrower link"
        say(
            f"  a message of {bytes_sent} bytes is offered, which has more than one beat on {which}. If your "
            f"neighbours send none, add --largest {cut[-1]}"
        )
    if not shutil.which("iverilog") or not shutil.which("vvp"):
        say(
            "  inputs.txt: the inputs of proof.sv, step by step. There is no Icarus (`apt install iverilog`), "
            "so there is no waveform"
        )
        return
    files = [share() / "sv" / "tl_bridge_watch.sv", share() / "sv" / "tl_trace_monitor.sv"]
    shown = replay(out, session.harness, table, session.source.words("iverilog"), files, session.options.two_clocks)
    if shown.problem and write_plain(session.source, out):
        (out / "proof.sv").write_text(without_parameters(session.harness.text, words.top))
        plain = replay(out, session.harness, table, ["design.v"], files, session.options.two_clocks)
        if not plain.problem:
            say(f"  design.v: the design as yosys reads it, which is played here. {shown.problem}")
            shown = plain
    if shown.problem:
        say(f"  inputs.txt: the inputs of proof.sv, step by step. There is no waveform: {shown.problem}")
        return
    seen = [line for line in shown.reports if line.endswith(f" {name}")]
    say(
        "  counterexample.vcd: the waveform, in which the watch reports "
        + (
            f"{name} at {seen[0].split()[0]} ps"
            if seen
            else f"{name} not: a register of the design begins with x there"
        )
    )
    show_beats(out)
    if session.options.same_cycle_response and responds_at_once(out / "manager.beats"):
        say(
            "  the manager responds in the cycle in which it accepts the request. If yours never does, add "
            "--no-same-cycle-response"
        )
    differs = compare([link.width for link in session.design.links.values()], out)
    letter = name[0].upper()
    if name.endswith(".Head") and not differs and session.options.user_bits.bits(letter):
        say(
            f"  these beats are without user and echo bits: see client_{name[0]}_user and manager_{name[0]}_user "
            "in the waveform"
        )


def steps_of(table: Sequence[Dict[str, int]]) -> str:
    """Returns the inputs of the harness, a line for each step."""
    return "".join(
        f"step {number}: "
        + " ".join(f"{word}={value:x}" for word, value in values.items() if not word.startswith("init "))
        + "\n"
        for number, values in enumerate(table)
    )


def sends_offered(options: Options, name: str, last: Dict[str, int]) -> bool:
    """Returns whether the design may have sent a part of a beat that was only offered: a far beat came too soon, while
    the near link offered one. `last` has the inputs of the step that fails.
    """
    if options.forwards_offered or not name.endswith((".Invented", ".Early", ".SourceA", ".SourceD")):
        return False
    letter = "a" if name.endswith(".SourceA") else name[0]
    near = "client" if letter in "ace" else "manager"
    return bool(last.get(f"free_{near}_{letter}_valid"))


def largest_message(table: Sequence[Dict[str, int]]) -> int:
    """Returns the bytes of the largest message of which a beat is offered, or 0. `table` has the inputs of each
    step.
    """
    senders = ("client_a", "manager_b", "client_c", "manager_d")
    sizes = [
        1 << values.get(f"free_{sender}_size", 0)
        for values in table
        for sender in senders
        if values.get(f"free_{sender}_valid")
    ]
    return max(sizes, default=0)


def responds_at_once(path: Path) -> bool:
    """Returns whether a request and a response of one source are on a link at the same time. `path` is a monitor file,
    with its times in the file of that name and `.times`.
    """
    times = path.with_name(f"{path.name}.times")
    if not path.is_file() or not times.is_file():
        return False
    requests: Set[Tuple[str, str]] = set()
    responses: Set[Tuple[str, str]] = set()
    for line, time in zip(path.read_text().splitlines(), times.read_text().splitlines()):
        channel, _, _, _, source, *_ = [*line.split(), *5 * [""]]
        if channel in ("A", "D"):
            (requests if channel == "A" else responses).add((time, source))
    return bool(requests & responses)


def show_beats(out: Path) -> None:
    """Prints the last beats of both links."""
    for side in ("client", "manager"):
        path = out / f"{side}.beats"
        lines = path.read_text().splitlines() if path.is_file() else []
        say(f"  {path.name}:" + ("" if lines else " no beat"))
        for line in lines[-12:]:
            say(f"    {line}")


def compare(widths: Sequence[int], out: Path) -> bool:
    """Writes the near beats as a trace, and prints the first difference that tlbridge-compare finds. Returns whether
    there is one.
    """
    script = share() / "sv" / "compare"
    if not script.is_file():
        return False
    words = [
        sys.executable,
        str(script),
        *map(str, widths),
        str(out / "client.beats"),
        str(out / "manager.beats"),
        "--write-trace",
        str(out / "counterexample.trace"),
    ]
    done = subprocess.run(words, capture_output=True, text=True, errors="replace", check=False)
    if (out / "counterexample.trace").is_file():
        say("  counterexample.trace: the near beats, for tlexplain")
    if done.returncode in (0, 1):
        judge = "tlbridge" if find_program("tlbridge") else "the unverified model"
        wrong = [line for line in done.stdout.splitlines() if re.match(r"[A-E]: far beat ", line)]
        say(
            f"  compared with the far beats of {judge}: "
            + (wrong[0].strip() if wrong else "the beats so far do not differ")
        )
        for line in done.stdout.splitlines():
            if line.startswith("this design seems to split messages"):
                say(f"  {line}")
        return bool(wrong)
    return False
