"""What several tests of rtl/ ask: whether a tool reads a configuration, and whether a simulation has the far beats of
the model.
"""

import tempfile
from pathlib import Path
from typing import List, Optional, Sequence, Tuple

import play_vectors
from commands import Word, run, said
from project import needs_tools
from rtl_simulations import BEATS, CHECKER, DEFAULTS, HERE, Config, Room, first_difference, lint_words, scenarios


def reads_without_a_warning(tool: str, config: Config) -> None:
    """Verilator, Icarus or yosys prints nothing."""
    needs_tools(tool)
    done = run(lint_words(config)[tool])
    assert (done.returncode, done.stdout, done.stderr) == (0, "", ""), said(done)


def refuses_value(tool: str, config: Config, words: str) -> None:
    """A tool ends with an error that has these words, which name the parameter."""
    needs_tools(tool)
    done = run(lint_words(config)[tool])
    assert done.returncode != 0
    assert words in done.stdout + done.stderr, said(done)


def played_in_icarus(
    config: Config, trace: Path, files: Sequence[Path], folder: Path
) -> Tuple[str, Optional[int], str]:
    """The far beats of the design of `files`, how many faults the checkers saw (None if it did not end), and what it
    printed.
    """
    needs_tools("iverilog", "vvp")
    folder = Path(tempfile.mkdtemp(dir=folder))
    play_vectors.write_vectors(trace, folder)
    given = [f"-Pplay.{name}={value}" for name, value in {**DEFAULTS, **config}.items()]
    words: List[Word] = [
        "iverilog",
        "-g2012",
        *given,
        "-s",
        "play",
        "-o",
        folder / "play",
        HERE / "play.sv",
        HERE / "top.sv",
    ]
    built = run([*words, *files, CHECKER])
    if built.returncode:
        return "", None, said(built)
    printed = run(["vvp", "-n", folder / "play", f"+folder={folder}", "+seed=3"], timeout=600).stdout
    faults = [int(line.split()[1]) for line in printed.splitlines() if line.startswith("faults ")]
    return play_vectors.read_answer(trace, folder), faults[-1] if faults else None, printed


def simulated_in_icarus(config: Config, traffic: Tuple[Path, Path], files: Sequence[Path], folder: Path) -> str:
    """What is wrong in a simulation in Icarus, with X on all that is not valid; empty if nothing is."""
    trace, answer = traffic
    far, faults, printed = played_in_icarus(config, trace, files, folder)
    differs = first_difference(answer.read_text(), far)
    return "" if differs is None and faults == 0 else f"{differs}: {printed[-600:]}"


def simulate(room: Room, config: Config, some: Sequence[str] = (), beats: int = 0) -> None:
    """In Verilator: in each scenario, or in some, each far beat is that of the model, and neither checker sees a
    fault.
    """
    needs_tools("verilator", "g++")
    program = room.build(config)
    simulations = played = 0
    for name, seed, length, traffic, words in scenarios(config):
        if some and name not in some:
            continue
        trace, answer = room.trace(config, seed, int((beats or BEATS) * length), **traffic)
        ran = room.play(program, trace, answer, [*words, f"seed={seed}"])
        assert not ran.wrong, f"{name}: {ran.wrong} ({trace} {' '.join(words)})"
        simulations, played = simulations + 1, played + ran.far
    print(f"{simulations} simulations, {played} far beats")
    assert played > 0
