"""Runs the tools: yosys on a script, and what any tool prints."""
import subprocess
from pathlib import Path
from typing import Any, Optional, Sequence, Tuple


class Failure(Exception):
    """Why there is no answer: what a tool printed last."""


def run(words: Sequence[str], seconds: Optional[float] = None, **more: Any) -> Tuple[int, str]:
    """Returns the status of a tool, and the text that it prints on both streams. `seconds` is a limit of time that no
    sound run reaches; abc's own limit is one of processor time.
    """
    try:
        done = subprocess.run(
            words, stdout=subprocess.PIPE, stderr=subprocess.STDOUT, text=True, timeout=seconds, **more
        )
    except subprocess.TimeoutExpired as late:
        raise Failure(f"{words[0]} did not end within {seconds} seconds") from late
    return done.returncode, done.stdout


def yosys(script: str, room: Path) -> str:
    """Runs a script. A warning is a failure, too, except of an array that becomes registers."""
    status, said = run(["yosys", "-q", "-p", script], cwd=room)
    warnings = [line for line in said.splitlines() if "Warning" in line and "Replacing memory" not in line]
    if status or warnings:
        raise Failure("\n".join(warnings or said.splitlines()[-8:]) or "yosys failed")
    return said
