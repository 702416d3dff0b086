"""Commands that a test runs: with a limit of processor time, and with what they printed in the message if they fail."""

import os
import resource
import signal
import subprocess
from pathlib import Path
from typing import Callable, Mapping, Optional, Sequence, Union

Word = Union[str, Path, int]
# For Verilator's makefiles, if a simulation is short: its C++ is one file, which is compiled without optimization.
BRIEF = "OPT_FAST=-O0 OPT_SLOW=-O0 OPT_GLOBAL=-O0 VM_PARALLEL_BUILDS=0"
# A command that waits for something without using the processor is ended after this many times its limit.
WAITS = 20


def limited(seconds: float) -> Callable[[], None]:
    """Returns a function that limits the processor time of this process, and of each process that it starts."""

    def limit() -> None:
        resource.setrlimit(resource.RLIMIT_CPU, (round(seconds), round(seconds) + 5))

    return limit


def run(
    words: Sequence[Word],
    folder: Optional[Path] = None,
    timeout: float = 300,
    environment: Optional[Mapping[str, str]] = None,
    text: Optional[str] = None,
) -> "subprocess.CompletedProcess[str]":
    """Runs a command to its end. `timeout` is the processor time in seconds that each of its processes may take. A busy
    machine does not shorten it. `environment` is added to the test's own, `text` is its standard input (none by
    default). Errors: TimeoutExpired.
    """
    done = subprocess.run(
        [str(word) for word in words],
        cwd=folder,
        env={**os.environ, **(environment or {})},
        input=text,
        stdin=subprocess.DEVNULL if text is None else None,
        capture_output=True,
        text=True,
        errors="replace",
        timeout=WAITS * timeout,
        preexec_fn=limited(timeout),
    )
    if done.returncode == -signal.SIGXCPU:
        raise subprocess.TimeoutExpired(done.args, timeout, done.stdout, done.stderr)
    return done


def said(done: "subprocess.CompletedProcess[str]", most: int = 3000) -> str:
    """What a command printed, on both outputs, with its status: the end of it."""
    return (
        f"{' '.join(map(str, done.args))[:300]}: status {done.returncode}\n{done.stdout[-most:]}{done.stderr[-most:]}"
    )


def succeed(words: Sequence[Word], folder: Optional[Path] = None, timeout: float = 300) -> str:
    """Runs a command that has to end with status 0. Returns its standard output."""
    done = run(words, folder, timeout)
    assert done.returncode == 0, said(done)
    return done.stdout


def succeed_silently(words: Sequence[Word], folder: Optional[Path] = None, timeout: float = 300) -> None:
    """Runs a command that has to end with status 0 and print nothing: no warning."""
    done = run(words, folder, timeout)
    assert (done.returncode, done.stdout, done.stderr) == (0, "", ""), said(done)
