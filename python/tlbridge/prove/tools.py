"""Runs yosys, yosys-abc and Icarus, and finds the modules of `sv`."""
from __future__ import annotations

import contextlib
import os
import resource
import shutil
import signal
import subprocess
import tempfile
import threading
import time
from dataclasses import dataclass
from pathlib import Path
from typing import List, Optional, Sequence, Set, Tuple

from .errors import TOOL, ProveError

PACKAGES = {"yosys": "yosys", "yosys-abc": "yosys", "iverilog": "iverilog", "vvp": "iverilog"}


@dataclass(frozen=True)
class Ended:
    """The end of a tool: its exit status or minus its signal, what it printed, and its seconds of processor time."""

    status: int
    said: str
    seconds: float


def find_tool(name: str) -> str:
    """Returns the path of a tool. Errors: it is not in PATH (4)."""
    path = shutil.which(name)
    if path is None:
        raise ProveError(f"{name} was not found in PATH: install it (`apt install {PACKAGES.get(name, name)}`)", TOOL)
    return path


class Running:
    """The tools that run at this time, by their process ids. A tool is waited for under the lock, so that no id is one
    of a process that has ended.
    """

    def __init__(self) -> None:
        self.lock = threading.Lock()
        self.ids: Set[int] = set()

    def add(self, pid: int, processor_seconds: Optional[int]) -> None:
        """Adds a tool that has just started, and limits its processor time. A lower limit of the user holds."""
        with self.lock:
            self.ids.add(pid)
            if processor_seconds is not None:
                with contextlib.suppress(OSError, ValueError):
                    _, most = resource.prlimit(pid, resource.RLIMIT_CPU)
                    resource.prlimit(pid, resource.RLIMIT_CPU, (processor_seconds, most))

    def wait(self, pid: int) -> Optional[Tuple[int, resource.struct_rusage]]:
        """Returns the status of a tool and what it used, or nothing while it runs."""
        with self.lock:
            ended, status, usage = os.wait4(pid, os.WNOHANG)
            if not ended:
                return None
            self.ids.discard(pid)
            return status, usage

    def kill(self, pid: int) -> None:
        """Kills a tool, and waits for its end. It may have ended before."""
        with self.lock, contextlib.suppress(ProcessLookupError, ChildProcessError):
            self.ids.discard(pid)
            os.kill(pid, signal.SIGKILL)
            os.waitpid(pid, 0)

    def end(self) -> None:
        """Kills all tools."""
        with self.lock:
            for pid in self.ids:
                with contextlib.suppress(ProcessLookupError):
                    os.kill(pid, signal.SIGKILL)


RUNNING = Running()


def run_tool(
    words: Sequence[str], seconds: float, folder: Optional[Path] = None, processor_seconds: Optional[int] = None
) -> Ended:
    """Runs a tool to its end.

    `seconds` is a limit of wall-clock time that no sound run reaches. After `processor_seconds` of processor time, the
    signal SIGXCPU ends the tool. Errors: the tool is missing, or reaches the limit of wall-clock time (4).
    """
    find_tool(words[0])
    end = time.monotonic() + seconds
    with tempfile.TemporaryFile() as printed:
        process = subprocess.Popen(
            list(words), stdin=subprocess.DEVNULL, stdout=printed, stderr=subprocess.STDOUT, cwd=folder
        )
        pause = 0.005
        try:
            RUNNING.add(process.pid, processor_seconds)
            while True:
                found = RUNNING.wait(process.pid)
                if found is not None:
                    status, usage = found
                    break
                if time.monotonic() > end:
                    raise ProveError(f"{words[0]} did not end within {seconds:.0f} seconds: nothing is claimed", TOOL)
                time.sleep(pause)
                pause = min(0.1, 1.5 * pause)
        except BaseException:
            RUNNING.kill(process.pid)
            raise
        finally:
            process.returncode = 0  # it was waited for here
        printed.seek(0)
        said = printed.read().decode("utf-8", errors="replace")
    code = -os.WTERMSIG(status) if os.WIFSIGNALED(status) else os.WEXITSTATUS(status)
    return Ended(code, said, usage.ru_utime + usage.ru_stime)


def share() -> Path:
    """Returns the folder that has `sv`: the clone, or the installed one. Errors: there is none (4)."""
    here = Path(__file__).resolve()
    for folder in (here.parents[3], here.parents[2]):
        if (folder / "sv" / "tl_bridge_watch.sv").is_file():
            return folder
    raise ProveError("sv/tl_bridge_watch.sv was not found next to the package tlbridge: run `make install` again", TOOL)


def proof_files() -> List[Path]:
    """Returns the files that a harness needs."""
    return [share() / "sv" / "tl_checker.sv", share() / "sv" / "tl_bridge_watch.sv"]
