"""Programs under valgrind, which finds leaks and reads outside of memory."""

from pathlib import Path

from commands import run, said
from project import needs_tools


def has_no_leak(program: Path, timeout: float = 300) -> None:
    """Runs a program under valgrind: no error, and no leak of any kind. The test is skipped without valgrind."""
    needs_tools("valgrind")
    options = ["--quiet", "--error-exitcode=9", "--leak-check=full", "--errors-for-leak-kinds=all"]
    done = run(["valgrind", *options, program], timeout=timeout)
    assert done.returncode == 0, said(done)
