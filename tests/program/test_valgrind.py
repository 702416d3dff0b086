"""Runs the verified program under valgrind on each trace of examples/, by memcheck and by helgrind.

Each trace is run in one thread and in two. The answer has to be the stored one. memcheck looks for reads of memory that
was never written or does not exist, and for memory that is lost at the end. helgrind looks for data races. Their
reports are shown, except those that valgrind.supp describes; that file has the reasons.
"""

import re
import subprocess
from pathlib import Path
from typing import Tuple

import pytest
from project import EXAMPLES, needs_program, needs_tools

SUPPRESSIONS = Path(__file__).with_name("valgrind.supp")
TOOLS = (("memcheck", "--leak-check=full"), ("helgrind",))
ORDERS = (("run", "--sync"), ("run",), ("run", "--ring", "1", "--turns", "1"))


@pytest.mark.long
@pytest.mark.parametrize("path", sorted(EXAMPLES.glob("*.trace")), ids=lambda path: str(path.stem))
@pytest.mark.parametrize("order", ORDERS, ids=" ".join)
@pytest.mark.parametrize("tool", TOOLS, ids=lambda tool: str(tool[0]))
def test_no_report(tmp_path: Path, tool: Tuple[str, ...], order: Tuple[str, ...], path: Path) -> None:
    """valgrind reports nothing, and the answer is the stored one."""
    needs_tools("valgrind")
    log, (name, *options) = tmp_path / "log", tool
    words = [f"--tool={name}", *options, "--error-limit=no", f"--suppressions={SUPPRESSIONS}", f"--log-file={log}"]
    done = subprocess.run(
        ["valgrind", *words, str(needs_program("tlbridge")), *order],
        input=path.read_bytes(),
        capture_output=True,
        timeout=600,
    )
    found = re.search(r"ERROR SUMMARY: \d+ errors from (\d+) contexts", log.read_text())
    assert found and found[1] == "0", log.read_text()
    assert (done.stdout, done.stderr) == (path.with_suffix(".answer").read_bytes(), b"")
