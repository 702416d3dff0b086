"""The script sv/prove with stand-ins for yosys and abc: its words, its statuses, and what it prints. What the tools
find is tested in tests/monitor and tests/checker.
"""

import shutil
from pathlib import Path
from typing import Tuple

import pytest
from commands import run
from project import SV

YOSYS = """#!/bin/sh
work=${3%/log}
printf 'top/one\\ntop/deep/Two\\n' > "$work/labels"
printf 'input 0 0 valid\\ninput 1 0 data\\ninput 2 1 data\\ninput 3 4 data\\n' > "$work/map"
[ -s design.sv ] || { echo 'ERROR: odd' > "$work/log"; echo 'ERROR: odd'; exit 1; }
"""
# Of a counterexample: the states, and the input bits of each cycle.
ABC = """#!/bin/sh
work=${2#read_aiger }
printf '000\\n0101\\n1110\\n1001\\n' > "${work%%/model.aig*}/cex"
cat found
"""


@pytest.fixture
def folder(tmp_path: Path) -> Path:
    """A folder with a design and the stand-ins."""
    (tmp_path / "bin").mkdir()
    for name, text in (("yosys", YOSYS), ("yosys-abc", ABC)):
        (tmp_path / "bin" / name).write_text(text)
        (tmp_path / "bin" / name).chmod(0o755)
    (tmp_path / "design.sv").write_text("module top; endmodule\n")
    (tmp_path / "found").write_text("No output asserted in 6 frames\n")
    return tmp_path


def proved(folder: Path, *words: str, path: str = "/usr/bin:/bin") -> Tuple[int, str, str]:
    """The status and both outputs of the script."""
    done = run(["/bin/sh", SV / "prove", *words], folder, environment={"PATH": f"{folder / 'bin'}:{path}"})
    return done.returncode, done.stdout, done.stderr


def test_no_assertion_fails(folder: Path) -> None:
    """abc looks one frame further, in which the assertion of the last clock edge is."""
    assert proved(folder, "top", "5", "design.sv") == (0, "no assertion of 2 fails in 5 cycles\n", "")
    status, out, error = proved(folder, "top", "4", "design.sv")
    assert (status, out) == (2, "") and error.endswith("prove: abc gave no answer\n")


def test_an_assertion_fails(folder: Path) -> None:
    """Its name, the cycle, and the inputs of each cycle until then."""
    (folder / "found").write_text('Output 1 of miter "model" was asserted in frame 2.\n')
    status, out, error = proved(folder, "top", "5", "design.sv")
    assert (status, error) == (1, "") and out.splitlines() == [
        "fails at the clock edge that ends cycle 1: Two",
        "cycle 0: valid=0 data=11",
        "cycle 1: valid=1 data=03",
    ]


@pytest.mark.parametrize(
    "words, said",
    (
        (("top", "5"), "give TOP, CYCLES and the files, for example: prove bench 10 bench.sv tl_checker.sv"),
        (("top", "0", "design.sv"), "CYCLES is a number from 1 on, and not '0'"),
        (("top", "5", "design.sv", "none.sv"), "none.sv: there is no such file, or it cannot be read"),
        (("top", "5", "bin"), "bin: there is no such file, or it cannot be read"),
        (("top", "5", "design.sv", "a b.sv"), "a b.sv: yosys needs a file name without spaces and quotes"),
        (("top", "5", "empty.sv"), "yosys cannot read these files, or has no module top"),
    ),
)
def test_a_wrong_command_line(words: Tuple[str, ...], said: str, folder: Path) -> None:
    """One line says why, with status 2. It comes after what yosys printed."""
    (folder / "a b.sv").write_text("")
    if words[-1] == "empty.sv":
        (folder / "empty.sv").write_text("")
        (folder / "design.sv").write_text("")
    status, out, error = proved(folder, *words)
    assert (status, out) == (2, "") and error.splitlines()[-1] == f"prove: {said}"
    assert error.splitlines()[:-1] == (["ERROR: odd"] if words[-1] == "empty.sv" else [])


@pytest.mark.parametrize("tool", ["yosys", "yosys-abc"])
def test_a_missing_tool(tool: str, folder: Path) -> None:
    """The first one that is missing is named."""
    (folder / "bin" / tool).unlink()
    (folder / "bin" / "tr").symlink_to(str(shutil.which("tr")))
    status, out, error = proved(folder, "top", "5", "design.sv", path=str(folder))
    assert (status, out, error) == (2, "", f"prove: {tool} is not in PATH\n")
