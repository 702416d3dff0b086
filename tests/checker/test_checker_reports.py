"""Each tool reads sv/tl_checker.sv without a warning, and it prints the reports of reports.expected, in Verilator and
in Icarus.
"""

import re
from pathlib import Path
from typing import List

import pytest
from commands import Word, run, said, succeed, succeed_silently
from once import made_once
from project import SV, needs_tools

pytestmark = pytest.mark.simulator

HERE = Path(__file__).resolve().parent
CHECKER = SV / "tl_checker.sv"


@pytest.mark.parametrize("parameters", ["", "-GDATA_BYTES=128 -GMAX_OUTSTANDING=4 -GSOURCE_BITS=16"])
def test_verilator_reads_it_without_a_warning(parameters: str) -> None:
    """With the defaults and with wide links."""
    needs_tools("verilator")
    words = ["verilator", "--lint-only", "-Wall", "--assert", "--top-module", "tl_checker", *parameters.split()]
    done = run([*words, CHECKER])
    assert done.returncode == 0, said(done)


def test_icarus_reads_it_without_a_warning(tmp_path: Path) -> None:
    """With the defaults."""
    needs_tools("iverilog")
    succeed_silently(["iverilog", "-g2012", "-s", "tl_checker", "-o", tmp_path / "read", CHECKER])


def test_yosys_reads_it_as_a_design_and_for_a_proof(tmp_path: Path) -> None:
    """The labels of its assertions include those of the table of MAX_OUTSTANDING entries."""
    needs_tools("yosys")
    succeed(["yosys", "-q", "-p", f"read_verilog -sv {CHECKER}; prep -flatten -top tl_checker"])
    script = (
        f"read_verilog -sv -formal {CHECKER}; chparam -set MAX_OUTSTANDING 4 tl_checker; prep -flatten -top tl_checker;"
        f" select -write {tmp_path}/labels t:$assert"
    )
    succeed(["yosys", "-q", "-p", script])
    labels = {line.rpartition("/")[2] for line in (tmp_path / "labels").read_text().splitlines()}
    assert len(labels) == 27, sorted(labels)


def reported(printed: str) -> str:
    """The lines of the checker, each with its time and without what the simulator puts before them."""
    lines = []
    for line in printed.splitlines():
        found = re.match(r".*: ([0-9]*): [A-Za-z_.]*check[.a-d]*: (.*)", line)
        if found:
            lines.append(f"{found[1]} {found[2]}")
        elif "faults, overflow" in line:
            lines.append(line)
    return "\n".join(lines) + "\n"


@pytest.mark.long
def test_the_reports_in_verilator(tmp_path_factory: pytest.TempPathFactory) -> None:
    """Each fault of A and of D in its words."""
    needs_tools("verilator", "g++", "make")

    def make(folder: Path) -> None:
        words: List[Word] = ["verilator", "--binary", "--assert", "-j", 1, "-Wno-fatal", "-Wno-lint"]
        words += ["--top-module", "reports"]
        succeed([*words, "--Mdir", folder, "-o", "reports", CHECKER, HERE / "reports.sv"], timeout=600)

    program = made_once(tmp_path_factory, "checker_reports", make) / "reports"
    done = run([program, "+verilator+error+limit+1000"])
    assert reported(done.stdout + done.stderr) == (HERE / "reports.expected").read_text()


def simulated(folder: Path, top: str, *flags: str) -> "tuple[int, str]":
    """Compiles a bench with the checker in Icarus and runs it: the exit status and what it prints."""
    needs_tools("iverilog", "vvp")
    succeed(["iverilog", "-g2012", *flags, "-s", top, "-o", folder / top, CHECKER, HERE / f"{top}.sv"])
    done = run(["vvp", "-n", folder / top])
    return done.returncode, done.stdout


def test_the_reports_in_icarus(tmp_path: Path) -> None:
    """The same as in Verilator."""
    status, printed = simulated(tmp_path, "reports")
    assert status == 0, printed
    assert reported(printed) == (HERE / "reports.expected").read_text()


def test_max_reports_limits_the_reports_of_each_channel(tmp_path: Path) -> None:
    """With MAX_REPORTS = 1: the first fault of each channel, the message about MAX_OUTSTANDING, and all faults
    counted.
    """
    status, printed = simulated(tmp_path, "reports", "-DMAX_REPORTS=1")
    assert status == 0, printed
    assert len(re.findall("^ERROR", printed, re.M)) == 3, printed
    assert "19 faults, overflow 1" in printed.splitlines()


def test_stop_on_fault_ends_with_the_first_report(tmp_path: Path) -> None:
    """And no last line."""
    status, printed = simulated(tmp_path, "reports", "-DSTOP_ON_FAULT=1'b1")
    assert status != 0
    assert len(re.findall("^ERROR", printed, re.M)) == 1, printed
    assert "overflow" not in printed


def test_unknown_bits_in_icarus(tmp_path: Path) -> None:
    """The cases of unknown.sv."""
    status, printed = simulated(tmp_path, "unknown")
    assert status == 0, printed
    assert "14 of 14 as expected" in printed.splitlines(), printed
