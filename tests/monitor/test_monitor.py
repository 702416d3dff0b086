"""The SystemVerilog monitors, the modules for links with the channels A and D only, and sv/prove.

The modules are as tools/make-ad writes them; Verilator, Icarus and yosys read them without a warning; over random beats
they give the
faults and the files of the modules that they wrap. sv/prove proves a device that keeps the rules, and names the rule
that a broken one
breaks.
"""

import re
from pathlib import Path
from typing import Dict, List, Tuple

import pytest
from commands import Word, run, said, succeed, succeed_silently
from project import ROOT, SV, needs_tools

HERE = Path(__file__).resolve().parent
WORKED = ROOT / "tests" / "library" / "sv"  # a monitor's beats, worked by hand
BOTH = [SV / f"{name}.sv" for name in ("tl_checker", "tl_checker_ad", "tl_trace_monitor", "tl_trace_monitor_ad")]
MODULES = ("tl_checker", "tl_trace_monitor", "tlbridge_scoreboard")


def test_the_modules_for_a_and_d_are_as_the_tool_writes_them() -> None:
    """A change of a module changes its wrapper, too."""
    succeed_silently([ROOT / "tools" / "make-ad", "--check"])


@pytest.mark.simulator
@pytest.mark.parametrize("module", MODULES)
def test_verilator_reads_a_wrapper_without_a_warning(module: str) -> None:
    """With a parameter that is not the default."""
    needs_tools("verilator")
    words = ["verilator", "--lint-only", "-Wall", "--assert", "--top-module", f"{module}_ad", "-GSOURCE_BITS=3"]
    succeed_silently([*words, SV / f"{module}.sv", SV / f"{module}_ad.sv"])


@pytest.mark.simulator
@pytest.mark.parametrize("module", MODULES[:2])
def test_icarus_reads_a_wrapper_without_a_warning(module: str, tmp_path: Path) -> None:
    """Icarus has no DPI, so it does not read the scoreboard."""
    needs_tools("iverilog")
    words: List[Word] = ["iverilog", "-g2012", "-Wall", "-s", f"{module}_ad", "-o", tmp_path / "read"]
    succeed_silently([*words, SV / f"{module}.sv", SV / f"{module}_ad.sv"])


@pytest.mark.simulator
def test_yosys_reads_the_wrapper_of_the_checker_without_a_warning() -> None:
    """As for a proof."""
    needs_tools("yosys")
    files = f"{SV}/tl_checker.sv {SV}/tl_checker_ad.sv"
    succeed_silently(["yosys", "-q", "-p", f"read_verilog -sv -formal {files}; prep -flatten -top tl_checker_ad"])


OLD_NAMES = [
    *(("tl_checker", name) for name in "WIDTH REQUESTS RESPOND_AT_ONCE REUSE_AT_ONCE RECOVER REPORTS STOP".split()),
    *(("tlbridge_scoreboard", name) for name in ("CLIENT", "MANAGER", "UNMASKED")),
]


@pytest.mark.simulator
@pytest.mark.parametrize("module, name", OLD_NAMES)
def test_a_parameter_with_an_earlier_name_is_an_error_that_says_the_new_names(module: str, name: str) -> None:
    """A design that sets it is not silently read with the default."""
    needs_tools("verilator")
    done = run(["verilator", "--lint-only", "--top-module", module, f"-G{name}=1", SV / f"{module}.sv"])
    assert done.returncode != 0
    new = "DATA_BYTES" if module == "tl_checker" else "CLIENT_BYTES"
    assert re.search(f"a parameter of {module} has a new name: .*{new}", done.stdout + done.stderr), said(done)


def simulated(folder: Path, top: str, files: List[Path], *parameters: str) -> Tuple[int, str]:
    """Compiles and runs a bench with Icarus. Returns its exit status and what it prints; the files that it writes are
    in the folder.
    """
    needs_tools("iverilog", "vvp")
    succeed(["iverilog", "-g2012", "-s", top, *parameters, "-o", folder / f"{top}.vvp", *files])
    done = run(["vvp", "-n", folder / f"{top}.vvp"], folder)
    return done.returncode, done.stdout


@pytest.mark.simulator
def test_a_wrapper_gives_the_faults_and_files_of_all_channels(tmp_path: Path) -> None:
    """Over random beats of A and D, lawful and faulty."""
    status, printed = simulated(tmp_path, "wrappers", [*BOTH, HERE / "wrappers.sv"])
    assert status == 0, printed
    assert re.search(r"^0 differences, [0-9]{4} cycles with a fault", printed, re.M), printed
    assert (tmp_path / "ad.beats").read_text().count("\n") > 500
    for name in ("beats", "beats.times"):
        assert (tmp_path / f"ad.{name}").read_bytes() == (tmp_path / f"full.{name}").read_bytes()


DIGITS: Dict[str, str] = {
    "": "E 05",
    "SINK_BITS=9": "E 0005",
    "SOURCE_BITS=9": "E 0005",
    "DATA_BYTES=64": "E 05",
    "DATA_BYTES=128": "E 0005",
    "VERSION=2": "E 0005",
}


@pytest.mark.simulator
@pytest.mark.parametrize("parameter, beat", DIGITS.items(), ids=[name or "defaults" for name in DIGITS])
def test_the_digits_of_an_id_and_the_times_between_two_units(parameter: str, beat: str, tmp_path: Path) -> None:
    """An id has four digits if one of the link's does not fit two, or on a bus of 128 bytes. Times are in units of the
    precision.
    """
    given = [f"-Ptimes.{parameter}"] if parameter else []
    status, printed = simulated(tmp_path, "times", [HERE / "times.sv", SV / "tl_trace_monitor.sv"], *given)
    assert status == 0, printed
    assert (tmp_path / "times.beats").read_text() == f"{beat}\n{beat}\n"
    assert (tmp_path / "times.beats.times").read_text() == "1250\n3750\n"


@pytest.mark.simulator
def test_the_data_of_each_response_is_on_the_lanes_of_its_own_request(tmp_path: Path) -> None:
    """The responses of lanes.sv, in their order."""
    status, printed = simulated(tmp_path, "lanes", [HERE / "lanes.sv", SV / "tl_trace_monitor.sv"])
    assert status == 0, printed
    data = re.findall(r"^D .* ([0-9a-f]{16}) 0$", (tmp_path / "lanes.beats").read_text(), re.M)
    first, second = "0000000033221100", "7766554400000000"
    assert data == [first, first, second, second, first]


@pytest.mark.simulator
@pytest.mark.parametrize("is_unknown", [False, True], ids=["known", "unknown bits"])
def test_the_monitor_writes_the_beats_that_were_worked_by_hand(is_unknown: bool, tmp_path: Path) -> None:
    """tests/library/sv/monitor.sv; with +unknown also those with unknown bits."""
    needs_tools("iverilog", "vvp")
    succeed(["iverilog", "-g2012", "-o", tmp_path / "monitor", SV / "tl_trace_monitor.sv", WORKED / "monitor.sv"])
    succeed(["vvp", "-n", "monitor", *(["+unknown"] if is_unknown else [])], tmp_path)
    wanted = (WORKED / "monitor.beats").read_text()
    if is_unknown:
        wanted += (WORKED / "monitor.unknown").read_text()
    else:
        assert (tmp_path / "monitor.got.times").read_text() == (WORKED / "monitor.times").read_text()
    assert (tmp_path / "monitor.got").read_text() == wanted


@pytest.mark.simulator
@pytest.mark.parametrize(
    "words, parameters",
    [
        ("do not fit in a trace of version 1", ["VERSION=1", "SINK_BITS=9"]),
        ("do not fit in a trace of version 1", ["VERSION=1", "SOURCE_BITS=9"]),
        ("do not fit in a trace of version 2", ["SINK_BITS=17"]),
        ("no link of 128 bytes", ["VERSION=1", "DATA_BYTES=128"]),
        ("WIDTH is DATA_BYTES", ["WIDTH=4"]),
        ("CLEAN is ZERO_UNUSED_LANES", ["CLEAN=0"]),
    ],
    ids=lambda value: " ".join(value) if isinstance(value, list) else "",
)
def test_the_monitor_refuses_a_parameter_by_ending_the_simulation(
    words: str, parameters: List[str], tmp_path: Path
) -> None:
    """It says why."""
    given = [f"-Ptimes.{parameter}" for parameter in parameters]
    status, printed = simulated(tmp_path, "times", [HERE / "times.sv", SV / "tl_trace_monitor.sv"], *given)
    assert status != 0
    assert words in printed


# ---- sv/prove

PROVED = [SV / "tl_checker.sv", SV / "tl_checker_ad.sv", HERE / "device.sv", HERE / "broken_device.sv"]


@pytest.mark.simulator
def test_prove_proves_a_device_that_keeps_the_rules() -> None:
    """Within 10 cycles."""
    needs_tools("yosys", "yosys-abc")
    done = run([SV / "prove", "device", 10, *PROVED])
    assert (done.stdout + done.stderr).strip() == "no assertion of 8 fails in 10 cycles"
    assert done.returncode == 0


@pytest.mark.simulator
def test_prove_names_the_rule_that_a_device_breaks_and_shows_the_cycles() -> None:
    """In the cycle of the first response, which is the third at the earliest."""
    needs_tools("yosys", "yosys-abc")
    done = run([SV / "prove", "broken_device", 10, *PROVED])
    lines = (done.stdout + done.stderr).splitlines()
    label = "it.check.all_channels.d.SizeMismatch_asserted"
    assert done.returncode == 1, said(done)
    assert f"fails at the clock edge that ends cycle 2: {label}" in lines
    assert len(lines) == 4, lines
    assert any(re.match("cycle 1: .*a_valid=1 ", line) for line in lines), lines


@pytest.mark.simulator
@pytest.mark.parametrize(
    "words",
    [
        ["device", "10"],
        ["device", "ten", str(HERE / "device.sv")],
        ["device", "10", "nothing.sv"],
        ["nothing", "10", str(HERE / "device.sv")],
    ],
    ids=["no file", "a wrong number", "a missing file", "a missing module"],
)
def test_prove_refuses_wrong_words(words: List[str], tmp_path: Path) -> None:
    """With status 2 and one line."""
    needs_tools("yosys", "yosys-abc")
    done = run([SV / "prove", *words], tmp_path)
    assert done.returncode == 2, said(done)
    assert re.search("^prove: ", done.stdout + done.stderr, re.M), said(done)
