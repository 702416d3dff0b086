"""The library as C, C++, SystemVerilog and Python call it, out of a tree that `make install` made, and each way of
docs/INSTALL.md, SCOREBOARD.md, C.md and PYTHON.md, whose files and outputs tests/repository/test_documents.py compares
with the pages.

The pairs of widths are those of the variable PAIRS, among them 8:4 and 4:8; without it 8:4 4:8 128:1 1:128 128:128. The
library has to be in out/.
"""

import os
import re
import shutil
import sys
from pathlib import Path
from typing import Dict, List, Sequence

import pytest
from commands import Word, run, said, succeed
from library_tree import PAIRS, programs
from once import made_once
from project import EXAMPLES, ROOT, compiler, needs_tools
from valgrind import has_no_leak

pytestmark = [pytest.mark.long, pytest.mark.library]

HERE = Path(__file__).resolve().parent
STRICT = ["-std=c11", "-Wall", "-Wextra", "-Wshadow", "-Wconversion", "-Werror", "-O1", "-g"]


# ---- The tree


def make(*words: Word, folder: Path = ROOT, **environment: str) -> str:
    """Runs make, which has to succeed. Returns what it prints."""
    done = run(["make", "--no-print-directory", "-C", folder, *words], timeout=3600, environment=environment)
    assert done.returncode == 0, said(done)
    return done.stdout


def test_an_empty_prefix_is_none(prefix: Path) -> None:
    """As one of a variable that is not set."""
    printed = make("-n", "install", "PREFIX=", f"PAIRS={' '.join(PAIRS)}", "PROGRAMS=no")
    assert "install -d /usr/local/include" in printed


def test_parts_that_were_made_are_not_made_again(prefix: Path) -> None:
    """Nothing is proved twice."""
    make("-q", "out/libtlbridge_8_4.a")
    assert "make-library" not in make("library", "C=8", "M=4")


WITHOUT_RT: Dict[str, List[Word]] = {
    "make out/libtlbridge_8_4.a": ["make", "-C", ROOT, "-W", "crates.txt", "out/libtlbridge_8_4.a"],
    "make programs": ["make", "-C", ROOT, "programs"],
    "tools/make-library": [ROOT / "tools" / "make-library", "8", "4"],
}


@pytest.mark.parametrize("name", WITHOUT_RT)
def test_without_rt_a_proof_fails_and_names_the_toolchain(name: str, prefix: Path, tmp_path: Path) -> None:
    """Each way to one. Programs that were built before need no toolchain."""
    if name == "make programs" and programs() == "PROGRAMS=yes":
        pytest.skip("the programs are built")
    for tool in "sh make sed find uname tr cc ld nm ar objcopy flock dirname mkdir".split():
        needs_tools(tool)
        (tmp_path / tool).symlink_to(str(shutil.which(tool)))
    words = WITHOUT_RT[name]
    first = [str(shutil.which(str(words[0])) or words[0]), *words[1:]]
    done = run(first, environment={"PATH": str(tmp_path)})
    assert done.returncode != 0
    assert "Rattle toolchain" in done.stdout + done.stderr, said(done)


def files_below(folder: Path) -> List[str]:
    """The files of a tree without the programs."""
    found = [path.relative_to(folder) for path in folder.rglob("*") if path.is_file() and not path.is_symlink()]
    return sorted(str(path) for path in found if str(path) not in ("bin/tlbridge", "bin/tlexplain"))


def test_destdir_has_the_same_tree(prefix: Path, tmp_path: Path) -> None:
    """And no file names it."""
    make("install", f"DESTDIR={tmp_path}/root", "PREFIX=/usr", f"PAIRS={' '.join(PAIRS)}", "PROGRAMS=no")
    tree = tmp_path / "root" / "usr"
    assert files_below(tree) == files_below(prefix)
    named = [name for name in files_below(tree) if str(tmp_path).encode() in (tree / name).read_bytes()]
    assert named == []


def test_a_program_is_built_with_the_unpacked_archive_of_make_dist(prefix: Path, tmp_path: Path) -> None:
    """Elsewhere."""
    name = make("dist", f"PAIRS={' '.join(PAIRS)}", "PROGRAMS=no").splitlines()[-1]
    succeed(["tar", "-xzf", ROOT / name], tmp_path)
    (tree,) = tmp_path.glob("tlbridge-*")
    demo = tree / "share" / "tlbridge" / "examples" / "c" / "demo.c"
    succeed([compiler(), demo, f"-I{tree}/include", tree / "lib" / "libtlbridge.a", "-o", tmp_path / "demo"])
    assert succeed([tmp_path / "demo"])


def test_the_cmake_package_links_the_shared_and_the_static_library(prefix: Path, tmp_path: Path) -> None:
    """Both programs print the same."""
    needs_tools("cmake")
    series = (ROOT / "VERSION").read_text().strip().rpartition(".")[0]
    (tmp_path / "CMakeLists.txt").write_text(
        f"cmake_minimum_required(VERSION 3.10)\nproject(user C)\nfind_package(tlbridge {series} REQUIRED)\n"
        "add_executable(shared demo.c)\ntarget_link_libraries(shared tlbridge::tlbridge)\n"
        "add_executable(static demo.c)\ntarget_link_libraries(static tlbridge::static)\n"
    )
    shutil.copy(prefix / "share" / "tlbridge" / "examples" / "c" / "demo.c", tmp_path)
    succeed(["cmake", "-S", ".", "-B", "built", f"-DCMAKE_PREFIX_PATH={prefix}"], tmp_path)
    succeed(["cmake", "--build", "built"], tmp_path)
    shared = succeed([tmp_path / "built" / "shared"])
    assert shared and shared == succeed([tmp_path / "built" / "static"])


@pytest.mark.parametrize("name", ["tlbridge", "tlbridge-model", "tlexplain", "tlbridge-compare"])
def test_man_shows_the_page_without_a_warning(name: str, prefix: Path) -> None:
    """In 80 columns."""
    needs_tools("man")
    page = prefix / "share" / "man" / "man1" / f"{name}.1"
    done = run(["man", "--warnings", page], environment={"MANWIDTH": "80"})
    assert name in done.stdout
    assert done.stderr == ""


@pytest.mark.program
@pytest.mark.parametrize(
    "words", ["tlbridge", "tlbridge run", "tlbridge check", "tlbridge-model", "tlexplain", "tlbridge-compare"]
)
def test_each_option_of_a_help_is_in_its_page_and_completed(words: str, prefix: Path, program: Path) -> None:
    """As the installed commands print it."""
    needs_tools("man")
    name, *more = words.split()
    options = {*re.findall(r"(?:^|[ ,])(--[a-z-]+)", succeed([prefix / "bin" / name, *more, "--help"]), re.M)}
    page = prefix / "share" / "man" / "man1" / f"{name}.1"
    shown = run(["man", page], environment={"MANWIDTH": "80"}).stdout
    completion = (prefix / "share" / "bash-completion" / "completions" / name).read_text()
    assert options
    assert [option for option in sorted(options) if option not in shown or option not in completion] == []


COMPLETED: Dict[str, str] = {
    "tlbridge run --s": "--sync",
    "tlbridge ch": "check",
    "tlbridge-compare 8 12": "128",
    "tlexplain --channel ": "A B C D E",
    "tlbridge run g": "get.trace",
}


@pytest.mark.parametrize("words, wanted", COMPLETED.items())
def test_bash_completes_words_widths_values_and_files(words: str, wanted: str, prefix: Path, tmp_path: Path) -> None:
    """After the file of the tree was read."""
    needs_tools("bash")
    (tmp_path / "get.trace").touch()
    given = words.split(" ")
    script = '. "$1"; shift; COMP_WORDS=("$@"); COMP_CWORD=$(($# - 1)); _tlbridge "$1"; echo "${COMPREPLY[*]}"'
    file = prefix / "share" / "bash-completion" / "completions" / "tlbridge"
    assert succeed(["bash", "-c", script, "bash", file, *given], tmp_path).strip() == wanted


# ---- C


def compiled(prefix: Path, folder: Path, name: str, *flags: str) -> Path:
    """A test of tests/library/c, with the header and the archive of the tree."""
    words: List[Word] = [compiler(), *STRICT, f"-I{prefix}/include", HERE / "c" / f"{name}.c", *flags]
    succeed([*words, prefix / "lib" / "libtlbridge.a", "-o", folder / name])
    return folder / name


def runs_without_a_leak(program: Path, *words: Word) -> None:
    """It succeeds; under valgrind, too, if that is there."""
    succeed([program, *words], timeout=900)
    if shutil.which("valgrind"):
        options = ["--quiet", "--error-exitcode=9", "--leak-check=full", "--errors-for-leak-kinds=all"]
        succeed(["valgrind", *options, "--fair-sched=yes", program, *words], timeout=1800)


def widths(pair: str) -> List[str]:
    client, manager = pair.split(":")
    return [f"-DCLIENT={client}", f"-DMANAGER={manager}"]


@pytest.mark.parametrize("pair", PAIRS)
def test_every_call(pair: str, prefix: Path, tmp_path: Path) -> None:
    """With each growth refused in turn, and no leak."""
    program = compiled(prefix, tmp_path, "calls", *widths(pair), "-Wl,--wrap=malloc")
    succeed([program], timeout=900)
    has_no_leak(program, timeout=1800)


@pytest.mark.parametrize("pair", PAIRS)
def test_each_side_in_a_thread(pair: str, prefix: Path, tmp_path: Path) -> None:
    """valgrind's helgrind looks for data races."""
    program = compiled(prefix, tmp_path, "sides", *widths(pair), "-pthread")
    succeed([program], timeout=900)
    runs_without_a_leak(program, "1000")
    needs_tools("valgrind")
    options = ["--quiet", "--tool=helgrind", "--fair-sched=yes", "--error-exitcode=9"]
    suppressions = f"--suppressions={ROOT}/tests/program/valgrind.supp"
    succeed(["valgrind", *options, suppressions, program, "1000"], timeout=1800)


def test_the_answer_to_a_trace(prefix: Path, tmp_path: Path) -> None:
    """Of each example, with each growth refused in turn."""
    program = compiled(prefix, tmp_path, "trace", "-Wl,--wrap=malloc,--wrap=realloc")
    runs_without_a_leak(program, *sorted(EXAMPLES.glob("*.trace")))


@pytest.mark.parametrize("name", ["pairs", "fields"])
def test_two_pairs_in_one_program_and_the_order_of_fields(name: str, prefix: Path, tmp_path: Path) -> None:
    """Fields of one size could be in another order in the library than in the header."""
    succeed([compiled(prefix, tmp_path, name)])


@pytest.mark.parametrize("standard", ["17", "20"])
def test_the_header_as_c_plus_plus(standard: str, prefix: Path, tmp_path: Path) -> None:
    """Without a warning."""
    needs_tools("g++")
    words: List[Word] = ["g++", f"-std=c++{standard}", "-Wall", "-Wextra", "-Wno-missing-field-initializers", "-Werror"]
    words += [f"-I{prefix}/include", HERE / "c" / "header.cpp", prefix / "lib" / "libtlbridge.a"]
    succeed([*words, "-o", tmp_path / "cpp"])
    succeed([tmp_path / "cpp"])


def example(prefix: Path, folder: Path, name: str) -> Path:
    """A program of examples/c in the tree."""
    source = prefix / "share" / "tlbridge" / "examples" / "c" / f"{name}.c"
    words: List[Word] = [compiler(), source, f"-I{prefix}/include", prefix / "lib" / "libtlbridge.a", "-pthread"]
    succeed([*words, "-o", folder / name])
    return folder / name


def test_the_example_with_two_threads(prefix: Path, tmp_path: Path) -> None:
    """It prints the bytes, and that all was taken."""
    printed = succeed([example(prefix, tmp_path, "sides")])
    assert "0f0e0d0c0b0a0908" in printed
    assert printed.splitlines()[-1] == "all was taken: yes"


def test_the_example_that_answers_a_trace(prefix: Path, tmp_path: Path) -> None:
    """As examples/get.answer."""
    text = (prefix / "share" / "tlbridge" / "examples" / "get.trace").read_text()
    done = run([example(prefix, tmp_path, "answer")], text=text)
    assert done.returncode == 0, said(done)
    assert done.stdout == (EXAMPLES / "get.answer").read_text()


@pytest.mark.parametrize("path", sorted((EXAMPLES / "faults").glob("*.c")), ids=lambda path: str(path.stem))
def test_each_fault_of_a_caller(path: Path, prefix: Path, tmp_path: Path) -> None:
    """Its program prints what is stored with it."""
    source = prefix / "share" / "tlbridge" / "examples" / "faults" / path.name
    words: List[Word] = [compiler(), "-std=c11", "-Wall", "-Wextra", "-Werror", "-g", f"-I{prefix}/include", source]
    succeed([*words, prefix / "lib" / "libtlbridge.a", "-o", tmp_path / "fault"])
    assert succeed([tmp_path / "fault"]) == source.with_suffix(".output").read_text()


# ---- SystemVerilog

WARNINGS = "-Wall -Wno-DECLFILENAME -Wno-UNUSEDSIGNAL -Wno-UNUSEDPARAM -Wno-BLKSEQ -Wno-STMTDLY".split()


def build(folder: Path, top: str, *words: Word) -> Path:
    """A bench with its top module, by Verilator."""
    needs_tools("verilator", "g++", "make")
    command: List[Word] = ["verilator", "--binary", "-j", 2, *WARNINGS, "--top-module", top, "--Mdir", folder / "built"]
    succeed([*command, "-o", top, *words], folder, 1200)
    return folder / "built" / top


def sv_of(prefix: Path) -> Path:
    return prefix / "share" / "tlbridge" / "sv"


@pytest.mark.simulator
@pytest.mark.parametrize("name", ["channels", "lanes"])
def test_dpi(name: str, prefix: Path, tmp_path: Path) -> None:
    """Every call (channels.sv), and every lane at 1:128 (lanes.sv)."""
    if name == "lanes" and "1:128" not in PAIRS:
        pytest.skip("the pair 1:128 is not in PAIRS")
    files = [sv_of(prefix) / "tlbridge_pkg.sv", HERE / "sv" / f"{name}.sv", prefix / "lib" / "libtlbridge.a"]
    assert "checks" in succeed([build(tmp_path, name, "-Wno-WIDTH", *files)], timeout=900)


@pytest.mark.simulator
def test_dpi_of_only_one_pair(prefix: Path, tmp_path: Path) -> None:
    """The glue compiled with the simulation, over only the archive of that pair."""
    sv = sv_of(prefix)
    flags: List[Word] = ["-Wno-WIDTH", "-CFLAGS", f"-I{prefix}/include -DTLBRIDGE_8_4"]
    files = [sv / "tlbridge_pkg.sv", HERE / "sv" / "channels.sv", sv / "tlbridge_dpi.c"]
    program = build(tmp_path, "channels", *flags, *files, prefix / "lib" / "libtlbridge_8_4.a")
    assert "checks" in succeed([program], timeout=900)


@pytest.mark.simulator
def test_the_monitor_in_verilator(prefix: Path, tmp_path: Path) -> None:
    """The beats that were worked by hand, and their times. tests/monitor has the same in Icarus."""
    program = build(tmp_path, "monitor", sv_of(prefix) / "tl_trace_monitor.sv", HERE / "sv" / "monitor.sv")
    succeed([program], tmp_path)
    assert (tmp_path / "monitor.got").read_text() == (HERE / "sv" / "monitor.beats").read_text()
    assert (tmp_path / "monitor.got.times").read_text() == (HERE / "sv" / "monitor.times").read_text()


def test_the_monitor_of_the_tree_is_that_of_the_repository(prefix: Path) -> None:
    """So what tests/monitor says of it holds."""
    assert (sv_of(prefix) / "tl_trace_monitor.sv").read_bytes() == (ROOT / "sv" / "tl_trace_monitor.sv").read_bytes()


# ---- A design whose far beats may come before their near beats


def build_through(prefix: Path, folder: Path, *flags: str) -> Path:
    """The program of sv/through.sv."""
    sv, adapter = sv_of(prefix), EXAMPLES / "verilator"
    files: List[Word] = [adapter / "adapter_pkg.sv", adapter / "traffic.sv", sv / "tl_trace_monitor.sv"]
    files += [sv / "tlbridge_scoreboard.sv", HERE / "sv" / "through.sv", prefix / "lib" / "libtlbridge.a"]
    return build(folder, "cut_through", *flags, *files)


@pytest.fixture(scope="session")
def through(prefix: Path, tmp_path_factory: pytest.TempPathFactory) -> Path:
    """The simulation, built once in a run."""

    def make_it(folder: Path) -> None:
        build_through(prefix, folder)

    folder = made_once(tmp_path_factory, "through", make_it)
    return folder / "built" / "cut_through"


def compared(prefix: Path, folder: Path, *words: str) -> int:
    """The status of tlbridge-compare over the monitors' files."""
    command: List[Word] = [prefix / "bin" / "tlbridge-compare", 8, 4, "client.beats", "manager.beats", *words]
    return run(command, folder).returncode


def has_program(prefix: Path) -> bool:
    return os.access(prefix / "bin" / "tlbridge", os.X_OK)


@pytest.mark.simulator
@pytest.mark.parametrize("words, least", [([], 0), (["+at_once"], 500)], ids=["", "at once"])
def test_a_right_design_has_no_difference(
    words: List[str], least: int, through: Path, prefix: Path, tmp_path: Path
) -> None:
    """By three scoreboards. The run often has far beats of A and C before their near beat, and responses in their
    request's cycle.
    """
    printed = succeed([through, *words], tmp_path)
    lines = [f"{name}: 0 differences, [0-9]* beats" for name in ("tlbridge_scoreboard", "unmasked", "of_e")]
    for line in (*lines, "at the end: 0, 0 and 0 differences"):
        assert re.search(f"^{line}$", printed, re.M), printed[-2000:]
    counts = re.search(r"^(\d+) far beats of A and (\d+) of C before their near beat, (\d+) responses", printed, re.M)
    assert counts
    assert int(counts[1]) >= 1000 and int(counts[2]) >= 1000 and int(counts[3]) >= least
    if has_program(prefix):
        assert compared(prefix, tmp_path) == 0


@pytest.mark.simulator
def test_a_reset_of_both_links_begins_anew(through: Path, tmp_path: Path) -> None:
    """Whatever was under way, and each scoreboard says so once."""
    printed = succeed([through, "+reset"], tmp_path)
    line = ": reset of the [a-z]*'s link: [0-9]* beats in flight on both links are not judged$"
    assert len(re.findall(line, printed, re.M)) == 3
    assert "at the end: 0, 0 and 0 differences" in printed.splitlines()


BUGS = {
    1: ("+later", "^far A beat [0-9]+; data got [0-9a-f.]*, expected [0-9a-f.]*$"),
    2: ("+later", "^far A beat [0-9]+; mask got [0-9a-f], expected [0-9a-f]"),
    3: ("+later", "^far A beat [0-9]+; corrupt got 0, expected 1$"),
    4: ("+later", "^far A beat [0-9]+; address got [0-9a-f]*4, expected [0-9a-f]*0$"),
    5: ("+later", "^far C beat [0-9]+; data got [0-9a-f.]*, expected [0-9a-f.]*$"),
    6: ("+later", "^far C beat [0-9]+; param got [0-7], expected [0-7]$"),
    7: ("+later", "^far C beat [0-9]+;.* got"),
    8: ("+later", "^far C beat [0-9]+; source got 0[01].., expected 0[23]..$"),
    9: ("+at_once", r"^far D beat [0-9]+; data got 00000000\.*, expected"),
    10: ("+at_once", "^far D beat [0-9]+; corrupt got 0, expected 1$"),
    11: ("+at_once", "^far D beat [0-9]+; source got 000., expected 020.$"),
    12: ("+at_once", "^far D beat [0-9]+; sink got 0..., expected 0...$"),
    13: ("+at_once", "^far D beat [0-9]+; denied got 0, expected 1$"),
    14: ("+at_once", "^far D beat [0-9]+; size got 2, expected 3$"),
    15: ("+at_once", "^far A beat [0-9]+; opcode got 0, expected 1$"),
    16: ("+at_once", "^far D beat [0-9]+;"),
}


@pytest.mark.simulator
@pytest.mark.parametrize("bug", BUGS)
def test_a_planted_bug_is_named_with_its_channel_and_its_field(
    bug: int, through: Path, prefix: Path, tmp_path: Path
) -> None:
    """In the first line of the scoreboard, and the simulation fails."""
    words, where = BUGS[bug]
    done = run([through, f"+bug={bug}", words], tmp_path)
    assert done.returncode != 0
    firsts = re.findall(r"^tlbridge_scoreboard: time [0-9]*: (.*)$", done.stdout + done.stderr, re.M)
    assert firsts and re.search(where, firsts[0]), firsts[:1]
    if has_program(prefix):
        assert compared(prefix, tmp_path, "--ignore-unmasked") != 0


@pytest.mark.simulator
def test_bytes_without_a_mask_bit_are_compared_only_by_the_scoreboard_that_was_asked_to(
    through: Path, prefix: Path, tmp_path: Path
) -> None:
    """Bug 17."""
    done = run([through, "+bug=17"], tmp_path)
    printed = done.stdout + done.stderr
    assert re.search("^tlbridge_scoreboard: 0 differences, [0-9]* beats$", printed, re.M)
    assert re.search("^unmasked: time [0-9]*: far A beat [0-9]*; data got", printed, re.M)
    if has_program(prefix):
        assert compared(prefix, tmp_path, "--ignore-unmasked") == 0
        assert compared(prefix, tmp_path) != 0


@pytest.mark.simulator
def test_a_pair_that_the_library_does_not_have_ends_the_simulation_at_once(prefix: Path, tmp_path: Path) -> None:
    """With the pairs that it has."""
    done = run([build_through(prefix, tmp_path, "-GCLIENT=2")], tmp_path)
    printed = done.stdout + done.stderr
    assert done.returncode != 0
    assert "differences" not in printed
    assert re.search("the library has no pair of 2 and 8 bytes.*; it has .*8:4", printed)


@pytest.mark.simulator
def test_the_adapter_of_the_examples(prefix: Path) -> None:
    """As its page runs it."""
    needs_tools("verilator", "g++", "make")
    succeed([prefix / "share" / "tlbridge" / "examples" / "verilator" / "run", prefix], timeout=1800)


# ---- Python


def test_the_python_package_is_installed_and_passes_its_tests(prefix: Path, tmp_path: Path) -> None:
    """In an environment of its own, with the library that the package brings."""
    python = tmp_path / "venv" / "bin" / "python"
    succeed([sys.executable, "-m", "venv", "--system-site-packages", tmp_path / "venv"])
    options = ["--disable-pip-version-check", "--no-index", "--no-build-isolation"]
    succeed([python, "-m", "pip", "install", *options, prefix / "share" / "tlbridge" / "python"])
    words: List[Word] = [python, "-m", "pytest", "-p", "no:cacheprovider", "-o", "pythonpath=tests/lib", "tests/python"]
    done = run(words, ROOT, 1800, {"PYTHONDONTWRITEBYTECODE": "1"})
    assert done.returncode == 0, said(done)
    succeed([python, prefix / "share" / "tlbridge" / "examples" / "python" / "read.py"])


def test_the_types_of_the_python_package() -> None:
    """By mypy --strict."""
    needs_tools("mypy")
    succeed(["mypy", "--strict", ROOT / "python" / "tlbridge"])


# ---- The ways of docs/INSTALL.md, SCOREBOARD.md, C.md and PYTHON.md

WAYS: Dict[str, Sequence[str]] = {
    "traces": ["iverilog", "vvp"],
    "scoreboard": ["verilator", "g++", "make"],
    "cpp": ["verilator", "g++", "make"],
    "c": ["pkg-config"],
    "python": ["python3"],
}


@pytest.mark.parametrize("name", WAYS)
def test_the_commands_of_a_way_print_what_is_stored(name: str, prefix: Path, tmp_path: Path) -> None:
    """In a copy of its folder."""
    needs_tools(*WAYS[name])
    if name == "traces" and not has_program(prefix):
        pytest.skip("the programs are not installed: they were not built (`make programs`)")
    folder = Path(shutil.copytree(prefix / "share" / "tlbridge" / "examples" / name, tmp_path / name))
    environment = {
        "PREFIX": str(prefix),
        "PATH": f"{prefix}/bin{os.pathsep}{os.environ['PATH']}",
        "PKG_CONFIG_PATH": f"{prefix}/lib/pkgconfig",
    }
    done = run(["sh", "-c", "exec sh run 2>&1"], folder, 1800, environment)
    assert done.stdout == (folder / "output").read_text()
