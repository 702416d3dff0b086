"""The linters of each language: black, flake8 and mypy for Python, clang-tidy and the compiler's warnings for C, the
compiler's warnings for C++, shellcheck for scripts of the shell, Verilator for files of sv/. A missing one skips."""

import os
import re
import subprocess
from pathlib import Path
from typing import Dict, List

import pytest
from project import ROOT, compiler, needs_tools

FIRST_LINE = re.compile(rb"#!.*\b(python3|sh|bash)\b")

# For the C of all folders: a pair of widths, and the numbers that tests give to glue.c.
C_FLAGS = (
    *("-std=gnu11", "-Iinclude", "-Isv", "-Ipackaging/dpi", "-Itests/library/c"),
    *("-DTLBRIDGE_8_4", "-DTLBRIDGE_4_8", "-DCLIENT=8", "-DMANAGER=4"),
    *("-DOTHER_PAIR=200", "-DNOT_OPEN=201", "-DNOT_READY=202"),
)


def files_of(kind: str) -> List[str]:
    """The files of the repository in Python, in C or in the language of the shell: by their ending, or by their first
    line."""
    listed = subprocess.run(["git", "ls-files", "-z"], cwd=ROOT, capture_output=True, timeout=60, check=False)
    names = [name for name in listed.stdout.decode().split("\0") if name]
    if listed.returncode:  # (an archive without the history)
        names = [str(path.relative_to(ROOT)) for path in ROOT.rglob("*") if path.is_file() and "out" not in path.parts]
    return sorted(name for name in names if kind_of(ROOT / name) == kind)


def kind_of(path: Path) -> str:
    if path.is_symlink() or not path.is_file():
        return ""
    if path.suffix:
        return {".py": "python", ".sh": "shell", ".bash": "shell", ".c": "c", ".cpp": "c++"}.get(path.suffix, "")
    with open(path, "rb") as file:
        found = FIRST_LINE.match(file.readline(200))
    return {b"python3": "python", b"sh": "shell", b"bash": "shell"}[found[1]] if found else ""


def passes(*words: str, **environment: str) -> None:
    """Fails with what a linter prints if its status is not 0."""
    needs_tools(words[0])
    done = subprocess.run(
        words, cwd=ROOT, capture_output=True, text=True, timeout=600, check=False, env={**os.environ, **environment}
    )
    assert done.returncode == 0, done.stdout[-5000:] + done.stderr[-5000:]


def test_there_are_scripts_of_both_kinds() -> None:
    assert {"tlbridge-model", "tools/build", "tests/conftest.py"} <= {*files_of("python")}
    assert {"tlbridge", ".ci/run", "tools/install-tools"} <= {*files_of("shell")}


def test_black() -> None:
    """All Python is laid out by black, with the configuration in pyproject.toml."""
    passes("black", "--check", "--workers", "1", *files_of("python"))


def test_flake8() -> None:
    """No file has a name that is not used, a line above 120 columns, or another finding of flake8."""
    passes("flake8", "--jobs", "1", *files_of("python"))


def typed_groups() -> List[List[str]]:
    """All files of Python, whose types are checked. No two of a group have one name, which mypy refuses: of `compare`,
    for example, there are two."""
    groups: List[Dict[str, str]] = []
    for name in files_of("python"):
        path = Path(name)
        module = name if (ROOT / path.parent / "__init__.py").exists() else path.stem
        group = next((group for group in groups if module not in group), None)
        if group is None:
            group = {}
            groups.append(group)
        group[module] = name
    return [[*group.values()] for group in groups]


@pytest.mark.parametrize("names", typed_groups(), ids=lambda names: f"{len(names)} from {names[0]}")
def test_mypy(names: List[str], tmp_path: Path) -> None:
    """The types of all Python are checked strictly. A link gives tlbridge-model a name that tlexplain-model can import.
    The files in tests/stubs are the types of packages that have none."""
    (tmp_path / "tlbridge_model.py").symlink_to(ROOT / "tlbridge-model")
    own = {os.path.dirname(name) for name in names} - {""}
    folders = ["python", "tests/lib", "tests/stubs", "tools", str(tmp_path), *sorted(own)]
    passes(
        "mypy",
        "--follow-imports=silent",
        "--scripts-are-modules",
        *names,
        MYPYPATH=os.pathsep.join(str(ROOT / name) for name in folders),
    )


@pytest.mark.parametrize("name", files_of("shell"))
def test_shellcheck(name: str) -> None:
    """A script may read another one, as tlexplain does."""
    passes("shellcheck", "--external-sources", name)


@pytest.mark.parametrize("name", files_of("c"))
def test_compiler_warnings(name: str) -> None:
    """C of products, examples, tests and benches compiles without a warning."""
    passes(compiler(), "-fsyntax-only", "-Wall", "-Wextra", "-Wshadow", "-Wconversion", "-Werror", *C_FLAGS, name)


@pytest.mark.parametrize("name", files_of("c"))
def test_clang_tidy(name: str) -> None:
    """The checks are those of .clang-tidy, which has the reason for each that is left out."""
    passes("clang-tidy", "--quiet", name, "--", *C_FLAGS)


# What tests/checker/links.sv includes: its ports are the same for each number of links.
ONE_LINK = "`LINK(0, 8, 64, 4, 16, 16, 16, 1'b1, 1'b1, 1'b0)\n"
# Each file of C++, with the words of Verilator that make the headers that it includes.
EXAMPLE = "adapter_pkg async_fifo narrow_a widen_d hold_back adapter traffic bench"
CPP = {
    "examples/cpp/main.cpp": ("examples/start/adapter.sv",),
    "examples/verilator/main.cpp": (
        *("--top-module", "bench", "sv/tl_trace_monitor.sv", "sv/tl_checker.sv"),
        *(f"examples/verilator/{name}.sv" for name in EXAMPLE.split()[:1]),
        *("sv/tlbridge_scoreboard.sv", *(f"examples/verilator/{name}.sv" for name in EXAMPLE.split()[1:])),
    ),
    "tests/checker/agree.cpp": ("--top-module", "links", "sv/tl_checker.sv", "tests/checker/links.sv"),
    "tests/library/c/header.cpp": (),
    "tests/rtl/main.cpp": (
        *("--top-module", "top", "--prefix", "Vtop", "tests/rtl/top.sv", "sv/tl_checker.sv"),
        *sorted(str(path.relative_to(ROOT)) for path in ROOT.glob("rtl/*.sv") if "tl_bridge_" not in path.name),
    ),
}


def test_each_file_of_cpp_is_compiled() -> None:
    assert files_of("c++") == sorted(CPP)


@pytest.mark.parametrize("name", CPP)
def test_compiler_warnings_of_cpp(name: str, tmp_path: Path) -> None:
    """C++ of examples and tests compiles without a warning, over the headers that Verilator makes for it."""
    headers: List[str] = []
    if CPP[name]:
        needs_tools("verilator")
        (tmp_path / "links.svh").write_text(ONE_LINK)
        passes("verilator", "--cc", "-Wno-fatal", "-Wno-lint", f"-I{tmp_path}", "--Mdir", str(tmp_path), *CPP[name])
        asked = subprocess.run(["verilator", "--getenv", "VERILATOR_ROOT"], capture_output=True, text=True, check=True)
        root = f"{asked.stdout.strip()}/include"
        headers = [word for folder in (str(tmp_path), root, f"{root}/vltstd") for word in ("-isystem", folder)]
    warnings = ("-Wall", "-Wextra", "-Wshadow", "-Wconversion", "-Werror")
    passes("g++", "-std=c++17", "-fsyntax-only", *warnings, "-DTLBRIDGE_8_4", "-Iinclude", *headers, name)


# The parameters with which Verilator reads sv/tl_bridge_watch.sv: all channels, a narrow and a wide link, one channel.
WATCHED = (
    "",
    "-GMAX_WAIT=3 -GCOVERS=1'b1 -GREPEAT=1'b1 -GLARGEST_SIZE=6"
    " -GCLIENT_BYTES=8 -GMANAGER_BYTES=1 -GREQUEST_USER_BITS=3",
    "-GCLIENT_BYTES=1 -GMANAGER_BYTES=128 -GLARGEST_SIZE=12 -GSIZE_BITS=4 -GCHANNELS=5'd8 -GFORWARDS_OFFERED=1'b1",
    "-GCHANNELS=5'd1 -GIDLE_LANES_ZERO=1'b0 -GLEVEL=0 -GALL_SOURCES=1'b0",
)
# The files of sv/ that no test of a product reads so, each as the top module, and with FORMAL the checker of a proof.
READ = (
    ("tlbridge_scoreboard", "sv/tlbridge_scoreboard.sv"),
    ("tlbridge_scoreboard", "-GCLIENT_BYTES=128 -GSTOP=3 sv/tlbridge_scoreboard.sv"),
    ("tl_checker", "-DFORMAL -GMAX_OUTSTANDING=4 sv/tl_checker.sv"),
    *(("tl_bridge_watch", f"{given} sv/tl_bridge_watch.sv") for given in WATCHED),
    *(("tl_bridge_watch", f"{given} -DFORMAL sv/tl_checker.sv sv/tl_bridge_watch.sv") for given in WATCHED),
)


@pytest.mark.parametrize("top, words", READ)
def test_verilator_warns_of_nothing(top: str, words: str) -> None:
    passes("verilator", "--lint-only", "-Wall", "--assert", "--top-module", top, *words.split())


# By the ending of a file, or its kind: a comment that switches a check off, and the same with its reason.
SWITCHES = {
    "python": (
        r"# *(noqa|type: *ignore|pragma: no)",
        r"# (noqa: \w+|type: ignore\[[\w-]+\]) +(# )?\(.+\)$|# noqa: E402$",
    ),
    "shell": (r"# *shellcheck +disable", r"# shellcheck disable=SC\d+ # .+$"),
    "c": (r"NOLINT", r"NOLINTNEXTLINE\([\w-]+\): .+$"),
    "sv": (r"lint_off", r"/\* verilator lint_off [A-Z]+ \*/  // .+$"),
}


@pytest.mark.parametrize("kind", SWITCHES)
def test_each_exception_has_a_reason(kind: str) -> None:
    """A comment that switches a check of a linter off names the check, and says on its line why. In SystemVerilog the
    check is switched on again in the same file. An import that is not at the top comes after a change of sys.path."""
    paths = [ROOT / name for name in files_of(kind)]
    if kind == "sv":
        paths = [path for folder in ("sv", "rtl") for path in sorted((ROOT / folder).glob("*.sv"))]
    switch, with_reason = SWITCHES[kind]
    wrong = []
    for path in paths:
        text = "" if path == Path(__file__).resolve() else path.read_text()
        for line in text.splitlines():
            if re.search(switch, line) and not re.search(with_reason, line):
                wrong.append(f"{path.relative_to(ROOT)}: {line.strip()}")
        off, on = (sorted(re.findall(rf"lint_{word} (\w+)", text)) for word in ("off", "on"))
        if "noqa: E402" in text and "sys.path" not in text.partition("noqa: E402")[0]:
            wrong.append(f"{path.relative_to(ROOT)}: E402 without a change of sys.path")
        if kind == "sv" and off != on:
            wrong.append(f"{path.relative_to(ROOT)}: off {off}, on again {on}")
    assert wrong == []


# The widest line of SystemVerilog (docs/STYLE.md). A line with a text to print may be longer.
COLUMNS = 150


@pytest.mark.parametrize("folder", ("sv", "rtl"))
def test_columns_of_systemverilog(folder: str) -> None:
    """Lines above 150 columns are hard to read side by side."""
    wide = {}
    for path in sorted((ROOT / folder).glob("*.sv")):
        lines = path.read_text().splitlines()
        found = [number for number, line in enumerate(lines, 1) if len(line) > COLUMNS and '"' not in line]
        if found:
            wide[str(path.relative_to(ROOT))] = found
    assert wide == {}
