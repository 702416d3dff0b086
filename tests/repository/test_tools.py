"""Tests tools/install-tools, with stand-ins for `id`, `apt-get` and `python3`: what it installs, and what it says if it
may not."""

import shutil
import subprocess
from pathlib import Path
from typing import Any, Iterable, Iterator, List, Mapping, Sequence, Tuple

from differences import Differences
from project import ROOT

SCRIPT = ROOT / "tools" / "install-tools"
USED = ("sh", "sed", "timeout")
# the tools of `make test` and of the others, each with its package
MODULES = {
    "pytest": "python3-pytest",
    "xdist": "python3-pytest-xdist",
    "hypothesis": "python3-hypothesis",
    "hatchling": "python3-hatchling",
}
TOOLS = {
    **MODULES,
    "iverilog": "iverilog",
    "verilator": "verilator",
    "yosys": "yosys",
    "yosys-abc": "berkeley-abc",
    "fst2vcd": "gtkwave",
    "valgrind": "valgrind",
    "cc": "gcc",
    "g++": "g++",
    "man": "man-db",
    "black": "black",
    "flake8": "flake8",
    "mypy": "mypy",
    "shellcheck": "shellcheck",
    "clang-tidy": "clang-tidy",
}
OF_LONG = {"z3": "z3", "cmake": "cmake", "pkg-config": "pkg-config", "chromium": "chromium"}
# these print their versions in forms of their own
VERSIONS = {"shellcheck": "version:", "clang-tidy": "LLVM version"}
# An apt-get that notes its words, and installs a package by a tool with a version; it cannot get the packages that
# REFUSED names.
APT_GET = """#!/bin/sh
echo "$*" >> "$HERE/calls"
for word; do
    case $word in
    update) exit "${UPDATE:-0}" ;;
    esac
done
case " $REFUSED " in *" $word "*) exit 100 ;; esac
case $word in
berkeley-abc) tool=yosys-abc ;; gtkwave) tool=fst2vcd ;; gcc) tool=cc ;; man-db) tool=man ;;
python3-*) tool=import.${word##*-} ;; *) tool=$word ;;
esac
said=$tool
[ "$tool" != shellcheck ] || said=version:
[ "$tool" != clang-tidy ] || said="LLVM version"
printf '#!%s/sh\\necho %s 1.2\\n' "$HERE" "$said" > "$HERE/$tool"
/bin/chmod 755 "$HERE/$tool"
"""


# A Python that has the modules whose files `import.NAME` are there, and prints the version of one.
PYTHON = """#!/bin/sh
module=${2#import }
test -e "$HERE/import.${module%% *}" || exit 1
echo "${module%% *} 1.2"
"""


def script(path: Path, text: str) -> None:
    path.write_text(text)
    path.chmod(0o755)


def run(
    folder: Path,
    words: Sequence[str] = (),
    user: int = 0,
    there: Iterable[str] = (),
    has_apt_get: bool = True,
    **environment: str,
) -> Tuple[int, List[str], List[str]]:
    """The status, the lines, and the packages that apt-get was asked to install, on a machine that has only the tools
    `there`."""
    folder.mkdir()
    for name in USED:
        (folder / name).symlink_to(str(shutil.which(name)))
    script(folder / "id", f"#!{folder}/sh\necho {user}\n")
    script(folder / "python3", PYTHON)
    for name in there:
        file = f"import.{name}" if name in MODULES else name
        script(folder / file, f"#!{folder}/sh\n{f'echo {VERSIONS.get(name, name)} 1.2'}\n")
    if has_apt_get:
        script(folder / "apt-get", APT_GET)
    ran = subprocess.run(
        [str(folder / "sh"), str(SCRIPT), *words],
        env={"PATH": str(folder), "HERE": str(folder), "TLBRIDGE_PYTHON": str(folder / "python3"), **environment},
        capture_output=True,
        text=True,
        timeout=60,
    )
    calls = (folder / "calls").read_text().splitlines() if (folder / "calls").exists() else []
    return ran.returncode, ran.stdout.splitlines() + ran.stderr.splitlines(), [call.split()[-1] for call in calls]


def said(tools: Mapping[str, str], missing: Iterable[str]) -> List[str]:
    return [
        (
            f"tools: {name}: missing, so its tests are left out (package {package})"
            if name in missing
            else f"tools: {name}: {'found' if name == 'fst2vcd' else name + ' 1.2'}"
        )
        for name, package in tools.items()
    ]


def cases(room: Path) -> Iterator[Any]:
    """Each case: its name, what it gave, and what it has to give."""
    none = "tools: nothing is installed: "
    yield "all are there", run(room / "1", there=TOOLS), (0, said(TOOLS, ()), [])
    yield "not root", run(room / "2", user=1000), (
        0,
        [none + "only root may install packages", *said(TOOLS, TOOLS)],
        [],
    )
    yield "no apt-get", run(room / "3", has_apt_get=False), (0, [none + "there is no apt-get", *said(TOOLS, TOOLS)], [])
    yield "asked to keep what is there", run(room / "4", TLBRIDGE_TOOLS="keep"), (
        0,
        [none + "TLBRIDGE_TOOLS is keep", *said(TOOLS, TOOLS)],
        [],
    )
    lacking = {name: package for name, package in TOOLS.items() if name not in ("cc", "man")}
    yield "some are installed", run(room / "5", there=("cc", "man")), (
        0,
        [f"tools: installing {' '.join(lacking.values())}", *said(TOOLS, ())],
        ["update", *lacking.values()],
    )
    every = {**TOOLS, **OF_LONG}
    yield "those of test-long", run(room / "6", ["--long"], there=TOOLS, REFUSED="chromium"), (
        0,
        [
            f"tools: installing {' '.join(OF_LONG.values())}",
            "tools: apt-get cannot install chromium",
            *said(every, ("chromium",)),
        ],
        ["update", *OF_LONG.values()],
    )
    few = [name for name in TOOLS if name != "verilator"]
    yield "no network", run(room / "7", there=few, UPDATE="100"), (
        0,
        [
            "tools: installing verilator",
            "tools: apt-get update failed: is there a network?",
            *said(TOOLS, ("verilator",)),
        ],
        ["update"],
    )
    yield "an option that is none", run(room / "8", ["--all"]), (
        2,
        ["tools: there is no option --all; --long also installs the tools of make test-long"],
        [],
    )


def test_what_is_installed_and_said(differences: Differences, tmp_path: Path) -> None:
    """The status, the lines and the packages, for each state of a machine."""
    for name, got, wanted in cases(tmp_path):
        differences.same(name, got, wanted)
