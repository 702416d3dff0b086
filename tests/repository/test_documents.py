"""Compares the documents with the built programs, with the examples and with each other.

The variable TLBRIDGE_PREFIX names a tree that `make install` made with the pair 8:4; without it, the examples that need
the library are skipped.

- In a block, `$ COMMAND` is followed by what that command prints, standard output and error as a terminal shows them. A
  line `..` matches any lines. A command of which nothing else is shown has to end with status 0 or 1. Commands run in a
  copy of the top folder, which also has the monitor files of examples/start/lane_bug. The built programs are ./tlbridge
  and ./tlexplain there, and in PATH. A command of make is run with -n. No other block has lines of output, and in
  README, START, GUIDE, OUTPUT, WAVES and the pages below no other block has a command.
- The block below "`FILE`:" is that file of the project, the block below "From `FILE`:" a part of it. The blocks below
  "Run:" and "This prints:" are the files `run` and `output` of the folder of examples/ that the section names first.
  `run` is run, in a copy of the folder. SCOREBOARD, C and PYTHON have no other
  block, except commands.
- A block of docs/SPECIFICATION.md with the lines of a trace and of its answer shows what `run` gives at some pair of
  widths.
- Each link to a file or to a heading leads somewhere, and no section ends with a colon. Each page that a source names
  is there.
- docs/FAULTS.md has a heading and a sentence for each line of `tlexplain --faults`, and no other.
"""

import itertools
import os
import re
import shutil
import signal
import subprocess
import unicodedata
from pathlib import Path
from textwrap import dedent
from typing import Any, Dict, Iterable, Iterator, List, Optional, Sequence, Set, Tuple

import pytest
from commands import BRIEF
from project import EXAMPLES, ROOT, needs_program

DOCUMENTS = [
    ROOT / "README.md",
    ROOT / "CHANGELOG.md",
    *sorted((ROOT / "docs").glob("*.md")),
    *(ROOT / name / "README.md" for name in ("examples", "bench")),
]
# Pages in which each command is run.
PAGES_OF_FILES = ("SCOREBOARD.md", "C.md", "PYTHON.md")
PAGES_WITH_COMMANDS = ("README.md", "START.md", "GUIDE.md", "OUTPUT.md", "WAVES.md", *PAGES_OF_FILES)
MOST_SECONDS = 600  # of one command
COMMAND = re.compile(
    r"(\./)?(tlbridge|tlexplain)\b|\.ci/|(sv|bench|tests|tools|examples)/\S+"
    r" |(make|cd|export|cc|g\+\+|iverilog|vvp|verilator|python3|pip) |\{ echo"
)
OUTPUT = re.compile(r"tilelink-far |= [A-E] |line \d+: |tlbridge: ")
LINK = re.compile(r"\]\(([^)\s]+)\)")
PAGE = re.compile(r"\bdocs/[A-Z_]+\.md\b")
WIDTHS = (1, 2, 4, 8, 16, 32, 64)
FILE = re.compile(r"(From )?`((?:examples|crates|python)/[\w./]+)`:$")
EXAMPLE = re.compile(r"examples/(\w+)")
# Tools that may be missing, each with the commands that need it.
TOOLS = {
    "iverilog": re.compile(r"\b(iverilog|vvp)\b|examples/(start|rtl)/run"),
    "verilator": re.compile(r"\bverilator\b"),
    "yosys": re.compile(r"\byosys\b|sv/prove"),
    "pkg-config": re.compile(r"\bpkg-config\b"),
    "cocotb-config": re.compile(r"\bcocotb\b"),
}
LIBRARY = re.compile(r"\$PREFIX/(lib|share/tlbridge/python)\b|pkg-config")
# Whole runs of tools, each of which tests/verify, tests/prove and tests/monitor run at smaller sizes.
WHOLE_RUN = re.compile(r"tlbridge-(verify|prove) .*--top|examples/formal/run")


def anchors(text: str) -> Set[str]:
    """The names by which headings of a document can be linked."""
    names = set()
    for heading in re.findall(r"^#+ (.+)$", outside_of_blocks(text), re.M):
        name = unicodedata.normalize("NFC", re.sub(r"[`*]", "", heading)).lower()
        names.add(re.sub(r"[^\w\- ]", "", name).replace(" ", "-"))
    return names


def blocks(text: str) -> Iterator[Tuple[str, List[str]]]:
    """The blocks of a document that are set apart by four spaces: the last line above each, and its lines."""
    above = ""
    block: List[str] = []
    for line in [*text.splitlines(), "."]:
        if line.startswith("    ") or (not line and block):
            block.append(line[4:])
        else:
            if block:
                yield above, "\n".join(block).rstrip().splitlines()
                block = []
            above = line or above


def outside_of_blocks(text: str) -> str:
    return "\n".join(line for line in text.splitlines() if not line.startswith("    "))


# Seconds at the end of a line, which differ from run to run.
SECONDS = re.compile(r" +\d+(\.\d+)? s$")


def matches(wanted: Sequence[str], came: Sequence[str]) -> bool:
    """Whether lines are the wanted ones. A line `..` matches any lines, and seconds at the end match any seconds."""
    if not wanted:
        return not came
    if wanted[0] == "..":
        return any(matches(wanted[1:], came[skip:]) for skip in range(len(came) + 1))
    first, other = (SECONDS.sub(" s", lines[0]) for lines in (wanted, came or [""]))
    return bool(came) and first == other and matches(wanted[1:], came[1:])


def sessions(block: Sequence[str]) -> Iterator[Tuple[str, List[str]]]:
    """The commands of a block, each with the lines that it has to print."""
    command: Optional[str] = None
    printed: List[str] = []
    for line in block:
        if line.startswith("$ "):
            if command:
                yield command, printed
            command, printed = line[2:], []
        elif command:
            printed.append(line)
    if command:
        yield command, printed


class Desk:
    """A copy of the top of the project, in which commands are run and may write files, and an installed tree."""

    def __init__(self, folder: Path, programs: Any, prefix: Optional[Path]) -> None:
        self.top, self.prefix, self.has_library = folder / "top", prefix or folder / "prefix", prefix is not None
        self.top.mkdir()
        for entry in ROOT.iterdir():
            if entry.name not in (*programs, "sv"):
                (self.top / entry.name).symlink_to(entry)
        # (a script finds the programs in its own folder)
        shutil.copytree(ROOT / "sv", self.top / "sv")
        for name, program in programs.items():
            (self.top / name).symlink_to(program)
        for file in (ROOT / "examples" / "start" / "lane_bug").glob("*.beats*"):
            shutil.copy(file, self.top)
        if prefix is None:
            self.install(programs)
        self.variables = {
            **os.environ,
            "HOME": str(folder),
            "PREFIX": str(self.prefix),
            "PATH": f"{self.prefix}/bin:{os.environ['PATH']}",
            "PKG_CONFIG_PATH": f"{self.prefix}/lib/pkgconfig",
            "MAKEFLAGS": BRIEF,
        }

    def install(self, programs: Any) -> None:
        """The part of an installed tree that needs no library."""
        for folder in ("bin", "share/tlbridge"):
            (self.prefix / folder).mkdir(parents=True)
        for name, program in programs.items():
            (self.prefix / "bin" / name).symlink_to(program)
        shutil.copy(ROOT / "sv" / "compare", self.prefix / "bin" / "tlbridge-compare")
        for script in filter(Path.is_file, ROOT.glob("tl*-*")):
            shutil.copy(script, self.prefix / "bin")
        for name in ("sv", "rtl", "examples", "python"):
            (self.prefix / "share" / "tlbridge" / name).symlink_to(ROOT / name)

    def run(self, command: str, folder: Path) -> Tuple[List[str], int]:
        """Returns the output of a command that is run in a folder, and its exit status."""
        run = subprocess.Popen(
            ["bash", "-c", command],
            cwd=folder,
            env=self.variables,
            stdin=subprocess.DEVNULL,
            stdout=subprocess.PIPE,
            stderr=subprocess.STDOUT,
            text=True,
            start_new_session=True,
        )
        try:
            return run.communicate(timeout=MOST_SECONDS)[0].splitlines(), run.returncode
        except subprocess.TimeoutExpired:
            os.killpg(run.pid, signal.SIGKILL)
            return [f"it did not end in {MOST_SECONDS} seconds"], run.wait()


def missing_tool(command: str) -> Optional[str]:
    """The first tool that a command needs and that is not installed."""
    return next((tool for tool, needs in TOOLS.items() if needs.search(command) and not shutil.which(tool)), None)


@pytest.fixture(scope="module")
def desk(tmp_path_factory: pytest.TempPathFactory) -> Desk:
    """A copy of the top folder with both programs, for all commands of this file."""
    programs = {name: needs_program(name) for name in ("tlbridge", "tlexplain")}
    prefix = os.environ.get("TLBRIDGE_PREFIX")
    return Desk(tmp_path_factory.mktemp("desk"), programs, Path(prefix).resolve() if prefix else None)


def marks_of(command: str) -> List[pytest.MarkDecorator]:
    """A command that takes long is left to the gate."""
    return [pytest.mark.gate] * bool(WHOLE_RUN.search(command))


def by_page(found: Iterable[Any]) -> List[Any]:
    """The parameters of a test that has several for each document."""
    return [
        pytest.param(*values, id=f"{path.relative_to(ROOT)}: {name}", marks=marks_of(name))
        for path, name, *values in found
    ]


PAGES = pytest.mark.parametrize("path", DOCUMENTS, ids=lambda path: str(path.relative_to(ROOT)))
COMMANDS = [
    (path, command, path, command, printed)
    for path in DOCUMENTS
    for _, block in blocks(path.read_text())
    for command, printed in sessions(block)
]


def needs_tool_of(command: str) -> None:
    tool = missing_tool(command)
    if tool:
        pytest.skip(f"{tool} is not installed")


@pytest.mark.parametrize("path, command, printed", by_page(COMMANDS))
def test_a_command_prints_what_the_page_shows(desk: Desk, path: Path, command: str, printed: List[str]) -> None:
    """What is shown decides. Without it, a wrong command line or a missing program must not pass."""
    needs_tool_of(command)
    while printed and not printed[-1]:
        printed = printed[:-1]
    came, status = desk.run(re.sub(r"^make ", "make -n ", command), desk.top)
    assert matches(printed, came), "\n".join([f"status {status}", *came])
    assert printed not in ([], [".."]) or status in (0, 1), "\n".join([f"status {status}", *came])


@PAGES
def test_what_a_program_prints_has_its_command(path: Path) -> None:
    """No block has lines of output without the command."""
    for _, block in blocks(path.read_text()):
        is_shown = any(line.startswith("$ ") for line in block) or not any(OUTPUT.match(line) for line in block)
        assert is_shown, block[0]


EXAMPLES_WITH_COMMANDS = [
    pytest.param(script, id=script.parent.name, marks=marks_of(str(script)))
    for script in sorted(EXAMPLES.glob("*/run"))
]


@pytest.mark.parametrize("script", EXAMPLES_WITH_COMMANDS)
def test_an_example_prints_its_stored_output(desk: Desk, tmp_path: Path, script: Path) -> None:
    """The commands of each example print the output that is stored with them."""
    stored, command = script.parent / "output", script.read_text()
    if not stored.exists():
        pytest.skip("no output is stored with it")
    needs_tool_of(f"examples/{script.parent.name}/run {command}")
    if LIBRARY.search(command) and not desk.has_library:
        pytest.skip("TLBRIDGE_PREFIX names no installed tree with the library")
    here = tmp_path / script.parent.name
    shutil.copytree(script.parent, here)
    came, _ = desk.run("sh ./run", here)
    assert came == stored.read_text().splitlines()


@PAGES
def test_an_answer_is_that_of_the_program(path: Path) -> None:
    """The examples leave out the line of the widths and the lines `= K done 0 0`."""
    for _, block in blocks(path.read_text()):
        said: Dict[Optional[str], List[str]] = {"trace": [], "answer": []}
        label = None
        for line in block:
            label = line[:9].strip() or label
            said.setdefault(label, []).append(line[9:])
        if said["trace"]:
            made = answers(needs_program("tlbridge"), "\n".join(said["trace"]) + "\n")
            assert said["answer"] in made, f"no pair of widths gives this answer to {said['trace']}"


def answers(tlbridge: Path, trace: str) -> Iterator[List[str]]:
    """Yields the answer to a trace of version 1, given without its header, at each pair of widths."""
    for client, manager in itertools.product(WIDTHS, repeat=2):
        said = subprocess.run(
            [tlbridge, "run", "--sync"],
            input=f"tilelink-trace 1 client {client} manager {manager}\n{trace}",
            stdout=subprocess.PIPE,
            stderr=subprocess.DEVNULL,
            text=True,
            timeout=60,
            check=False,
        )
        yield [line for line in said.stdout.splitlines()[1:] if not line.endswith(" done 0 0")]


def is_part(block: Sequence[str], lines: Sequence[str]) -> bool:
    """Whether the lines of a block follow one another in a file, apart from one common indentation."""
    wanted = dedent("\n".join(block))
    return any(dedent("\n".join(lines[at : at + len(block)])) == wanted for at in range(len(lines)))


def file_of(above: str, section: str) -> Tuple[Optional[str], bool]:
    """The file that a block shows, by the line above it: its name, and whether only a part of it is shown."""
    file, stored = FILE.search(above), re.search(r"(Run|This prints):$", above)
    if file:
        return file[2], bool(file[1])
    example = EXAMPLE.search(section)
    if stored and example:
        return f"examples/{example[1]}/{'run' if stored[1] == 'Run' else 'output'}", False
    return None, False


@PAGES
def test_a_block_is_as_in_its_file(path: Path) -> None:
    """A block that shows a file, or a part of one, is as in the project."""
    for section in path.read_text().split("\n## "):
        for above, block in blocks(section):
            name, is_in_part = file_of(above, section)
            if name:
                there = (ROOT / name).read_text().splitlines() if (ROOT / name).is_file() else []
                assert is_part(block, there) if is_in_part else block == there, f"not as in {name}: {block[0]}"
            elif not block[0].startswith("$ ") and path.name in PAGES_WITH_COMMANDS:
                assert path.name not in PAGES_OF_FILES, f"of no file: {block[0]}"
                assert not any(COMMAND.match(line) for line in block), f"a command without `$ `: {block[0]}"


@PAGES
def test_links_lead_somewhere(path: Path) -> None:
    """Each link to a file or to a heading leads somewhere, and no section ends with a colon."""
    text = path.read_text()
    assert not re.search(r":\n\n#", text), "a section ends with a colon"
    for link in LINK.findall(outside_of_blocks(text)):
        if re.match(r"[a-z]+:", link):
            continue
        name, _, anchor = link.partition("#")
        target = (path.parent / name).resolve() if name else path
        assert target.exists(), f"no file for the link {link}"
        if anchor and target.suffix == ".md":
            assert anchor in anchors(target.read_text()), f"no heading for the link {link}"


SOURCES = ("include", "sv", "rtl", "packaging", "python", "examples", "tools", "bench", "crates/*/src")


def test_pages_that_sources_name_are_there() -> None:
    """A page that a comment, a message or a man page names is there."""
    files = [path for name in SOURCES for folder in ROOT.glob(name) for path in folder.rglob("*") if path.is_file()]
    files += [path for path in ROOT.iterdir() if path.is_file()]
    named = {(page, path) for path in files for page in PAGE.findall(path.read_bytes().decode("utf-8", "replace"))}
    assert len({page for page, _ in named}) > 10
    gone = [f"{path.relative_to(ROOT)} names {page}" for page, path in named if not (ROOT / page).exists()]
    assert not gone, gone


def test_each_fault_has_its_heading() -> None:
    """docs/FAULTS.md has a heading and a sentence for each line of `tlexplain --faults`, and no other."""
    said = subprocess.run([needs_program("tlexplain"), "--faults"], stdout=subprocess.PIPE, text=True, timeout=60)
    wanted = [row for line in said.stdout.splitlines() for row in re.findall(r"^ ?(\d+) (\w+) +(.*)$", line)]
    text = (ROOT / "docs" / "FAULTS.md").read_text()
    stated = re.findall(r"^### (\d+) (\w+)\n> (.*)$", text, re.M)
    assert len(wanted) == 23
    assert len(stated) == len(re.findall(r"^### ", text, re.M)), "each heading has its sentence"
    assert sorted(stated) == sorted(wanted)
