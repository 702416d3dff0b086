"""Tests `./tlbridge`, which builds the programs on first use, and tools/build, which it calls. Nothing is proved.

Both run in a folder with four crates of a few lines, with a stand-in for `rt` that records each call, and makes a
program that prints its words and its input.
"""

import os
import shlex
import shutil
import signal
import subprocess
import sys
import time
from pathlib import Path
from typing import Dict, Iterable, Iterator, List, Sequence, Tuple

import pytest
from differences import Differences
from project import ROOT

# `rt run` makes a program, and `rt lib` a library. With REFUSES it refuses that crate. With KEEPS it finds that nothing
# has changed. With WAITS it does not end by itself.
STAND_IN = """#!/bin/sh
name=$(basename "$PWD")
[ -f ../../HANDLES ] && handles=yes || handles=no
[ "$name" != left ] || sleep 0.2
echo "$name $1 $handles" >> "$CALLS"
if [ -n "$WAITS" ]; then echo $$ > "$WAITS"; exec sleep 60; fi
[ "$name" != "$REFUSES" ] || { echo "fn $name::f: open goal"; exit 1; }
case $1 in
run) made=out/$name ;;
*) made=out/rlib/$name.rlib ;;
esac
[ -z "$KEEPS" ] || exit 0
mkdir -p "$(dirname "$made")"
cp "$PROGRAM" "$made.new" && mv "$made.new" "$made"
"""
PROGRAM = """#!/bin/sh
printf '<%s>' "$@"
cat
exit 7
"""
CRATES = "# four crates\nlow:\nleft:\ntlbridge: low left clap\ntlexplain: low\n"
OF_TLBRIDGE = ["left lib yes", "low lib yes", "tlbridge run yes"]
BUILDS = "{}: not built yet, or a source is newer. It is proved and built first, which takes a while.\n"
MODEL = "tlbridge: to get the same output now, use the unverified model:\n    {}/tlbridge-model"
PAGES = (
    "tlexplain: to get the sentences now, without --html and --json, use the unverified model:\n"
    "    {}/tlexplain-model FILE\n"
)
REFUSED = "tlbridge: the program could not be built\n"
# Words that a shell changes unless they are quoted.
HARD = ["run", "--ring", "4", "a b", "it's", "", "x*", "$HOME", "~", "-"]


class Folder:
    """A folder with the scripts and four crates."""

    def __init__(self, room: Path) -> None:
        self.top, self.calls_file, self.bin = Path(room) / "a checkout", Path(room) / "calls", Path(room) / "bin"
        (self.top / "tools").mkdir(parents=True)
        self.bin.mkdir()
        for name in ("tlbridge", "tlexplain", "tools/build", "tools/crate-seconds"):
            shutil.copy2(ROOT / name, self.top / name)
        (self.top / "crates.txt").write_text(CRATES)
        (self.top / "HANDLES").write_text("Handles allowed: Threads, Wait.\n")
        for name, source in (("low", "lib.rt"), ("left", "lib.rt"), ("tlbridge", "main.rt"), ("tlexplain", "main.rt")):
            for part in ("src", "specs", "proofs"):
                (self.top / "crates" / name / part).mkdir(parents=True)
            (self.top / "crates" / name / "src" / source).write_text("//! A crate.\n" * 40)
            (self.top / "crates" / name / "specs" / "Lib.antt").write_text("")
            (self.top / "crates" / name / "proofs" / "Lib.antt").write_text("")
        for name, text in (("rt", STAND_IN), ("program", PROGRAM)):
            (self.bin / name).write_text(text)
            (self.bin / name).chmod(0o755)
        self.age()

    def age(self) -> None:
        """Makes all sources, and their folders, older than everything that is built."""
        for path in self.top.rglob("*"):
            if "out" not in path.parts and not path.is_symlink():
                os.utime(path, (1_000_000_000, 1_000_000_000))

    def change(self, name: str) -> None:
        """Makes one source newer than the programs, and both older than what is built from now on."""
        self.age()
        for program in self.top.glob("crates/tl*/out/tl*"):
            os.utime(program, (1_100_000_000, 1_100_000_000))
        os.utime(self.top / name, (1_200_000_000, 1_200_000_000))

    def change_later(self, name: str) -> None:
        """Makes a source newer than everything that is built in the next minute."""
        os.utime(self.top / name, (time.time() + 60, time.time() + 60))

    def environment(self, **settings: str) -> Dict[str, str]:
        path = f"{self.bin}:{os.environ['PATH']}"
        named = {
            "CALLS": str(self.calls_file),
            "PROGRAM": str(self.bin / "program"),
            "REFUSES": "",
            "KEEPS": "",
            "WAITS": "",
        }
        return {**os.environ, "PATH": path, **named, **settings}

    def run(
        self, program: str, words: Sequence[str], text: str = "", **settings: str
    ) -> Tuple[str, str, int, List[str]]:
        """Runs a program of the folder. Returns its output, standard error and status, and the calls of `rt`."""
        self.calls_file.write_text("")
        command = [str(self.top / program), *words]
        done = subprocess.run(
            command, input=text, capture_output=True, text=True, timeout=60, cwd="/", env=self.environment(**settings)
        )
        return done.stdout, done.stderr, done.returncode, self.calls_file.read_text().split("\n")[:-1]


def shown(words: Sequence[str]) -> str:
    return "".join(f"<{word}>" for word in words)


@pytest.fixture
def folder(tmp_path: Path) -> Folder:
    """A folder with the scripts and the crates, of which nothing is built."""
    return Folder(tmp_path)


@pytest.fixture
def built_folder(folder: Folder) -> Folder:
    """The same with both programs built."""
    for program in ("tlbridge", "tlexplain"):
        assert folder.run(program, [])[2] == 7
    return folder


Row = Tuple[str, object, object]  # what it is, what came, and what is wanted


def compare(differences: Differences, rows: Iterable[Row]) -> None:
    for name, came, wanted in rows:
        differences.same(name, came, wanted)


def first_run(folder: Folder) -> Iterator[Row]:
    """The first run builds the crates below first, says what to use until then, and then runs the program."""
    said, error, status, calls = folder.run("tlbridge", HARD, "its input\n")
    yield "output of the first run", said, shown(HARD) + "its input\n"
    yield "status of the first run", status, 7
    yield "calls of the first run", (sorted(calls), calls[-1]), (OF_TLBRIDGE, "tlbridge run yes")
    begin = BUILDS.format("tlbridge") + MODEL.format(folder.top)
    yield "beginning of the message", error[: len(begin)], begin
    line = error[len(begin) :].split("\n")[0]
    yield "words that can be pasted", shlex.split(line), HARD
    progress = error[len(begin) + len(line) + 1 :].splitlines()
    yield "progress", progress[0][:46], "tlbridge: 3 crates are to be proved and built:"
    yield "lines of progress", len(progress), 7


def later_runs(folder: Folder) -> Iterator[Row]:
    """A later run builds nothing, unless a source is newer, and then only once."""
    yield "a later run", folder.run("tlbridge", ["check"], "x"), ("<check>x", "", 7, [])
    for name in (
        "crates.txt",
        "crates/low/src/lib.rt",
        "crates/low/specs/Lib.antt",
        "crates/low/proofs/Lib.antt",
        "crates/tlbridge/src/main.rt",
    ):
        for keeps in ("", "yes"):
            folder.change(name)
            said, error, status, calls = folder.run("tlbridge", ["check"], KEEPS=keeps)
            yield f"{name} is newer", (said, status, len(calls)), ("<check>", 7, 3)
            yield f"what is said of {name}", error.startswith(
                BUILDS.format("tlbridge") + MODEL.format(folder.top) + " check\n"
            ), True
            yield f"then it is built, {keeps or 'no'}", folder.run("tlbridge", ["check"]), ("<check>", "", 7, [])
    folder.change_later("HANDLES")
    yield "a file that is no source", folder.run("tlbridge", []), ("<>", "", 7, [])
    (folder.top / "crates" / "tlbridge" / "out" / "tlbridge").chmod(0o644)
    yield "a program that cannot be run", len(folder.run("tlbridge", [])[3]), 3


def names(folder: Folder) -> Iterator[Row]:
    """The name by which it is called is that of the program, and a link from elsewhere leads to the same folder."""
    said, error, status, calls = folder.run("tlexplain", ["--lanes"])
    yield "the first tlexplain", (said, status, calls), ("<--lanes>", 7, ["low lib yes", "tlexplain run yes"])
    yield "what it says", error.startswith(BUILDS.format("tlexplain") + PAGES.format(folder.top)), True
    yield "a later tlexplain", folder.run("tlexplain", ["a"]), ("<a>", "", 7, [])
    (folder.top / "elsewhere").mkdir()
    for name, program in (("tlexplain", "tlexplain"), ("tlbridge", "tlbridge"), ("bridge", "tlbridge")):
        os.symlink(folder.top / program, folder.top / "elsewhere" / name)
        yield f"a link named {name}", folder.run(f"elsewhere/{name}", ["b"]), ("<b>", "", 7, [])
    shutil.rmtree(folder.top / "crates" / "tlbridge" / "out")
    error = folder.run("tlbridge", ["--version"])[1]
    yield "other words have no other program", error.startswith(BUILDS.format("tlbridge") + "tlbridge: "), True
    yield "the model is not named for them", "tlbridge-model" in error, False


def explained(folder: Folder) -> Iterator[Row]:
    """Without the program, the unverified model explains a trace, and says so. A page needs the program."""
    for name in ("tlbridge-model", "tlexplain-model"):
        shutil.copy2(ROOT / name, folder.top / name)
    trace = "tilelink-trace 1 client 4 manager 4\nE 00\n"
    options: Tuple[List[str], ...] = ([], ["--no-remarks"], ["--lanes"])
    for words in options:
        said, error, status, calls = folder.run("tlexplain", words, trace)
        yield f"sentence, {words}", said.splitlines()[0], "line 2: E GrantAck, sink 00: accepted, far beat 0"
        yield f"end, {words}", (error.count("\n"), status, calls), (1, 0, [])
        yield f"what it says, {words}", error.startswith("tlexplain: not verified: "), True
    said, error, status, calls = folder.run("tlexplain", ["--html"], trace)
    yield "a page", (said, status, calls), ("<--html>" + trace, 7, ["low lib yes", "tlexplain run yes"])
    yield "the program is used once it is built", folder.run("tlexplain", ["a"], trace)[0], "<a>" + trace


def refusals(folder: Folder) -> Iterator[Row]:
    """If a crate is refused, nothing above it is built, nothing runs, and the status is 70."""
    for crate in ("low", "tlbridge"):
        folder.change("crates/low/src/lib.rt")
        said, error, status, calls = folder.run("tlbridge", ["check"], REFUSES=crate)
        yield f"{crate} is refused", (said, status, "low lib yes" in calls, "tlbridge run yes" in calls), (
            "",
            70,
            True,
            crate == "tlbridge",
        )
        end = f"tlbridge: {crate} is refused:\nfn {crate}::f: open goal\n" + REFUSED
        yield f"what is said of {crate}", error[-len(end) :], end
    empty = folder.top / "bin"
    empty.mkdir()
    for tool in ("sh", "dirname", "readlink", "basename", "find", "head", "sed", "touch", "cat", "env"):
        os.symlink(str(shutil.which(tool)), empty / tool)
    os.symlink(sys.executable, empty / "python3")
    said, error, status, _ = folder.run("tlbridge", ["check"], PATH=str(empty))
    end = "tlbridge: rt, the command of the Rattle toolchain, is not in PATH\n" + REFUSED
    yield "without rt", (said, error[-len(end) :], status), ("", end, 70)


def direct(folder: Folder) -> Iterator[Row]:
    """Calls of tools/build itself."""
    folder.age()
    said, error, status, calls = folder.run("tools/build", ["tlbridge", "tlexplain"])
    yield "two programs", (said, status, sorted(calls)), ("", 0, [*OF_TLBRIDGE, "tlexplain run yes"])
    yield "programs come last", sorted(calls[2:]), ["tlbridge run yes", "tlexplain run yes"]
    yield "the copy is removed", (folder.top / "out" / "beside").exists(), False
    yield "what is newer than its sources is not counted", folder.run("tools/build", ["tlbridge", "tlexplain"])[1], ""
    for name, begin in (
        ("tlbridge/src/main.rt", "tlbridge: tlbridge is to be"),
        ("low/proofs/Lib.antt", "tlbridge: 2 crates are to be"),
    ):
        folder.change_later(f"crates/{name}")
        error = folder.run("tools/build", ["tlbridge"])[1]
        yield f"what is to be done for {name}", error[: len(begin)], begin
        folder.age()
    yield "a title", folder.run("tools/build", ["--as", "make", "low"], REFUSES="low")[
        1
    ], "make: low is refused:\nfn low::f: open goal\n"
    yield "the last crate is the title", folder.run("tools/build", ["low", "tlbridge"], REFUSES="low")[1][
        -43:
    ], "tlbridge: low is refused:\nfn low::f: open goal\n"[-43:]
    said, error, status, calls = folder.run("tools/build", ["tlbridge", "upper"])
    yield "a crate that is not there", (said, error, status, calls), (
        "",
        "tools/build: crates.txt has no crate upper\n",
        2,
        [],
    )
    said, error, status, calls = folder.run("tools/build", [])
    yield "no crate", (said, "tools/build [--in FOLDER]" in error, status, calls), ("", True, 2, [])


def stopped(folder: Folder) -> Iterator[Row]:
    """A signal ends it, and what it started, with a message."""
    for number in (signal.SIGTERM, signal.SIGINT):
        waits = folder.top / f"waits.{number}"
        started = subprocess.Popen(
            [str(folder.top / "tools" / "build"), "low"],
            stderr=subprocess.PIPE,
            text=True,
            env=folder.environment(WAITS=str(waits)),
            preexec_fn=lambda: signal.signal(signal.SIGINT, signal.default_int_handler),
        )
        for _ in range(200):
            if waits.exists() and waits.read_text().strip():
                break
            time.sleep(0.05)
        started.send_signal(number)
        error = started.communicate(timeout=30)[1]
        end = "\nlow: stopped. Proofs are kept, and the next run continues from there.\n"
        yield f"signal {number}", (error[-len(end) :], started.returncode), (end, 130)
        time.sleep(0.2)
        yield f"what signal {number} leaves", is_running(int(waits.read_text())), False


def is_running(process: int) -> bool:
    try:
        state = Path(f"/proc/{process}/stat").read_text().rpartition(")")[2].split()[0]
    except OSError:
        return False
    return state != "Z"


def test_the_first_run_builds_and_says_what_to_use(differences: Differences, folder: Folder) -> None:
    """The first run builds the crates below first, says what to use until then, and then runs the program."""
    compare(differences, first_run(folder))


def test_later_runs_build_nothing(differences: Differences, folder: Folder) -> None:
    """A later run builds nothing, unless a source is newer, and then only once."""
    folder.run("tlbridge", [])
    compare(differences, later_runs(folder))


def test_the_name_is_that_of_the_program(differences: Differences, folder: Folder) -> None:
    """The name by which it is called is that of the program, and a link from elsewhere leads to the same folder."""
    folder.run("tlbridge", [])
    compare(differences, names(folder))


def test_an_explanation_without_the_program(differences: Differences, folder: Folder) -> None:
    """The unverified model explains a trace until the program is built."""
    compare(differences, explained(folder))


def test_a_crate_that_is_refused(differences: Differences, built_folder: Folder) -> None:
    """If a crate is refused, nothing above it is built, nothing runs, and the status is 70."""
    compare(differences, refusals(built_folder))


def test_calls_of_the_build_itself(differences: Differences, built_folder: Folder) -> None:
    """The words of tools/build."""
    compare(differences, direct(built_folder))


def test_a_signal_ends_it(differences: Differences, built_folder: Folder) -> None:
    """A signal ends the build and what it started, with a message."""
    compare(differences, stopped(built_folder))
