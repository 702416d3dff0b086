"""The tree that `make install` makes. Nothing is proved and no program is built.

The files that need no proof (make install-files) are installed into a temporary folder, and the library and the
programs if they are built and no source is newer. Otherwise the programs are left out, and the library is made of
stand-ins for the proved archives: tests/lib/plain_bridge.c. Then come each file with its mode, and links; the links of
the pages; the commands with their man pages and completion; the symbols of the library; the words of `make`, with what
it does by default; the archive of `make dist`; the wheel; and the version.
"""

import base64
import csv
import hashlib
import importlib.util
import os
import re
import shutil
import stat
import subprocess
import sys
import tarfile
import tempfile
import time
import venv
import zipfile
from pathlib import Path
from typing import Any, Dict, List, NamedTuple, Sequence, Set, Tuple

import library_symbols
import pytest
from board_library import PLAIN_BRIDGE
from checks import Checks
from once import made_once
from project import ROOT, compiler, needs_tools

# The prefix of the staged installs below. Nothing is written there: every install goes under DESTDIR.
STAGED_PREFIX = "/staged"
VERSION = (ROOT / "VERSION").read_text().strip()
SERIES = VERSION.rpartition(".")[0]  # a later version of it fits an earlier one
INTERFACE = library_symbols.interface()
PROGRAMS = ("tlbridge", "tlexplain")
LIBRARY = ("install-pairs", "install-library")
OBJECTS = ("out/tlbridge_dpi.o", "out/tlbridge_scoreboard.o")
STAND_INS = ["8_4", "4_8"]  # the pairs of a library of stand-ins
LINK = re.compile(r"!?\[[^\]]*\]\(([^)\s]+)\)")
# The place of the project's version in each file.
VERSIONS = {
    "tlbridge-model": r'^VERSION = "(.*)"$',
    "include/tlbridge.h": r'^#define TLBRIDGE_VERSION "(.*)"$',
    "crates/tl_words/src/lib.rt": r'^const VERSION: &str = "(.*)";$',
    "crates/tlexplain/src/words.rt": r'^const VERSION: &str = "(.*)";$',
}


# ---- Installing


def make(top: Path, *words: Any, source: Path = ROOT) -> str:
    """Runs make in `source` for the tree below a folder. Returns its output if it failed, otherwise nothing."""
    command = ["make", "--no-print-directory", "-C", str(source), *words, f"DESTDIR={top}", f"PREFIX={STAGED_PREFIX}"]
    command += ["CFLAGS=-O0"] * (source != ROOT)
    done = subprocess.run(
        command,
        stdin=subprocess.DEVNULL,
        stdout=subprocess.PIPE,
        stderr=subprocess.STDOUT,
        text=True,
        env=plain_environment(),
    )
    return "" if done.returncode == 0 else f"{' '.join(words)}:\n{done.stdout[-2000:]}"


def plain_environment() -> Dict[str, str]:
    """The environment without the variables of another make, as this may be a part of `make test BUILDS=both`."""
    left_out = ("MAKEFLAGS", "MFLAGS", "MAKELEVEL", "BUILDS", "C", "M", "DESTDIR", "PREFIX", "PAIRS", "PROGRAMS")
    return {name: value for name, value in os.environ.items() if name not in left_out}


def is_fresh(*made: Path) -> bool:
    """Whether all of these files are there, and no source of a crate is newer."""
    if not all(path.exists() for path in made):
        return False
    oldest = min(path.stat().st_mtime for path in made)
    sources = [
        ROOT / "crates.txt",
        *(path for part in ("src", "specs", "proofs") for path in ROOT.glob(f"crates/*/{part}/**/*")),
    ]
    return all(path.stat().st_mtime <= oldest for path in sources if path.is_file())


def copy_of(source: Path, place: Path) -> None:
    """Copies a file or a folder."""
    if source.is_dir():
        shutil.copytree(source, place)
    else:
        shutil.copy2(source, place)


def with_stand_ins(folder: Path, pairs: Sequence[str]) -> Path:
    """A copy of what makes the library, with the plain bridge in the place of each proved archive."""
    for name in (
        "sv",
        "include",
        "packaging",
        "tools/make-library",
        "crates/tl_lanes/src",
        "Makefile",
        "VERSION",
        "crates.txt",
    ):
        (folder / name).parent.mkdir(parents=True, exist_ok=True)
        copy_of(ROOT / name, folder / name)
    (folder / "out").mkdir()
    for pair in (*pairs, "trace"):
        made, archive = folder / "out" / f"plain_{pair}.o", folder / "out" / f"libtlbridge_{pair}.a"
        source, names = (
            (calls_of_trace(folder), [])
            if pair == "trace"
            else (PLAIN_BRIDGE, ["-w", f"--keep-global-symbol=tl_{pair}_*"])
        )
        library_symbols.compile_object(source, made, pairs[0] if pair == "trace" else pair)
        if names:
            library_symbols.run("objcopy", *names, str(made))
        library_symbols.run("ar", "rcs", str(archive), str(made))
    return folder


def calls_of_trace(folder: Path) -> Path:
    """A source with the calls of the trace library, which do nothing."""
    source = folder / "trace.c"
    source.write_text(
        "".join(f"void {name}(void) {{}}\n" for name in library_symbols.declared()[library_symbols.TRACE])
    )
    return source


class Installed(NamedTuple):
    """A tree, and where it came from."""

    top: Path  # the folder that make installed into
    parts: List[str]  # of the Makefile
    pairs: List[str]  # of the library, such as 8_4
    source: Path  # the folder that the library was made in: ROOT if it is proved

    @property
    def tree(self) -> Path:
        """The folder of include/, lib/ and so on."""
        return self.top / STAGED_PREFIX.lstrip("/")

    @property
    def is_proved(self) -> bool:
        return self.source == ROOT

    def copied(self, folder: Path) -> "Installed":
        """A copy of the tree, and of the stand-ins that a library can be made of again, for a test that changes
        them.
        """
        source = folder / "source"
        if self.is_proved:
            with_stand_ins(source, STAND_INS)
        else:
            shutil.copytree(self.source, source, symlinks=True)
        return Installed(shutil.copytree(self.top, folder / "top", symlinks=True), self.parts, self.pairs, source)


def is_library_proved() -> bool:
    """Whether the archives of out/ are there for each of its pairs, and no source is newer."""
    pairs = (ROOT / "out" / "pairs").read_text().split() if (ROOT / "out" / "pairs").exists() else []
    archives = [ROOT / "out" / f"libtlbridge_{name}.a" for name in (*pairs, "trace")]
    return bool(pairs) and is_fresh(*archives, ROOT / "tools" / "make-library")


def is_program_built(name: str) -> bool:
    return is_fresh(ROOT / "crates" / name / "out" / name)


@pytest.fixture(scope="session")
def installed(tmp_path_factory: pytest.TempPathFactory) -> Installed:
    """The tree, made once in a run: all that needs no proof, and the library and the programs if they are built and no
    source is newer.
    """
    needs_tools("make", "objcopy", "ar", "nm", "readelf")
    compiler()
    parts = ["install-files", *(f"install-{name}" for name in PROGRAMS if is_program_built(name))]
    is_proved = is_library_proved()
    pairs = (ROOT / "out" / "pairs").read_text().split() if is_proved else STAND_INS

    def build(folder: Path) -> None:
        (folder / "top").mkdir()
        (folder / "top").chmod(0o755)
        source = ROOT if is_proved else with_stand_ins(folder / "library", pairs)
        for part, of in [*((part, ROOT) for part in parts), *((part, source) for part in LIBRARY)]:
            failure = make(folder / "top", part, f"PAIRS={' '.join(pairs).replace('_', ':')}", source=of)
            assert not failure, f"make {failure}"

    folder = made_once(tmp_path_factory, "installed", build)
    return Installed(folder / "top", [*parts, *LIBRARY], pairs, ROOT if is_proved else folder / "library")


def test_the_library_of_the_tree_is_the_proved_one() -> None:
    """Otherwise it is made of stand-ins for the proved archives."""
    if not is_library_proved():
        pytest.skip("the proved library is not built, or a source is newer (make install): it is made of stand-ins")


@pytest.mark.parametrize("name", PROGRAMS)
def test_the_tree_has_the_program(name: str, installed: Installed) -> None:
    """If it is built and no source is newer."""
    if not is_program_built(name):
        pytest.skip(f"{name} is not built, or a source is newer (make programs)")
    assert os.access(installed.tree / "bin" / name, os.X_OK)


# ---- The files


def expected_files(parts: Sequence[str], pairs: Sequence[str]) -> Dict[str, int]:
    """Each file of the tree with its mode, by the files of this repository."""
    files = {
        "include/tlbridge.h": 0o644,
        "include/tlbridge_scoreboard.h": 0o644,
        "share/tlbridge/README.md": 0o644,
        "share/tlbridge/VERSION": 0o644,
    }
    commands = ["tlbridge-compare", *(path.name for path in ROOT.glob("tl*-*") if path.is_file())]
    files.update({f"bin/{name}": 0o755 for name in commands})
    for name in {*commands, *PROGRAMS}:
        files.update({f"share/man/man1/{name}.1": 0o644, f"share/bash-completion/completions/{name}": 0o644})
    copied = [
        *ROOT.glob("CHANGELOG.md"),
        *ROOT.glob("sv/*.sv"),
        ROOT / "sv" / "tlbridge_dpi.c",
        ROOT / "sv" / "tlbridge_calls.h",
        ROOT / "sv" / "prove",
    ]
    copied += [ROOT / "python" / "pyproject.toml", ROOT / "python" / "hatch_build.py"]
    copied += [
        path
        for folder in ("examples", "docs", "rtl", "python/tlbridge")
        for path in ROOT.glob(f"{folder}/**/*")
        if path.is_file()
    ]
    for path in copied:
        if "__pycache__" not in path.parts:
            files[f"share/tlbridge/{path.relative_to(ROOT)}"] = 0o755 if path.stat().st_mode & 0o100 else 0o644
    if "install-library" in parts:
        files.update({f"lib/libtlbridge_{pair}.a": 0o644 for pair in pairs})
        files.update(
            {"lib/libtlbridge.a": 0o644, f"lib/libtlbridge.so.{INTERFACE}": 0o755, "lib/pkgconfig/tlbridge.pc": 0o644}
        )
        files.update({f"lib/cmake/tlbridge/tlbridge{name}.cmake": 0o644 for name in ("Config", "ConfigVersion")})
    files.update({f"bin/{name}": 0o755 for name in PROGRAMS if f"install-{name}" in parts})
    return files


def test_each_file_is_there_with_its_mode(installed: Installed) -> None:
    """Files and links, by the files of this repository."""
    tests = Checks()
    tree = installed.tree
    parts = installed.parts
    pairs = installed.pairs
    wanted = expected_files(parts, pairs)
    found: Dict[str, int] = {}
    links = {"share/tlbridge/include": "../../include", "share/doc/tlbridge": "../tlbridge"}
    if "install-library" in parts:
        links["lib/libtlbridge.so"] = f"libtlbridge.so.{INTERFACE}"
    for path in sorted(tree.rglob("*")):
        name, status = str(path.relative_to(tree)), path.lstat()
        if path.is_symlink():
            tests.test(
                links.pop(name, None) == os.readlink(path) and path.exists(), f"{name} is a link to {os.readlink(path)}"
            )
        elif path.is_dir():
            tests.test(stat.S_IMODE(status.st_mode) == 0o755, f"{name} has mode {status.st_mode:o}")
        else:
            found[name] = stat.S_IMODE(status.st_mode)
    tests.test(not links, f"links that are not there: {links}")
    for name in sorted({*wanted, *found}):
        modes = [f"{files[name]:o}" if name in files else "not there" for files in (found, wanted)]
        tests.test(modes[0] == modes[1], f"{name}: {modes[0]}, and not {modes[1]}")
    tests.verdict()


def test_no_file_names_the_folder_that_it_was_installed_from_or_into(installed: Installed) -> None:
    """No file names the folder that it was installed from or into."""
    tests = Checks()
    top = installed.top
    tree = installed.tree
    for path in tree.rglob("*"):
        if path.is_file() and not path.is_symlink():
            data = path.read_bytes()
            is_built = path.name in PROGRAMS or path.suffix == ".a" or ".so." in path.name
            named = [str(folder) for folder in (top, ROOT) if str(folder).encode() in data]
            tests.test(is_built or not named, f"{path.relative_to(tree)} names {named}")
    tests.verdict()


# ---- The pages


def anchors(page: Path) -> Set[str]:
    """The names by which the headings of a page can be linked."""
    headings = re.findall(r"^#+ (.+)$", page.read_text(), re.M)
    return {re.sub(r"[^\w\- ]", "", re.sub(r"[`*]", "", heading).lower()).replace(" ", "-") for heading in headings}


def test_each_link_of_a_page_leads_somewhere(installed: Installed) -> None:
    """Each link of a page leads somewhere, from share/tlbridge and from share/doc/tlbridge."""
    tests = Checks()
    tree = installed.tree
    pages = [page for share in ("share/tlbridge", "share/doc/tlbridge") for page in (tree / share).glob("**/*.md")]
    tests.test(len(pages) > 20, f"there are only {len(pages)} pages")
    for page in pages:
        text = "\n".join(line for line in page.read_text().splitlines() if not line.startswith("    "))
        for link in LINK.findall(text):
            name, _, anchor = link.partition("#")
            if re.match(r"[a-z]+:", link):
                continue
            target = Path(os.path.normpath(page.parent / name)) if name else page
            there = target.exists() and (page.parent / name).exists()
            tests.test(
                there and (not anchor or anchor in anchors(target)),
                f"{page.relative_to(tree)}: no file or heading for the link {link}",
            )
    tests.verdict()


# ---- The commands


def options_of(tree: Path, name: str) -> Set[str]:
    """The options that a command's help has."""
    found = set()
    for words in ((), ("run",), ("check",)) if name in ("tlbridge", "tlbridge-model") else ((),):
        done = subprocess.run(
            [tree / "bin" / name, *words, "--help"],
            stdout=subprocess.PIPE,
            stderr=subprocess.STDOUT,
            text=True,
            stdin=subprocess.DEVNULL,
        )
        found |= (
            set(re.findall(r"(?:^|[ ,\[])(--[a-z][a-z-]*)", done.stdout, re.M))
            if done.returncode == 0
            else {f"a help: status {done.returncode}"}
        )
    return found


def completed(tree: Path, name: str, words: Sequence[str]) -> Set[str]:
    """Returns the completions of bash after these words of a command."""
    script = (
        '. "$1"; shift; COMP_WORDS=("$@"); COMP_CWORD=$(($# - 1)); complete -p "${1##*/}" > /dev/null && _tlbridge'
        ' "$1"; printf "%s\\n" "${COMPREPLY[@]}"'
    )
    file = tree / "share" / "bash-completion" / "completions" / name
    with tempfile.TemporaryDirectory() as folder:
        (Path(folder) / "--some-file").write_text("")  # whose name looks like an option
        done = subprocess.run(
            ["bash", "-c", script, "bash", file, str(tree / "bin" / name), *words],
            stdout=subprocess.PIPE,
            text=True,
            cwd=folder,
        )
    return set(done.stdout.split())


def test_each_option_has_its_entry_in_the_man_page_and_its_completion(installed: Installed) -> None:
    """Each option of each command is in its man page and completed, and `man` reads the page without a warning."""
    tests = Checks()
    tree = installed.tree
    for path in sorted((tree / "bin").iterdir()):
        name, page = path.name, tree / "share" / "man" / "man1" / f"{path.name}.1"
        text = page.read_text().replace("\\-", "-") if page.exists() else ""
        beginnings = (
            [["run", "--"], ["check", "--"], ["--"]] if name in ("tlbridge", "tlbridge-model") else [["8", "4", "--"]]
        )
        completes = (
            set().union(*(completed(tree, name, words) for words in beginnings)) if shutil.which("bash") else None
        )
        tests.test(
            re.search(rf"^\.SH NAME\n{re.escape(name)} - [a-z].*[a-z]$", text, re.M),
            f"{name}: its man page has no name with a description",
        )
        # each has an entry; tlbridge-trace has the two of tlbridge-compare in a sentence
        entries = " ".join(re.findall(r"^\.TP\n(.*)$", text, re.M)) + (
            " --ignore-unmasked --program" if name == "tlbridge-trace" else ""
        )
        for option in sorted(options_of(tree, name)):
            tests.test(
                re.search(rf"{option}(?![a-z-])", entries) and option in text,
                f"{name}: its man page has no entry of {option}",
            )
            tests.test(completes is None or option in completes, f"{name}: bash does not complete {option}")
        tests.test(f'"tlbridge {VERSION}"' in text, f"{name}: its man page has not the version {VERSION}")
        if shutil.which("man"):
            done = subprocess.run(
                ["man", "--warnings", str(page)],
                stdout=subprocess.PIPE,
                stderr=subprocess.PIPE,
                text=True,
                env={**os.environ, "MANWIDTH": "80"},
            )
            tests.test(name in done.stdout and not done.stderr, f"{name}: its man page: {done.stderr}")
    header = str(tree / "include" / "tlbridge_scoreboard.h")
    widths = {"1", "2", "4", "8", "16", "32", "64", "128"}
    values = {
        "tlbridge": {"--ring": set(), "--turns": set()},
        "tlexplain": {
            "--only": {"problems"},
            "--channel": {*"ABCDE"},
            "--from": set(),
            "--to": set(),
            "--source": set(),
        },
        "tlbridge-trace": {
            "--width": widths,
            "--client-width": widths,
            "--manager-width": widths,
            "--trace-version": {"1", "2"},
            **{
                f"--{name}": set()
                for name in (
                    "link",
                    "client",
                    "manager",
                    "link-pattern",
                    "client-pattern",
                    "manager-pattern",
                    "field",
                    "struct",
                    "clock",
                    "reset",
                    "client-clock",
                    "client-reset",
                    "manager-clock",
                    "manager-reset",
                    "from",
                    "to",
                )
            },
        },
    }
    of_files = {
        "tlbridge-compare": ("--program", "--write-trace"),
        "tlbridge-trace": ("--program", "--trace", "--times", "--html", "--tlexplain", "--far", "--beats"),
    }
    cases = [
        (name, [*(["run"] if name == "tlbridge" else []), option, ""], wanted)
        for name, options in values.items()
        for option, wanted in options.items()
    ]
    cases += [
        (
            name,
            ["a", "b", option, str(tree / "include" / "tlbridge_s")],
            {str(tree / "include" / "tlbridge_scoreboard.h")},
        )
        for name, options in of_files.items()
        for option in options
    ]
    cases += [(name, ["a", "b", option, "--"], set()) for name, options in of_files.items() for option in options]
    cases += [
        (name, [*(["run"] if name == "tlbridge" else []), option, "--"], set())
        for name, options in values.items()
        for option in options
    ]
    cases += [
        ("tlexplain", ["--html", "--l"], {"--lanes"}),
        ("tlbridge-trace", ["a", "--compare", "--i"], {"--ignore-unmasked"}),
    ]
    cases += [
        (
            "tlbridge-compare",
            [*words, "--"],
            {"--ignore-unmasked", "--write-trace", "--program", "--help", "--level", "--split", "--largest"},
        )
        for words in (["8", "4"], ["8", "4", "a", "b"])
    ]
    for name, words, wanted in (
        *cases,
        ("tlbridge", ["r"], {"run"}),
        ("tlbridge", ["run", "--ri"], {"--ring"}),
        ("tlbridge", ["check", "--r"], set()),
        ("tlbridge", ["--v"], {"--version"}),
        ("tlbridge-model", ["check", header[:-4]], {header}),
        ("tlexplain", ["--lanes", header[:-4]], {header}),
        ("tlbridge-trace", [header[:-4]], {header}),
        ("tlbridge-compare", ["8", "4", header[:-4]], {header}),
        ("tlbridge-compare", ["8", "4", header[:-4], header[:-4]], {header}),
        ("tlbridge-compare", ["12"], {"128"}),
        ("tlbridge-compare", ["8", "6"], {"64"}),
        ("tlbridge", ["run", "--s"], {"--sync"}),
        ("tlbridge", ["ch"], {"check"}),
        ("tlbridge-compare", ["8", ""], {*widths, "--some-file"}),
        ("tlexplain", ["--channel", ""], {*"ABCDE"}),
        ("tlexplain", ["--from", ""], set()),
        ("tlbridge-model", ["run", header[:-4]], {header}),
        ("tlbridge-trace", ["--client-width", "12"], {"128"}),
        ("tlbridge-compare", ["8", "4", "a", "b", "--largest", "4"], {"4", "4096"}),
        ("tlbridge-compare", ["8", "4", "a", "b", "--level", ""], {"ul", "uh", "c"}),
        ("tlbridge-verify", ["--level", ""], {"UL", "UH", "C"}),
        ("tlbridge-verify", ["--largest", "6"], {"64"}),
        ("tlbridge-prove", ["--seconds", ""], set()),
    ):
        shown = completed(tree, name, words) if shutil.which("bash") else wanted
        tests.test(shown == wanted, f"{name} {' '.join(words)}: bash completes {sorted(shown)}")
    # also of a program that is not built: what bash completes has an entry in the man page, and the other way round
    for page in sorted((tree / "share" / "man" / "man1").glob("tl*.1")):
        name, text = page.stem, page.read_text().replace("\\-", "-")
        written = {*re.findall(r"--[a-z][a-z-]*", " ".join(re.findall(r"^\.TP\n(.*)$", text, re.M)))} | (
            {"--ignore-unmasked", "--program"} if name == "tlbridge-trace" else set()
        )
        beginnings = (
            [["run", "--"], ["check", "--"], ["--"]] if name in ("tlbridge", "tlbridge-model") else [["8", "4", "--"]]
        )
        completes = written
        if shutil.which("bash"):
            completes = {option for words in beginnings for option in completed(tree, name, words)} - {"--some-file"}
        tests.test(
            completes == written,
            (
                f"{name}: bash completes {sorted(completes - written)}, and not {sorted(written - completes)} of its"
                " man page"
            ),
        )
    statuses_fit(tests, tree)
    model: List[Any] = [tree / "bin" / "tlbridge-model", "run", tree / "share" / "tlbridge" / "examples" / "get.trace"]
    answer = subprocess.run(model, stdout=subprocess.PIPE, text=True).stdout
    tests.test(answer == (ROOT / "examples" / "get.answer").read_text(), f"the installed model prints {answer}")
    tests.verdict()
    needs_tools("bash", "man")  # what could be compared without them was


def statuses_fit(tests: Checks, tree: Path) -> None:
    """The exit statuses in a command's help are those in its man page, in the same order."""
    for name in ("tlbridge-compare", "tlbridge-trace"):
        words = subprocess.run([tree / "bin" / name, "--help"], stdout=subprocess.PIPE, text=True).stdout.partition(
            "exit status:\n"
        )[2]
        page = (
            (tree / "share" / "man" / "man1" / f"{name}.1")
            .read_text()
            .partition(".SH EXIT STATUS\n")[2]
            .partition("\n.SH ")[0]
        )
        wanted = re.findall(r"^  ([0-9]+)  ", words, re.M)
        tests.test(
            wanted and re.findall(r"^\.B ([0-9]+)$", page, re.M) == wanted,
            f"{name}: the statuses of its help, {wanted}, are not those of its man page",
        )


# ---- The library


def test_the_list_of_symbols_is_that_of_the_headers_and_the_glue() -> None:
    """The list is that of the headers and of the compiled glue, and SystemVerilog imports what is there."""
    tests = Checks()
    if "WRITE_SYMBOLS" in os.environ:
        parts = {**library_symbols.declared(), library_symbols.GLUE: library_symbols.of_glue()}
        library_symbols.write(f"libtlbridge.so.{INTERFACE}", parts)
    soname, parts = library_symbols.stored()
    tests.test(
        soname == f"libtlbridge.so.{INTERFACE}",
        (
            f"the SONAME of tests/library/installed.symbols is {soname}, and TL_VERSION {INTERFACE} (WRITE_SYMBOLS in"
            " the environment)"
        ),
    )
    for part, names in {**library_symbols.declared(), library_symbols.GLUE: library_symbols.of_glue()}.items():
        gone, new = sorted(parts.get(part, set()) - names), sorted(names - parts.get(part, set()))
        tests.test(
            not gone and not new,
            (
                f"{part}: not there any more: {gone}; not in tests/library/installed.symbols: {new} (WRITE_SYMBOLS in"
                " the environment)"
            ),
        )
    missing = sorted(library_symbols.imported() - parts[library_symbols.GLUE])
    tests.test(not missing, f"sv/ imports what the glue does not have: {missing}")
    tests.verdict()


def test_each_archive_exports_the_symbols_of_the_list_and_no_others(installed: Installed) -> None:
    """Each archive and the shared library export the symbols of the list and no others; the SONAME is that of the
    interface.
    """
    tests = Checks()
    tree = installed.tree
    pairs = installed.pairs
    is_proved = installed.is_proved
    lib, (soname, parts) = tree / "lib", library_symbols.stored()
    libraries = {
        f"libtlbridge_{pair}.a": {name.replace("C_M", pair) for name in parts[library_symbols.PAIR]} for pair in pairs
    }
    if not is_proved:  # a stand-in has what the plain bridge has
        libraries = {name: names & library_symbols.defined(lib / name) for name, names in libraries.items()}
    of_all = set().union(*libraries.values()) | parts[library_symbols.TRACE] | parts[library_symbols.GLUE]
    for name, wanted in {**libraries, "libtlbridge.a": of_all, "libtlbridge.so": of_all}.items():
        found = library_symbols.defined(lib / name, *(["-D"] if name.endswith(".so") else []))
        tests.test(
            found == wanted,
            (
                f"lib/{name}: not there: {sorted(wanted - found)}; not in tests/library/installed.symbols:"
                f" {sorted(found - wanted)}"
            ),
        )
    tests.test(
        library_symbols.soname_of(lib / "libtlbridge.so") == soname,
        f"the SONAME is {library_symbols.soname_of(lib / 'libtlbridge.so')}, and not {soname}",
    )
    tests.verdict()


def test_a_library_of_other_pairs_has_only_those(installed: Installed, tmp_path: Path) -> None:
    """A library of other pairs, made after the first in the same folder, has only those."""
    tests = Checks()
    installed = installed.copied(tmp_path)
    top = installed.top
    tree = installed.tree
    source = installed.source
    pair = STAND_INS[-1]
    for part in ("install-pairs", "install-library"):
        failure = make(top, part, f"PAIRS={pair.replace('_', ':')}", source=source)
        tests.test(not failure, f"make {failure}")
    for name in ("libtlbridge.a", "libtlbridge.so"):
        found = library_symbols.defined(tree / "lib" / name, *(["-D"] if name.endswith(".so") else []))
        of = {pair for name in found for pair in re.findall(r"^tl_(\d+_\d+)_", name)}
        tests.test(of == {pair}, f"lib/{name} has the calls of {of}, after PAIRS={pair}")
    scoreboard = subprocess.run(
        [
            sys.executable,
            "-c",
            (
                "import ctypes, sys; f = ctypes.CDLL(sys.argv[1]).tl_scoreboard_pairs; f.restype = ctypes.c_char_p; "
                "print(f().decode())"
            ),
            str(tree / "lib" / "libtlbridge.so"),
        ],
        capture_output=True,
        text=True,
    ).stdout.strip()
    tests.test(scoreboard == pair.replace("_", ":"), f"the scoreboard has the pairs {scoreboard!r}, after PAIRS={pair}")
    tests.verdict()


def test_a_changed_file_is_put_into_everything_that_is_made_of_it(installed: Installed, tmp_path: Path) -> None:
    """A changed file is put into everything that is made of it. The test changes stand-ins for the proved archives."""
    if is_library_proved():
        pytest.skip("out/ has the proved library, and this test changes stand-ins for it")
    tests = Checks()
    installed = installed.copied(tmp_path)
    source = installed.source
    pair = STAND_INS[-1]
    goes_into = {
        "packaging/dpi/svdpi.h": "out/tlbridge_dpi.o",
        "sv/tlbridge_dpi.c": "out/tlbridge_dpi.o",
        "sv/tlbridge_scoreboard.c": "out/tlbridge_scoreboard.o",
        "sv/tlbridge_board_link.c": "out/tlbridge_board_link.o",
        "sv/tlbridge_board.h": "out/tlbridge_board_lines.o",
        f"out/libtlbridge_{pair}.a": "out/libtlbridge.so",
        "out/libtlbridge_trace.a": "out/libtlbridge.so",
    }
    headers = ("sv/tlbridge_calls.h", "include/tlbridge.h", "include/tlbridge_scoreboard.h")
    # (with -q, make says by its status whether it would make a file again, which the list of pairs is in any case)
    asked = ("-q", "-o", "out/pairs", f"PAIRS={pair.replace('_', ':')}")
    for name, made in [*goes_into.items(), *((name, made) for name in headers for made in OBJECTS)]:
        kept, statuses = (source / name).stat(), []
        for changed in (kept.st_mtime, time.time() + 10):
            os.utime(source / name, (kept.st_atime, changed))
            statuses.append(said_by_make(source, *asked, made)[0])
        os.utime(source / name, (kept.st_atime, kept.st_mtime))
        tests.test(statuses == [0, 1], f"make -q {made}, before and after a change of {name}: {statuses}")
    times = []
    for _ in range(2):
        make(source, OBJECTS[0], f"PAIRS={pair.replace('_', ':')}", source=source)
        times.append((source / OBJECTS[0]).stat().st_mtime_ns)
    tests.test(times[0] == times[1], f"{OBJECTS[0]} is made again for the same pairs")
    tests.verdict()


def test_a_second_installation_leaves_no_old_file(installed: Installed, tmp_path: Path) -> None:
    """A second installation leaves no file that is not there any more."""
    tests = Checks()
    installed = installed.copied(tmp_path)
    top = installed.top
    tree = installed.tree
    old = [
        tree / "share" / "tlbridge" / name
        for name in ("examples/old", "docs/old.md", "rtl/old.sv", "python/tlbridge/old.py")
    ]
    for path in old:
        path.write_text("")
    before = {path for path in tree.rglob("*")} - {*old}
    failure = make(top, "install-files")
    tests.test(
        not failure and {*tree.rglob("*")} == before,
        f"a second installation: {failure or sorted({*tree.rglob('*')} ^ before)}",
    )
    tests.verdict()


def built(folder: Path, room: Path, kind: str, **environment: str) -> "subprocess.CompletedProcess[str]":
    """Builds the wheel or the source archive of a folder in another one, as pip and `build` do: by hatchling, which
    prints its name."""
    pytest.importorskip("hatchling", reason="there is no hatchling (`tools/install-tools` names its package)")
    words = "import os, sys; os.chdir(sys.argv[1]); sys.dont_write_bytecode = True; from hatchling import build"
    return subprocess.run(
        [sys.executable, "-c", f"{words}; print(build.build_{kind}(sys.argv[2]))", str(folder), str(room)],
        capture_output=True,
        text=True,
        env={**{name: value for name, value in os.environ.items() if name != "TLBRIDGE_LIBRARY"}, **environment},
    )


def wheel_of(folder: Path, room: Path, **environment: str) -> Tuple[str, Dict[str, bytes], str]:
    """Builds the wheel of a folder. Returns its name, and its files, or the error."""
    done = built(folder, room, "wheel", **environment)
    name = done.stdout.strip()
    if done.returncode:
        return name, {}, done.stderr[-500:]
    with zipfile.ZipFile(room / name) as wheel:
        return name, {path: wheel.read(path) for path in wheel.namelist()}, ""


def test_the_wheel_has_the_package_and_the_library(installed: Installed, tmp_path: Path) -> None:
    """The wheel has each file of the package, the library, and a record with the checksum of each."""
    tests = Checks()
    tree = installed.tree
    room = tmp_path
    name, files, error = wheel_of(tree / "share" / "tlbridge" / "python", room)
    tests.test(
        re.fullmatch(rf"tlbridge-{re.escape(VERSION)}-py3-none-(?!any)\w+\.whl", name), f"the wheel is {name}: {error}"
    )
    if error:
        return tests.verdict()
    info = f"tlbridge-{VERSION}.dist-info"
    package = {
        path.relative_to(ROOT / "python").as_posix()
        for path in (ROOT / "python" / "tlbridge").rglob("*")
        if path.suffix in (".py", ".typed")
    }
    wanted = {
        *package,
        "tlbridge/libtlbridge.so",
        *(f"{info}/{part}" for part in ("METADATA", "WHEEL", "RECORD", "entry_points.txt")),
    }
    tests.test({*files} == wanted, f"the wheel: {sorted({*files} ^ wanted)}")
    tests.test(
        files["tlbridge/libtlbridge.so"] == (tree / "lib" / "libtlbridge.so").read_bytes(),
        "the wheel has another library",
    )
    tests.test(
        f"Tag: {name[len(f'tlbridge-{VERSION}-'):-4]}\n" in files[f"{info}/WHEEL"].decode(),
        "the wheel's tag is not that of its name",
    )
    recorded = {row[0]: row[1:] for row in csv.reader(files[f"{info}/RECORD"].decode().splitlines())}
    for path, data in files.items():
        checksum = "sha256=" + base64.urlsafe_b64encode(hashlib.sha256(data).digest()).rstrip(b"=").decode()
        tests.test(
            recorded.get(path) == (["", ""] if path.endswith("/RECORD") else [checksum, str(len(data))]),
            f"the record of {path} is {recorded.get(path)}",
        )
    commands = re.findall(r"^(\S+) = (\S+):main$", files[f"{info}/entry_points.txt"].decode(), re.M)
    tests.test(
        [command for command, _ in commands] == ["tlbridge-compare", "tlbridge-trace"],
        f"the wheel's commands are {commands}",
    )
    for command, module in commands:
        tests.test(f"{module.replace('.', '/')}.py" in files, f"{command}: the wheel has no {module}")
    tests.verdict()


def test_the_library_of_a_wheel(installed: Installed, tmp_path: Path) -> None:
    """Without a library the wheel is for every machine; with the variable TLBRIDGE_LIBRARY, or in a repository with
    out/, it has that library.
    """
    tests = Checks()
    tree = installed.tree
    room = tmp_path
    place, info = room / "wheels" / "deep" / "share" / "python", f"tlbridge-{VERSION}.dist-info"
    shutil.copytree(tree / "share" / "tlbridge" / "python", place)
    shutil.copy(tree / "share" / "tlbridge" / "VERSION", place.parent)
    (place.parent / "out").mkdir()
    named, own = room / "named.so", place.parent / "out" / "libtlbridge.so"
    named.write_bytes(b"named")
    for what, text, library, is_own in (
        ("no library", None, None, False),
        ("TLBRIDGE_LIBRARY", b"named", str(named), False),
        ("out/", b"own", None, True),
        ("TLBRIDGE_LIBRARY before out/", b"named", str(named), True),
        ("an empty TLBRIDGE_LIBRARY", b"own", "", True),
    ):
        if is_own:
            own.write_bytes(b"own")
        name, files, error = wheel_of(place, room, **({} if library is None else {"TLBRIDGE_LIBRARY": library}))
        tests.test(
            files.get("tlbridge/libtlbridge.so") == text,
            f"a wheel with {what} has the library {files.get('tlbridge/libtlbridge.so')!r}: {error}",
        )
        tests.test(
            bool(re.fullmatch(rf"tlbridge-{re.escape(VERSION)}-py3-none-any\.whl", name)) == (text is None),
            f"a wheel with {what} is {name}",
        )
        tests.test(
            not re.search(r"[-.]", name[len(f"tlbridge-{VERSION}-py3-none-") : -4]), f"a wheel with {what} is {name}"
        )
        lines = [line for line in files[f"{info}/WHEEL"].decode().splitlines() if not line.startswith("Generator: ")]
        tests.test(
            lines
            == [
                "Wheel-Version: 1.0",
                f"Root-Is-Purelib: {str(text is None).lower()}",
                f"Tag: {name[len(f'tlbridge-{VERSION}-'):-4]}",
            ],
            f"a wheel with {what} has the lines {lines}",
        )
    name, _, error = wheel_of(place, room, TLBRIDGE_LIBRARY=str(room / "nowhere.so"))
    tests.test(name == "" and "nowhere.so" in error, f"a wheel with a library that is not there: {name} {error}")
    tests.verdict()


def test_the_data_of_the_package(tmp_path: Path) -> None:
    """They are those of pyproject.toml and of VERSION, and claim no proof of Python."""
    tomllib = pytest.importorskip("tomllib")
    project = tomllib.loads((ROOT / "python" / "pyproject.toml").read_text())["project"]
    _, files, error = wheel_of(ROOT / "python", tmp_path, TLBRIDGE_LIBRARY="")
    assert not error
    lines = files[f"tlbridge-{VERSION}.dist-info/METADATA"].decode().splitlines()
    assert project["description"].endswith("The Python code is tested, not proved.")
    assert "version" not in project
    assert {
        "Name: tlbridge",
        f"Version: {VERSION}",
        f"Summary: {project['description']}",
        f"Requires-Python: {project['requires-python']}",
        f"Keywords: {','.join(sorted(project['keywords']))}",
        *(f"Classifier: {classifier}" for classifier in project["classifiers"]),
    } <= {*lines}
    assert [line for line in lines if re.match("Requires-Dist|License", line)] == []
    scripts = files[f"tlbridge-{VERSION}.dist-info/entry_points.txt"].decode().split()
    assert " ".join(scripts) == " ".join(
        ["[console_scripts]", *(f"{name} = {entry}" for name, entry in sorted(project["scripts"].items()))]
    )


def test_the_source_archive(tmp_path: Path) -> None:
    """It has each file of the package and no library, and its wheel has the files of the repository's. pip installs it
    in a fresh environment without an index, by the hatchling of this Python.
    """
    done = built(ROOT / "python", tmp_path, "sdist", TLBRIDGE_LIBRARY=str(tmp_path / "nowhere.so"))
    name = done.stdout.strip()
    assert name == f"tlbridge-{VERSION}.tar.gz", done.stderr
    with tarfile.open(tmp_path / name) as archive:
        archive.extractall(tmp_path / "source")
    place = tmp_path / "source" / f"tlbridge-{VERSION}"
    files = {path.relative_to(place).as_posix() for path in place.rglob("*") if path.is_file()}
    package = {
        path.relative_to(ROOT / "python").as_posix()
        for path in (ROOT / "python" / "tlbridge").rglob("*")
        if path.suffix in (".py", ".typed")
    }
    # (hatchling adds the settings of git)
    assert files - {".gitignore"} == {"PKG-INFO", "pyproject.toml", "hatch_build.py", "VERSION", *package}
    wheel, made, error = wheel_of(place, tmp_path)
    assert (wheel, error) == (f"tlbridge-{VERSION}-py3-none-any.whl", "")
    assert {path for path in made if ".dist-info/" not in path} == package
    # (to unpack a pip of its own takes longer than the rest)
    venv.create(tmp_path / "venv", with_pip=not importlib.util.find_spec("pip"), system_site_packages=True)
    pip = [tmp_path / "venv" / "bin" / "python", "-m", "pip", "install", "--no-index", "--no-build-isolation"]
    done = subprocess.run([*map(str, pip), "--quiet", str(tmp_path / name)], capture_output=True, text=True)
    assert done.returncode == 0, done.stderr
    command = [str(tmp_path / "venv" / "bin" / "tlbridge-compare"), "--help"]
    assert "client_beats" in subprocess.run(command, capture_output=True, text=True).stdout


def test_a_project_elsewhere_finds_the_library(installed: Installed, tmp_path: Path) -> None:
    """A project elsewhere finds the headers and the library by pkg-config and by CMake, which refuses another
    version.
    """
    tests = Checks()
    tree = installed.tree
    pairs = installed.pairs
    room = tmp_path
    (room / "user.c").write_text(
        '#include "tlbridge_scoreboard.h"\n#include <string.h>\nint main(void) { return strcmp(tl_scoreboard_pairs(),'
        " PAIRS) != 0; }\n"
    )
    known = " ".join(":".join(pair.split("_")) for pair in sorted(pairs, key=lambda pair: [*map(int, pair.split("_"))]))
    given = f"-DPAIRS='\"{known}\"'"
    macros = " ".join(f"-DTLBRIDGE_{pair}" for pair in pairs)
    if shutil.which("pkg-config"):
        asked = {
            words: subprocess.run(
                ["pkg-config", *words.split(), "tlbridge"],
                capture_output=True,
                text=True,
                env={**os.environ, "PKG_CONFIG_PATH": f"{tree}/lib/pkgconfig"},
            ).stdout.strip()
            for words in (
                "--variable=pairs",
                "--variable=prefix",
                "--variable=includedir",
                "--variable=libdir",
                "--variable=svdir",
                "--cflags",
                "--libs",
                "--modversion",
            )
        }
        asked = {
            words: re.sub(r"/[^ ]*/lib/pkgconfig/\.\./\.\.|" + re.escape(str(tree)), "TREE", said)
            for words, said in asked.items()
        }
        wanted = {
            "--variable=pairs": " ".join(pairs).replace("_", ":"),
            "--variable=prefix": "TREE",
            "--variable=includedir": "TREE/include",
            "--variable=libdir": "TREE/lib",
            "--variable=svdir": "TREE/share/tlbridge/sv",
            "--cflags": f"-DTLBRIDGE_PAIRS_ARE_KNOWN {macros} -ITREE/include",
            "--libs": "-LTREE/lib -ltlbridge",
            "--modversion": VERSION,
        }
        for words, said in asked.items():
            tests.test(
                sorted(said.split()) == sorted(wanted[words].split()),
                f"pkg-config {words} prints {said}, and not {wanted[words]}",
            )
    compile_it = (
        f'of() {{ PKG_CONFIG_PATH={tree}/lib/pkgconfig pkg-config "$@" tlbridge; }};'
        f" {library_symbols.COMPILER} {given} user.c $(of --cflags --libs) -o user && LD_LIBRARY_PATH={tree}/lib ./user"
        f' && of --cflags | grep -q -e \'{macros}\' && [ "$(of --modversion)" = {VERSION} ] && [ -f "$(of'
        ' --variable=svdir)/tl_checker.sv" ]'
    )
    project = (
        "cmake_minimum_required(VERSION 3.10)\nproject(user C)\nfind_package(tlbridge {version}"
        " REQUIRED)\nadd_executable(user user.c)\ntarget_compile_definitions(user PRIVATE"
        f' PAIRS="{known}")\ntarget_link_libraries(user tlbridge::{{target}})\nget_target_property(NAME'
        f" tlbridge::tlbridge IMPORTED_SONAME)\nif(NOT NAME STREQUAL libtlbridge.so.{INTERFACE})\n  message(FATAL_ERROR"
        " ${{NAME}})\nendif()\nif(NOT EXISTS ${{tlbridge_SV_DIR}}/tl_checker.sv)\n  message(FATAL_ERROR"
        " sv)\nendif()\n"
    )
    by_cmake = f"cmake -S . -B built -DCMAKE_PREFIX_PATH={tree} && cmake --build built && built/user"
    for tool, text, command, works in (
        ("pkg-config", "", compile_it, True),
        ("cmake", project.format(version=VERSION, target="tlbridge"), by_cmake, True),
        ("cmake", project.format(version="", target="static"), by_cmake, True),
        *(
            (
                "cmake",
                project.format(version=version, target="tlbridge"),
                f"cmake -S . -B built -DCMAKE_PREFIX_PATH={tree}",
                works,
            )
            for version, works in (
                (SERIES, True),
                (f"{VERSION} EXACT", True),
                (f"{SERIES} EXACT", VERSION == f"{SERIES}.0"),
                (f"{SERIES}.99", False),
                ("0.1", False),
                ("99", False),
            )
        ),
    ):
        if shutil.which(tool) is None:
            continue
        if text:
            (room / "CMakeLists.txt").write_text(text)
        shutil.rmtree(room / "built", ignore_errors=True)
        done = subprocess.run(command, shell=True, cwd=room, capture_output=True, text=True, timeout=120)
        tests.test(
            (done.returncode == 0) == works, f"a project by {tool}: {text}: {(done.stdout + done.stderr)[-1500:]}"
        )
    tests.verdict()
    needs_tools("pkg-config", "cmake")  # what could be compared without them was


# ---- The words of make


def with_everything(folder: Path, pairs: Sequence[str]) -> Path:
    """A copy of all that `make install` takes, with stand-ins for the proved archives and for the programs, and with a
    compiled file of Python.
    """
    with_stand_ins(folder, pairs)
    for name in (
        "examples",
        "docs",
        "rtl",
        "python",
        "tools/cut-links",
        "README.md",
        "CHANGELOG.md",
        *(path.name for path in ROOT.glob("tl*-*") if path.is_file()),
    ):
        (folder / name).parent.mkdir(exist_ok=True)
        copy_of(ROOT / name, folder / name)
    for place in ("python/tlbridge", "python/tlbridge/waves"):
        (folder / place / "__pycache__").mkdir(exist_ok=True)
        (folder / place / "__pycache__" / "old.pyc").write_text("")
    for name in PROGRAMS:
        (folder / name).write_text("#!/bin/sh\nexit 70\n")
        (folder / name).chmod(0o755)
    return folder


def said_by_make(source: Path, *words: Any, **environment: str) -> Tuple[int, str]:
    """The status and the output of make with these words."""
    environment = {**plain_environment(), **environment}
    done = subprocess.run(
        [shutil.which("make") or "make", "--no-print-directory", "-C", str(source), *words],
        stdin=subprocess.DEVNULL,
        stdout=subprocess.PIPE,
        stderr=subprocess.STDOUT,
        text=True,
        env=environment,
    )
    return done.returncode, done.stdout


def test_the_words_of_make(installed: Installed, tmp_path: Path) -> None:
    """What make does without words, by default, and with wrong words; `make -n` prints what would run."""
    tests = Checks()
    pairs = installed.pairs
    room = tmp_path
    source = with_everything(room / "whole", pairs)
    help_words = re.sub(r"^# ?", "", (ROOT / "Makefile").read_text().partition("\n\n")[0], flags=re.M)
    for words in ((), ("help",)):
        tests.test(
            said_by_make(source, *words) == (0, help_words + "\n"),
            f"make {' '.join(words)} prints {said_by_make(source, *words)}",
        )
    for words in ((), ("C=8",), ("M=4",), ("C=", "M=4")):
        status, said = said_by_make(source, "library", *words)
        tests.test(
            status == 2 and said.startswith("make: give both widths in bytes, for example make library C=8 M=4\n"),
            f"make library {' '.join(words)}: status {status}, {said}",
        )
    runs: Dict[Tuple[str, ...], Tuple[List[str], List[str]]] = {  # what `make -n` has to print, and what it must not
        ("library", "C=1", "M=128"): (["tools/make-library 1 128\n"], ["install"]),
        ("install-files",): (
            [
                "install -d /usr/local/include /usr/local/bin /usr/local/share/tlbridge/sv"
                " /usr/local/share/tlbridge/python\n"
            ],
            ["make-library"],
        ),
        ("install-files", "PREFIX="): (["install -d /usr/local/include "], []),
        ("install-files", "PREFIX=/p", "DESTDIR=/d"): (["install -d /d/p/include /d/p/bin "], ["/usr/local", " /p/"]),
        ("install-pairs", "PREFIX=/p"): (["libtlbridge_8_4.a /p/lib\n"], ["libtlbridge_4_8"]),
        ("install-pairs", "PREFIX=/p", "PAIRS=1:2 128:128"): (
            ["libtlbridge_1_2.a /p/lib\n", "libtlbridge_128_128.a /p/lib\n"],
            ["libtlbridge_8_4"],
        ),
        ("install", "PREFIX=/p"): (
            [
                "install -m 755 crates/tlbridge/out/tlbridge /p/bin\n",
                "install -m 755 crates/tlexplain/out/tlexplain /p/bin\n",
            ],
            [],
        ),
        ("install", "PREFIX=/p", "PROGRAMS=yes"): (["install -m 755 crates/tlbridge/out/tlbridge /p/bin\n"], []),
        ("install", "PREFIX=/p", "PROGRAMS=no"): (
            ["libtlbridge.so /p/lib/libtlbridge.so."],
            ["/tlbridge/out/", "/tlexplain/out/"],
        ),
        ("test",): (['tools/run-tests -m "not long and not gate"\n'], ["--both-builds"]),
        ("test", "BUILDS=both"): (['tools/run-tests --both-builds -m "not long"\n'], []),
        ("test", "BUILDS=one"): (['tools/run-tests -m "not long and not gate"\n'], ["--both-builds"]),
        ("test-long",): (['tools/run-tests  -m "long or gate"\n'], ["--both-builds"]),
        ("test-long", "BUILDS=both"): (['tools/run-tests --both-builds -m "long or gate"\n'], []),
        ("out/tlbridge_dpi.o", "CFLAGS=-O0 -g"): (
            [" -std=c11 -Wall -Wextra -Wshadow -Wconversion -O0 -g -fPIC "],
            [" -O2 "],
        ),
        ("out/tlbridge_dpi.o", "-B"): (
            [" -std=c11 -Wall -Wextra -Wshadow -Wconversion -O2 -fPIC ", " -DTLBRIDGE_8_4 "],
            [],
        ),
    }
    for target, (wanted, others) in runs.items():
        status, said = said_by_make(source, "-n", *target)
        lacking, wrong = [text for text in wanted if text not in said], [text for text in others if text in said]
        tests.test(
            status == 0 and not lacking and not wrong,
            f"make -n {' '.join(target)}: status {status}; not printed: {lacking}; printed: {wrong}",
        )
    said = said_by_make(source, "-n", "install", "PREFIX=/p")[1]
    steps = [
        said.find(text)
        for text in (
            "tlbridge.h include",
            "libtlbridge_8_4.a /p/lib",
            "libtlbridge.a /p/lib",
            "tlbridge/out/tlbridge /p/bin",
            "tlexplain/out/tlexplain /p/bin",
        )
    ]
    tests.test(steps == sorted(steps) and -1 not in steps, f"make install: the steps are at {steps} of its output")
    tools, without_rt = (
        room / "tools",
        "make: rt, the command of the Rattle toolchain, is not in PATH. README.md names the kit that has it.",
    )
    tools.mkdir()
    for tool in ("sh", "sed", "find", "uname", "tr", "install"):
        (tools / tool).symlink_to(str(shutil.which(tool)))
    for words in (("programs",), ("install-tlbridge", f"PREFIX={room}/p"), ("install-tlexplain", f"PREFIX={room}/p")):
        status, said = said_by_make(source, *words, PATH=str(tools))
        tests.test(
            status == 2 and without_rt in said.splitlines(), f"make {words[0]} without rt: status {status}, {said}"
        )
    (tools / "rt").symlink_to("/bin/true")
    status, said = said_by_make(source, "programs", PATH=str(tools))
    tests.test(
        status == 2 and without_rt not in said.splitlines(),
        f"make programs with rt, which fails: status {status}, {said}",
    )
    tests.verdict()


def test_the_archive_of_make_dist_has_the_files_of_the_tree(installed: Installed, tmp_path: Path) -> None:
    """The archive of `make dist` has the files of an installed tree, without the programs if PROGRAMS is no, and no
    other.
    """
    tests = Checks()
    tree = installed.tree
    pairs = installed.pairs
    room = tmp_path
    source = with_everything(room / "dist", pairs)
    old = source / "out" / "dist" / f"tlbridge-{VERSION}" / "old"
    old.parent.mkdir(parents=True)
    old.write_text("")
    words = ("dist", f"PAIRS={' '.join(pairs).replace('_', ':')}", "PROGRAMS=no", "CFLAGS=-O0")
    status, said = said_by_make(source, *words)
    machine = os.uname()
    name = f"out/tlbridge-{VERSION}-{machine.sysname.lower()}-{machine.machine.lower()}.tar.gz"
    tests.test(status == 0 and said.endswith(f"\n{name}\n"), f"make dist: status {status}: {said[-500:]}")
    if status:
        return tests.verdict()
    with tarfile.open(source / name) as archive:
        found: Dict[str, object] = {
            member.name: (
                stat.S_IMODE(member.mode) if member.isfile() else member.linkname if member.issym() else "folder"
            )
            for member in archive.getmembers()
        }
    wanted: Dict[str, object] = {f"tlbridge-{VERSION}": "folder"}
    for path in tree.rglob("*"):
        inner = path.relative_to(tree)
        if str(inner) not in ("bin/tlbridge", "bin/tlexplain"):
            wanted[f"tlbridge-{VERSION}/{inner}"] = (
                os.readlink(path)
                if path.is_symlink()
                else "folder"
                if path.is_dir()
                else stat.S_IMODE(path.stat().st_mode)
            )
    differing = sorted(name for name in {*found, *wanted} if found.get(name) != wanted.get(name))
    tests.test(not differing, f"make dist: {[(name, found.get(name), wanted.get(name)) for name in differing[:9]]}")
    tests.verdict()


# ---- The version


def test_the_version_is_the_same_everywhere(installed: Installed) -> None:
    """By the file VERSION."""
    tests = Checks()
    tree = installed.tree
    parts = installed.parts
    package = re.search(r"^VERSION = (\d+)\b", (ROOT / "python" / "tlbridge" / "library.py").read_text(), re.M)
    tests.test(
        package and package[1] == INTERFACE,
        f"python/tlbridge/library.py is not for the interface {INTERFACE} of the header",
    )
    for name, pattern in VERSIONS.items():
        found = re.search(pattern, (ROOT / name).read_text(), re.M)
        tests.test(found and found[1] == VERSION, f"{name} has the version {found and found[1]}, and VERSION {VERSION}")
    said = subprocess.run([tree / "bin" / "tlbridge-model", "--version"], stdout=subprocess.PIPE, text=True).stdout
    tests.test(said == f"tlbridge-model {VERSION}, the unverified model\n", f"tlbridge-model --version prints {said}")
    if "install-library" in parts:
        for name, wanted in (
            ("pkgconfig/tlbridge.pc", f"Version: {VERSION}\n"),
            ("cmake/tlbridge/tlbridgeConfigVersion.cmake", f'VERSION "{VERSION}"'),
        ):
            tests.test(wanted in (tree / "lib" / name).read_text(), f"lib/{name} has not the version {VERSION}")
    for path in tree.rglob("*"):
        if path.suffix in (".1", ".pc", ".cmake"):
            tests.test(
                "@" not in path.read_text(), f"{path.relative_to(tree)} has a word between @ that was not filled in"
            )
    tests.verdict()
