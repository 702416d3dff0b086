"""The functions that SystemVerilog imports from sv/tlbridge_dpi.c, called from C: each answer, each field and lane, and
no leak. Also how the
glue and the scoreboard compile, and that the imports of SystemVerilog have the arguments of the functions in C.
"""

import os
import re
import shutil
from pathlib import Path
from typing import Dict, List, Set, Tuple

import pytest
from board_library import INCLUDES, PAIRS, PLAIN_BRIDGE, STRICT, compile_object, macros
from commands import run, said, succeed
from once import made_once
from project import SV, compiler
from valgrind import has_no_leak

HERE = Path(__file__).resolve().parent
WIDTHS = [1 << i for i in range(8)]
CXX = os.environ.get("CXX", "c++")
# What each module imports is defined in this source.
IMPORTS = {"tlbridge_pkg.sv": "tlbridge_dpi.c", "tlbridge_scoreboard.sv": "tlbridge_scoreboard.c"}


def statuses() -> List[str]:
    """The statuses that SystemVerilog knows, as macros for glue.c."""
    text = (SV / "tlbridge_pkg.sv").read_text()
    names = {"OTHER_PAIR": "OTHER_WIDTH", "NOT_OPEN": "NOT_OPEN", "NOT_READY": "NOT_READY"}
    found = {macro: re.search(rf"localparam u8 TL_{name} = ([0-9]+);", text) for macro, name in names.items()}
    return [f"-D{macro}={match[1]}" for macro, match in found.items() if match]


@pytest.fixture(scope="session")
def glue(library: Path, tmp_path_factory: pytest.TempPathFactory) -> Path:
    """The program of glue.c, over the plain bridge, whose object the shared library has, too."""

    def make(folder: Path) -> None:
        kept = library.with_name("plain_bridge.o")
        bridge = kept if kept.is_file() else compile_object(PLAIN_BRIDGE, folder, PAIRS)
        words = [compiler(), "-std=c11", "-O1", "-g", *STRICT, *INCLUDES, *statuses(), *macros(PAIRS)]
        succeed([*words, HERE / "glue.c", bridge, "-pthread", "-o", folder / "glue"])

    return made_once(tmp_path_factory, "glue", make) / "glue"


def test_each_function_returns_what_is_expected(glue: Path) -> None:
    """Some ten thousand comparisons in C."""
    done = run([glue], timeout=60)
    assert done.returncode == 0, said(done)
    assert re.fullmatch(r"[0-9]{5} passed, 0 failed\n", done.stdout)


@pytest.mark.long
def test_no_function_leaks(glue: Path) -> None:
    """The same under valgrind."""
    has_no_leak(glue)


# ---- as simulators compile it


def compiled(words: List[str], source: str, folder: Path) -> Tuple[int, str, Path]:
    """The status and the errors of a compilation of a file of sv/, and its object."""
    made = folder / "made.o"
    done = run([*words, *INCLUDES, "-Wno-unused-function", "-c", SV / source, "-o", made])
    return done.returncode, done.stderr, made


@pytest.mark.parametrize(
    "language, module",
    [("C", "tlbridge_pkg.sv"), ("C", "tlbridge_scoreboard.sv"), ("C++", "tlbridge_pkg.sv")],
)
def test_it_defines_the_names_that_systemverilog_imports(language: str, module: str, tmp_path: Path) -> None:
    """Simulators compile the glue as C, some also as C++."""
    words = [compiler(), "-std=c11"] if language == "C" else [CXX, "-x", "c++", "-std=c++17"]
    if shutil.which(words[0]) is None:
        pytest.skip(f"there is no {words[0]}")
    status, errors, made = compiled([*words, "-DTLBRIDGE_8_4"], IMPORTS[module], tmp_path)
    assert status == 0, errors[-2000:]
    lines = succeed(["nm", "-g", "--defined-only", "-P", made]).splitlines()
    defined = {line.split()[0] for line in lines}
    imported = re.findall(r'import "DPI-C" function \w+ (\w+)\(', (SV / module).read_text())
    assert len(imported) > 7
    assert [name for name in imported if name not in defined] == []


@pytest.mark.parametrize("source", IMPORTS.values())
@pytest.mark.parametrize("macro", ["", "-DTLBRIDGE_8_4=0", "-DTLBRIDGE_8_4=2", "-DTLBRIDGE_8_3"])
def test_without_a_pair_the_error_names_the_macro(macro: str, source: str, tmp_path: Path) -> None:
    """A macro of a pair that is not 1 links no pair."""
    status, errors, _ = compiled([compiler(), "-std=gnu11", *([macro] if macro else [])], source, tmp_path)
    assert status != 0
    assert "compile_with_a_macro_for_each_pair_as_TLBRIDGE_8_4" in errors


def preprocessed(source: str, client: int, manager: int) -> str:
    words = [compiler(), "-std=c11", "-E", "-P", *INCLUDES, f"-DTLBRIDGE_{client}_{manager}"]
    return succeed([*words, SV / source])


@pytest.mark.parametrize("client", WIDTHS)
def test_each_pair_has_its_row_in_the_table_and_no_other(client: int) -> None:
    """Of all 64 pairs."""
    wrong = []
    for manager in WIDTHS:
        text = preprocessed("tlbridge_dpi.c", client, manager)
        calls = {*re.findall(r"\btl_(\d+_\d+)_[a-z]", text)}
        rows = re.findall(r"pairs\[\] = \{\s*\{(\d+), (\d+),", text)
        if (calls, rows) != ({f"{client}_{manager}"}, [(str(client), str(manager))]):
            wrong.append((manager, calls, rows))
    assert wrong == []


# ---- the arguments of the imports

# The types of C that a type of SystemVerilog may be passed as, and other names that an argument has in C.
TYPES = {
    "u8": ("uint8_t",),
    "id": ("uint16_t",),
    "tl_id": ("tl_id",),
    "u32": ("uint32_t",),
    "u64": ("uint64_t",),
    "int": ("int",),
    "bit": ("svBit",),
    "real": ("double",),
    "chandle": ("void *",),
    "string": ("const char *",),
    "void": ("void",),
    "vector": ("const svBitVecVal *", "const uint32_t *"),
}
RENAMED = {"now": "time", "at": "time"}


def test_the_types_of_the_package_have_the_bits_of_those_in_c() -> None:
    """And no sign."""
    text = (SV / "tlbridge_pkg.sv").read_text()
    found = {name: " ".join(kind.split()) for kind, name in re.findall(r"typedef ([^;]*?)\s*\b(\w+);", text)}
    assert found == {
        "u8": "byte unsigned",
        "tl_id": "shortint unsigned",
        "u64": "longint unsigned",
        "tl_mask": "bit [127:0]",
        "tl_data": "bit [1023:0]",
    }
    numbers = {
        name: (kind, int(value)) for kind, name, value in re.findall(r"localparam (\w+) (TL_\w+) = (\d+);", text)
    }
    assert numbers == {
        "TL_OK": ("u8", 0),
        "TL_OTHER_WIDTH": ("u8", 247),
        "TL_NOT_OPEN": ("u8", 252),
        "TL_NOT_READY": ("u8", 254),
    }


def defined(source: str) -> Dict[str, Tuple[str, List[str]]]:
    """The result and the arguments of each function that a source of C defines, as text."""
    found = re.findall(r"((?:const )?\w+ \*?)(tlbridge_\w+)\(([^()]*)\)\s*\{", preprocessed(source, 8, 4))
    return {
        name: (
            result.strip(),
            [" ".join(argument.split()) for argument in arguments.split(",") if argument.strip() != "void"],
        )
        for result, name, arguments in found
    }


def wanted(argument: str) -> Set[str]:
    """The forms that an argument of SystemVerilog may have in C."""
    match = re.fullmatch(r"(input|output) (.+) (\w+)", argument)
    assert match, argument
    direction, kind, name = match.groups()
    is_vector = "[" in kind or kind in ("tl_mask", "tl_data")
    types = [*TYPES["vector" if is_vector else kind]]
    if direction == "output":
        types = [of.replace("const ", "") if is_vector else f"{of} *" for of in types]
    return {f"{of} {RENAMED.get(name, name)}".replace("* ", "*") for of in types}


@pytest.mark.parametrize("module", IMPORTS)
def test_each_import_has_the_arguments_of_its_function_in_the_same_order(module: str) -> None:
    """By the text of both, since no simulator compares them."""
    functions, wrong = defined(IMPORTS[module]), []
    imports = re.findall(r'import "DPI-C" function (\w+) (\w+)\(([^;]*)\);', (SV / module).read_text())
    for result, name, text in imports:
        made, passed = functions[name]
        forms = [wanted(" ".join(argument.split())) for argument in text.split(",") if argument.strip()]
        if made not in TYPES[result] or len(passed) != len(forms):
            wrong.append(f"{name}: {made}, {passed}, expected {TYPES[result]}, {forms}")
        wrong += [f"{name}: {got}, expected one of {form}" for got, form in zip(passed, forms) if got not in form]
    assert wrong == []
    assert len(imports) > {"tlbridge_pkg.sv": 31, "tlbridge_scoreboard.sv": 8}[module]
