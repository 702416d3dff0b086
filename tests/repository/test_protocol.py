"""The one table of the protocol, python/tlbridge/protocol.py, compared with the proved crates, the unverified model and
the headers of C; and that no other file has such a table."""

import re
import subprocess
from pathlib import Path
from typing import Dict, List, Tuple

import pytest
from project import MODEL, ROOT, script
from tlbridge import library, protocol

CRATES = ROOT / "crates"


def arms(path: Path, function: str) -> List[Tuple[str, str]]:
    """The arms `LEFT => RIGHT` of the `match` in a function of a crate."""
    found = re.search(rf"fn {function}\b.*?\n    match \w+ {{\n(.*?)\n    }}", path.read_text(), re.S) or re.search(
        rf"fn {function}\b.*?match \w+ {{\n(.*?)\n        }}", path.read_text(), re.S
    )
    assert found, f"{path}: there is no match in fn {function}"
    return re.findall(r"^ *(\S+) => (.+?),?$", found[1], re.M)


@pytest.mark.parametrize("channel", "ABCD")
def test_opcodes_are_those_of_the_proved_crate(channel: str) -> None:
    """Each opcode of a channel names the same message as in tl_msg, and no opcode is missing."""
    named = {}
    for opcode, kind in arms(CRATES / "tl_msg" / "src" / "kind.rt", f"on_{channel.lower()}"):
        if found := re.fullmatch(r"Some\(Kind::(\w+)\)", kind):
            named[int(opcode)] = found[1]
    assert named == {opcode: kind.name for opcode, kind in protocol.OPCODES[channel].items()}


def test_messages_with_data_are_those_of_the_proved_crate() -> None:
    """The messages that carry data are those of tl_msg's `carries_data`."""
    text = (CRATES / "tl_msg" / "src" / "kind.rt").read_text()
    body = re.search(r"fn carries_data\(.*?matches!\((.*?)\n        \)", text, re.S)
    assert body
    kinds = {kind.name: kind for kinds in protocol.OPCODES.values() for kind in kinds.values()}
    assert set(re.findall(r"Kind::(\w+)", body[1])) == {name for name, kind in kinds.items() if kind.has_data}


def test_params_are_those_of_the_proved_crate() -> None:
    """Each message has as many params as tl_msg's definition says."""
    text = (CRATES / "tl_msg" / "specs" / "Kinds.antt").read_text()
    counts: Dict[str, int] = {name: int(count) for name, count in re.findall(r"^params (\w+) = (\d+)$", text, re.M)}
    other = counts.pop("kind", counts.pop("_", 1))
    kinds = {kind.name: kind.params for kinds in protocol.OPCODES.values() for kind in kinds.values()}
    assert kinds == {name: counts.get(name, other) for name in kinds}


def test_responses_are_those_of_the_proved_crate() -> None:
    """A request has the responses that tl_remarks lets it have. Releases are not in that function."""
    text = (CRATES / "tl_remarks" / "src" / "fits.rt").read_text()
    body = re.search(r"fn may_answer\(.*?match ask {(.*?)_ => true", text, re.S)
    assert body
    named: Dict[str, Tuple[str, ...]] = {}
    for asked, answers in re.findall(r"((?:Kind::\w+[ |\n]*)+)=>\s*{?\s*matches!\(answer, ([^)]*)\)", body[1]):
        for name in re.findall(r"Kind::(\w+)", asked):
            named[name] = tuple(re.findall(r"Kind::(\w+)", answers))
    assert named == {name: answers for name, answers in protocol.RESPONSES.items() if not name.startswith("Release")}


def test_faults_are_those_of_the_library() -> None:
    """Each fault has the number and the name that the C library's proved table of texts gives it."""
    named = arms(CRATES / "tl_c_beats" / "src" / "texts.rt", "status_name")
    found = {int(number): name.strip('"') for number, name in named if number.isdecimal() and number != "0"}
    assert found == protocol.FAULTS


def test_both_tables_of_sentences_agree() -> None:
    """`tlexplain --faults` has the names and sentences of the C library's proved table. It has its own sentences for
    the two faults that only calls of the library can have.
    """
    text = (CRATES / "tl_c_beats" / "src" / "texts.rt").read_text()
    body = text[text.index("fn status_sentence") : text.index("fn zero_ended")]
    library = {int(number): sentence for number, sentence in re.findall(r'(\d+) =>\s*"([^"]*)"', body)}
    table = (CRATES / "tl_explain" / "src" / "meanings.rt").read_text().split('"#')[0]
    rows = re.findall(r"([ \d]\d) (\w+) +(\S.*)\n", table)
    assert {int(number): name for number, name, _ in rows} == protocol.FAULTS
    of_calls = {number for number, name in protocol.FAULTS.items() if name in ("MidBurst", "RingSize")}
    printed = {int(number): sentence for number, _, sentence in rows if int(number) not in of_calls}
    assert printed == {number: library[number] for number in protocol.FAULTS if number not in of_calls}


def test_the_model_has_the_same_messages() -> None:
    """The unverified model's own table of opcodes, which is a copy on purpose, says the same."""
    model = script(MODEL)
    for channel in "ABCD":
        assert {opcode: tuple(kind) for opcode, kind in model.OPCODES[channel].items()} == {
            opcode: tuple(kind) for opcode, kind in protocol.OPCODES[channel].items()
        }
    assert {number: name for name, number in model.FAULTS.items()}.items() <= protocol.FAULTS.items()
    assert (model.WIDTHS, model.MOST_SIZE, model.MOST_BYTES) == (
        protocol.WIDTHS,
        protocol.MAX_SIZE,
        protocol.MAX_TRACE_BYTES,
    )
    assert (model.ID_DIGITS, model.WIDEST) == (protocol.ID_DIGITS, protocol.WIDEST_OF_VERSION)


def test_the_header_of_c_has_the_same_faults() -> None:
    """include/tlbridge.h names each fault of a beat or a call with its number, and no number twice."""
    text = (ROOT / "include" / "tlbridge.h").read_text()
    rows = [(int(number), name) for name, number in re.findall(r"\bTL_([A-Z_]+) = (\d+)", text) if number != "0"]
    named = {number: name.replace("_", "").lower() for number, name in rows if not name.endswith("FINISHED")}
    assert len(named) == sum(not name.endswith("FINISHED") for _, name in rows), "a number has two names"
    shared = protocol.FAULTS.keys()
    # (in C, TL_CHANNEL is the macro of a channel's calls)
    expected = {number: protocol.FAULTS[number].lower() for number in shared} | {15: "channelletter"}
    assert {number: named.get(number) for number in shared} == {number: expected[number] for number in shared}


def test_the_statuses_of_calls_are_those_of_the_library() -> None:
    """The statuses that only calls have, from 240 on, are for C, SystemVerilog and Python the numbers of the proved
    constants. 247 is the own number of the glue for SystemVerilog."""
    text = (CRATES / "tl_c_beats" / "src" / "answers.rt").read_text()
    proved = {name: int(number) for name, number in re.findall(r"pub const (\w+): u8 = (2[4-9]\d);", text)}
    assert len(proved) == 6
    named = r"\bTL_(\w+) = (2[4-9]\d)\b"
    header = dict(re.findall(named, (ROOT / "include" / "tlbridge.h").read_text()))
    assert {name: int(number) for name, number in header.items()} == proved
    package = dict(re.findall(named, (ROOT / "sv" / "tlbridge_pkg.sv").read_text()))
    assert package.pop("OTHER_WIDTH") == "247"
    assert package and all(int(number) == proved[name] for name, number in package.items())
    rows = re.findall(r'SAYS\((2[4-9]\d), "(\w+)"', (ROOT / "tests" / "lib" / "statuses.h").read_text())
    assert {name.lower(): int(number) for number, name in rows} == {
        name.replace("_", "").lower(): number for name, number in proved.items()
    }
    assert (library.NOT_TAKEN, library.NOT_SENT) == (proved["NOT_TAKEN"], proved["NOT_SENT"])


# The messages for C and C++, which are made from protocol.py.
HEADER = ROOT / "tests" / "lib" / "protocol.h"
FIRST_LINES = """/* The messages of each channel. Made from python/tlbridge/protocol.py, and written again by
 * `tools/run-tests tests/repository/test_protocol.py --write`. */
#ifndef TLBRIDGE_TESTS_PROTOCOL_H
#define TLBRIDGE_TESTS_PROTOCOL_H

#include <stdbool.h>

/* A message: its name, whether it carries data, and how many params it has. An opcode without a message has none. */
typedef struct {
    const char *name;
    bool has_data;
    unsigned params;
} tl_kind;

/* By channel, from A to D, and opcode. */
static const tl_kind tl_kinds[4][8] = {
"""


def header_of_messages() -> str:
    """The text of HEADER."""
    lines = [FIRST_LINES]
    for channel in "ABCD":
        kinds = [protocol.OPCODES[channel].get(opcode, protocol.Kind("", 0, False)) for opcode in range(8)]
        rows = (f'        {{"{kind.name}", {str(kind.has_data).lower()}, {kind.params}}},\n' for kind in kinds)
        lines += ["    {\n", *rows, "    },\n"]
    return "".join([*lines, "};\n\n#endif\n"])


def test_the_messages_for_c_are_those_of_the_table(pytestconfig: pytest.Config) -> None:
    """tests/lib/protocol.h, which the C and C++ of tests includes."""
    if pytestconfig.getoption("--write"):
        HEADER.write_text(header_of_messages())
    assert HEADER.read_text() == header_of_messages()


def test_the_statuses_for_c_are_those_of_the_library() -> None:
    """tests/lib/statuses.h has the name and the sentence of each status of the C library's proved table."""
    text = (CRATES / "tl_c_beats" / "src" / "texts.rt").read_text()
    split = text.index("fn status_sentence")
    named, said = (dict(re.findall(r'(\w+) =>\s*"([^"]+)"', part)) for part in (text[:split], text[split:]))
    rows = re.findall(r'SAYS\((\d+), "(\w+)", "(.*)"\)', (ROOT / "tests" / "lib" / "statuses.h").read_text())
    assert len(rows) == len(named) == len(said)
    assert {(name, sentence) for _, name, sentence in rows} == {(named[key], said[key]) for key in named}
    assert {int(number): name for number, name, _ in rows if int(number) in protocol.FAULTS} == protocol.FAULTS


def test_the_opcodes_that_the_scoreboard_names() -> None:
    """sv/tlbridge_board.h names four."""
    found = re.search(r"enum { (PUT_PARTIAL_DATA = [^}]*) };", (ROOT / "sv" / "tlbridge_board.h").read_text())
    assert found
    channels = {"PUT_PARTIAL_DATA": "A", "GET": "A", "ACCESS_ACK": "D", "RELEASE_ACK": "D"}
    named = {name: int(number) for name, number in re.findall(r"(\w+) = (\d+)", found[1])}
    numbers = {(channel, name.upper()): opcode for (channel, name), opcode in protocol.NUMBERS.items()}
    assert named == {name: numbers[channel, name.replace("_", "")] for name, channel in channels.items()}


# The first messages of A in the order of their opcodes, with nothing but numbers and truth between them; or the opcodes
# of some.
BETWEEN = r"(?:\W|\d|[Tt]rue|[Ff]alse|Kind)*"
IN_ORDER = re.compile(rf"PutFullData{BETWEEN}PutPartialData{BETWEEN}ArithmeticData")
NUMBERED = re.compile(r"\b(Probe|Release)Ack\W{1,4}[56]\b|CARRIES *=|WITH_DATA *= *[{(]$|WITH_DATA *= .*[0-9]", re.M)
TABLES = {
    # the one table, with what is made from it, and this test
    "python/tlbridge/protocol.py",
    "tests/lib/protocol.h",
    "tests/repository/test_protocol.py",
    # the other two models of the rules outside the proof, which have their own on purpose
    "tlbridge-model",
    "sv/tl_checker.sv",
    "tests/lib/checker_model.py",
    # the words of an option for each request, without opcodes
    "python/tlbridge/verify/traffic.py",
}


def test_no_other_table_of_opcodes() -> None:
    """Outside the three models of the rules no source lists messages by opcode: each reads protocol.py."""
    listed = subprocess.run(["git", "ls-files", "-z"], cwd=ROOT, capture_output=True, check=False)
    names = [name for name in listed.stdout.decode().split("\0") if name] or pytest.skip("there is no git history")
    sources = [
        ROOT / name
        for name in names
        if not name.startswith(("crates/", "docs/", "examples/"))
        and Path(name).suffix in ("", ".py", ".c", ".h", ".cpp", ".sv", ".js")
    ]
    texts = {str(path.relative_to(ROOT)): path.read_text(errors="replace") for path in sources if path.is_file()}
    found = {name for name, text in texts.items() if IN_ORDER.search(text) or NUMBERED.search(text)}
    assert found - TABLES == set()


@pytest.mark.parametrize(
    "text",
    (
        'NAMES = "PutFullData PutPartialData ArithmeticData".split()',
        '{{"PutFullData", true}, {"PutPartialData", true}, {"ArithmeticData", true}}',
        '0: Kind("PutFullData", 1, True),\n1: Kind("PutPartialData", 1, True),\n2: Kind("ArithmeticData", 5, True)',
        '("C", "ProbeAck", 4), ("D", "ReleaseAck", 6)',
    ),
)
def test_a_table_of_opcodes_is_found(text: str) -> None:
    """In each of the forms that there were."""
    assert IN_ORDER.search(text) or NUMBERED.search(text)
