"""Compares whole outputs of the verified program `tlexplain` with stored ones, and looks for sentences that no stored
output has.

Each row of CASES is a trace of the folder sentences with the words of the command line. The output has to be that of
the file with the same name, and standard error and the exit status those of the row. Then each text in quotes in the
crates that write sentences has to be in one of these outputs, in one of examples/, or in NEVER with the reason why no
trace shows it. So a changed sentence fails here, whichever it is.
"""

import html
import re
import subprocess
from pathlib import Path
from typing import Any, Iterator, Sequence, Tuple

import pytest
from project import ROOT, needs_program

HERE = Path(__file__).resolve().parent / "sentences"
CRATES = ("tl_text", "tl_remarks", "tl_times", "tl_explain", "tl_markup", "tl_formats", "tlexplain")

# The name of an output, its trace, the words of the command line, and the exit status. A word that names a file of this
# folder is that file.
CASES = (
    ("opcode_of_C.text", "opcode_of_C", "", 1),
    ("opcode_of_D.text", "opcode_of_D", "", 1),
    ("param_of_Get.text", "param_of_Get", "", 1),
    ("mask_without_a_lane.text", "mask_without_a_lane", "--lanes", 1),
    ("mask_of_a_partial_put.text", "mask_of_a_partial_put", "--lanes", 1),
    ("size_of_8192_bytes.text", "size_of_8192_bytes", "", 1),
    ("request_not_arrived.text", "request_not_arrived", "", 1),
    ("request_not_arrived.json", "request_not_arrived", "--json", 1),
    ("source_still_busy.text", "source_still_busy", "", 1),
    ("size_mismatch.text", "size_mismatch", "", 1),
    ("response_sent_twice.text", "response_sent_twice", "", 1),
    ("response_sent_twice.in-order.text", "response_sent_twice", "--in-order", 1),
    ("no_request_of_that_source.text", "no_request_of_that_source", "", 1),
    ("denied_grant_and_address_of_33_bits.text", "denied_grant_and_address_of_33_bits", "", 0),
    ("whole.text", "whole", "--lanes", 1),
    ("whole.json", "whole", "--json", 1),
    ("whole.html", "whole", "--html", 1),
    ("whole.times.text", "whole", "--times whole.times", 1),
    ("whole.times.json", "whole", "--json --times whole.times", 1),
    ("whole.times.html", "whole", "--html --times whole.times", 1),
    ("whole.problems.html", "whole", "--html --only problems", 1),
    ("byte_order_fe_ff.text", "byte_order_fe_ff", "", 3),
    ("byte_order_ff_fe.text", "byte_order_ff_fe", "", 3),
    ("byte_order_utf_8.text", "byte_order_utf_8", "", 3),
    ("zero_byte.text", "zero_byte", "", 3),
    ("zero_byte.json", "zero_byte", "--json", 3),
    ("zero_byte.html", "zero_byte", "--html", 3),
    ("no_break_space.text", "no_break_space", "", 3),
    ("no_ascii.text", "no_ascii", "", 3),
    ("end_of_the_line.text", "end_of_the_line", "", 3),
    ("line_ends_here.text", "line_ends_here", "", 3),
    ("line_ends_here.json", "line_ends_here", "--json", 3),
    ("header_ends_here.text", "header_ends_here", "", 3),
    ("header_goes_on.text", "header_goes_on", "", 3),
    ("sink_changed.text", "sink_changed", "", 1),
    ("response_not_offered.text", "response_not_offered", "", 1),
    ("response_not_offered.html", "response_not_offered", "--html", 1),
    ("no_beats.html", "no_beats", "--html", 0),
    ("answer_on_C_to_nothing.text", "answer_on_C_to_nothing", "", 0),
    ("remarks.text", "remarks", "", 0),
    ("remarks.json", "remarks", "--json", 0),
    ("remarks.html", "remarks", "--html", 0),
    ("remarks.in-order.text", "remarks", "--in-order", 0),
    ("remarks.in-order.json", "remarks", "--in-order --json", 0),
    ("help.text", "whole", "--help", 0),
    ("no_file_of_times.text", "whole", "--times no_file_of_times.times", 4),
    ("json_and_html.text", "whole", "--json --html", 2),
    ("source_of_five_digits.text", "whole", "--source 10000", 2),
    ("times_too_few.text", "whole", "--times times_too_few.times", 3),
    ("times_too_many.text", "whole", "--times times_too_many.times", 3),
    ("times_backwards.text", "whole", "--times times_backwards.times", 3),
    ("times_no_time.text", "whole", "--times times_no_time.times", 3),
)
# Texts of the sources that no output shows, and why.
NEVER = {
    "channels A and B have a message for each opcode of three bits": (" has only the opcodes 0 to 7",),
    "`?` and the last arms of `match` need a value for what cannot happen": (
        "the mask is wrong",
        " has another size",
        "expected the end of the line",
    ),
    "a report that leaves nothing, or nothing more, never leaves too much": ("TtoN", "BtoN", "NtoN"),
    "words that are compared, or digits, and no sentences": ("0123456789abcdef", "NO_COLOR", "0.7.0"),
    "`tests/explain/test_explain.py` looks at a terminal, and passes a word that is not UTF-8": (
        "\\x1b[",
        "\\x1b[0m",
        "a word of the command line is not UTF-8",
    ),
    "the script of a page, with its own quotes": (";\n };\n\n const place = table => {\n const cells = all(table, ",),
    "MANY, below": ("<li>and perhaps others below</li></ul></nav>",),
}
# A page lists only so many faults and remarks, and then says that there may be more.
MANY = ("tilelink-trace 1 client 8 manager 8\n" + "E 00\n" * 200, "<li>and perhaps others below</li></ul></nav>")

QUOTED = re.compile(r'"((?:[^"\\]|\\.|\\\n)*)"')
ESCAPES = {"\\n": "\n", '\\"': '"', "\\\\": "\\", "\\'": "'", "\\t": "\t", "\\r": "\r"}


def run(program: Path, words: Sequence[str], text: bytes) -> Tuple[bytes, bytes, int]:
    said = subprocess.run(
        ["tlexplain", *words], executable=program, input=text, capture_output=True, timeout=60, cwd=HERE
    )
    return said.stdout, said.stderr, said.returncode


def plain(text: str) -> str:
    """A text with each run of blanks as one, without what a page escapes: help is broken into lines, and HTML has its
    own quotes."""
    return html.unescape(re.sub(r"\s+", " ", text))


def literals(path: Path) -> Iterator[str]:
    """The texts in quotes of a source file, outside comments and tests, each in the parts between its `#` and `{}`."""
    source = re.sub(r"(?m)^\s*//.*$|b?'\\?\"'", "", path.read_text())
    for found in QUOTED.finditer(source):
        text = re.sub(r"\\\n\s*", "", found[1])
        text = re.sub(r"\\.", lambda escape: ESCAPES.get(escape[0], escape[0]), text)
        for part in re.split(r"#|\{\w*\}", text):
            if len(part.strip()) > 2:
                yield part


def stored() -> str:
    """All stored outputs as one text, with the links of pages and without them."""
    files = [path for path in HERE.iterdir() if path.suffix in (".text", ".json", ".html", ".error")]
    for end in (".explain", ".lanes", ".json", ".html", ".order"):
        files += (ROOT / "examples").rglob("*" + end)
    files.append(ROOT / "examples" / "faults" / "faults.text")
    text = plain("\n".join(path.read_text(errors="replace") for path in files))
    return text + re.sub(r"<a href[^>]*>|</a>", "", text)


def unseen() -> Iterator[str]:
    """The texts in quotes that no stored output has, with their files."""
    said, never = stored(), {plain(text) for texts in NEVER.values() for text in texts}
    stale = set(never)
    for crate in CRATES:
        for path in sorted((ROOT / "crates" / crate / "src").rglob("*.rt")):
            for part in map(plain, literals(path)):
                stale.discard(part)
                if part not in said and part not in never:
                    yield f"{crate}/{path.name}: no stored output has {part!r}"
    yield from (f"NEVER has {part!r}, which no source has" for part in sorted(stale))


@pytest.mark.parametrize("name, trace, options, status", CASES, ids=[name for name, *_ in CASES])
def test_the_stored_output(name: str, trace: str, options: Any, status: int) -> None:
    """The output, the standard error and the status are the stored ones."""
    error = HERE / f"{name}.error"
    wanted = (
        (HERE / name).read_bytes() if (HERE / name).exists() else b"",
        error.read_bytes() if error.exists() else b"",
        status,
    )
    assert run(needs_program("tlexplain"), options.split(), (HERE / f"{trace}.trace").read_bytes()) == wanted


def test_a_page_of_many_remarks() -> None:
    """A page lists only so many, and says that there may be more."""
    text, end = MANY
    assert end.encode() in run(needs_program("tlexplain"), ["--html"], text.encode())[0]


def test_each_sentence_is_in_a_stored_output() -> None:
    """Each text in quotes of the sources is shown by an output, or has its reason in NEVER."""
    assert list(unseen()) == []
