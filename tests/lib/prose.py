#!/usr/bin/env python3
"""Finds sentences that docs/STYLE.md rules out, in documents, comments and printed messages.

    tests/lib/prose.py PATH ..    lists the sentences of these files and folders, the excepted ones too

The text of a file is that of its paragraphs (Markdown, man pages), or of its comments and of its string literals with
at least four words. Code in backticks, headings and blocks set apart by four spaces are left out.
tests/repository/test_prose.py is the test.
"""

import ast
import io
import re
import sys
import tokenize
from pathlib import Path
from typing import Callable, Dict, Iterable, Iterator, List, NamedTuple, Tuple

ROOT = Path(__file__).resolve().parents[2]
Lines = Iterable[Tuple[int, str]]
# No sentence of these pages has more words.
SHORT_PAGES = (
    "README.md",
    *(
        f"docs/{name}.md"
        for name in (
            "START",
            "OUTPUT",
            "WAVES",
            "CONNECT",
            "INSTALL",
            "GUIDE",
            "SCOREBOARD",
            "C",
            "PYTHON",
            "COCOTB",
            "CHECKER",
            "FAULTS",
            "LIMITS",
            "FORMAL",
            "UVM",
            "ROCKET_CHIP",
            "RATTLE",
        )
    ),
)
MOST_WORDS = 35
# The forms, each with a sentence that has it and one that does not.
FORMS = {
    "let go": (
        r"\b[Ll]et(s|ting)?\b( [\w`]+,?){0,6} go(?!\w)",
        "It lets the first beats of a list go.",
        "It lets the caller choose.",
    ),
    "lack": (r"\b[Ll]ack(s|ed|ing)?\b", "The link lacks channel B.", "The link has no channel B."),
    "owe": (r"\b[Oo]w(es?|ed)\b", "The caller owes that it fits.", "The caller must prove that it fits."),
    "told of": (r"\b([Tt]old|[Tt]ells?) of\b", "Faults are told of known requests.", "It tells the caller the line."),
    "fare": (r"\b[Ff]are[sd]?\b", "It shows how a beat fares.", "It shows what happened to a beat."),
    "but for": (r"\b[Bb]ut for\b", "All are equal but for the last.", "All are equal except the last."),
    "no multiple": (r"\b[Nn]o multiple\b", "The address is no multiple of 4.", "The address is not a multiple of 4."),
    "so many": (r"\b[Ss]o many\b", "It removes so many of the beats.", "It removes `count` of the beats."),
    "exactly where": (
        r"\b[Ee]xactly where\b",
        "It is true exactly where the list is empty.",
        "It is true if and only if the list is empty.",
    ),
    "begins with What, Of or That of": (
        r"^(What|Of|That of)\b",
        "What is staged still crosses it.",
        "Staged beats still cross it.",
    ),
    "two colons or semicolons": (
        r"[:;](?=\s).*[:;](?=\s)",
        "It reads: a line; a byte; an end.",
        "It ends at 10:20:30; then `a; b` is read (TileLink: masks).",
    ),
    "where for if": (r"\b[Ww]here\b", "It is 0 where no line has the fault.", "It names the line where the fault is."),
}
# Before "where" for a place, and after "where" in the words below a formula.
PLACE = re.compile(
    r"\b(address|argument|column|field|file|folder|heading|lanes?|levels?|lines?|link|page|places?|points?|position|"
    r"section|state|step|table|knows?|known|finds?|found|learns?|looks?|notes?|returns?|says?|sees?|seen|shows?|shown|"
    r"stays?|tells?|asks?|decides?|determines?|"
    r"of|from|to|is|are|on|or|just)"
    r"[`)]*,?( and)? where\b|: where\b|\bwhere ([A-Z]{1,8}|[b-z]|\+\+) "
)


# Colons and semicolons that do not count: after a label in front, at the end, and in parentheses.
NOT_COUNTED = re.compile(r"^([^:;]{1,16}: |[:;] )|[:;]$|\([^()]*\)")


class Sentence(NamedTuple):
    path: str
    line: int
    text: str


# ---- The prose of a file: lines, each with its number


def markdown_lines(text: str) -> Lines:
    """The lines, without comments and without what a script writes between two comments."""
    made = r"<!--[^>]*: made by .*?<!-- end .*?-->|<!--.*?-->"
    return list(
        enumerate(re.sub(made, lambda found: "\n" * str(found[0]).count("\n"), text, flags=re.S).splitlines(), 1)
    )


def man_lines(text: str) -> Lines:
    """The lines of a man page. A macro for a typeface belongs to its sentence, another one ends a paragraph."""
    for number, line in enumerate(text.splitlines(), 1):
        is_face = re.match(r"\.[BIR]{1,2} (.*)", line)
        line = is_face[1].replace('"', "") if is_face else "" if line.startswith(".") else line
        yield number, re.sub(r"\\f.|\\", "", line)


def comment_lines(text: str, mark: str, string: str) -> Lines:
    """The comments, and each string literal as a paragraph, of a language that begins comments with `mark`."""
    token = re.compile(
        rf"(?P<string>{string})|(?P<char>'(?:\\.|[^'\\\n])')|(?P<comment>{mark}[^\n]*)|(?P<block>/\*.*?\*/)", re.S
    )
    last = 0
    for found in token.finditer(text):
        number = text.count("\n", 0, found.start()) + 1
        if found["comment"] or found["block"]:
            if number != last + 1 or text[: found.start()].rpartition("\n")[2].strip():
                yield number, ""
            for at, line in enumerate(found[0].splitlines()):
                yield number + at, re.sub(rf"^\s*(?:{mark}[/!]*|/\*+|\*(?!\w))|\*/$", "", line).removeprefix(
                    " "
                ).rstrip()
                last = number + at
        elif found["string"]:
            literal = re.fullmatch(r'b?r?#*"(.*)"#*', found[0], re.S)
            yield from string_lines(number, literal[1].replace("\\n", "\n").replace("\\\n", " ") if literal else "")
            last = 0


def string_lines(number: int, text: str) -> Lines:
    if len(re.findall(r"[A-Za-z]{2,}", text)) >= 4:
        yield number, ""
        # (without the places in front of a message, as in `FILE: line 3: ..`, and without lines of another language)
        lines = re.sub(r"[^\n]*[;{}] *$", "", re.sub(r"^([^:;\n]{1,48}: )+", "", text), flags=re.M).splitlines()
        yield from ((number + at, line) for at, line in enumerate(lines))
        yield number, ""


def python_lines(text: str) -> Lines:
    """The comments, docstrings and other strings of a Python script. A place for a value is the word `code`."""
    last = 0
    for token in tokenize.generate_tokens(io.StringIO(text).readline):
        if token.type == tokenize.COMMENT:
            if token.start[0] != last + 1 or token.line[: token.start[1]].strip():
                yield last, ""
            last = token.start[0]
            yield last, re.sub(r"^[#! ]+|noqa: \w+", "", token.string)
    inside: set[int] = set()
    for node in ast.walk(ast.parse(text)):
        if isinstance(node, ast.JoinedStr):
            parts = [part.value if isinstance(part, ast.Constant) else "`x`" for part in node.values]
            inside |= {id(part) for part in node.values}
            yield from string_lines(node.lineno, "".join(map(str, parts)))
        elif isinstance(node, ast.Constant) and isinstance(node.value, str) and id(node) not in inside:
            indent = re.search(r"\n( *)\S[^\n]*\s*$", node.value)
            yield from string_lines(
                node.lineno, re.sub(rf"^ {{{len(indent[1])}}}", "", node.value, flags=re.M) if indent else node.value
            )


C_STRING = r'"(?:[^"\\]|\\.)*"'
READERS: Dict[str, Callable[[str], Lines]] = {
    ".md": markdown_lines,
    ".1": man_lines,
    ".py": python_lines,
    ".rt": lambda text: comment_lines(text, "//", rf'b?r#".*?"#|{C_STRING}'),
    ".antt": lambda text: comment_lines(text, "--", C_STRING),
    ".sh": lambda text: comment_lines(text, r"(?<![^\s])#", rf"{C_STRING}|'[^']*'"),
    **{ending: lambda text: comment_lines(text, "//", C_STRING) for ending in (".sv", ".h", ".c")},
}


def kind_of(path: Path, text: str) -> str:
    """The ending of a file's language: that of a script without one is in its first line."""
    if path.name == "Makefile":
        return ".sh"
    script = re.match(r"#!.*\b(python3|sh|bash)\b", text)
    return {"python3": ".py", "sh": ".sh", "bash": ".sh"}[script[1]] if script else path.suffix


# ---- Paragraphs and sentences


def paragraphs(lines: Lines) -> Iterator[List[Tuple[int, str]]]:
    """The paragraphs, each a list of lines with their numbers. An item of a list, a cell of a table and a text in a
    column are paragraphs."""
    block: List[Tuple[int, str]] = []
    is_fenced = False
    for number, line in [*lines, (0, "")]:
        is_fenced ^= line.startswith("```")
        is_alone = not line.strip() or is_fenced or line.startswith(("#", "|", "    ", "```", "\t"))
        item = re.match(r"\s*(?:- |\d+\. |> |@param |\S.*?\S {2,}(?=\S)|\S {2,}(?=\S))", line)
        if (is_alone or item) and block:
            if not block[0][1].startswith("Before: "):  # (how docs/STYLE.md shows what is ruled out)
                yield block
            block = []
        if line.startswith("|"):
            yield from ([(number, cell.strip())] for cell in line.split("|") if cell.strip())
        elif not is_alone:
            block.append((number, line[item.end() :] if item else line.strip()))


def plain(text: str) -> str:
    """A text without links and typefaces. Code counts as one word."""
    return re.sub(r"\[([^\]]*)\]\([^)]*\)", r"\1", re.sub(r"`[^`]*`", "code", text)).replace("*", "")


def sentences(path: Path) -> Iterator[Sentence]:
    text = path.read_text(errors="replace")
    reader = READERS.get(kind_of(path, text))
    for block in paragraphs(reader(text) if reader else []):
        # (a mark before each line keeps its number)
        whole = plain(" ".join(f"\x00{number}\x01{line}" for number, line in block))
        number = block[0][0]
        for part in re.split(r"(?<=[.!?])[\"')]*\s+(?=(?:\x00\d+\x01)?[\"'(]*(?:[A-Z0-9]|code|tl))", whole):
            marks = re.findall(r"\x00(\d+)\x01", part)
            number = int(marks[0]) if marks and part.startswith("\x00") else number
            yield Sentence(name_of(path), number, re.sub(r"\x00\d+\x01", "", part).strip())
            number = int(marks[-1]) if marks else number


# Strings that are scripts of yosys or abc, or fields of a format, and no sentences.
NO_SENTENCE = re.compile(
    r"\b(read_\w+|proc|scorr|pdr|bmc3|strash|write_\w+|dffunmap|opt_clean)\b[^;]*;|\b(Metadata|Wheel)-Version|^\d+\.\d+"
    r" \w+: "
)


def forms_in(sentence: Sentence) -> List[str]:
    """The forms of a sentence that are ruled out. Fewer than five words are a heading."""
    words = sentence.text.split()
    if len(words) < 5 or NO_SENTENCE.search(sentence.text):
        return []
    texts = {
        "where for if": PLACE.sub("", sentence.text),
        "two colons or semicolons": NOT_COUNTED.sub("", sentence.text),
    }
    found = [name for name, (form, *_) in FORMS.items() if re.search(form, texts.get(name, sentence.text))]
    if "exactly where" in found and "where for if" in found:
        found.remove("where for if")
    if sentence.path in SHORT_PAGES and len(words) > MOST_WORDS:
        found.append(f"{len(words)} words")
    return found


# ---- Files and folders


# ---- Four habits, on the pages that are read first

HABIT_PAGES = (
    *SHORT_PAGES,
    "docs/RTL.md",
)
# Each habit, with a sentence that has it and one that does not.
HABITS = {
    "that of, those that": (
        r"\b(that|those) of (a|an|the|this|that|each|its|[A-Z]\b|code)|\b[Tt]hose (that|which|who)\b",
        "Its lanes are those of its request.",
        "It has the lanes of its request.",
    ),
    "a clause for a noun": (
        r"\bthat (the|this|a|each|no) \w+ (knows|is known) to\b|\bas many( \w+)? as \w+ (is|are|has|have)\b",
        "It moves the beats that the side knows to fit.",
        "It moves all beats that fit.",
    ),
    "a private word": (
        r"\bquiet (moment|point)s?\b|\b[Tt]he way of (a|the)\b|"
        r"\b(an?|the|its|whole|same) answers? (is|to|of|and|says)\b",
        "It prints the answer to the trace.",
        "It prints the output for the trace.",
    ),
}
SHORT_SENTENCE, MOST_IN_A_ROW = 7, 3


def habits_in(found: Iterable[Sentence]) -> Iterator[Tuple[Sentence, str]]:
    """Yields the habits in the sentences of a page. Four short sentences in a row are one fact per full stop."""
    row: List[Sentence] = []
    for sentence in found:
        words = len(sentence.text.split())
        if words > 4:
            yield from ((sentence, name) for name, (form, *_) in HABITS.items() if re.search(form, sentence.text))
        is_short = 2 <= words <= SHORT_SENTENCE and sentence.text.endswith((".", "!", "?"))
        row = [*row, sentence] if is_short and (not row or sentence.line - row[-1].line <= 1) else [sentence] * is_short
        if len(row) > MOST_IN_A_ROW:
            yield row[0], "one fact per full stop"
            row = []


def files(top: Path) -> List[Path]:
    """The files below a path, except what is built, and tests."""
    if top.is_file():
        return [top]
    return sorted(
        path
        for path in top.rglob("*")
        if path.is_file() and not {"out", "__pycache__", "tests"} & {*path.relative_to(ROOT).parts}
    )


def read_files() -> List[Path]:
    """Each file that the test reads."""
    scripts = [
        path for path in ROOT.iterdir() if path.is_file() and path.name not in ("VERSION", "HANDLES", "crates.txt")
    ]
    folders = [ROOT / name for name in ("docs", "include", "packaging", "python", "rtl", "sv", "tools")]
    crates = [*ROOT.glob("crates/*/src"), *ROOT.glob("crates/*/specs")]
    pages = [ROOT / name / "README.md" for name in ("examples", "bench")]
    return [*scripts, *pages, *(path for top in (*folders, *crates) for path in files(top))]


def name_of(path: Path) -> str:
    return str(path.relative_to(ROOT))


def folder_of(name: str) -> str:
    parts = name.split("/")
    return "/".join(parts[:2]) if parts[0] == "crates" else parts[0] if len(parts) > 1 else "top"


def findings(paths: Iterable[Path]) -> List[Tuple[Sentence, List[str]]]:
    """The sentences that are ruled out, each with its forms."""
    return [(sentence, forms) for path in paths for sentence in sentences(path) if (forms := forms_in(sentence))]


def main(words: List[str]) -> int:
    if not words or words[0].startswith("-"):
        print(__doc__)
        return 0 if words == ["--help"] else 2
    for sentence, forms in findings([path for word in words for path in files(Path(word).resolve())]):
        print(f"{sentence.path}:{sentence.line}: {', '.join(forms)}: {sentence.text}")
    return 0


if __name__ == "__main__":
    sys.exit(main(sys.argv[1:]))
