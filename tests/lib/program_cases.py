"""Traces with what the verified program has to make of them, and runs of a program that are compared with that.

The expected output is in tests/program/program.cases, and in examples/ and examples/faults/ (a trace and its answer, or
the line of standard error). Some is computed here. For texts of several pieces the unverified model, ./tlbridge-model,
computes it. None of it was ever taken from the program.
"""

import functools
import os
import subprocess
import sys
import tempfile
from concurrent.futures import ThreadPoolExecutor
from dataclasses import dataclass
from pathlib import Path
from typing import Callable, Dict, Iterable, Iterator, List, Sequence, Tuple, Union

from differences import Differences
from project import EXAMPLES, MODEL, ROOT

CASES = ROOT / "tests" / "program"
CHANNELS = "ABCDE"
MAX_BYTES = 67_108_864

Words = Tuple[Union[str, bytes], ...]
Expected = Union[bytes, Callable[[bytes], bool]]

# The case whose text is cut and spoilt, in each version.
WHOLE = ("one beat on each channel", "one beat on each channel, in version 2")

# The answer is the same for each of these.
RUNS = (
    ("run",),
    ("run", "--sync"),
    ("run", "--ring", "1", "--turns", "1"),
    ("run", "--ring", "4096", "--turns", "1000"),
)
ANSWER_ORDERS = (*RUNS, ("check",))


@dataclass
class Trace:
    """A text, and what the program has to make of it by `run`."""

    name: str
    text: bytes = b""
    answer: str = ""
    error: str = ""
    status: int = 0


@dataclass
class Run:
    """One run of the program. A stream that is a function is asked whether it will do."""

    name: str
    words: Words
    text: bytes = b""
    answer: Expected = b""
    error: Expected = b""
    status: int = 0
    input_from: str = ""
    answer_to: str = ""
    error_to: str = ""


# ---- The stored cases


def text_of(line: str) -> bytes:
    """The bytes of a line of a trace."""
    end = b"\n"
    if line.endswith("\\0"):
        line, end = line[:-2], b""
    return line.replace("\\r", "\r").encode() + end


def marked_lines(name: str, marks: Sequence[str]) -> Iterator[Tuple[str, str]]:
    """The lines of a file of tests/program, each with its mark, without those that are empty or a comment."""
    for line in (CASES / name).read_text().splitlines():
        mark, _, rest = line.partition(" ")
        if mark in marks:
            yield mark, rest
        elif mark not in ("", "#"):
            raise ValueError(f"tests/program/{name}: what is this line? {line}")


def stored_traces() -> List[Trace]:
    """The cases of tests/program/program.cases, and the traces of examples/ and examples/faults/."""
    found: List[Trace] = []
    for mark, rest in marked_lines("program.cases", ("case:", "<", ">", "!", "status:")):
        if mark == "case:":
            found.append(Trace(rest))
        elif mark == "<":
            found[-1].text += text_of(rest)
        elif mark == ">":
            found[-1].answer += rest + "\n"
        elif mark == "!":
            found[-1].error += rest + "\n"
        else:
            found[-1].status = int(rest)
    for path in sorted(EXAMPLES.glob("*.trace")):
        found.append(example(path, path.name))
    for path in sorted((EXAMPLES / "faults").glob("*.trace")):
        found.append(example(path, f"the fault {path.stem}"))
    return found


def example(path: Path, name: str) -> Trace:
    """A trace, with its `.answer` file, or with its `.error` file, which has the line of standard error."""
    error = path.with_suffix(".error")
    if error.exists():
        return Trace(name, path.read_bytes(), "", error.read_text(), 3)
    answer = path.with_suffix(".answer").read_text()
    return Trace(name, path.read_bytes(), answer, "", status_of(answer))


def status_of(answer: str) -> int:
    """Returns 0 if all five report lines say done, otherwise 1."""
    reports = [line for line in answer.splitlines() if line.startswith("= ")]
    return 0 if all(line.split()[2] == "done" for line in reports) else 1


def checked(answer: str) -> str:
    """The answer of `check`: the first line and the reports."""
    return "".join(line for line in answer.splitlines(True) if line[0] not in CHANNELS)


def expected(trace: Trace, order: str) -> bytes:
    """Returns the output of a command for a trace."""
    return (checked(trace.answer) if order == "check" else trace.answer).encode()


def runs_of(trace: Trace, orders: Iterable[Tuple[str, ...]] = ANSWER_ORDERS) -> Iterator[Run]:
    for words in orders:
        name = f"{trace.name}, by {' '.join(words)}"
        yield Run(name, words, trace.text, expected(trace, words[0]), trace.error.encode(), trace.status)


# ---- Traces that are computed


def fault(line: int, number_and_name: str) -> str:
    return f"tlbridge: line {line}: {number_and_name}\n"


def answer_with(link: str, far_lines: Iterable[str], reports: Dict[str, str]) -> str:
    """Returns an answer to a trace of this version and these widths. A channel that `reports` does not name
    has no beats."""
    lines = [f"tilelink-far {link}", *far_lines]
    lines += [f"= {channel} {reports.get(channel, 'done 0 0')}" for channel in CHANNELS]
    return "\n".join(lines) + "\n"


def cut_traces(whole: Trace) -> Iterator[Trace]:
    """A text cut after each number of its bytes: a header, and a line of E, D, C, B and A."""
    lines = whole.text.splitlines(True)
    letters = [line[:1].decode() for line in lines[1:]]
    if len(whole.text) not in (206, 218) or letters != list("EDCBA"):
        raise ValueError("the text that is cut is not the one that the cuts were made for")
    far_lines = {line[0]: line for line in whole.answer.splitlines() if line[0] in CHANNELS}
    link = lines[0].decode().strip().removeprefix("tilelink-trace ")
    for count in range(len(whole.text) + 1):
        name, text = f"a trace of version {link[0]} cut after {count} bytes", whole.text[:count]
        ends = [len(b"".join(lines[:at])) for at in range(len(lines) + 1)]
        at = max(i for i, end in enumerate(ends) if end <= count)
        rest = count - ends[at]
        if rest == 0 and at > 0:
            there = {letter: "done 1 1" for letter in letters[: at - 1]}
            if "D" in there and "A" not in there:
                there["D"] = "waiting 0 NoRequest"
            came = [far_lines[letter] for letter in CHANNELS if there.get(letter) == "done 1 1"]
            answer = answer_with(link, came, there)
            yield Trace(name, text, answer, "", status_of(answer))
        elif rest == len(lines[at]) - 1:
            yield Trace(name, text, "", fault(at + 1, "19 NoEnd"), 3)
        else:
            kind = "14 Header" if at == 0 else "16 Length"
            yield Trace(name, text, "", fault(at + 1, kind), 3)


def spoilt_traces(whole: Trace) -> Iterator[Trace]:
    """The same text with bytes replaced."""

    version = whole.text.split()[1].decode()

    def spoilt(why: str, kind: str, number: int, line: bytes, *more: Tuple[int, bytes]) -> Trace:
        lines = whole.text.splitlines()
        for at, by in ((number, line), *more):
            lines[at - 1] = by
        text = b"".join(line + b"\n" for line in lines)
        name = f"line {number} of version {version} {why}"
        return Trace(name, text, "", fault(number, kind), 3)

    lines = [b"", *whole.text.splitlines()]
    for number in (2, 4, 6):
        line = lines[number]
        yield spoilt("of an unknown channel", "15 Channel", number, b"G")
        yield spoilt("without its last digit", "16 Length", number, line[:-1])
        yield spoilt("without its first space", "17 Shape", number, line.replace(b" ", b"_", 1))
    for number in (3, 4, 6):
        yield spoilt("with corrupt 2", "18 Range", number, lines[number][:-1] + b"2")
    space, corrupt = lines[4].replace(b" ", b"_", 1), lines[6][:-1] + b"2"
    yield spoilt("before another fault", "17 Shape", 4, space, (6, corrupt))
    yield spoilt("with a carriage return", "14 Header", 1, lines[1] + b"\r")
    for number in range(2, 7):
        line = lines[number]
        yield spoilt("with a carriage return", "16 Length", number, line + b"\r")
        for byte in (b"\0", b"\xff"):
            why = f"with byte {byte[0]} for a digit"
            for at in (i for i in range(2, len(line)) if line[i : i + 1] != b" "):
                spoilt_line = line[:at] + byte + line[at + 1 :]
                yield spoilt(f"{why} at {at}", "17 Shape", number, spoilt_line)


# In version 1: the number of a line of the text that is cut, its replacement, and then the first fault, with its line.
FAULTY = (
    (1, b"", 1, "14 Header"),
    (1, b"\n", 1, "14 Header"),
    (1, b"tilelink-trace 1 client 4 manager 8\r\n", 1, "14 Header"),
    (1, b"tilelink-trace 1 client 3 manager 8\n", 1, "14 Header"),
    (1, b"tilelink-trace 1 client 128 manager 8\n", 1, "14 Header"),
    (1, b"tilelink-trace 1 client 4 manager 128\n", 1, "14 Header"),
    (1, b"tilelink-trace 2 client 256 manager 8\n", 1, "14 Header"),
    (1, b"tilelink-trace 0 client 4 manager 8\n", 1, "14 Header"),
    (1, b"tilelink-trace 3 client 4 manager 8\n", 1, "14 Header"),
    (1, b"tilelink-trace 12 client 4 manager 8\n", 1, "14 Header"),
    (1, b"tilelink-trace 02 client 4 manager 8\n", 1, "14 Header"),
    (1, b"tilelink-trace  client 4 manager 8\n", 1, "14 Header"),
    (1, b"tilelink-trace client 4 manager 8\n", 1, "14 Header"),
    (1, b"tilelink-trace 2 client 4 manager 8\n", 2, "16 Length"),
    (1, b"tilelink-trace 1 client 4  manager 8\n", 1, "14 Header"),
    (2, b"F 00\n", 2, "15 Channel"),
    (2, b"F 00000\n", 2, "15 Channel"),
    (2, b"\n", 2, "15 Channel"),
    (4, b"G\n", 4, "15 Channel"),
    (6, b"G", 6, "15 Channel"),
    (2, b"E 0\n", 2, "16 Length"),
    (2, b"E 0A0\n", 2, "16 Length"),
    (2, b"E 002a\n", 2, "16 Length"),
    (1, b"tilelink-trace 2 client 2 manager 2\nE 2a\n", 2, "16 Length"),
    (1, b"tilelink-trace 2 client 2 manager 2\nE 0107\nE 01_7\n", 3, "17 Shape"),
    (2, b"E 07\r\n", 2, "16 Length"),
    (4, b"C 4 1 6 00 0000000000000080 00000000 \n", 4, "16 Length"),
    (6, b"A 7 2 6 01 0000000000000040 f 00000000 \n", 6, "16 Length"),
    (6, b"A 7 2 6 01 0000000000000040 f 00000000 0\r\n", 6, "16 Length"),
    (2, b"E_07\n", 2, "17 Shape"),
    (2, b"E 0A\n", 2, "17 Shape"),
    (2, b"E 0\x00\n", 2, "17 Shape"),
    (2, b"E 0\xff\n", 2, "17 Shape"),
    (3, b"D 4 0 6 01 07 0 0000000000000000 \xff\n", 3, "17 Shape"),
    (4, b"C_4 1 6 00 0000000000000080 00000000 2\n", 4, "17 Shape"),
    (4, b"C 4 1 6 00 0000000000000080 00000000 \x00\n", 4, "17 Shape"),
    (5, b"B 7 2 6 00 0000000000000080 ff 0000000000000000 \xff\n", 5, "17 Shape"),
    (6, b"A 7 2 6 0g 0000000000000040 f 00000000 0\n", 6, "17 Shape"),
    (6, b"A 7 2 6 01 0000000000000040 f 00000000_0\n", 6, "17 Shape"),
    (6, b"A 7 2 6 01 0000000000000040 f 00000000 \x00\n", 6, "17 Shape"),
    (3, b"D 4 0 6 01 07 0 0000000000000000 2\n", 3, "18 Range"),
    (3, b"D 4 4 6 01 07 0 0000000000000000 0\n", 3, "18 Range"),
    (4, b"C 4 1 6 00 0000000000000080 00000000 2\n", 4, "18 Range"),
    (5, b"B 7 8 6 00 0000000000000080 ff 0000000000000000 0\n", 5, "18 Range"),
    (6, b"A 7 2 6 01 0000000000000040 f 00000000 2\n", 6, "18 Range"),
    (2, b"E 07", 2, "16 Length"),
    (6, b"A 7 2 6 01 0000000000000040 f 00000000 0", 6, "19 NoEnd"),
    (6, b"A 7 2 6 01 0000000000000040 f 00000000 2", 6, "18 Range"),
    (1, b"tilelink-trace 1 client 2 manager 2\nA 4 0 1 00 0000000000000000 4 0000 0\n", 2, "18 Range"),
    (1, b"tilelink-trace 1 client 2 manager 2\nA 4 0 1 0g 0000000000000000 4 0000 0\n", 2, "17 Shape"),
    (1, b"tilelink-trace 1 client 2 manager 2\nD 4 4 1 00 00 0 0000 0\n", 2, "18 Range"),
    (1, b"tilelink-trace 1 client 2 manager 2\nE 0a", 2, "16 Length"),
)


def faulty_traces(whole: Trace) -> Iterator[Trace]:
    """The same text with one line replaced by another one."""
    for row, (number, line, at, kind) in enumerate(FAULTY):
        lines = whole.text.splitlines(True)
        lines[number - 1] = line
        yield Trace(f"faulty text {row}, in place of line {number}", b"".join(lines), "", fault(at, kind), 3)


# A trace of the widest bus, whose masks have 32 digits.
WIDE = (
    "a partial put with mask bits on both halves, and a put of 64 bytes on the upper half,"
    " from a bus of 128 bytes to one of 64"
)


def mask_traces(whole: Trace) -> Iterator[Trace]:
    """That text with an upper-case digit at each place of its first mask."""
    lines = whole.text.splitlines(True)
    fields = lines[1].split(b" ")
    at = len(b" ".join(fields[:6])) + 1
    if len(fields[6]) != 32:
        raise ValueError("the mask that is spoilt has not 32 digits")
    for digit in range(32):
        line = lines[1][: at + digit] + b"F" + lines[1][at + digit + 1 :]
        text = b"".join((lines[0], line, *lines[2:]))
        yield Trace(f"digit {digit} of a mask in upper case", text, "", fault(2, "17 Shape"), 3)


def put_lines(width: int, source: str) -> Iterator[str]:
    """A put of 4,096 bytes from address 0, on a bus of `width` bytes."""
    data = [(7 * at + at // 256) % 256 for at in range(4096)]
    mask = f"{2**width - 1:0{(width + 3) // 4}x}"
    for at in range(0, 4096, width):
        lanes = "".join(f"{byte:02x}" for byte in reversed(data[at : at + width]))
        yield f"A 0 0 c {source} 0000000000000000 {mask} {lanes} 0"


# Each version with a source in its digits, and pairs of widths: its widest bus and the narrowest one,
# and the two widest ones of all.
LARGE = (
    ("1", "00", ((64, 1), (1, 64))),
    ("2", "ff00", ((128, 1), (1, 128), (128, 64), (64, 128))),
)


def large_traces() -> Iterator[Trace]:
    """The longest message, to the narrowest bus and to the widest one, in both versions; and many short ones."""
    for version, source, pairs in LARGE:
        for client, manager in pairs:
            link = f"{version} client {client} manager {manager}"
            lines = (f"tilelink-trace {link}", *put_lines(client, source), "")
            report = f"done {4096 // client} {4096 // manager}"
            answer = answer_with(link, put_lines(manager, source), {"A": report})
            name = f"a put of 4,096 bytes, version {link}"
            yield Trace(name, "\n".join(lines).encode(), answer)
    acknowledgements = [f"E {sink:02x}" for sink in range(200)]
    text = "\n".join(("tilelink-trace 1 client 4 manager 8", *acknowledgements, ""))
    answer = answer_with("1 client 4 manager 8", acknowledgements, {"E": "done 200 200"})
    yield Trace("200 acknowledgements", text.encode(), answer)


# The program reads a text in pieces of PIECE_BYTES bytes. The end of the first piece cuts a line of E in
# version 1, and is also the end of a line of E in version 2.
PIECE_BYTES = 262_144
LINES_OF_E = (("1", b"E 5a\n"), ("2", b"E 005a\n"))


def long_traces() -> Iterator[Trace]:
    """Texts of more than two pieces, and faults before, at and after the end of the first one."""
    for version, line in LINES_OF_E:
        link = f"{version} client 8 manager 8"
        header = f"tilelink-trace {link}\n".encode()
        whole = (PIECE_BYTES - len(header)) // len(line)
        count = 2 * whole + 3
        answer = answer_with(link, [(line * count).decode().rstrip()], {"E": f"done {count} {count}"})
        yield Trace(f"{count} lines of version {version}", header + line * count, answer)
        for before in (whole - 1, whole, whole + 1):
            name = f"line {before + 2} of version {version}"
            text = header + line * before
            shape = fault(before + 2, "17 Shape")
            yield Trace(f"{name} with g", text + line[:-2] + b"g\n" + line, "", shape, 3)
            no_end = fault(before + 2, "19 NoEnd")
            yield Trace(f"{name} without its end", text + line[:-1], "", no_end, 3)
        for letter, kind in ((b"E", "16 Length"), (b"G", "15 Channel")):
            for end in (b"", b"\n", b"\n" + line):
                name = f"a line longer than a piece, {letter!r} {end!r} of version {version}"
                text = header + line + letter * (PIECE_BYTES + 9) + end
                yield Trace(name, text, "", fault(3, kind), 3)


# A line of C, its far line, and a line of E, with lengths that make up any large number of bytes.
LINE_OF_C = b"C 4 1 6 00 0000000000000080 00000000 0\n"
FAR_LINE_OF_C = "C 4 1 6 00 0000000000000080 0000000000000000 0"
LINE_OF_E = b"E 07\n"


def parted_traces(whole: Trace) -> Iterator[Trace]:
    """The lines of the text that is cut, after many others: the end of the first piece divides them at each
    of their bytes. The same without the end of the last line, and with another letter in the third one."""
    header, *lines = whole.text.splitlines(True)
    there = b"".join(lines)
    misspelt = there.replace(b"\nD ", b"\nF ")
    answer = whole.answer.splitlines()
    far_lines = [line for line in answer if line[0] in CHANNELS]
    for first in range(len(there) + 1):
        room = PIECE_BYTES - len(header) - first
        of_c = next(count for count in range(5) if (room - count * len(LINE_OF_C)) % len(LINE_OF_E) == 0)
        of_e = (room - of_c * len(LINE_OF_C)) // len(LINE_OF_E)
        before = header + LINE_OF_C * of_c + LINE_OF_E * of_e
        a, b, c, d, e = far_lines
        came = [a, b, *[FAR_LINE_OF_C] * of_c, c, d, f"{e}\n" * of_e + e]
        reports = dict.fromkeys("ABD", "done 1 1")
        reports |= {letter: f"done {count + 1} {count + 1}" for letter, count in (("C", of_c), ("E", of_e))}
        link = answer[0].removeprefix("tilelink-far ")
        number = of_c + of_e + 1
        yield Trace(
            f"five lines of which {first} bytes are in a piece", before + there, answer_with(link, came, reports)
        )
        no_end = fault(number + 5, "19 NoEnd")
        yield Trace(f"the same without the last end, {first}", before + there[:-1], "", no_end, 3)
        yield Trace(f"the same with another letter, {first}", before + misspelt, "", fault(number + 2, "15 Channel"), 3)


# ---- Beats on both sides of the end of the first piece

# Lines with lengths that make up any large number of bytes, on buses of 8 bytes: each arrives unchanged.
LINK_OF_8 = "1 client 8 manager 8"
C_OF_8 = "C 4 1 6 00 0000000000000080 0000000000000000 0"
E_OF_8 = "E 07"
NO_DATA = "0000000000000000 0"

GET = f"A 4 0 3 00 0000000000001000 ff {NO_DATA}"
GET_AGAIN = f"A 4 0 3 00 0000000000001008 ff {NO_DATA}"
GET_64 = f"A 4 0 6 00 0000000000000040 ff {NO_DATA}"
GET_64_AGAIN = f"A 4 0 6 00 0000000000000080 ff {NO_DATA}"
UNALIGNED = f"A 4 0 3 00 0000000000001004 f0 {NO_DATA}"
DATA = "D 1 0 3 00 00 0 1122334455667788 0"
DATA_OF_OTHER_SIZE = "D 1 0 2 00 00 0 1122334455667788 0"
DATA_OF_NO_REQUEST = "D 1 0 3 05 00 0 1122334455667788 0"
PUT = [f"A 0 0 6 01 0000000000000040 ff {at:016x} 0" for at in range(1, 9)]
DATA_64 = [f"D 1 0 6 00 00 0 {at:016x} 0" for at in range(1, 9)]

# The lines before the end of the first piece and after it, those of them that arrive, and how the channels end that
# have beats.
ACROSS: Tuple[Tuple[str, List[str], List[str], List[str], Dict[str, str]], ...] = (
    *((f"a put of 8 beats, {n} of them in a piece", PUT[:n], PUT[n:], PUT, {"A": "done 8 8"}) for n in range(1, 8)),
    ("a burst that ends nowhere", PUT[:3], PUT[3:5], PUT[:5], {"A": "cut 5 5"}),
    (
        "a head that changes behind the end of a piece",
        PUT[:4],
        [PUT[4].replace(" 01 ", " 02 "), PUT[5]],
        PUT[:4],
        {"A": "refused 4 HeadChanged"},
    ),
    (
        "a busy source, answered in the next piece",
        [GET, GET_AGAIN],
        [DATA],
        [GET, GET_AGAIN, DATA],
        {"A": "done 2 2", "D": "done 1 1"},
    ),
    ("a busy source, not answered", [GET, GET_AGAIN], [GET_AGAIN], [GET], {"A": "waiting 1 SourceBusy"}),
    ("a response a piece before its request", [DATA], [GET], [GET, DATA], {"A": "done 1 1", "D": "done 1 1"}),
    ("a response without a request", [DATA_OF_NO_REQUEST], [GET], [GET], {"A": "done 1 1", "D": "waiting 0 NoRequest"}),
    (
        "a response of another size",
        [GET],
        [DATA_OF_OTHER_SIZE],
        [GET],
        {"A": "done 1 1", "D": "refused 0 SizeMismatch"},
    ),
    (
        "a beat that is refused, and others in the next piece",
        [UNALIGNED],
        [GET, GET_AGAIN],
        [],
        {"A": "refused 0 Unaligned"},
    ),
    (
        "a source used again within its response",
        [GET_64, *DATA_64[:4]],
        [GET_64_AGAIN, *DATA_64[4:]],
        [GET_64, GET_64_AGAIN, *DATA_64],
        {"A": "done 2 2", "D": "done 8 8"},
    ),
)

# The last line of a text that has a beat that waits, and one that is refused, in its first piece.
SPOILT = (
    (GET.replace("1000", "100g") + "\n", "17 Shape"),
    (GET, "19 NoEnd"),
    ("X\n", "15 Channel"),
    (GET.replace(" ff ", " f ") + "\n", "16 Length"),
)


def whole_lines(lines: Iterable[str]) -> str:
    return "".join(f"{line}\n" for line in lines)


def behind_others(first: Sequence[str], inside: int) -> Tuple[str, int, int]:
    """Returns lines of C and E such that the first piece ends `inside` bytes after `first`, and the numbers of both
    kinds."""
    room = PIECE_BYTES - len(f"tilelink-trace {LINK_OF_8}\n") - len(whole_lines(first)) - inside
    of_c = next(count for count in range(5) if (room - count * len(C_OF_8 + "\n")) % len(E_OF_8 + "\n") == 0)
    of_e = (room - of_c * len(C_OF_8 + "\n")) // len(E_OF_8 + "\n")
    return f"tilelink-trace {LINK_OF_8}\n" + f"{C_OF_8}\n" * of_c + f"{E_OF_8}\n" * of_e, of_c, of_e


def boundary_traces() -> Iterator[Trace]:
    """Bursts, waits and faults with the end of the first piece within them: between two lines, and within the line
    after it."""
    for inside in (0, 1, 17):
        for name, first, rest, came, reports in ACROSS:
            before, of_c, of_e = behind_others(first, inside)
            far_lines = [line for letter in "AB" for line in came if line[0] == letter]
            far_lines += [C_OF_8] * of_c + [line for line in came if line[0] == "D"]
            far_lines.append(f"{E_OF_8}\n" * (of_e - 1) + E_OF_8)
            reports = {**reports, "C": f"done {of_c} {of_c}", "E": f"done {of_e} {of_e}"}
            status = 0 if all(report.startswith("done") for report in reports.values()) else 1
            text = (before + whole_lines(first) + whole_lines(rest)).encode()
            yield Trace(
                f"{name}, {inside} bytes of a line", text, answer_with(LINK_OF_8, far_lines, reports), "", status
            )
        for first in ([GET, GET_AGAIN], [UNALIGNED], [DATA]):
            for last, kind in SPOILT:
                before, of_c, of_e = behind_others(first, inside)
                text = (before + whole_lines(first) + whole_lines([GET]) + last).encode()
                at = 1 + of_c + of_e + len(first) + 2
                yield Trace(f"{first[0][:1]} waits or is refused, and {kind}, {inside}", text, "", fault(at, kind), 3)


# The lines of a message by its channel.
Message = Dict[str, List[str]]

# The messages of a text of more than two pieces: of each number a put or a Get and its response, a probe, a
# release and an acknowledgement, each of 64 bytes.
MESSAGES = 660
MIDDLE = MESSAGES // 2


def beats_of(number: int, client: int, manager: int) -> Message:
    """The lines of each channel's message of this number, by its letter."""
    source, address = f"{number:04x}", f"{64 * number:016x}"

    def data(width: int, count: int) -> List[str]:
        return [f"{(number << 8) + beat:0{2 * width}x}" for beat in range(count)]

    def mask(width: int) -> str:
        return f"{2**width - 1:0{(width + 3) // 4}x}"

    client_beats, manager_beats = -(-64 // client), -(-64 // manager)
    is_put = number % 2 == 0
    request = f"A {0 if is_put else 4} 0 6 {source} {address} {mask(client)}"
    response = f"D {0 if is_put else 1} 0 6 {source} 0000 0"
    return {
        "A": [f"{request} {lanes} 0" for lanes in data(client, client_beats if is_put else 1)],
        "B": [f"B 6 0 6 {source} {address} {mask(manager)} {lanes} 0" for lanes in data(manager, 1)],
        "C": [f"C 7 0 6 {source} {address} {lanes} 0" for lanes in data(client, client_beats)],
        "D": [f"{response} {lanes} 0" for lanes in data(manager, 1 if is_put else manager_beats)],
        "E": [f"E {source}"],
    }


def as_they_are(messages: List[Message]) -> None:
    """Each channel is done."""


def refused_in_the_middle(messages: List[Message]) -> None:
    """A head that changes within a burst, so that no response after it finds its request, and an address that no
    release may have."""
    put, release = messages[MIDDLE]["A"], messages[MIDDLE]["C"]
    put[2] = put[2].replace("A 0 0 6 ", "A 0 0 5 ")
    release[0] = release[0].replace(f" {64 * MIDDLE:016x} ", f" {64 * MIDDLE + 1:016x} ")


def waiting_in_the_middle(messages: List[Message]) -> None:
    """A request whose source has another one open, to which no response comes, and a response that finds no request."""
    before, there = messages[MIDDLE - 1], messages[MIDDLE]
    source, other = f" {MIDDLE:04x} ", f" {MIDDLE - 1:04x} "
    there["A"] = [line.replace(source, other, 1) for line in there["A"]]
    before["D"] = []


def cut_at_the_end(messages: List[Message]) -> None:
    """Bursts that the end of the text cuts: a release, and the response to the last request, a Get."""
    for letter in "CD":
        messages[-1][letter].pop()


PIECED = (
    ("each lawful", as_they_are, 8, 4),
    ("refused in the middle", refused_in_the_middle, 4, 8),
    ("waiting in the middle", waiting_in_the_middle, 8, 8),
    ("cut at the end", cut_at_the_end, 4, 16),
)


def pieced_texts() -> Iterator[Tuple[str, List[bytes]]]:
    """The lines of each text of more than two pieces, which part bursts, with its name: message by message."""
    for name, changed, client, manager in PIECED:
        messages = [beats_of(number, client, manager) for number in range(MESSAGES)]
        changed(messages)
        header = f"tilelink-trace 2 client {client} manager {manager}"
        lines = [header, *(line for message in messages for letter in CHANNELS for line in message[letter])]
        yield name, [f"{line}\n".encode() for line in lines]


def model_answer(text: bytes) -> Tuple[str, str, int]:
    """The answer of the unverified model by `run`: standard output, standard error as the program prints it, and the
    status."""
    done = subprocess.run([sys.executable, str(MODEL), "run"], input=text, capture_output=True, timeout=600)
    return done.stdout.decode(), done.stderr.decode().replace("tlbridge-model: ", "tlbridge: "), done.returncode


@functools.lru_cache(maxsize=None)
def pieced_traces() -> Tuple[Trace, ...]:
    """These texts with their channels in turns, and one after the other, either way round: the answer is the same. And
    each with a last line that is none."""
    texts, found = list(pieced_texts()), []
    with ThreadPoolExecutor(os.cpu_count()) as pool:
        answers = list(pool.map(model_answer, [b"".join(lines) for _, lines in texts]))
    for (name, (header, *lines)), (answer, error, status) in zip(texts, answers):
        orders = {"in turns": lines}
        for letters in (CHANNELS, CHANNELS[::-1]):
            orders[letters] = [line for letter in letters.encode() for line in lines if line[0] == letter]
        for order, ordered in orders.items():
            text = header + b"".join(ordered)
            assert len(text) > 2 * PIECE_BYTES
            found.append(Trace(f"{name}, {order}", text, answer, error, status))
            no_line = fault(len(lines) + 2, "17 Shape")
            found.append(Trace(f"{name}, {order}, and a line that is none", text + b"E 0g00\n", "", no_line, 3))
    return tuple(found)


# A million acknowledgements, five million bytes.
LONG_TEXT = b"tilelink-trace 1 client 8 manager 8\n" + b"E 00\n" * 1_000_000


# ---- Running them


def stream(path: str, mode: int) -> int:
    return os.open(path, mode) if path else subprocess.PIPE


def failures(program: Path, run: Run) -> List[str]:
    """What is wrong with a run of the program, or nothing."""
    reads, writes, says = (
        stream(run.input_from, os.O_RDONLY),
        stream(run.answer_to, os.O_WRONLY),
        stream(run.error_to, os.O_WRONLY),
    )
    # by whichever compiler it is built, it is called by its name
    name = program.name
    words = [name[: -len(".by-rattle")] if name.endswith(".by-rattle") else name, *run.words]
    started = subprocess.Popen(
        words, executable=program, stdin=reads, stdout=writes, stderr=says, cwd=tempfile.gettempdir()
    )
    try:
        answer, error = started.communicate(None if run.input_from else run.text, timeout=120)
    except subprocess.TimeoutExpired:
        started.kill()
        started.communicate()
        return ["it does not end"]
    finally:
        for given in (reads, writes, says):
            if given != subprocess.PIPE:
                os.close(given)
    wrong = []
    if started.returncode != run.status:
        wrong.append(f"status {started.returncode}, not {run.status}")
    for where, came, wanted in (
        ("standard output", answer or b"", run.answer),
        ("standard error", error or b"", run.error),
    ):
        if not (wanted(came) if callable(wanted) else came == wanted):
            wrong.append(f"{where}:\n{came[:2000].decode(errors='backslashreplace')}")
            if not callable(wanted):
                wrong.append(f"instead of:\n{wanted[:2000].decode()}")
    return wrong


def compare(differences: Differences, program: Path, runs: Iterable[Run]) -> None:
    """Notes what is wrong with each of these runs of a program."""
    for run in runs:
        wrong = failures(program, run)
        differences.holds(run.name, not wrong, "\n".join(wrong))
