"""Runs the verified program `tlexplain`, and checks what it prints for each trace. This proves nothing.

It takes every trace and text of tests/lib/program_cases.py. The far lines of each channel, in order, and the last six
lines have to be those of `tlbridge run`. Standard error and the exit status have to be those of `tlbridge`, apart from
the program's name. Each line of a trace has to have its sentence, once and in order, by itself or in a run of lines
that were not offered. Whole outputs are in `.explain` files next to traces of examples/ and of its folders faults,
mistakes (what people get wrong) and remarks (one for each rule). Those with pictures of lanes are in `.lanes`, and
those of `--in-order` in `.order`. Each line of them was worked out by hand. The output of `--faults` is in
examples/faults/faults.text. A fault that no trace shows has a line for the shell, examples/faults/*.command, and next
to it the expected standard error.

The page of `--html` is also read for some of these traces: its tags have to be closed, its links have to lead
somewhere, and it has to have the texts of the `.explain` and the `.lanes`. test_page.py checks pages in a browser.

python/tlbridge/explain.py reads the output of `--json` for all these traces, and for a thousand with random mistakes.
The sentences are made again from the records, and have to be those of the text (tests/lib/records.py).
"""

import os
import pty
import re
import shlex
import subprocess
from html.parser import HTMLParser
from pathlib import Path
from typing import Any, Callable, Dict, Iterable, Iterator, List, Optional, Sequence, Set, Tuple

import program_cases as cases
import pytest
import records
import refusals
from differences import Differences
from program_cases import CHANNELS, WHOLE, Run, Trace, Words, compare
from project import EXAMPLES, ROOT

FATES = re.compile(r": (accepted|refused|waiting|not offered)(, |$)")
SENTENCE = re.compile(r"line (\d+): |lines (\d+) to (\d+), (\d+) beats: not offered, ")

Judge = Callable[[bytes], bool]


def numbers_of(sentences: Iterable[str]) -> Iterator[int]:
    """The numbers of the lines that these sentences speak of."""
    for sentence in sentences:
        ((line, first, last, count),) = SENTENCE.findall(sentence)[:1]
        numbers = [int(line)] if line else [*range(int(first), int(last) + 1)]
        yield from numbers if line or len(numbers) == int(count) > 1 else ()


def explains(trace: Trace) -> Judge:
    """Whether an output has the far lines and the last lines of the trace's answer, and a sentence
    for each line of the trace."""
    wanted = trace.answer.splitlines()
    numbers = range(2, trace.text.count(b"\n") + 1)

    def will_do(came: bytes) -> bool:
        lines = came.decode().splitlines()
        far = [line[4:] for line in lines if line[:4] == "    " and line[4:5] in CHANNELS]
        sentences = [line for line in lines if SENTENCE.match(line)]
        if lines[-6:] != [wanted[0], *wanted[-5:]]:
            return False
        for channel in CHANNELS:
            if [line for line in far if line[0] == channel] != [line for line in wanted if line[0] == channel]:
                return False
        if list(numbers_of(sentences)) != list(numbers):
            return False
        return all(FATES.search(line) for line in sentences)

    return will_do


def error_of(said: str) -> bytes:
    """Returns what this program prints on standard error if `tlbridge` prints `said`."""
    return re.sub("^tlbridge: ", "tlexplain: ", said).encode()


def shows(trace: Trace) -> Judge:
    """Whether an output has the fault of a text that is not a trace, the line, and a mark below it."""
    fault = trace.error.strip().removeprefix("tlbridge: ")

    def will_do(came: bytes) -> bool:
        lines = came.decode().splitlines()
        return (
            lines[0].startswith(fault + ": ")
            and lines[1].startswith("    ")
            and re.fullmatch(r" {4,}\^", lines[2]) is not None
            and len(lines) == (4 if " 16 Length" in fault and len(lines) == 4 else 3)
        )

    return will_do


def runs_of(trace: Trace) -> Iterator[Run]:
    """A trace by no words and with lanes."""
    for words in ((), ("--lanes",)):
        name = f"{trace.name}, by {' '.join(words) or 'no words'}"
        answer = shows(trace) if trace.error else explains(trace)
        yield Run(name, words, trace.text, answer, error_of(trace.error), trace.status)


def stored_outputs(named: Any) -> Iterator[Run]:
    for end, words in (
        (".explain", ()),
        (".lanes", ("--lanes",)),
        (".json", ("--json",)),
        (".html", ("--html",)),
        (".order", ("--in-order",)),
    ):
        for path in sorted(EXAMPLES.rglob("*" + end)):
            if not path.with_suffix(".trace").exists():
                continue
            text = path.with_suffix(".trace").read_bytes()
            trace = next((trace for trace in named.values() if trace.text == text), None)
            said = path if end in (".explain", ".lanes", ".order") else path.with_suffix(".explain")
            error, status = (trace.error, trace.status) if trace else end_of(said.read_text())
            yield Run(str(path.relative_to(ROOT)), words, text, path.read_bytes(), error_of(error), status)


def end_of(said: str) -> Tuple[str, int]:
    """Returns the standard error and the status that belong to this whole output."""
    fault = re.match(r"(line \d+: 1\d [A-Z]\w+): ", said)
    if fault:
        return f"tlbridge: {fault[1]}\n", 3
    return "", cases.status_of(said)


# Texts that are not traces, for what is expected at the place of a version or of an id: the text, its
# message, and the place of the mark below the faulty line.
HEADER_FORM = (
    "the header 'tilelink-trace V client C manager M', where V is the version, 1 or 2, and C and M are"
    " bytes, each 1, 2, 4, 8, 16, 32, 64 or, in version 2, 128"
)
PLACES = (
    (("tilelink-trace 3 client 8 manager 4",), f"14 Header: expected {HEADER_FORM}", 15, ()),
    (("tilelink-trace 1 client 128 manager 4",), f"14 Header: expected {HEADER_FORM}", 25, ()),
    (("tilelink-trace 2 client 4 manager 129",), f"14 Header: expected {HEADER_FORM}", 36, ()),
    (
        ("tilelink-trace 2 client 8 manager 4", "E 2a"),
        (
            "16 Length: the line has 4 characters, expected 6, in the form below the mark;"
            " it has the form of version 1, in which an id has 2 digits"
        ),
        4,
        ("E 0000",),
    ),
    (
        ("tilelink-trace 1 client 8 manager 4", "E 002a"),
        (
            "16 Length: the line has 6 characters, expected 4, in the form below the mark;"
            " it has the form of version 2, in which an id has 4 digits"
        ),
        4,
        ("E 00",),
    ),
    (
        ("tilelink-trace 2 client 8 manager 4", "E 0A00"),
        "17 Shape: expected a digit, 0 to 9 or a to f, of the field sink, found 'A': digits are of lower case",
        3,
        (),
    ),
)


def runs_of_places() -> Iterator[Run]:
    for lines, said, place, form in PLACES:
        number, fault = len(lines), said.partition(":")[0]
        shown = [f"line {number}: {said}", "    " + lines[-1], "    " + " " * place + "^"]
        answer = "\n".join([*shown, *("    " + line for line in form), ""]).encode()
        text = "\n".join([*lines, ""]).encode()
        error = f"tlexplain: line {number}: {fault}\n".encode()
        yield Run(f"the place of {fault} in {lines[-1]}", (), text, answer, error, 3)


# A trace in which both A and D stop, and the output for each choice of lines: Gets of sources
# 00 to 03, of which the second is unaligned, and the responses to the first, the third and the fourth.
STOPPED = """tilelink-trace 1 client 8 manager 8
A 4 0 2 00 0000000000001000 0f 0000000000000000 0
A 4 0 2 01 0000000000001002 3c 0000000000000000 0
D 1 0 2 00 00 0 0000000004030201 0
A 4 0 2 02 0000000000001008 0f 0000000000000000 0
D 1 0 2 02 00 0 0000000004030201 0
A 4 0 2 03 000000000000100c f0 0000000000000000 0
D 1 0 2 03 00 0 0000000004030201 0
E 05
"""
STOPPED_SENTENCES = {
    2: (
        "line 2: A Get, source 00, 4 bytes at 0x1000: accepted, far beat 0\n"
        "    A 4 0 2 00 0000000000001000 0f 0000000000000000 0\n"
    ),
    3: (
        "line 3: A Get, source 01, 4 bytes at 0x1002: refused, 4 Unaligned: the address 0x1002 is not"
        " a multiple of the message's 4 bytes\n"
    ),
    4: (
        "line 4: D AccessAckData, source 00, 4 bytes: accepted, far beat 0, answers line 2\n"
        "    D 1 0 2 00 00 0 0000000004030201 0\n"
    ),
    5: "line 5: A Get, source 02, 4 bytes at 0x1008: not offered, since line 3 was refused\n",
    6: (
        "line 6: D AccessAckData, source 02, 4 bytes: waiting, 9 NoRequest: no request of source 02"
        " waits for a response: the request in line 5 was not offered, since line 3 was refused\n"
    ),
    (7, 8): "lines 7 to 8, 2 beats: not offered, A since line 3 was refused, D since line 6 waits\n",
    (5, 7): "lines 5 to 7, 2 beats: not offered, A since line 3 was refused\n",
    7: "line 7: A Get, source 03, 4 bytes at 0x100c: not offered, since line 3 was refused\n",
    8: "line 8: D AccessAckData, source 03, 4 bytes: not offered, since line 6 waits\n",
    9: "line 9: E GrantAck, sink 05: accepted, far beat 0\n    E 05\n",
}
STOPPED_ANSWER = """tilelink-far 1 client 8 manager 8
= A refused 1 Unaligned
= B done 0 0
= C done 0 0
= D waiting 1 NoRequest
= E done 1 1
"""
CHOICES = (
    ((), (2, 3, 4, 5, 6, (7, 8), 9)),
    (("--only", "problems"), (3, 5, 6, (7, 8))),
    (("--from", "7"), ((7, 8), 9)),
    (("--from", "4", "--to", "7"), (4, 5, 6, 7)),
    (("--to", "2"), (2,)),
    (("--channel", "A"), (2, 3, (5, 7))),
    (("--channel", "E"), (9,)),
    (("--source", "2"), (5, 6)),
    (("--source", "03"), ((7, 8),)),
    (("--source", "00", "--channel", "D"), (4,)),
    (("--channel", "D", "--only", "problems"), (6, 8)),
    (("--from", "10"), ()),
)

# A Get of a source whose last Get had a response that was not accepted, for each reason: the lines of D,
# and the sentence of the second Get, in line 3.
BUSY = """tilelink-trace 1 client 8 manager 8
A 4 0 2 00 0000000000001000 0f 0000000000000000 0
A 4 0 2 00 0000000000001004 f0 0000000000000000 0
"""
BUSY_SAID = "waiting, 8 SourceBusy: source 00 still waits for the response to its request in line 2: "
BUSY_RESPONSES = (
    ("", "answer it on D, or use another source"),
    ("D 6 0 2 00 00 0 0000000000000000 0\n", "answer it on D, or use another source"),
    ("D 1 0 3 00 00 0 0000000004030201 0\n", "its response in line 4 was refused"),
    (
        "D 3 0 2 00 00 0 0000000004030201 0\nD 1 0 2 00 00 0 0000000004030201 0\n",
        "its response in line 4 was refused",
    ),
    (
        "D 1 0 2 01 00 0 0000000004030201 0\nD 1 0 2 00 00 0 0000000004030201 0\n",
        "its response in line 5 was not offered, since line 4 waits",
    ),
)
# A response whose source has been answered already.
ANSWERED = """tilelink-trace 1 client 8 manager 8
A 4 0 2 00 0000000000001000 0f 0000000000000000 0
D 1 0 2 00 00 0 0000000004030201 0
D 1 0 2 00 00 0 0000000004030201 0
"""
ANSWERED_SAID = "no request of source 00 waits for a response: its last one, in line 2, is answered"


def says(line: int, end: str) -> Judge:
    """Whether the sentence of a line ends so."""

    def will_do(came: bytes) -> bool:
        found = re.search(f"^line {line}: .*", came.decode(), re.M)
        return found is not None and found[0].endswith(end)

    return will_do


def runs_of_choices() -> Iterator[Run]:
    text = STOPPED.encode()
    for words, lines in CHOICES:
        words = ("--no-remarks", *words)
        answer = "".join(STOPPED_SENTENCES[line] for line in lines) + STOPPED_ANSWER
        yield Run(f"shown by {words}", words, text, answer.encode(), status=1)
    said = (EXAMPLES / "remarks" / "no_response.explain").read_text().splitlines(True)
    trace = (EXAMPLES / "remarks" / "no_response.trace").read_bytes()
    without = "".join(line for line in said if "remark: " not in line)
    yield Run("remarks that are shown", ("--only", "problems"), trace, "".join(said).encode())
    yield Run("no remarks", ("--no-remarks",), trace, without.encode())
    none = "".join(said[3:]).encode()
    yield Run("neither", ("--no-remarks", "--only", "problems"), trace, none)


def runs_of_waits() -> Iterator[Run]:
    for lines, end in BUSY_RESPONSES:
        name = f"a busy source before {lines or 'nothing'!r}"
        yield Run(name, (), (BUSY + lines).encode(), says(3, BUSY_SAID + end), status=1)
    answer = says(4, ANSWERED_SAID)
    yield Run("a second response", (), ANSWERED.encode(), answer, status=1)


# The marks on lanes in a page, by their classes; and the tags without an end.
MARKS = {"idle": "..", "masked": "--", "wrong": "!!", "empty": "##"}
VOID_TAGS = ("meta", "link")


class PageReader(HTMLParser):
    """What a page says: texts by class or tag, the lanes of its beats, ids, links, and for each message its ids and
    whether it is open."""

    def __init__(self, page: str) -> None:
        super().__init__()
        self.open: List[Tuple[str, str]] = []
        self.texts: Dict[str, List[str]] = {}
        self.lanes: List[List[str]] = []
        self.ids: List[str] = []
        self.links: List[str] = []
        self.messages: List[Tuple[Set[str], bool]] = []
        self.is_closed = True
        self.feed(page)
        self.close()
        self.is_closed &= not self.open

    def handle_starttag(self, tag: str, attributes: List[Tuple[str, Optional[str]]]) -> None:
        values = {name: value or "" for name, value in attributes}
        kind = values.get("class") or (f"{self.open[-1][1]} small" if tag == "small" else tag)
        if tag not in VOID_TAGS:
            self.open.append((tag, kind))
            self.texts.setdefault(kind, []).append("")
        self.ids += [values["id"]] if "id" in values else []
        self.links += [values["href"]] if tag == "a" else []
        if tag == "details":
            self.messages.append((set(), "open" in values))
        if tag == "article":
            self.messages[-1][0].add(values["id"])
        if tag == "table":
            self.lanes.append([])
        if tag == "td":
            self.lanes[-1].append(MARKS.get(values.get("class", ""), ""))

    def handle_endtag(self, tag: str) -> None:
        self.is_closed &= bool(self.open) and self.open.pop()[0] == tag

    def handle_data(self, data: str) -> None:
        for _, kind in self.open:
            self.texts[kind][-1] += data
        if self.open and self.open[-1][0] == "td" and not self.lanes[-1][-1]:
            self.lanes[-1][-1] = data

    def said(self) -> Any:
        """The sentences, the remarks, the lines about all channels and the answer, as in the text output."""
        lines = list(zip(*(self.texts.get(kind, []) for kind in ("h3", "h3 small", "fields", "came"))))
        texts = []
        for name, line, fields, came in lines:
            came = re.sub(r", answered in line \d+$", "", came)
            name, line = name[: -len(" " + line)], re.sub(r" to \d+(?=$|, time )", "", line)
            texts.append(f"{line}: {name}, {fields}: {came}")
        return (
            texts
            + self.texts.get("run", [])
            + self.texts.get("remark", [])
            + self.texts.get("cut", [])
            + (self.texts["answer"][0].splitlines())
        )


def lanes_in(said: Any) -> Any:
    """The lanes that pictures in text show, highest first, a list for each beat."""
    found: List[List[str]] = []
    named = None
    for line in said.splitlines():
        words = line.split()
        if line.startswith("    lane"):
            goes_on = named is not None and int(words[1]) + 1 == named
            named = int(words[-1])
            if not goes_on:
                found.append([])
        elif words[0] in ("near", "far"):
            found[-1] += words[1:]
        else:
            named = None
    return found


def folded(said: Any) -> Any:
    """The messages that `PageReader` has to find on a page, from the text output for the same trace."""
    found: List[Any] = []
    last: Dict[str, int] = {}
    letter = ""
    for text in said.splitlines():
        if text.startswith("    remark: "):
            found[last[letter]][1] = True
        if not (parts := re.match(r"line (\d+): ([A-E]) .*?(?:, beat (\d+) of \d+)?: (accepted)?", text)):
            continue
        line, letter, beat, is_accepted = parts.groups()
        is_new = not (is_accepted and int(beat or 0) and letter in last)
        if is_new:
            last[letter] = len(found)
            found.append([set(), not is_accepted])
        found[last[letter]][0].add(f"line-{line}")
    return [tuple(message) for message in found]


def shows_page(stem: str) -> Judge:
    """Whether a page says what the text of this example says, and shows the lanes that it draws."""
    text = (EXAMPLES / f"{stem}.explain").read_text()
    lines = (EXAMPLES / f"{stem}.trace").read_text().count("\n")
    drawn = EXAMPLES / f"{stem}.lanes"
    wanted = [line.strip() for line in text.splitlines() if not re.match("    [A-E] ", line)]

    def will_do(came: bytes) -> bool:
        page = PageReader(came.decode())
        near_and_far = (len(page.texts.get("near", [])), len(page.texts.get("far", [])))
        far = len(re.findall("^    [A-E] ", text, re.M))
        return (
            page.is_closed
            and len(set(page.ids)) == len(page.ids)
            and all(link[1:] in page.ids for link in page.links)
            and sorted(page.said()) == sorted(wanted)
            and page.texts["li"] == records.problems(text)
            and page.texts["overview"] == [records.overview(text, lines)]
            and page.messages == folded(text)
            and near_and_far == (len(re.findall("^line ", text, re.M)), far)
            and (not drawn.exists() or page.lanes == lanes_in(drawn.read_text()))
        )

    return will_do


def runs_of_pages() -> Iterator[Run]:
    for stem in ("get", "partial_write", "refused_beat", "cut_burst", "remarks/grants_less"):
        text = (EXAMPLES / f"{stem}.trace").read_bytes()
        status = cases.status_of((EXAMPLES / f"{stem}.explain").read_text())
        yield Run(f"the page of {stem}", ("--html",), text, shows_page(stem), status=status)
    choice = ("--html", "--no-remarks", "--only", "problems")
    yield Run(
        "the page of problems",
        choice,
        STOPPED.encode(),
        status=1,
        answer=lambda came: PageReader(came.decode()).ids == ["line-3", "line-5", "line-6", "line-7"],
    )
    spoilt = b'tilelink-trace 1 client 8 manager 8\n<b>"A&amp;"</b> 4\n'
    said = '    <b>"A&amp;"</b> 4\n    ^\n'
    yield Run(
        "the page of markup",
        ("--html",),
        spoilt,
        error=b"tlexplain: line 2: 15 Channel\n",
        status=3,
        answer=lambda came: "".join(PageReader(came.decode()).texts["fault"][:1]).endswith(said),
    )


def runs_of_files() -> Iterator[Run]:
    """A trace in a file; standard input is not read."""
    get = str(EXAMPLES / "get.trace")
    said = (EXAMPLES / "get.explain").read_bytes()
    yield Run("a file", (get,), b"no trace", said)
    yield Run("a file and an option", ("--from", "2", get), b"", said)
    read = said_of("21_Read")
    for file in (str(EXAMPLES / "there is no such file"), str(ROOT), ""):
        yield Run(f"a file that cannot be read: {file!r}", (file,), error=read, status=4)
    blank = str(EXAMPLES / "mistakes" / "06_blank.trace")
    said = (EXAMPLES / "mistakes" / "06_blank.explain").read_bytes()
    error = b"tlexplain: line 3: 15 Channel\n"
    yield Run("a file that is not a trace", (blank,), b"", said, error, 3)


# Files of times for examples/get.trace, and what standard error says of each: the line, and how its sentence begins.
TIMES = ("100\n140\n", "0\n0\n", "12.5 ns\n12.50 ns\n", "9\n10.0us\n")
BAD_TIMES = (
    ("100\n", 2, "the file ends here, but the trace has more beats"),
    ("", 1, "the file ends here"),
    ("100\n140\n160\n", 3, "the trace has no beat for this time"),
    ("100\n\n", 2, "expected a time"),
    ("100\n140", 2, "expected a time"),
    ("100\r\n140\r\n", 1, "expected a time"),
    ("-1\n140\n", 1, "expected a time"),
    ("x\n140\n", 1, "expected a time"),
    ('100\n"<&\n', 2, "expected a time"),
    ("1" * 19 + "\n140\n", 1, "expected a time"),
    ("140\n100\n", 2, "the time is before that of the line above"),
    ("1.25\n1.2\n", 2, "the time is before that of the line above"),
)


def has_heads(heads: Sequence[str]) -> Judge:
    """Whether a page has these places of its lines."""
    return lambda came: PageReader(came.decode()).texts["h3 small"] == heads


def begins(text: str) -> Judge:
    """Whether an output begins so."""
    return lambda came: came.decode().startswith(text)


def runs_of_times(room: Path) -> Iterator[Run]:
    """Times with the lines of examples/get.trace, in text and on a page, and files of times that do not fit."""
    text = (EXAMPLES / "get.trace").read_bytes()
    said = (EXAMPLES / "get.explain").read_text()
    path = room / "link.times"
    for number, times in enumerate((*TIMES, *(times for times, _, _ in BAD_TIMES))):
        path.with_suffix(f".{number}").write_bytes(times.encode())
    for number, times in enumerate(TIMES):
        words, wanted = ("--times", str(path.with_suffix(f".{number}"))), said
        for line, time in enumerate(times.splitlines(), 2):
            wanted = wanted.replace(f"line {line}: ", f"line {line}, time {time}: ")
        yield Run(f"times {times!r}", words, text, wanted.encode())
        heads = [f"line {line}, time {time}" for line, time in enumerate(times.splitlines(), 2)]
        yield Run(f"a page with times {times!r}", (*words, "--html"), text, has_heads(heads))
    for number, (times, line, begin) in enumerate(BAD_TIMES, len(TIMES)):
        file = path.with_suffix(f".{number}")
        error = begins(f"tlexplain: {file}, line {line}: {begin}")
        yield Run(f"times {times!r}", ("--times", str(file)), text, error=error, status=3)
    for name in (str(path), str(room), ""):
        unread = f"tlexplain: {name}: 21 Read\n    the file of the times could not be read\n".encode()
        yield Run(f"times that cannot be read: {name!r}", ("--times", name), text, error=unread, status=4)


def runs_in_order() -> Iterator[Run]:
    """A source that is used again before its response, without and with the order of time."""
    lines = STOPPED.splitlines(True)
    again = "".join([*lines[:2], lines[1].replace("1000", "1008"), lines[3], lines[3]]).encode()
    said = "    remark: source 00 is still in use by Get, in line 2 (TileLink 1.8: Get)\n"
    yield Run("a source that is used twice", (), again, lambda came: b"remark" not in came)
    at = (
        lambda came: came.decode().split(said)[0].splitlines()[-2].startswith("line 3: ") and came.count(b"remark") == 1
    )
    yield Run("a source that is used twice, in order", ("--in-order",), again, at)
    lost = "".join([*lines[:2], lines[1].replace("1000", "1008"), lines[3]]).encode()
    said_lost = (
        "    remark: no response of source 00 answers it before line 3 uses the source again (TileLink 1.8: Get)\n"
    )
    at = (
        lambda came: came.decode().split(said_lost)[0].splitlines()[-2].startswith("line 2: ")
        and b"answers line 3" in came
    )
    yield Run("a response that is lost, in order", ("--in-order",), lost, at)


def is_refusal(said: bytes) -> bool:
    """Whether standard error begins with an error of the command line."""
    return said.startswith(b"error: ")


def runs_of_words() -> Iterator[Run]:
    """Help, the version, the faults, and command lines that are refused."""
    for words in (("--help",), ("-h",)):
        yield Run(f"help: {words}", words, answer=lambda said: b"Usage: tlexplain" in said)
    for words in (("--version",), ("-V",)):
        yield Run(f"version: {words}", words, answer=b"tlexplain 0.7.0\n")
    faults = (EXAMPLES / "faults" / "faults.text").read_bytes()
    yield Run("the faults", ("--faults",), answer=faults)
    wrong_values: Tuple[Words, ...] = (("--only", "faults"), ("--from", "x"), ("--to", "-1"), ("--source", "g"))
    wrong_values += (("--source", "10000"), ("--channel", "a"), ("--channel", "AB"), ("--channel",))
    wrong_values += (("--only", ""), ("--from", ""), ("--to", str(2**64)), ("--source", ""), ("--channel", ""))
    wrong_words: Tuple[Words, ...] = (("a", "b"), ("--fast",), ("--lanes", "--lanes"), (b"--lanes\xff",))
    wrong_words += (("--json", "--html"), ("--times",), ("--times", "a", "--times", "b"))
    for line in (*wrong_words, *wrong_values):
        yield Run(f"refused: {line!r}", line, error=is_refusal, status=2)


def runs_of_streams(get: Trace) -> Iterator[Run]:
    read, write, too_long = map(said_of, ("21_Read", "22_Write", "23_TooLong"))
    most = b"\n" * cases.MAX_BYTES
    yield Run("a folder to read", (), error=read, status=4, input_from=str(ROOT))
    yield Run("a full disk", (), get.text, error=write, status=4, answer_to="/dev/full")
    faults = ("--faults",)
    yield Run("faults on a full disk", faults, error=write, status=4, answer_to="/dev/full")
    yield Run("a byte too many", (), most + b"\n", error=too_long, status=4)


def said_of(fault: str) -> bytes:
    """Returns the standard error for a fault that no trace shows."""
    return (EXAMPLES / "faults" / f"{fault}.error").read_bytes()


def block_traces() -> Iterator[Trace]:
    """Yields tests whose output has several blocks, with one or more lines that were not offered after each other
    line."""
    held = "A 4 0 3 00 0000000000000004 ff 0000000000000000 0"
    for period in (2, 3, 40):
        lines = [held, *(held if number % period else f"E {number % 256:02x}" for number in range(6000))]
        link = "1 client 8 manager 8"
        far = [line for line in lines if line[0] == "E"]
        reports = {"A": "refused 0 Unaligned", "E": f"done {len(far)} {len(far)}"}
        text = "\n".join((f"tilelink-trace {link}", *lines, "")).encode()
        answer = cases.answer_with(link, far, reports)
        yield Trace(f"lines that were not offered, {period}", text, answer, status=1)


def at_terminal(path: Path, text: bytes, environment: Dict[str, str]) -> bytes:
    """Returns the output of the program at a terminal."""
    here, there = pty.openpty()
    started = subprocess.Popen([str(path)], stdin=subprocess.PIPE, stdout=there, env={**environment})
    os.close(there)
    assert started.stdin
    started.stdin.write(text)
    started.stdin.close()
    came = b""
    try:
        while part := os.read(here, 65536):
            came += part
    except OSError:
        pass  # how a terminal says that the other end is closed
    os.close(here)
    started.wait(timeout=120)
    return came


# ---- The tests

TRACES = cases.stored_traces()
NAMED = {trace.name: trace for trace in TRACES}
STORED = tuple(stored_outputs(NAMED))
BLOCKS = tuple(block_traces())
# The traces that are spoilt by random mistakes, and how many times, in parts.
SHORT_BYTES, SPOILT, PARTS = 4000, 1000, 10


def by_name(things: Iterable[Any]) -> List[Any]:
    """The parameters of a test, each with its name as its id."""
    return [pytest.param(thing, id=thing.name) for thing in things]


@pytest.mark.parametrize("trace", by_name((*TRACES, *cases.large_traces(), *BLOCKS)))
def test_each_line_has_its_sentence(tlexplain: Path, differences: Differences, trace: Trace) -> None:
    """The sentences, far lines and last lines of each trace, or the faulty line of a text that is none."""
    compare(differences, tlexplain, runs_of(trace))


@pytest.mark.parametrize("name", WHOLE)
def test_broken_texts(tlexplain: Path, differences: Differences, name: str) -> None:
    """A text cut after each of its bytes, and with each byte replaced."""
    for trace in (*cases.cut_traces(NAMED[name]), *cases.spoilt_traces(NAMED[name])):
        compare(differences, tlexplain, runs_of(trace))


@pytest.mark.parametrize("run", by_name(STORED))
def test_the_stored_output(tlexplain: Path, differences: Differences, run: Run) -> None:
    """Whole outputs next to the traces of examples/."""
    compare(differences, tlexplain, [run])


@pytest.mark.parametrize("run", by_name(runs_of_places()))
def test_the_place_of_a_fault(tlexplain: Path, differences: Differences, run: Run) -> None:
    """What is expected at the place of a version or of an id."""
    compare(differences, tlexplain, [run])


@pytest.mark.parametrize("run", by_name(runs_of_choices()))
def test_the_choice_of_lines(tlexplain: Path, differences: Differences, run: Run) -> None:
    """--from, --to, --channel, --source, --only and --no-remarks."""
    compare(differences, tlexplain, [run])


@pytest.mark.parametrize("run", by_name(runs_of_waits()))
def test_why_a_beat_waits(tlexplain: Path, differences: Differences, run: Run) -> None:
    """A source that is busy, for each reason why its response did not come."""
    compare(differences, tlexplain, [run])


@pytest.mark.parametrize("run", by_name(runs_of_pages()))
def test_a_page(tlexplain: Path, differences: Differences, run: Run) -> None:
    """A page says what the text says, and escapes markup."""
    compare(differences, tlexplain, [run])


@pytest.mark.parametrize("run", by_name(runs_of_files()))
def test_a_file(tlexplain: Path, differences: Differences, run: Run) -> None:
    """A trace in a file, and files that cannot be read."""
    compare(differences, tlexplain, [run])


def test_times(tlexplain: Path, differences: Differences, tmp_path: Path) -> None:
    """Times with the lines of a trace, in text and on a page, and files of times that do not fit."""
    compare(differences, tlexplain, runs_of_times(tmp_path))


@pytest.mark.parametrize("run", by_name(runs_in_order()))
def test_lines_in_the_order_of_time(tlexplain: Path, differences: Differences, run: Run) -> None:
    """Remarks that need the order of time."""
    compare(differences, tlexplain, [run])


@pytest.mark.parametrize("run", by_name(runs_of_words()))
def test_the_words(tlexplain: Path, differences: Differences, run: Run) -> None:
    """Help, the version, the faults, and each refusal of a command line."""
    compare(differences, tlexplain, [run])


def test_streams(tlexplain: Path, differences: Differences) -> None:
    """Streams that fail, and a text of one byte too many."""
    compare(differences, tlexplain, runs_of_streams(NAMED["a Get to a narrower bus"]))


@pytest.mark.parametrize(
    "environment, is_coloured", (({}, True), ({"NO_COLOR": ""}, True), ({"NO_COLOR": "1"}, False)), ids=str
)
def test_colours_at_a_terminal(tlexplain: Path, environment: Dict[str, str], is_coloured: bool) -> None:
    """Colours are shown only at a terminal, and not if NO_COLOR is set."""
    came = at_terminal(tlexplain, (EXAMPLES / "get.trace").read_bytes(), environment)
    assert (b"\x1b[32maccepted\x1b[0m" in came) == is_coloured


COMMANDS = sorted((EXAMPLES / "faults").glob("*.command"))


@pytest.mark.parametrize("command", COMMANDS, ids=lambda path: str(path.stem))
def test_the_commands_of_faults_that_no_trace_shows(tlexplain: Path, command: Path) -> None:
    """The lines for the shell of examples/faults end with status 4, and each says what it has to."""
    line = command.read_text().replace("./tlexplain", shlex.quote(str(tlexplain)))
    ended = subprocess.run(["sh", "-c", line], cwd=ROOT, capture_output=True, timeout=120)
    assert (ended.returncode, ended.stdout, ended.stderr) == (4, b"", said_of(command.stem))


def test_four_faults_have_commands() -> None:
    assert len(COMMANDS) == 4


@pytest.mark.parametrize("words", ((), ("--json",)), ids=("text", "json"))
def test_each_growth_of_memory_refused(
    tlexplain: Path, differences: Differences, tmp_path: Path, words: Tuple[str, ...]
) -> None:
    """If each allocation from the Nth on fails, for any N, the program reports only that memory ran out, or its output
    is complete."""
    runs, text = refusals.Refusals(tlexplain, refusals.shim(tmp_path), differences), BLOCKS[0].text
    whole, number, seen, is_refused = runs.run(words, text), 0, set(), True
    while is_refused:
        number += 1
        ended = runs.run(words, text, **{"from": number})
        is_refused = ended.log != ended.log.lower()
        seen.add(ended.status)
        is_whole = ended.is_fault(whole.status, b"", whole.output)
        is_of_words = ended.status == 2 and ended.output == b"" and "r" not in ended.log
        is_right = is_whole or is_of_words or ended.is_fault(4, said_of("13_OutOfMemory"))
        differences.holds(f"growths from {number} on are refused", is_right, str(ended))
    differences.same("how these runs end", seen, {2, 4, whole.status})


def json_texts() -> List[bytes]:
    return [
        *(trace.text for trace in cases.stored_traces()),
        *(path.read_bytes() for path in sorted(EXAMPLES.rglob("*.trace"))),
    ]


def test_json_says_what_the_text_says(tlexplain: Path, differences: Differences) -> None:
    """The sentences made from the records of each trace are those of the text."""
    for text in json_texts():
        differences.same(f"{text[:200]!r}", records.json_failure(str(tlexplain), text), None)


@pytest.mark.parametrize("part", range(PARTS))
def test_json_of_traces_with_random_mistakes(tlexplain: Path, differences: Differences, part: int) -> None:
    """The same for traces with up to three mistakes."""
    short = [text for text in json_texts() if len(text) < SHORT_BYTES]
    for number, text in enumerate(records.spoilt_texts(short, SPOILT, 1)):
        if number % PARTS == part:
            differences.same(f"text {number}", records.json_failure(str(tlexplain), text), None)
