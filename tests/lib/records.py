"""The text of an explanation, made again from the output of `tlexplain --json`, and whether both programs say the same.

Used by the tests of tests/explain and by bench/explain. It needs only Python 3, and python/ in the path of its modules.
"""

import random
import re
import subprocess
from typing import Any, Iterator, List, Optional, Sequence, Tuple

from tlbridge import explain

CHANNELS = "ABCDE"
STOPPED = {"refused": "was refused", "waiting": "waits"}


def length(size: int) -> str:
    return "1 byte" if size == 0 else f"{1 << size} bytes" if size <= 12 else f"2^{size} bytes"


def fields_of(line: Any, digits: int) -> str:
    name = line.message or f"opcode {line.opcode}"
    if line.channel == "E":
        return f"E {name}, sink {line.sink:0{digits}x}"
    at = "" if line.channel == "D" else f" at 0x{line.address:x}"
    flags = (", denied" if line.denied else "") + (", corrupt" if line.corrupt else "")
    return f"{line.channel} {name}, source {line.source:0{digits}x}, {length(line.size)}{at}{flags}"


def came_of(line: Any) -> str:
    """Returns what an accepted beat completed, in words."""
    place = f", beat {line.beat} of {line.beats}" if line.beats > 1 else ""
    if len(line.far) == 1:
        brought = f", far beat {line.far[0].number}"
    elif line.far:
        brought = f", far beats {line.far[0].number} to {line.far[-1].number}"
    else:
        brought = f", staged: far beat {line.staged.far} has {line.staged.bytes} of its {line.staged.of} bytes"
    is_response = line.channel == "D" and line.message != "ReleaseAck" and line.beat == 0 and line.answers
    return f"{place}: accepted{brought}" + (f", answers line {line.answers}" if is_response else "")


def not_offered(lines: Any, fates: Any) -> Optional[str]:
    """The sentence on lines that follow each other and were not offered."""
    first, last = lines[0], lines[-1]
    if len(lines) > 1:
        since = {line.channel: line.since_line for line in lines}
        stops = "".join(
            f", {channel} since line {since[channel]} {STOPPED[fates[since[channel]]]}" for channel in sorted(since)
        )
        return f"lines {first.line} to {last.line}, {len(lines)} beats: not offered{stops}"
    return None


def text_of(records: Any) -> str:
    """The text of an explanation whose records these are."""
    *lines, summary = records
    digits = 2 if summary.version == 1 else 4
    fates, said, at = {line.line: line.fate for line in lines}, [], 0
    while at < len(lines):
        line, run = lines[at], 1
        while line.fate == "not offered" and at + run < len(lines) and lines[at + run].fate == "not offered":
            run += 1
        several = not_offered(lines[at : at + run], fates)
        at += run
        if several:
            said.append(several)
            continue
        time = f", time {line.time}" if line.time else ""
        begin = f"line {line.line}{time}: {fields_of(line, digits)}"
        if line.fate == "accepted":
            said.append(begin + came_of(line))
        elif line.fate == "not offered":
            said.append(f"{begin}: not offered, since line {line.since_line} {STOPPED[fates[line.since_line]]}")
        else:
            said.append(f"{begin}: {line.fate}, {line.fault.number} {line.fault.name}: {line.fault.said}")
        said += [f"    {far.text}" for far in line.far] + [f"    remark: {remark.said}" for remark in line.remarks]
    return "".join(line + "\n" for line in [*said, *cuts_of(summary), *answer_of(summary)])


def cuts_of(summary: Any) -> Iterator[str]:
    for channel, end in summary.channels.items():
        if end.verdict == "cut":
            yield (
                f"{channel} ends within the burst that line {end.message_line} begins: {end.beat} of its"
                f" {end.beats} beats are there"
            )


def answer_of(summary: Any) -> Iterator[str]:
    yield f"tilelink-far {summary.version} client {summary.client} manager {summary.manager}"
    for channel, end in summary.channels.items():
        more = end.fault.name if end.fault else end.far
        yield f"= {channel} {end.verdict} {end.near} {more}"


def problems(said: str) -> List[str]:
    """The faults and remarks of a text, as the list at the top of a page has them."""
    found, line = [], ""
    for text in said.splitlines():
        if re.match(r"line \d+: ", text):
            line = text.partition(": ")[0]
            found += [text] if re.search(": (refused|waiting), ", text) else []
        elif text.startswith("    remark: "):
            found.append(f"{line}, {text.strip()}")
    return found or ["none"]


NOUNS = {"A": "request", "B": "request", "C": "message", "D": "response", "E": "GrantAck"}


def counted(count: int, one: str, several: Optional[str] = None) -> str:
    """A number with its noun."""
    return f"{count} {one if count == 1 else several or one + 's'}"


def overview(said: str, lines: Any) -> str:
    """The summary in words of a page, on a trace of `lines` lines, all of which this text explains."""
    sentences = [line for line in said.splitlines() if re.match(r"line \d", line)]
    begun = [
        line
        for line in sentences
        if ": accepted, " in line and not re.search(r", beat [1-9]\d* of \d+: accepted, ", line)
    ]
    letters = [re.sub(r"^line \d+(?:, time [^:]+)?: ([A-E]) .*", r"\1", line) for line in begun]
    ends = [line[2:].split() for line in said.splitlines()[-5:]]
    ended = (re.match(r"(line \d+).*?: (refused|waiting), (\d+ \w+): ", line) for line in sentences)
    stops = [f"{stop[1]} {STOPPED[stop[2]]} ({stop[3]})" for stop in ended if stop]
    messages = counted(len(begun), "accepted message" if stops else "message")
    by_channel = [
        f"{counted(letters.count(letter), NOUNS[letter])} on {letter}" for letter in CHANNELS if letter in letters
    ]
    faults = "All beats were accepted" if lines > 1 else "There are no beats"
    if stops:
        faults = f"{counted(len(stops), 'fault')}: {', '.join(stops)}"
    left = lines - 1 - sum(int(end[2]) for end in ends) - len(stops)
    parts = [faults] + [counted(left, "beat was not offered", "beats were not offered")] * (left > 0)
    parts += [f"{end[0]} ends within a burst" for end in ends if end[1] == "cut"]
    remarked = [remark.partition(",")[0] for remark in problems(said) if ", remark: " in remark]
    remarks = "No remarks"
    if remarked:
        remarks = f"{counted(len(remarked), 'remark')}, {'' if len(remarked) == 1 else 'the first '}in {remarked[0]}"
    return (
        f"{counted(lines, 'line')}, {messages}{': ' * bool(by_channel)}{', '.join(by_channel)}. {'; '.join(parts)}."
        f" {remarks}."
    )


def lanes_failure(line: Any) -> Optional[str]:
    """What is wrong with the lanes of a line: each byte of an accepted beat with data is on its lane in a far beat, if
    one has it."""
    if line.fate != "accepted" or line.bytes is None:
        return None
    for far in line.far:
        for offset in range(far.bytes):
            there = far.lanes[(far.first_lane + offset) % len(far.lanes)]
            place = far.first_byte + offset - line.first_byte
            here = line.lanes[(line.first_lane + place) % len(line.lanes)] if 0 <= place < line.bytes else there
            if here != there and "--" not in (here, there):
                return f"line {line.line}: byte {far.first_byte + offset} is {here} and then {there}"
    return None


def said_by(program: str, words: Sequence[str], text: bytes) -> Tuple[bytes, bytes, int]:
    ended = subprocess.run([program, *words], input=text, capture_output=True, timeout=120)
    return ended.stdout, ended.stderr, ended.returncode


def json_failure(program: str, text: bytes, words: Sequence[str] = ()) -> Optional[str]:
    """Returns the difference between the JSON output for a text and its sentences, or None."""
    said, fault, status = said_by(program, words, text)
    output, *ending = said_by(program, ("--json", *words), text)
    if ending != [fault, status]:
        return f"as JSON it ends with {ending}, in sentences with {[fault, status]}"
    try:
        output.decode("ascii")
        records: List[Any] = list(explain.read(output.decode().splitlines()))
    except (ValueError, KeyError, TypeError) as error:
        return f"{error}: {output[:300]!r}"
    if status == 3:
        record = records[0]
        begin = f"line {record.line}: {record.fault.number} {record.fault.name}: {record.fault.said}\n"
        shown = "".join(letter if " " <= letter <= "~" else "?" for letter in record.text)
        form = f"    {record.form}\n" if record.form is not None else ""
        wanted = f"{begin}    {shown}\n    {' ' * record.place}^\n{form}"
        return None if [len(records), wanted] == [1, said.decode()] else f"{record} beside {said!r}"
    if text_of(records) != said.decode():
        return f"the records say\n{text_of(records)}instead of\n{said.decode()}"
    wrong = [failure for failure in map(lanes_failure, records[:-1]) if failure]
    lines = text.count(b"\n")
    if [record.line for record in records[:-1]] != list(range(2, lines + 1)) or records[-1].lines != lines:
        return "a line has no record"
    return wrong[0] if wrong else None


def spoilt(text: bytes, randomness: random.Random) -> bytes:
    """The text with up to three mistakes: bytes or lines are changed, left out or put in."""
    for _ in range(randomness.randint(1, 3)):
        at = randomness.randrange(len(text) + 1)
        what = randomness.choice(("byte", "digit", "out", "in", "cut", "line", "swap"))
        if what == "byte":
            text = text[:at] + bytes([randomness.randrange(256)]) + text[at + 1 :]
        elif what == "digit":
            places = [place.start() for place in re.finditer(b"[0-9a-f]", text)]
            at = randomness.choice(places or [0])
            text = text[:at] + randomness.choice(b"0123456789abcdef").to_bytes(1, "big") + text[at + 1 :]
        elif what == "out":
            text = text[:at] + text[at + 1 :]
        elif what == "in":
            text = text[:at] + randomness.choice((b'"', b"\\", b"\n", b"\r", b"\x00", b"\xff", b"<", b" ")) + text[at:]
        elif what == "cut":
            text = text[:at] if randomness.random() < 0.2 else text
        else:
            lines = text.splitlines(True)
            here, there = randomness.randrange(len(lines) or 1), randomness.randrange(len(lines) or 1)
            if lines and what == "swap":
                lines[here], lines[there] = lines[there], lines[here]
            elif lines:
                lines[here] = lines[there]
            text = b"".join(lines)
    return text


def spoilt_texts(texts: Sequence[bytes], count: int, seed: int) -> Iterator[bytes]:
    """Yields `count` of these texts with mistakes in them."""
    randomness = random.Random(seed)
    for _ in range(count):
        yield spoilt(randomness.choice(texts), randomness)
