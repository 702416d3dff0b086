"""Compares the remarks of tlexplain with those of a plain model, on random traces with mistakes in them.

Each trace is drawn by tlbridge.traffic. In most of them, some fields of some lines are then replaced, and some lines
are left out or repeated. A trace without such mistakes may have remarks only on exchanges that are open at its end, and
there are none of these. The model shares nothing with the program. It takes the accepted messages from the unverified
model, ./tlbridge-model, keeps a queue for each key, and has the tables of the SiFive TileLink Specification 1.8 by the
names of messages and params.

Long lawful traces are of all kinds of messages and all pairs of widths, with a million lines in all. All their beats
are accepted, and none has a remark. With `--in-order`, the lines are taken as in the order of time. Lawful traces of
some 5,000 lines then also have no remark. With one mistake in it, such a trace has one, at the line of the mistake or
at that of its partner.
"""

import random
import re
import subprocess
from collections import Counter, defaultdict, deque
from pathlib import Path
from typing import Any, DefaultDict, Deque, Dict, List, Optional, Tuple
from typing import Counter as CounterType

import pytest
import starter
from differences import Differences
from project import MODEL, needs_program, script
from random_traces import lawful_trace
from tlbridge.protocol import RESPONSES

model = script(MODEL)

GROWTHS, CAPS = ("NtoB", "NtoT", "BtoT"), ("toT", "toB", "toN")
REPORTS = ("TtoB", "TtoN", "BtoN", "TtoT", "BtoB", "NtoN")
# The permissions in their order.
RIGHTS = "NBT"

# How often each remark is made: a line, and the text.
Remarks = CounterType[Tuple[Optional[int], str]]


def name_of(message: Any) -> str:
    return "GrantAck" if message.channel == "E" else str(model.OPCODES[message.channel][message.head["opcode"]][0])


class Model:
    """The remarks on a text: pairs of a line and the text after `remark: `, without the section of the
    specification."""

    def __init__(self, text: bytes) -> None:
        (version, client, manager), script = model.read(text)
        self.digits = model.ID_DIGITS[version]
        self.remarks: Remarks = Counter()
        lines = defaultdict(list)
        for number, line in enumerate(text.decode().splitlines()[1:], 2):
            lines[line[0]].append(number)
        widths = {channel: manager if channel in "BD" else client for channel in "ABCDE"}
        accepted, self.whole = self.accepted_of(text)
        self.messages = {}
        for channel in "ABCDE":
            beats = script[channel][: accepted[channel]]
            messages, _ = model.messages_of(channel, beats, widths[channel])
            at, found = 0, []
            for message in messages:
                message.line = lines[channel][at]
                for beat, number in zip(message.beats, lines[channel][at:]):
                    self.look_at_beat(message, beat, number)
                at += len(message.beats)
                found.append(message)
            self.messages[channel] = found
        self.look_at_all()

    @staticmethod
    def accepted_of(text: bytes) -> Tuple[Dict[str, int], Dict[str, bool]]:
        """How many beats of each channel are accepted, and on which channels all are."""
        ended = starter.run([MODEL, "check"], text=text)
        reports = [line.split() for line in ended.stdout.decode().splitlines() if line.startswith("= ")]
        return {words[1]: int(words[3]) for words in reports}, {
            words[1]: words[2] in ("done", "cut") for words in reports
        }

    def id(self, number: int) -> str:
        return f"{number:0{self.digits}x}"

    def say(self, line: int, sentence: str) -> None:
        self.remarks[line, sentence] += 1

    def look_at_beat(self, message: Any, beat: Any, number: int) -> None:
        if message.channel == "D" and message.head["denied"] and message.has_data and not beat.corrupt:
            self.say(number, "data that are denied have to be corrupt")

    def look_at_all(self) -> None:
        a, b, c, d, e = (self.messages[channel] for channel in "ABCDE")
        for message in a:
            if name_of(message) == "AcquirePerm" and message.head["param"] == 0:
                self.say(message.line, "an AcquirePerm has to ask for NtoT or BtoT, not for NtoB")
        for message in d:
            if name_of(message) == "ReleaseAck" and message.head["denied"]:
                self.say(message.line, "a ReleaseAck cannot be denied")
        releases = [message for message in c if name_of(message).startswith("Release")]
        acks = [message for message in d if name_of(message) == "ReleaseAck"]
        grants = [message for message in d if name_of(message).startswith("Grant")]

        def source(message: Any) -> int:
            return int(message.head["source"])

        self.exchange("A", a, "D", [m for m in d if m not in acks], source, "response of source", None)
        self.exchange(
            "B",
            b,
            "C",
            [m for m in c if m not in releases],
            lambda m: (m.head["source"], m.head["address"]),
            None,
            "probe",
        )
        self.exchange("C", releases, "D", acks, source, "ReleaseAck of source", "Release of source")
        self.exchange("D", grants, "E", e, lambda m: m.head["sink"], "GrantAck of sink", "Grant of sink")

    def exchange(
        self, asking: Any, asks: Any, answering: Any, answers: Any, key: Any, lacks: Any, answered: Any
    ) -> None:
        waiting: DefaultDict[Any, Deque[Any]] = defaultdict(deque)
        for ask in asks:
            waiting[key(ask)].append(ask)
        for answer in answers:
            queue = waiting[key(answer)]
            if queue:
                self.judge(queue.popleft(), answer)
            elif self.whole[asking]:
                what, known = answered, key(answer)
                if answered == "probe":
                    is_probe = name_of(answer).startswith("Probe")
                    what, known = f"{'probe' if is_probe else 'request'} of this address of source", known[0]
                self.say(answer.line, f"there is no {what} {self.id(known)} for it")
        for queue in waiting.values():
            for ask in queue if self.whole[answering] else ():
                what, known = lacks, key(ask)
                if what is None:
                    is_probe = name_of(ask).startswith("Probe")
                    what, known = f"{'ProbeAck' if is_probe else 'response'} of source", known[0]
                self.say(ask.line, f"no {what} {self.id(known)} answers it")

    def judge(self, ask: Any, answer: Any) -> None:
        asked, name = name_of(ask), name_of(answer)
        if name == "GrantAck":
            return
        if name not in RESPONSES[asked]:
            self.say(answer.line, f"it is not a valid response to {asked}, in line {ask.line}")
        elif asked.startswith("Acquire") and not answer.head["denied"]:
            growth, cap = GROWTHS[ask.head["param"]], CAPS[answer.head["param"]]
            if RIGHTS.index(cap[-1]) < RIGHTS.index(growth[-1]):
                self.say(answer.line, f"it grants {cap}, but {asked}, in line {ask.line}, asks for {growth}")
        elif asked.startswith("Probe"):
            cap, report = CAPS[ask.head["param"]], REPORTS[answer.head["param"]]
            if RIGHTS.index(report[-1]) > RIGHTS.index(cap[-1]):
                self.say(answer.line, f"it reports {report}, but {asked}, in line {ask.line}, leaves {cap}")


def said_by(program: Path, text: bytes) -> Remarks:
    """The remarks that the program makes."""
    ended = subprocess.run([program], input=text, capture_output=True)
    found: Remarks = Counter()
    line = None
    for said in ended.stdout.decode().splitlines():
        number = re.match(r"line (\d+):", said)
        remark = re.fullmatch(r"    remark: (.*) \(TileLink 1\.8: \w+\)", said)
        if number:
            line = int(number[1])
        elif remark:
            found[line, remark[1]] += 1
        elif said.startswith("    remark"):
            found[line, said] += 1
    return found


def other(line: str, randomness: random.Random) -> str:
    """A line with another opcode, param, source, sink or denied; most such lines still cross the bridge."""
    words = line.split(" ")
    channel = words[0]
    if channel == "E":
        words[1] = f"{randomness.randrange(256):0{len(words[1])}x}"
        return " ".join(words)
    opcode = words[1]
    # by channel and opcode: how many params the message has, and the opcodes of messages with the same fields
    params = {"A": {"6": 3, "7": 3}, "B": {"6": 3, "7": 3}, "C": dict.fromkeys("4567", 6), "D": {"4": 3, "5": 3}}[
        channel
    ]
    opcodes = {
        "A": {"6": "7", "7": "6"},
        "B": {"6": "7", "7": "6"},
        "C": {"4": "6", "5": "7", "6": "4", "7": "5"},
        "D": {"0": "42", "1": "5", "2": "0", "4": "0", "5": "1", "6": "4"},
    }[channel]
    what = randomness.choice(("param", "param", "opcode", "source", "denied"))
    if what == "param" and opcode in params:
        words[2] = str(randomness.randrange(params[opcode]))
    elif what == "opcode" and opcode in opcodes:
        words[1] = randomness.choice(opcodes[opcode])
    elif what == "source" and channel in "BC":
        words[4] = f"{randomness.randrange(256):0{len(words[4])}x}"
    elif channel == "D":
        words[6] = "1"
    return " ".join(words)


def spoilt(lines: List[str], randomness: random.Random) -> List[str]:
    """The lines with one to four mistakes in them: one is another, or comes not at all, or twice."""
    lines = list(lines)
    for _ in range(randomness.randint(1, 4)):
        at = randomness.randrange(len(lines))
        what = randomness.choice(("other", "other", "other", "out", "twice"))
        lines[at : at + 1] = (
            [other(lines[at], randomness)] if what == "other" else [] if what == "out" else [lines[at]] * 2
        )
    return lines


def lawful_failure(program: Path, number: int, lines: int) -> Tuple[Optional[str], int]:
    """Returns the error in the output for the lawful trace of this number with `lines` lines, or None, and the lines
    that it has."""
    widths = [(client, manager) for client in model.WIDTHS for manager in model.WIDTHS]
    client, manager = widths[number % len(widths)]
    made = lawful_trace(client, manager, lines, number, sources=1 + number % 200, sizes=range(1 + number % 13))
    ended = subprocess.run([program, "--only", "problems"], input=made, capture_output=True)
    said = ended.stdout.decode().splitlines()
    if ended.returncode or len(said) != 6 or ended.stderr:
        return f"lawful trace {number}, {client} to {manager}: status {ended.returncode}, {said[:3]}", made.count(b"\n")
    return None, made.count(b"\n")


class Row:
    """A line of a trace, wherever mistakes move it."""

    def __init__(self, text: str) -> None:
        self.text = text


def exchanges_of(text: bytes) -> Any:
    """The header of a lawful trace, its rows, and its exchanges: in each the messages that follow each other, as lists
    of rows."""
    (_, client, manager), script = model.read(text)
    header, *lines = text.decode().splitlines()
    rows = [Row(line) for line in lines]
    found = defaultdict(list)
    for channel in "ABCDE":
        beats, of_channel = script[channel], [row for row in rows if row.text[0] == channel]
        messages, _ = model.messages_of(channel, beats, manager if channel in "BD" else client)
        for message in messages:
            message.rows, of_channel = of_channel[: len(message.beats)], of_channel[len(message.beats) :]
            found[channel].append(message)
    acks = [message for message in found["D"] if name_of(message) == "ReleaseAck"]
    releases = [message for message in found["C"] if name_of(message).startswith("Release")]
    place = {id(row): at for at, row in enumerate(rows)}

    def answered(asks: Any, answers: Any, key: Any) -> Any:
        waiting: DefaultDict[Any, Deque[Any]] = defaultdict(deque)
        found = []
        for message in sorted([*asks, *answers], key=lambda message: place[id(message.rows[0])]):
            if message in answers:
                found.append((waiting[key(message)].popleft(), message))
            else:
                waiting[key(message)].append(message)
        return found

    def by(name: str) -> Any:
        return lambda message: message.head[name]

    return (
        header,
        rows,
        {
            "request": answered(found["A"], [m for m in found["D"] if m not in acks], by("source")),
            "probe": answered(
                found["B"],
                [m for m in found["C"] if m not in releases],
                lambda m: (m.head["source"], m.head["address"]),
            ),
            "release": answered(releases, acks, by("source")),
            "grant": answered([m for m in found["D"] if name_of(m).startswith("Grant")], found["E"], by("sink")),
        },
    )


def without(rows: List[Any], exchange: Any) -> Any:
    """The rows without the answer of an exchange, and those of which a remark may speak."""
    gone = {id(row) for row in exchange[1].rows}
    return [row for row in rows if id(row) not in gone], [exchange[0].rows[0]]


def repeated(rows: List[Any], exchange: Any) -> Any:
    """The rows with the answer of an exchange twice."""
    again = [Row(row.text) for row in exchange[1].rows]
    behind = rows.index(exchange[1].rows[-1]) + 1
    return [*rows[:behind], *again, *rows[behind:]], [exchange[1].rows[0], again[0], exchange[0].rows[0]]


def shared(rows: List[Any], exchanges: Any, randomness: random.Random) -> Any:
    """The rows in which a request has the source of one that is not answered yet."""
    place = {id(row): at for at, row in enumerate(rows)}
    asked = [(place[id(ask.rows[0])], place[id(answer.rows[0])], ask, answer) for ask, answer in exchanges]
    while True:
        begin, _, ask, answer = randomness.choice(asked)
        others = [other for first, last, other, _ in asked if first < begin < last]
        if others:
            break
    other = randomness.choice(others)
    source = other.rows[0].text.split(" ")[4]
    for row in [*ask.rows, *answer.rows]:
        words = row.text.split(" ")
        words[4] = source
        row.text = " ".join(words)
    return rows, [ask.rows[0], other.rows[0]]


def mistaken(what: str, rows: List[Any], exchanges: Any, randomness: random.Random) -> Any:
    """The rows with this mistake, and those of which its remark may speak."""
    pairs = exchanges[what.split()[-1]]
    if what.startswith("shared"):
        return shared(rows, pairs, randomness)
    # a Grant that is lost, or comes twice, is two mistakes: it belongs to two exchanges
    pairs = [pair for pair in pairs if not name_of(pair[1]).startswith("Grant") or name_of(pair[1]) == "GrantAck"]
    return (without if what.startswith("lost") else repeated)(rows, randomness.choice(pairs))


MISTAKES = (
    "lost request",
    "lost grant",
    "lost release",
    "lost probe",
    "shared request",
    "shared release",
    "repeated request",
    "repeated grant",
)


def in_order_failure(program: Path, seed: int, what: str) -> Optional[str]:
    """Returns the error in the remarks on a conversation with this mistake, or on a lawful one."""
    randomness = random.Random(f"in order {seed} {what}")
    client, manager = (randomness.choice(model.WIDTHS[2:6]) for _ in range(2))
    made = lawful_trace(client, manager, 5000, seed, sources=12, sizes=range(6))
    header, rows, exchanges = exchanges_of(made)
    wanted = []
    if what:
        rows, wanted = mistaken(what, rows, exchanges, randomness)
    lines = {rows.index(row) + 2 for row in wanted}
    text = "".join(line + "\n" for line in [header, *(row.text for row in rows)]).encode()
    ended = subprocess.run([program, "--in-order", "--only", "problems"], input=text, capture_output=True)
    remarks, line = [], 0
    for said in ended.stdout.decode().splitlines():
        line = int(said.split()[1].rstrip(":")) if said.startswith("line ") else line
        remarks += [(line, said.strip())] if said.startswith("    remark: ") else []
    if len(remarks) == bool(what) and all(line in lines for line, _ in remarks) and (what or ended.returncode == 0):
        return None
    return f"in order, seed {seed}, {what or 'lawful'}: wanted one in {sorted(lines)}, came {remarks[:5]}"


# How many random traces there are, in parts of which the first is quick; lines in all lawful traces, and in each;
# conversations.
PART, PARTS, LINES = 20, 10, 60
LAWFUL_LINES, EACH, LAWFUL_PARTS = 1_000_000, 10_000, 11
CONVERSATIONS = 6


def random_remarks(number: int, seed: int = 1) -> Any:
    """The remarks that are wanted on a random trace of this number, and those that come."""
    randomness = random.Random(f"{seed} {number}")
    client, manager = randomness.choice(model.WIDTHS[4:7]), randomness.choice(model.WIDTHS[4:7])
    mix = randomness.choice(("get put intent", "acquire probe release", "acquire probe release get"))
    made = lawful_trace(client, manager, LINES, number, sizes=range(3), mix=dict.fromkeys(mix.split(), 1))
    header, *lines = made.decode().splitlines()
    is_lawful = number % 5 == 0
    if not is_lawful:
        lines = spoilt(lines, randomness)
    text = "".join(line + "\n" for line in [header, *lines]).encode()
    return Counter() if is_lawful else Model(text).remarks, said_by(needs_program("tlexplain"), text)


@pytest.mark.parametrize(
    "part", [pytest.param(part, marks=[pytest.mark.long] if part else []) for part in range(PARTS)]
)
def test_random_traces_with_mistakes(differences: Differences, part: int) -> None:
    """The remarks are those of the model, and there are some."""
    count = 0
    for number in range(PART * part, PART * (part + 1)):
        wanted, came = random_remarks(number)
        count += sum(wanted.values())
        why = f"missing {dict(wanted - came)}, too many {dict(came - wanted)}"
        differences.holds(f"trace {number}", wanted == came, why)
    differences.holds("remarks are wanted", count > 0)


@pytest.mark.long
@pytest.mark.parametrize("part", range(LAWFUL_PARTS))
def test_lawful_traces_have_no_remark(differences: Differences, part: int) -> None:
    """Long traces, of which each may end before it has all its lines, so there are some more of them."""
    numbers, lines = range(LAWFUL_LINES * 11 // 10 // EACH + 1), 0
    for number in numbers[part::LAWFUL_PARTS]:
        failure, count = lawful_failure(needs_program("tlexplain"), number, EACH)
        differences.same(f"lawful trace {number}", failure, None)
        lines += count
    differences.holds("there are enough lines", lines * LAWFUL_PARTS >= LAWFUL_LINES, lines)


@pytest.mark.long
@pytest.mark.parametrize("what", ("", *MISTAKES), ids=lambda what: what or "lawful")
@pytest.mark.parametrize("seed", range(CONVERSATIONS))
def test_a_conversation_in_order(seed: int, what: str) -> None:
    """A lawful one has no remark, and one with a mistake has one."""
    assert in_order_failure(needs_program("tlexplain"), seed, what) is None
