"""The maker of traffic: the unverified model takes each conversation to its end, its options limit what it has, and
planted mistakes are refused."""

import re
import subprocess
import sys
from collections import Counter
from typing import Any, Dict, List

import pytest
from project import MODEL, ROOT, script
from tlbridge.protocol import CHANNELS, OPCODES, WIDTHS
from tlbridge.traffic import EXCHANGES, LOOSE, Conversation, Faults, Message, Options, Transfer, faulty_texts

model: Any = script(MODEL)
PAIRS = [(client, manager) for client in WIDTHS for manager in WIDTHS]
# All that a conversation can have.
ALL: Dict[str, Any] = dict(mix=dict.fromkeys([*EXCHANGES, *LOOSE], 1), denied=0.3, corrupt=0.3, noise=0.5, sources=16)


def made(client: int, manager: int, lines: int = 200, **options: Any) -> List[Message]:
    """The messages of a conversation."""
    return list(Conversation(Options(client, manager, lines=lines, **options)).messages())


def text_of(client: int, manager: int, **options: Any) -> str:
    """The trace of a conversation."""
    return "".join(Conversation(Options(client, manager, **options)).texts())


@pytest.mark.parametrize("options", ({}, ALL), ids=("exchanges", "all"))
def test_the_model_takes_each_conversation_to_its_end(options: Any) -> None:
    """At each pair of widths. All kinds of messages are among them."""
    seen: Counter[str] = Counter()
    for seed, pair in enumerate(PAIRS):
        text = text_of(*pair, seed=seed, lines=150, sizes=range(9), **options)
        assert model.answer(text.encode()).status == 0, (pair, text)
        seen.update(f"{line[0]} {line[2] if line[0] != 'E' else ''}" for line in text.splitlines()[1:])
    known = {f"{channel} {opcode}" for channel in "ABCD" for opcode in OPCODES[channel]} | {"E "}
    assert options != ALL or {*seen} == known, known - {*seen}


def test_a_seed_makes_the_same_traffic() -> None:
    """Another one makes other traffic."""
    assert text_of(8, 4, seed=3, lines=100) == text_of(8, 4, seed=3, lines=100) != text_of(8, 4, seed=4, lines=100)


def test_length() -> None:
    """Lines and bytes are not exceeded, and almost reached. Far beats count for a third of a beat."""
    for limit in (50, 500, 5000):
        assert limit - 20 < text_of(8, 4, lines=limit).count("\n") <= limit
        assert limit - 300 < len(text_of(8, 4, bytes=limit)) <= limit
    messages = list(Conversation(Options(64, 4, beats=300, mix={"A": 1}, sizes=(6,), opcodes={"A": (0,)})).messages())
    assert sum(len(message.beats) for message in messages if message.channel == "A") < 60
    with pytest.raises(ValueError, match="one of lines, bytes and beats"):
        Conversation(Options(8, 4))
    with pytest.raises(ValueError, match="every share is 0"):
        Conversation(Options(8, 4, lines=9, mix={"get": 0}))


def test_options_of_messages() -> None:
    """Kinds, sizes, opcodes, channels and ids, and lanes without a byte."""
    loose = made(8, 4, mix={"A": 1}, opcodes={"A": (1, 4), "D": (2,)}, sizes=(1, 3), sources=(7, 9))
    assert {(message.channel, message.head["opcode"]) for message in loose} == {("A", 1), ("A", 4), ("D", 2)}
    assert {message.head["size"] for message in loose} == {1, 3}
    assert {message.head["source"] for message in loose} == {7, 9}
    assert {message.channel for message in made(8, 4, channels="BE")} == {"B", "E"}
    quiet = made(8, 8, mix={"put": 1}, sizes=(0,))
    assert not any(beat.data & ~(0xFF << 8 * (message.home % 8)) for message in quiet for beat in message.beats)
    assert not any(beat.corrupt or message.head.get("denied") for message in quiet for beat in message.beats)
    narrow = made(8, 4, source_bits=2, sink_bits=3, address_bits=12, **{**ALL, "sources": 4})
    most = {name: max(message.head.get(name, 0) for message in narrow) for name in ("source", "sink", "address")}
    assert most["source"] == 3 and 3 < most["sink"] < 8 and 1 << 11 <= most["address"] < 1 << 12


def outstanding(messages: List[Message]) -> List[int]:
    """How many requests have no response yet, after each message. No source has two."""
    open_sources: List[int] = []
    counts = []
    for message in messages:
        source = message.head["source"]
        if message.channel == "A":
            assert source not in open_sources
            open_sources.append(source)
        else:
            open_sources.remove(source)
        counts.append(len(open_sources))
    return counts


def test_order_of_time() -> None:
    """A source waits for its response, responses come out of order, and options limit what is outstanding."""
    gets: Dict[str, Any] = {"mix": {"get": 1}, "sizes": (0,)}
    counts = outstanding(made(8, 4, sources=16, **gets))
    assert max(counts) > 4 and counts[-1] == 0
    assert set(outstanding(made(8, 4, sources=16, outstanding=1, continuing=0, **gets))) == {0, 1}
    assert max(outstanding(made(8, 4, sources=40, continuing=0, **gets))) == 40
    once = [message.head["source"] for message in made(8, 4, sources=40, unique=True, **gets) if message.channel == "A"]
    assert sorted(once) == sorted({*once}) and len(once) == 40
    asked = [message.head["source"] for message in made(8, 4, sources=16, **gets) if message.channel == "A"]
    answered = [message.head["source"] for message in made(8, 4, sources=16, **gets) if message.channel == "D"]
    assert asked != answered and sorted(asked) == sorted(answered)


def test_mistakes() -> None:
    """Most of them end a channel, and each rule of a beat or of a source is broken by some."""
    ends: Counter[str] = Counter()
    for seed in range(400):
        conversation = Conversation(Options(8, 4, seed, lines=80, **ALL))
        answer = model.answer("".join(faulty_texts(conversation, 1, conversation.random)).encode())
        assert answer.status in (0, 1)
        ends[str(answer.status)] += 1
        for verdict in answer.verdicts:
            ends[" ".join(word for word in verdict.split() if not word.isdigit())] += 1
    assert ends["1"] > 200, ends
    rules = "Opcode Param Size Unaligned Mask Corrupt HeadChanged SizeMismatch"
    assert {f"refused {rule}" for rule in rules.split()} | {"waiting SourceBusy", "waiting NoRequest", "cut"} <= {*ends}


def test_mistakes_in_the_order_of_beats() -> None:
    """A beat is lost or comes twice, two change places, all are in another order, or those at the end are missing."""
    seen: Counter[str] = Counter()
    for seed in range(120):
        options = Options(8, 4, seed, lines=20, channels="A", mix={"get": 1}, sources=500)
        beats = [
            message.beats[0] for message in made(8, 4, lines=20, seed=seed, channels="A", mix={"get": 1}, sources=500)
        ]
        lists: Dict[str, List[Transfer]] = {channel: [] for channel in CHANNELS}
        lists["A"] = [*beats]
        Faults(Conversation(options).random, lists, options, 1).order()
        left, moved = lists["A"], [old != new for old, new in zip(beats, lists["A"])].count(True)
        if len(left) == len(beats):
            assert sorted(map(str, left)) == sorted(map(str, beats))
            seen["as before" if not moved else "exchanged" if moved == 2 else "mixed"] += 1
        else:
            doubled = len(left) == len(beats) + 1 and any(one == two for one, two in zip(left, left[1:]))
            lost = len(left) == len(beats) - 1 and left != beats[:-1]
            seen["doubled" if doubled else "lost" if lost else "ends"] += 1
            assert doubled or lost or left == beats[: len(left)]
    assert {"doubled", "exchanged", "mixed", "lost", "ends"} <= {*seen}, seen


def test_a_mistake_in_nothing() -> None:
    """Traffic without beats has no place for one."""
    options = Options(8, 4, lines=1)
    lists: Dict[str, List[Transfer]] = {channel: [] for channel in CHANNELS}
    Faults(Conversation(options).random, lists, options, 1).plant(50)
    assert not any(lists.values())


def command(*words: str) -> "subprocess.CompletedProcess[str]":
    """The end of tools/make-trace with these words."""
    path = str(ROOT / "tools" / "make-trace")
    return subprocess.run([sys.executable, path, *words], capture_output=True, text=True, timeout=60, check=False)


def test_the_command() -> None:
    """It writes the trace of its options."""
    plain = command(*"--client 8 --manager 4 --lines 60 --seed 7".split())
    assert plain.stdout == text_of(8, 4, seed=7, lines=60)
    long = "--client 8 --manager 128 --bytes 9000 --mix get=3,put --sizes 2=5,64 --sources 300 --channels A"
    mix = {"get": 3, "put": 1}
    options: Dict[str, Any] = dict(
        bytes=9000, mix=mix, sizes=[1] * 5 + [6], sources=300, channels="A", source_bits=16, sink_bits=16
    )
    assert command(*long.split()).stdout == text_of(8, 128, **options)
    spoilt = command(*"--client 8 --manager 4 --lines 60 --seed 7 --faults 3".split())
    assert spoilt.stdout.startswith("tilelink-trace 1 client 8 manager 4\n") and spoilt.stdout != plain.stdout


@pytest.mark.parametrize(
    "words, error",
    (
        ("--version 1 --client 128", "argument --version: version 1 has no bus above 64 lanes"),
        ("--sources 257", "argument --sources: version 1 has 256 sources"),
        ("--mix get=x", "'get=x' is not one of get, put, "),
        ("--mix get=0", "every share is 0"),
        ("--sizes 3", "'3' is not one of 1, 2, 4, "),
        ("--channels AF", "'AF' is not made of the letters A to E"),
        ("--seed -1", "'-1' is not a number from 0 to"),
        ("--faults 1001", "'1001' is not a number from 0 to 1000"),
        ("--bytes 900", "not allowed with argument --lines"),
    ),
)
def test_wrong_words(words: str, error: str) -> None:
    """They are refused with a sentence."""
    done = command(*"--client 8 --manager 4 --lines 60".split(), *words.split())
    assert done.returncode == 2 and error in done.stderr and not done.stdout


@pytest.mark.parametrize(
    "words, missing",
    (
        ("--manager 4 --lines 60", "--client"),
        ("--client 8 --lines 60", "--manager"),
        ("--client 8 --manager 4", "--lines --bytes"),
    ),
)
def test_words_that_are_needed(words: str, missing: str) -> None:
    """Both widths and one length."""
    done = command(*words.split())
    assert done.returncode == 2 and not done.stdout
    assert re.search(f"required: {missing}$|one of the arguments {missing} is required", done.stderr, re.M)
