"""The strict rules, which a right design need not keep, over beats that are written by hand. No simulator is needed."""

from pathlib import Path
from typing import Dict, List, Optional, Tuple

import pytest

from tlbridge.verify.bench import Run
from tlbridge.verify.design import Design, Link, Signal, Source
from tlbridge.verify.judge import Beats, Judge, Rules
from tlbridge.verify.restored import Restored
from tlbridge.verify.strict import Denials

Lines = List[str]


def get(address: int, source: int = 0, size: int = 2) -> str:
    return f"A 4 0 {size} {source:02x} {address:016x} f 00000000 0"


def put(address: int, data: str, source: int = 0, mask: str = "f", corrupt: int = 0, size: int = 2) -> str:
    return f"A {0 if mask == 'f' else 1} 0 {size} {source:02x} {address:016x} {mask} {data} {corrupt}"


def add(address: int, operand: str, source: int = 0) -> str:
    return f"A 2 4 2 {source:02x} {address:016x} f {operand} 0"


def ack(source: int = 0, denied: int = 0, size: int = 2) -> str:
    return f"D 0 0 {size} {source:02x} 00 {denied} 00000000 0"


def data(value: str = "00000000", source: int = 0, denied: int = 0, corrupt: int = 0, size: int = 2) -> str:
    return f"D 1 0 {size} {source:02x} 00 {denied} {value} {corrupt}"


def link(without: str = "") -> Link:
    """A link of four bytes, without one field."""
    on = {"A": ("address", "mask", "data", "corrupt"), "D": ("denied", "data", "corrupt")}
    bits = {"address": 32, "data": 32, "mask": 4}
    return Link(
        "",
        {
            channel: {name: Signal(name, 0, bits.get(name, 1), "input") for name in names if name != without}
            for channel, names in on.items()
        },
    )


DEVICE, HOST = Design(Source("dut", ()), {}, link()), Design(Source("dut", ()), {}, None, link())
BETWEEN = Design(Source("dut", ()), {}, link(), link())


def beats_of(folder: Path, design: Design, near: Lines, far: Optional[List[Tuple[int, str]]] = None) -> Beats:
    """Writes beats and reads them. Those of `near` come one in a cycle, and those of `far`, on the link to the manager,
    in the cycles that are named."""
    sides = {"manager" if design.client is None else "client": list(enumerate(near))}
    sides.update({"manager": far} if far is not None else {})
    for side, beats in sides.items():
        (folder / f"{side}.beats").write_text("".join(f"{line}\n" for _, line in beats))
        (folder / f"{side}.beats.times").write_text("".join(f"{10000 * at}\n" for at, _ in beats))
    return Beats(design, Run(folder, ""))


def broken(
    folder: Path, design: Design, near: Lines, far: Optional[List[Tuple[int, str]]] = None, is_memory: bool = True
) -> Dict[str, str]:
    """Returns what these beats break, with what is said of it."""
    made = beats_of(folder, design, near, far)
    is_memory = is_memory and design.client is not None
    run, judge = Run(folder, ""), Judge(design, Rules(False, is_memory))
    found = {name: problem.words for name, problem in judge.broken_rules(made).items()}
    for name, words in found.items():  # an option makes it a mistake
        strict = Judge(design, Rules(False, is_memory, (name,))).problems(run, made)
        assert [problem.words for problem in strict if problem.words == words] == [words]
    return found


# ---- a read sees each write that was accepted before it

WRITTEN = [put(16, "11111111"), ack()]
BURST = [
    *(put(16, "11111111", size=3), put(16, "11111111", size=3), ack(size=3)),
    *(put(16, "22222222", size=3), put(16, "22222222", size=3)),
]
STALE = {
    "the write before it": (
        [*WRITTEN, put(16, "22222222"), get(16, 1), data("11111111", 1), ack()],
        "reads 11 at 0x10",
    ),
    "one byte of it": (
        [*WRITTEN, put(16, "00002200", mask="2"), get(16, 1), data("11111111", 1), ack()],
        "reads 11 at 0x11, which holds 22 by a write that was accepted before",
    ),
    "after the response of the write": (
        [*WRITTEN, put(16, "22222222"), get(16, 1), ack(), data("11111111", 1)],
        "reads 11 at 0x10, which holds 22 by a write",
    ),
    "an atomic": ([*WRITTEN, put(16, "22222222"), add(16, "01010101", 1), data("11111111", 1), ack()], "reads 11 at"),
    "a burst": ([*BURST, get(20, 1), data("11111111", 1), ack(size=3)], "reads 11 at 0x14, which holds 22"),
}
FRESH = {
    "the new value": [*WRITTEN, put(16, "22222222"), get(16, 1), data("22222222", 1), ack()],
    "a write after it": [*WRITTEN, get(16, 1), put(16, "22222222"), data("22222222", 1), ack()],  # another rule
    "the value before a write after it": [*WRITTEN, get(16, 1), put(16, "22222222"), data("11111111", 1), ack()],
    "a denied write": [*WRITTEN, put(16, "22222222"), get(16, 1), data("11111111", 1), ack(denied=1)],
    "a write without a response": [*BURST, get(20, 1), data("11111111", 1)],  # it may be denied
    "never written": [get(16, 1), data("12345678", 1)],
    "two writes, the second value": [
        *(put(16, "11111111"), put(16, "22222222", 1), get(16, 2), data("22222222", 2), ack(1), ack(0)),
    ],
}


@pytest.mark.parametrize("case", STALE)
def test_a_read_of_an_old_value(tmp_path: Path, case: str) -> None:
    """A byte is older than a write that was accepted before the read. Without the rule, either value is right."""
    lines, words = STALE[case]
    found = broken(tmp_path, DEVICE, lines)
    assert list(found) == ["reads-accepted"] and words in found["reads-accepted"]
    assert broken(tmp_path, DEVICE, lines, is_memory=False) == {}


@pytest.mark.parametrize("case", FRESH)
def test_a_read_of_a_value_that_may_be_there(tmp_path: Path, case: str) -> None:
    """Nothing older than the last write that was accepted before the read."""
    assert "reads-accepted" not in broken(tmp_path, DEVICE, FRESH[case])


def test_a_design_between_two_links_may_read_an_old_value(tmp_path: Path) -> None:
    """The rule is one of devices: behind another design, the memory of this program takes its time."""
    assert broken(tmp_path, BETWEEN, STALE["an atomic"][0], []) == {}


# ---- a read sees no write that was accepted after it


def test_a_read_of_a_value_that_comes_later(tmp_path: Path) -> None:
    """A byte is that of a write that was accepted after the read, and of none before. Otherwise that is right."""
    later = [*WRITTEN, get(16, 1), put(16, "22222222"), data("22222222", 1), ack()]
    words = "client link: AccessAckData of 4 bytes, source 01 reads 22 at 0x10, which holds 11 by all that was accepted"
    found = broken(tmp_path, DEVICE, later)
    assert list(found) == ["reads-no-later"] and found["reads-no-later"].startswith(words)
    assert broken(tmp_path, BETWEEN, later, []) == {} == broken(tmp_path, DEVICE, later, is_memory=False)
    old = [put(16, "22222222"), ack(), *WRITTEN, get(16, 1), put(16, "22222222"), data("22222222", 1), ack()]
    assert "reads-no-later" not in broken(tmp_path, DEVICE, old)  # it may be the old value
    right = (
        [*WRITTEN, get(16, 1), put(16, "22222222"), data("11111111", 1), ack()],
        [*WRITTEN, put(16, "22222222"), get(16, 1), data("22222222", 1), ack()],
        [get(16, 1), put(16, "22222222"), data("22222222", 1), ack()],  # nobody knows what it held
        [*WRITTEN, get(16, 1), put(16, "11111111", 2), data("11111111", 1), ack(2)],
    )
    for lines in right:
        assert broken(tmp_path, DEVICE, lines) == {}


# ---- what nobody writes stays the same

READ = [get(16), data("44332211"), get(16, 1), data("44332219", 1)]


def test_a_byte_that_changes_though_nobody_writes_it(tmp_path: Path) -> None:
    """A read returns another value than the one before, and no write came that was not denied."""
    words = "client link: AccessAckData of 4 bytes, source 01 reads 19 at 0x10, and before 11, and no write came"
    assert broken(tmp_path, DEVICE, READ) == {"reads-alike": words} == broken(tmp_path, BETWEEN, READ, [])
    denied = [put(16, "44332219"), ack(denied=1)]
    assert broken(tmp_path, DEVICE, [*READ[:2], *denied, *READ[2:]]) == {"reads-alike": words}
    assert broken(tmp_path, BETWEEN, [*READ[:2], *denied, *READ[2:]], []) == {}  # a part of it may be done
    assert broken(tmp_path, DEVICE, READ, is_memory=False) == {}
    right = (
        [*READ[:2], *READ[:2]],
        [*READ[:2], get(16, 1, size=0), data("ffffff11", 1, size=0)],
        [*READ[:2], get(16, 1), data("443322xx", 1)],
        [*READ[:2], put(16, "00000019", mask="1"), *READ[2:], ack()],
        [*READ, put(16, "00000019", mask="1"), ack()],  # it is offered already
        [*READ[:2], add(16, "00000008"), data("44332211"), *READ[2:]],
        [*READ[:2], *READ[2:3], data("44332219", 1, corrupt=1)],
    )
    for lines in right:
        assert broken(tmp_path, DEVICE, lines) == {}


# ---- denied data are corrupt


def test_denied_data_that_are_not_corrupt(tmp_path: Path) -> None:
    """A response with data is denied and good. One without data has no mark, and a good one is not denied."""
    words = "client link: AccessAckData of 4 bytes, source 00 is denied and not corrupt"
    assert broken(tmp_path, DEVICE, [get(16), data("00000000", 0, 1)]) == {"denied-is-corrupt": words}
    assert broken(tmp_path, BETWEEN, [get(16), data("00000000", 0, 1)], []) == {"denied-is-corrupt": words}
    for lines in ([get(16), data()], [get(16), data("00000000", 0, 1, 1)], [put(16, "11111111"), ack(denied=1)]):
        assert broken(tmp_path, DEVICE, lines) == {}
    for name in ("denied", "corrupt"):
        design = Design(Source("dut", ()), {}, link(name))
        assert broken(tmp_path, design, [get(16), data("00000000", 0, 1)]) == {}


# ---- equal requests are denied alike

UNLIKE = {
    "denied later": (
        [get(16), data(), get(16, 1), data("00000000", 1, 1, 1)],
        "source 01 at 0x10 is denied, and an equal",
    ),
    "denied first": (
        [get(16), data("00000000", 0, 1, 1), get(16, 1), data("00000000", 1)],
        "is not denied, and an equal",
    ),
    "a put": (
        [put(16, "11111111"), ack(), put(16, "22222222"), ack(denied=1)],
        "AccessAck of 4 bytes, source 00 at 0x10",
    ),
    "out of order": (
        [get(16), get(16, 1), data("00000000", 1), data("00000000", 0, 1, 1)],
        "source 00 at 0x10 is denied, and an equal request was not",
    ),
}
ALIKE = {
    "another address": [get(16), data(), get(20), data("00000000", 0, 1, 1)],
    "another size": [get(16, size=1), data(size=1), get(16), data("00000000", 0, 1, 1)],
    "another kind": [put(16, "11111111"), ack(), get(16), data("00000000", 0, 1, 1)],
    "another mask": [put(16, "11111111", mask="3"), ack(), put(16, "11111111", mask="c"), ack(denied=1)],
    "corrupt data": [put(16, "11111111"), ack(), put(16, "11111111", corrupt=1), ack(denied=1)],
    "all denied": [get(16), data("00000000", 0, 1, 1), get(16), data("00000000", 0, 1, 1)],
    "no response": [get(16), data("00000000", 0, 1, 1), get(16)],
    "an unknown size": [get(16), data(), get(16), data("00000000", 0, 1, 1).replace("D 1 0 2", "D 1 0 x")],
}


@pytest.mark.parametrize("case", UNLIKE)
def test_equal_requests_that_are_not_denied_alike(tmp_path: Path, case: str) -> None:
    """A device denies one of two equal requests."""
    lines, words = UNLIKE[case]
    found = broken(tmp_path, DEVICE, lines)
    assert list(found) == ["denied-alike"] and words in found["denied-alike"]
    assert broken(tmp_path, BETWEEN, lines, []) == found
    for error in (ack(7, denied=1), data("00000000", 7, corrupt=1)):  # behind it, something was denied meanwhile
        behind = [(at, error) for at in range(len(lines))]
        assert broken(tmp_path, BETWEEN, lines, behind) == {}


def test_equal_requests_of_several_runs(tmp_path: Path) -> None:
    """Most runs deny or accept a request alike. The round that differs is returned, and its beats break the rule."""
    denials: Denials[str] = Denials()
    granted, denied = [get(16), data()], [get(16), data("00000000", 0, 1, 1)]
    assert denials.unlike() is None

    def add(name: str, lines: Lines) -> None:
        denials.add(DEVICE, beats_of(tmp_path, DEVICE, lines), name)

    for name, lines in (("a", granted), ("b", denied), ("c", [*granted, get(20), data()]), ("d", denied[:1])):
        add(name, lines)
    assert denials.unlike() == "b" and list(denials.known.values()) == [False]
    judge = Judge(DEVICE, Rules(False, False, ("denied-alike",)))
    for is_known, lines, is_broken in ((False, denied, False), (True, denied, True), (True, granted, False)):
        if is_known:
            judge.known = denials.known
        words = [problem.words for problem in judge.problems(Run(tmp_path, ""), beats_of(tmp_path, DEVICE, lines))]
        said = "client link: AccessAckData of 4 bytes, source 00 at 0x10 is denied, and an equal request was not"
        assert words == ([said] if is_broken else [])
    for name in "efg":
        add(name, [get(20), data("00000000", 0, 1, 1)])
    assert denials.unlike() == "c" and [key.address for key in denials.known] == [20]  # three to one


@pytest.mark.parametrize("case", ALIKE)
def test_requests_that_may_be_denied(tmp_path: Path, case: str) -> None:
    """They are not equal, or none of them is denied."""
    assert broken(tmp_path, DEVICE, ALIKE[case]) == {}


# ---- what was done behind a design is not denied

PUT = [put(16, "44332211", size=3), put(16, "88776655", size=3), ack(denied=1, size=3)]
BEHIND = [(0, put(16, "44332211", 5)), (1, put(20, "88776655", 6)), (1, ack(5)), (2, ack(6))]
DENIED_GET = [get(16), data("00000000", 0, 1, 1)]


def test_a_request_that_was_done_and_is_denied(tmp_path: Path) -> None:
    """All of a put or of a Get was done behind the design, without an error there."""
    found = broken(tmp_path, BETWEEN, PUT, BEHIND)
    words = "client link: AccessAck of 8 bytes, source 00 at 0x10 is denied, and was done behind the design"
    assert found == {"done-not-denied": words}
    assert broken(tmp_path, BETWEEN, [line.replace("A 0 0", "A 1 0") for line in PUT], BEHIND) == found
    found = broken(tmp_path, BETWEEN, DENIED_GET, [(0, get(16, 3)), (1, data("44332211", 3))])
    assert list(found) == ["done-not-denied"]
    atomic = [add(16, "00000001"), data("00000000", 0, 1, 1)]
    steps = [(0, get(16, 3)), (0, data("44332211", 3)), (1, put(16, "44332212", 3)), (1, ack(3))]
    for head in ("A 2 4", "A 3 3"):
        lines = [line.replace("A 2 4", head) for line in atomic]
        assert list(broken(tmp_path, BETWEEN, lines, steps)) == ["done-not-denied"]


NOT_DONE: Dict[str, Tuple[Lines, List[Tuple[int, str]]]] = {
    "a part is denied there": (PUT, [*BEHIND[:2], (1, ack(5, denied=1)), BEHIND[3]]),
    "a part is not done": (PUT, [BEHIND[0], BEHIND[2]]),
    "a part has no response": (PUT, BEHIND[:3]),
    "a response comes later": (PUT, [*BEHIND[:3], (3, ack(6))]),
    "a request came before": ([ack(7), *PUT[:2], ack(7), PUT[2]], BEHIND),
    "it is read only": (PUT, [(0, get(16, 5)), (0, get(20, 6)), (1, data("00000000", 5)), (2, data("00000000", 6))]),
    "corrupt data": (DENIED_GET, [(0, get(16, 3)), (1, data("44332211", 3, corrupt=1))]),
    "a corrupt put": ([put(16, "44332211", corrupt=1), ack(denied=1)], [(0, put(16, "44332211", 5)), (1, ack(5))]),
    "not denied": ([*PUT[:2], ack(size=3)], BEHIND),
    "nothing is done": (PUT, []),
    "at an unknown address": (PUT, [(0, BEHIND[0][1].replace("0010 f", "00x0 f")), *BEHIND[1:]]),
    "by another request": ([get(20, 2), *PUT[:2], PUT[2]], [(at + 1, line) for at, line in BEHIND]),
    "by another request with a response": (
        [get(20, 2), *PUT[:2], data("00000000", 2), PUT[2]],
        [(at + 1, line) for at, line in BEHIND],
    ),
}


@pytest.mark.parametrize("case", NOT_DONE)
def test_a_request_that_may_be_denied(tmp_path: Path, case: str) -> None:
    """It was not done as a whole, or it has another reason."""
    near, far = NOT_DONE[case]
    assert broken(tmp_path, BETWEEN, near, far) == {}


# ---- corrupt data of a device stay corrupt


def test_corrupt_data_that_a_device_returns_as_good_data(tmp_path: Path) -> None:
    """Corrupt data were written, and nothing good came after them into the same beat."""
    bad, half = [put(16, "11111111", corrupt=1), ack()], [put(16, "00110000", mask="4", corrupt=1), ack()]
    words = "client link: AccessAckData of 1 bytes, source 00 is good at 0x10, and corrupt data were written there"
    lost = [*bad, get(18, size=0), data(size=0)]
    assert broken(tmp_path, DEVICE, lost) == {"corrupt-stays": words}
    good = [put(16, "22222222"), ack()]
    over = [*good, *half, get(16), data("22002222")]
    for lines in ([*half, get(18, size=0), data(size=0)], [*half, get(16), data()], over):
        assert list(broken(tmp_path, DEVICE, lines)) == ["corrupt-stays"]
    right = (
        [*bad, get(16), data(corrupt=1)],
        [*bad, get(16), data("00000000", 0, 1, 1)],
        [*bad, *good, get(16), data("22222222")],
        [*bad, put(16, "00000022", mask="1"), ack(), get(18, size=0), data("00110000", size=0)],
        [*bad, put(16, "00000022", mask="1"), get(18, 1, size=0), data("00110000", 1, size=0)],
        [*bad, put(16, "22222222"), get(16, 1), data("22222222", 1)],  # the write of good data may have come first
        [bad[0], ack(denied=1), get(16), data()],
        [*half, get(16, size=1), data(size=1)],
        [*bad, get(20), data()],
    )
    for lines in right:
        assert broken(tmp_path, DEVICE, lines) == {}
    assert broken(tmp_path, Design(Source("dut", ()), {}, link("corrupt")), lost) == {}
    assert broken(tmp_path, DEVICE, lost, is_memory=False) == {} == broken(tmp_path, BETWEEN, lost, [])


# ---- corrupt data of a host stay corrupt


def test_corrupt_data_that_a_host_writes_as_good_data(tmp_path: Path) -> None:
    """A host writes a whole beat of what it has read as corrupt data only, and never wrote before."""
    bad, wrote = [get(16), data("12345678", corrupt=1)], [put(32, "12345678", 1), ack(1)]
    words = "manager link: {} of 4 bytes, source 01 writes 12345678 as good data, which it has read as corrupt data"
    assert broken(tmp_path, HOST, [*bad, *wrote]) == {"corrupt-stays": words.format("PutFullData")}
    lines = [*bad, get(20, 2), data("87654321", 2), wrote[0].replace("A 0", "A 1"), ack(1)]
    assert broken(tmp_path, HOST, lines) == {"corrupt-stays": words.format("PutPartialData")}
    right = (
        [*bad, put(32, "12345678", 1, corrupt=1), ack(1)],
        [*bad, put(32, "12345678", 1, mask="7"), ack(1)],
        [*bad, put(32, "12345679", 1), ack(1)],
        [*bad, get(16), data("12345678"), *wrote],
        [get(20), data("12345678"), *bad, *wrote],
        [*wrote, *bad, *wrote],
        [*wrote, *bad],
        [*bad, add(32, "12345678", 1), data("00000000", 1)],
    )
    for lines in right:
        assert broken(tmp_path, HOST, lines) == {}
    assert broken(tmp_path, Design(Source("dut", ()), {}, None, link("corrupt")), [*bad, *wrote]) == {}
    assert broken(tmp_path, BETWEEN, [], list(enumerate([*bad, *wrote]))) == {}


# ---- a reset brings back what a device held at first


def restored(folder: Path, *runs: Tuple[Lines, Lines], is_at_zero: bool = False) -> str:
    """Returns what is said of a device after these runs, each with its beats before a reset and after it. The reset,
    and all beats before it, may be at time 0."""
    made = Restored(DEVICE)
    for before, after in runs:
        lines = [*before, *after]
        times = [0 if is_at_zero and at < len(before) else 10000 * at for at in range(len(lines))]
        (folder / "client.beats").write_text("".join(f"{line}\n" for line in lines))
        (folder / "client.beats.times").write_text("".join(f"{time}\n" for time in times))
        reset_time = 0 if is_at_zero else 10000 * len(before) - 5000
        made.add(Run(folder, "", reset_time=reset_time if after else -1))
    return made.words


def read(address: int, value: str) -> Lines:
    return [get(address), data(value)]


def write(address: int, value: str) -> Lines:
    return [put(address, value), ack()]


FIRST = [*read(0, "00000000"), *read(4, "000000a5"), *write(0, "11111111"), *write(4, "22222222")]


def test_a_byte_that_a_reset_does_not_bring_back(tmp_path: Path) -> None:
    """Other bytes come back, so it is no memory, which keeps its data through a reset."""
    words = "after a reset, 0x4 reads 22 as before it, and not a5 as at first; 7 other bytes come back"
    assert restored(tmp_path, (FIRST, [*read(0, "00000000"), *read(4, "00000022")])) == words
    first, later = FIRST[:4], [*FIRST[4:], *read(0, "11111111")]
    assert restored(tmp_path, (first, []), (later, [*read(0, "00000000"), *read(4, "00000022")])) == words


def test_a_reset_at_time_0(tmp_path: Path) -> None:
    """It is a reset as any other: beats of the same time come before it."""
    after = [*read(0, "00000000"), *read(4, "00000022")]
    words = "after a reset, 0x4 reads 22 as before it, and not a5 as at first; 7 other bytes come back"
    assert restored(tmp_path, (FIRST, after), is_at_zero=True) == words
    assert restored(tmp_path, (FIRST[:4], []), (FIRST[4:], after), is_at_zero=True) == words


BACK = {
    "all comes back": (FIRST, [*read(0, "00000000"), *read(4, "000000a5")]),
    "a memory": (FIRST, [*read(0, "11111111"), *read(4, "22222222")]),
    "few come back": (FIRST, [*read(0, "11111100"), *read(4, "222222a5")]),
    "another value": (FIRST, [*read(0, "00000000"), *read(4, "00000033")]),
    "written after the reset": (FIRST, [*read(0, "00000000"), *write(4, "22222222"), *read(4, "22222222")]),
    "not known at first": (FIRST[4:], [*read(0, "00000000"), *read(4, "00000022")]),
    "not acknowledged": (FIRST[:-1], [*read(0, "00000000"), *read(4, "00000022")]),
    "denied": ([*FIRST[:-1], ack(denied=1)], [*read(0, "00000000"), *read(4, "00000022")]),
    "corrupt": ([*FIRST[:-2], put(4, "22222222", corrupt=1), ack()], [*read(0, "00000000"), *read(4, "00000022")]),
    "not written": (FIRST[:-2], [*read(0, "00000000"), *read(4, "000000a5")]),
    "a denied read": (FIRST, [*read(0, "00000000"), get(4), data("00000022", 0, 1, 1)]),
    "a corrupt read": (FIRST, [*read(0, "00000000"), get(4), data("00000022", corrupt=1)]),
    "an unknown value": (FIRST, [*read(0, "00000000"), *read(4, "000000xx")]),
    "an atomic": ([*FIRST[:-2], add(4, "00000022"), data("000000a5")], [*read(0, "00000000"), *read(4, "00000022")]),
}


@pytest.mark.parametrize("case", BACK)
def test_bytes_after_a_reset(tmp_path: Path, case: str) -> None:
    """All come back, or nobody knows what they held."""
    assert restored(tmp_path, BACK[case]) == ""


def test_bursts_before_a_reset_and_after_it(tmp_path: Path) -> None:
    """Each beat of a burst has its place. Beats with unknown bits, and responses without a request, are left out."""

    def reads(first: str, second: str) -> Lines:
        return [get(8, size=3), data(first, size=3), data(second, size=3)]

    writes = [put(8, "11111111", size=3), put(8, "22222222", size=3), ack(size=3)]
    before = [*reads("00000000", "000000a5"), *writes]
    unknown = [
        get(8).replace("A 4 0 2", "A 4 0 x"),
        data("99999999").replace("D 1 0 2", "D 1 0 x"),
        data("99999999", 9),
    ]
    words = "after a reset, 0xc reads 22 as before it, and not a5 as at first; 7 other bytes come back"
    assert restored(tmp_path, (before, reads("00000000", "00000022"))) == words
    assert restored(tmp_path, ([*unknown, *before], [*unknown, *reads("00000000", "00000022")])) == words
    assert restored(tmp_path, (before, reads("00000000", "000000a5"))) == ""


def test_a_byte_that_is_not_the_same_at_first(tmp_path: Path) -> None:
    """It tells nothing about a reset."""
    after = [*read(0, "00000000"), *read(4, "00000022")]
    assert restored(tmp_path, (read(4, "00000077"), []), (FIRST, after)) == ""


# ---- a host copies adjacent data to adjacent places


def copied(words: int, distances: Dict[int, int], first: int = 0) -> Lines:
    """A host that copies words. `distances` has the numbers of the words from which on a distance holds."""
    lines, distance = [], 0
    for at in range(words):
        distance = distances.get(at, distance)
        place = first + 4 * at
        value = f"{0xABCD0000 + 17 * place:08x}"
        lines += [get(place), data(value), put(place + distance, value, 1), ack(1)]
    return lines


def test_a_host_that_copies_to_another_place(tmp_path: Path) -> None:
    """A carry of the target's address is lost."""
    found = broken(tmp_path, HOST, copied(40, {0: 4096, 20: 0}))
    value = f"{0xABCD0000 + 17 * 80:08x}"
    words = f"writes {value} at 0x50, and the data before it, of 0x4c, went to 0x104c"
    assert list(found) == ["copies-all"] and found["copies-all"].endswith(words)


def test_a_host_that_copies_with_unknown_beats_between(tmp_path: Path) -> None:
    """Beats with unknown bits are left out: the verdict is that of the others."""
    lines = copied(40, {0: 4096, 20: 0})
    unknown = [get(512, 2).replace("A 4 0 2", "A 4 0 x"), data("00000000", 2).replace("D 1 0 2", "D 1 0 x")]
    unknown += [put(512, "xxxxxxxx", 2), data("xxxxxxxx", 2)]
    expected = broken(tmp_path, HOST, lines)
    assert list(expected) == ["copies-all"]
    assert broken(tmp_path, HOST, [*lines[:40], *unknown, *lines[40:]]) == expected


def test_a_host_that_writes_something_else(tmp_path: Path) -> None:
    """A word is not what was read, while those beside it are copied."""
    for at in (0, 7, 19):
        lines = copied(20, {0: 4096})
        lines[4 * at + 2] = put(4096 + 4 * at, "12345678", 1)
        words = f"a copy of the data at 0x{4 * at:x}, as beside it, would have {0xABCD0000 + 17 * 4 * at:08x}"
        found = broken(tmp_path, HOST, lines)
        assert list(found) == ["copies-all"] and f"writes 12345678 at 0x{4096 + 4 * at:x}" in found["copies-all"]
        assert found["copies-all"].endswith(words)
        assert broken(tmp_path, BETWEEN, [], list(enumerate(lines))) == {}
    lines = copied(20, {0: 4096})
    for at in (7, 8):  # two in a row may be data of the host
        lines[4 * at + 2] = put(4096 + 4 * at, f"{at:08x}", 1)
    assert broken(tmp_path, HOST, lines) == {}


def with_equal_words() -> Lines:
    """A copy of 20 words, of which two are equal, so that only the first place of their value is known."""
    lines, value = copied(20, {0: 4096}), f"{0xABCD0000 + 17 * 8:08x}"
    lines[21], lines[22] = data(value), put(4096 + 20, value, 1)
    return lines


RIGHT_COPIES = {
    "one distance": copied(40, {0: 4096}),
    "two equal words": with_equal_words(),
    "too few to say so": copied(10, {0: 4096, 5: 0}),
    "another job": [*copied(20, {0: 4096}), *copied(20, {0: 8192}, 1024)],
    "the same job again": [*copied(40, {0: 4096}), *copied(40, {0: 8192})],
    "many jumps": copied(40, {at: 4096 * (1 + at % 3) for at in range(0, 40, 4)}),
    "mostly other writes": [*copied(20, {0: 4096, 10: 0}), *(put(8192 + 4 * at, f"{at:08x}", 1) for at in range(40))],
}


@pytest.mark.parametrize("case", RIGHT_COPIES)
def test_a_host_that_may_copy_so(tmp_path: Path, case: str) -> None:
    """Adjacent data go to adjacent places, or the host has an order of its own."""
    assert broken(tmp_path, HOST, RIGHT_COPIES[case]) == {}
