"""Cycles whose faults are written down: of what CHECKER.md says of each setting. A case: its cycles, each with the
beats that are offered, the
channels whose beat is accepted, the faults of A to D, and the count of faults after it."""
from dataclasses import dataclass, replace
from typing import Any, Dict, Iterator, List, Optional, Tuple

from checker_model import ANSWERS, NAMES, Beat, Settings


@dataclass
class Case:
    name: str
    settings: Settings
    cycles: List[Any]


GET = Beat(opcode=4, size=2, source=5, address=0x1004, mask=0xF0)
DATA = Beat(opcode=1, size=2, source=5)
OTHER = replace(GET, address=0x2004)
WRONG = replace(GET, mask=0x0F)
LONG_GET, LONG_DATA = Beat(opcode=4, size=4, source=6, address=0x3000, mask=0xFF), Beat(opcode=1, size=4, source=6)
LONG_PUT = Beat(size=4, source=5, address=0x4000, mask=0xFF)
NONE = (0, 0, 0, 0)


def both(a: Any, d: Any) -> Dict[str, Any]:
    return {"A": a, "D": d}


CASES = [
    Case(
        "a response while its request is offered",
        Settings(RESPOND_TO_OFFERED=1),
        [
            ({"A": GET}, set(), NONE, 0),
            (both(GET, DATA), {"D"}, NONE, 0),
            ({"A": GET}, {"A"}, NONE, 0),
            ({"A": GET}, {"A"}, NONE, 0),
            ({"D": DATA}, {"D"}, NONE, 0),
            ({"D": DATA}, {"D"}, (0, 0, 0, 9), 1),
        ],
    ),
    Case(
        "the same without RESPOND_TO_OFFERED",
        Settings(),
        [(both(GET, DATA), {"D"}, (0, 0, 0, 9), 1), ({"A": GET}, {"A"}, NONE, 1), ({"A": GET}, {"A"}, (8, 0, 0, 0), 2)],
    ),
    Case(
        "two responses while a request is offered",
        Settings(RESPOND_TO_OFFERED=1),
        [
            (both(GET, DATA), {"D"}, NONE, 0),
            (both(GET, DATA), {"D"}, (0, 0, 0, 9), 1),
            (both(GET, DATA), {"A", "D"}, (0, 0, 0, 9), 2),
        ],
    ),
    Case(
        "another request is accepted than was answered",
        Settings(RESPOND_TO_OFFERED=1),
        [(both(GET, DATA), {"D"}, NONE, 0), ({"A": OTHER}, {"A"}, (7, 0, 0, 0), 1), ({"D": DATA}, {"D"}, NONE, 1)],
    ),
    Case(
        "the same without RESYNC_AFTER_FAULT",
        Settings(RESPOND_TO_OFFERED=1, RESYNC_AFTER_FAULT=0),
        [
            (both(GET, DATA), {"D"}, NONE, 0),
            ({"A": OTHER}, {"A"}, (7, 0, 0, 0), 1),
            ({"D": DATA}, {"D"}, (0, 0, 0, 9), 2),
            ({"A": GET}, {"A"}, NONE, 2),
        ],
    ),
    Case(
        "a response of another size than the offered request",
        Settings(RESPOND_TO_OFFERED=1, RESYNC_AFTER_FAULT=0),
        [(both(GET, replace(DATA, size=3)), {"D"}, (0, 0, 0, 10), 1)],
    ),
    Case(
        "a response to an unlawful offered request",
        Settings(RESPOND_TO_OFFERED=1),
        [(both(WRONG, DATA), {"D"}, (0, 0, 0, 9), 1)],
    ),
    Case(
        "SizeMismatch closes the request",
        Settings(),
        [
            ({"A": GET}, {"A"}, NONE, 0),
            ({"D": replace(DATA, size=5)}, {"D"}, (0, 0, 0, 10), 1),
            *[({"D": replace(DATA, size=5)}, {"D"}, NONE, 1)] * 3,
            ({"A": GET}, {"A"}, NONE, 1),
            ({"D": DATA}, {"D"}, NONE, 1),
        ],
    ),
    Case(
        "but not without RESYNC_AFTER_FAULT",
        Settings(RESYNC_AFTER_FAULT=0),
        [
            ({"A": GET}, {"A"}, NONE, 0),
            *[({"D": replace(DATA, size=3)}, {"D"}, (0, 0, 0, 10), n) for n in (1, 2)],
            ({"A": GET}, {"A"}, (8, 0, 0, 0), 3),
            ({"D": DATA}, {"D"}, NONE, 3),
        ],
    ),
    Case(
        "HeadChanged begins no response to a request of its cycle without ALLOW_SAME_CYCLE_RESPONSE",
        Settings(ALLOW_SAME_CYCLE_RESPONSE=0),
        [
            ({"A": LONG_GET}, {"A"}, NONE, 0),
            ({"D": LONG_DATA}, {"D"}, NONE, 0),
            (both(GET, DATA), {"A", "D"}, (0, 0, 0, 7), 1),
            ({"D": LONG_DATA}, {"D"}, NONE, 1),
            ({"D": DATA}, {"D"}, NONE, 1),
        ],
    ),
    Case(
        "but with it",
        Settings(),
        [
            ({"A": LONG_GET}, {"A"}, NONE, 0),
            ({"D": LONG_DATA}, {"D"}, NONE, 0),
            (both(GET, DATA), {"A", "D"}, (0, 0, 0, 7), 1),
            ({"D": DATA}, {"D"}, (0, 0, 0, 9), 2),
        ],
    ),
    Case(
        "HeadChanged begins no request of the source that its cycle frees without ALLOW_SAME_CYCLE_REUSE",
        Settings(ALLOW_SAME_CYCLE_REUSE=0),
        [
            ({"A": LONG_PUT}, {"A"}, NONE, 0),
            (both(OTHER, replace(DATA, opcode=0, size=4)), {"A", "D"}, (7, 0, 0, 0), 1),
            ({"A": LONG_PUT}, {"A"}, NONE, 1),
            ({"A": OTHER}, {"A"}, NONE, 1),
        ],
    ),
    Case(
        "but with it",
        Settings(),
        [
            ({"A": LONG_PUT}, {"A"}, NONE, 0),
            (both(OTHER, replace(DATA, opcode=0, size=4)), {"A", "D"}, (7, 0, 0, 0), 1),
            ({"A": OTHER}, {"A"}, (8, 0, 0, 0), 2),
        ],
    ),
    Case(
        "an offered beat is judged, and counted once",
        Settings(JUDGE_OFFERED=1),
        [
            *[({"A": WRONG}, set(), (5, 0, 0, 0), 1)] * 3,
            ({"A": replace(WRONG, address=0x2004)}, set(), (5, 0, 0, 0), 2),
            ({"A": WRONG}, set(), (5, 0, 0, 0), 3),
            ({"A": WRONG}, {"A"}, (5, 0, 0, 0), 3),
            ({"A": WRONG}, {"A"}, (5, 0, 0, 0), 4),
            ({"A": GET}, {"A"}, NONE, 4),
        ],
    ),
    Case(
        "an offered beat is not judged by default",
        Settings(),
        [({"A": WRONG}, set(), NONE, 0), ({"A": GET}, {"A"}, NONE, 0)],
    ),
    Case(
        "an offered response needs a request, which may be offered",
        Settings(JUDGE_OFFERED=1),
        [
            ({"D": DATA}, set(), (0, 0, 0, 9), 1),
            (both(GET, DATA), set(), NONE, 1),
            (both(GET, DATA), {"A", "D"}, NONE, 1),
        ],
    ),
    Case(
        "an offered request may wait for its source",
        Settings(JUDGE_OFFERED=1),
        [
            ({"A": GET}, {"A"}, NONE, 0),
            ({"A": OTHER}, set(), NONE, 0),
            ({"A": OTHER}, {"A"}, (8, 0, 0, 0), 1),
            (both(OTHER, DATA), {"A", "D"}, NONE, 1),
        ],
    ),
    *[
        Case(
            f"the responses to {request}",
            Settings(MATCH_OPCODES=1),
            [
                cycle
                for code, response in enumerate(NAMES["D"])
                if response not in ("-", "ReleaseAck")
                for wrong in [response not in ANSWERS[request]]
                for cycle in (
                    ({"A": Beat(opcode=number, size=2, source=5, address=0x1004, mask=0xF0)}, {"A"}, NONE, None),
                    ({"D": replace(DATA, opcode=code)}, {"D"}, (0, 0, 0, 27 if wrong else 0), None),
                )
            ],
        )
        for number, request in enumerate(NAMES["A"])
    ],
    Case(
        "a response of another opcode frees no source of its cycle without RESYNC_AFTER_FAULT",
        Settings(MATCH_OPCODES=1, RESYNC_AFTER_FAULT=0),
        [
            ({"A": GET}, {"A"}, NONE, 0),
            (both(OTHER, replace(DATA, opcode=2)), {"A", "D"}, (8, 0, 0, 27), 2),
            ({"D": DATA}, {"D"}, NONE, 2),
        ],
    ),
    Case(
        "but with it",
        Settings(MATCH_OPCODES=1),
        [
            ({"A": GET}, {"A"}, NONE, 0),
            (both(OTHER, replace(DATA, opcode=2)), {"A", "D"}, (0, 0, 0, 27), 1),
            ({"D": DATA}, {"D"}, NONE, 1),
        ],
    ),
    Case(
        "any response by default",
        Settings(),
        [({"A": GET}, {"A"}, NONE, 0), ({"D": replace(DATA, opcode=0)}, {"D"}, NONE, 0)],
    ),
]
for case in CASES:
    count, cycles = 0, []
    for beats, accepted, faults, said in case.cycles:
        count = count + sum(map(bool, faults)) if said is None else said
        cycles.append((beats, accepted, faults, count))
    case.cycles = cycles


# ---- unknown bits

NO_BEAT = ["0 0 0" + " 0" * 36, "1 0 0" + " 0" * 36]  # without and with a reset
LAWFUL = {"A": GET, "B": replace(GET, opcode=6), "C": Beat(opcode=7, size=3, source=5, address=0x1000), "D": DATA}
LONG = {
    "A": Beat(opcode=2, size=4, source=5, address=0x1000, mask=0xFF),
    "B": Beat(opcode=1, size=4, source=5, address=0x1000, mask=0x5A),
    "C": Beat(opcode=5, size=4, source=5, address=0x1000),
    "D": Beat(opcode=5, size=4, source=6, sink=3, denied=1),
}


@dataclass
class Unknown:
    """Cycles after a reset, as lines for cycles.sv, and their faults. `report` is in the report of the last one."""

    name: str
    settings: Settings
    lines: List[str]
    faults: List[Any]
    report: str = ""


def line(channel: str, beat: Optional[Beat] = None, change: Optional[Dict[str, str]] = None, **fields: Any) -> str:
    """A cycle with one beat of a channel, in which some digits are x or z."""
    values = {name: f"{value:x}" for name, value in vars(beat or LAWFUL[channel]).items()}
    values.update(fields)
    at = "ABCD".index(channel)
    words = [
        (change or {}).get(name, word) for name, word in (("reset", "0"), ("valid", f"{1 << at:x}"), ("ready", "f"))
    ]
    for i in range(4):
        words += values.values() if i == at else ["0"] * 9
    return " ".join(words)


def only(channel: str, fault: int) -> Tuple[int, ...]:
    return tuple(fault if x == channel else 0 for x in "ABCD")


def first_beats() -> Iterator[Unknown]:
    """A field of a first beat: which fault it has, and the words about it."""
    for digit in "xz":
        for channel in "ABC":
            opcodes = "0 to 7 without 3" if channel == "C" else "0 to 6 without 3"
            rows = [
                ("opcode", digit, 1, f"opcode is {digit}, expected {opcodes}"),
                (
                    "param",
                    digit,
                    2,
                    f"param is {digit}, expected at most {5 if channel == 'C' else 2 if channel == 'B' else 0}",
                ),
                ("size", digit, 3, f"size is {digit}, expected at most 12"),
                ("address", f"100{digit}", 4, f"address is 000000000000100{digit}, expected a multiple of 2^"),
                ("address", f"{digit}{'1000' if channel == 'C' else '1004'}", 0, ""),
                ("corrupt", digit, 6 if channel != "C" else 0, f"corrupt is {digit}, expected 0 without data"),
                ("mask", f"{digit}0", 5 if channel != "C" else 0, f"mask is {digit}0, expected f0"),
                ("mask", f"f{digit}", 5 if channel != "C" else 0, f"mask is f{digit}, expected f0"),
                (
                    "source",
                    f"{digit}5",
                    8 if channel == "A" else 0,
                    f"source is {digit}5, expected one without a request in flight",
                ),
            ]
            for name, value, fault, report in rows:
                yield Unknown(
                    f"{name} {value} of {channel}",
                    Settings(),
                    [line(channel, None, None, **{name: value})],
                    [only(channel, fault)],
                    report if fault else "",
                )
        asked = [line("A")]
        for name, value, fault, report in (
            ("opcode", digit, 1, f"opcode is {digit}, expected 0 to 6 without 3"),
            ("param", digit, 2, f"param is {digit.upper()}, expected at most 0"),
            ("size", digit, 3, f"size is {digit}, expected at most 12"),
            ("source", f"0{digit}", 9, f"source is 0{digit}, expected one with a request in flight"),
            ("sink", digit, 0, ""),
            ("denied", digit, 0, ""),
            ("corrupt", digit, 0, ""),
        ):
            yield Unknown(
                f"{name} {value} of D",
                Settings(),
                [*asked, line("D", None, None, **{name: value})],
                [NONE, only("D", fault)],
                report,
            )
        yield Unknown(
            f"corrupt {digit} of D without data",
            Settings(),
            [line("A", replace(GET, opcode=0)), line("D", replace(DATA, opcode=0), corrupt=digit)],
            [NONE, only("D", 6)],
            f"corrupt is {digit}, expected 0 without data",
        )
        # a mask bit of PutPartialData on a lane without a byte, and on one with a byte
        for channel in "AB":
            partial = replace(GET, opcode=1)
            yield Unknown(
                f"mask of PutPartialData on {channel}", Settings(), [line(channel, partial, mask=f"{digit}0")], [NONE]
            )
            yield Unknown(
                f"mask of PutPartialData on {channel}, outside",
                Settings(),
                [line(channel, partial, mask=f"f{digit}")],
                [only(channel, 5)],
                f"mask is f{digit}, expected no bit outside f0",
            )


def later_beats() -> Iterator[Unknown]:
    """A field of a second beat; the burst is still open after it."""
    settings = Settings(RESYNC_AFTER_FAULT=0)
    asked = line("A", Beat(opcode=6, size=4, source=6, address=0x1000, mask=0xFF))
    for digit in "xz":
        for channel in "ABCD":
            beat = LONG[channel]
            before = ([asked] if channel == "D" else []) + [line(channel, beat)]
            value = {"source": f"0{digit}", "address": f"100{digit}", "sink": f"0{digit}"}
            shown = {**value, "address": f"000000000000100{digit}", "param": digit.upper() if channel == "D" else digit}
            rows = [
                (name, value.get(name, digit), 7, f"HeadChanged: {name} is {shown.get(name, digit)}, expected ")
                for name in (
                    "opcode",
                    "param",
                    "size",
                    "source",
                    *(("sink", "denied") if channel == "D" else ("address",)),
                )
            ]
            rows.append(("corrupt", digit, 0, ""))
            if channel in "AB":
                rows.append(("mask", f"f{digit}", 5, f"Mask: mask is f{digit}, expected ff" if channel == "A" else ""))
            if channel == "B":  # PutPartialData fills all lanes, so no bit of a mask is outside
                rows[-1] = ("mask", f"f{digit}", 0, "")
            for name, word, fault, report in rows:
                lines = [*before, line(channel, beat, None, **{name: word})]
                yield Unknown(
                    f"{name} {word} of a later beat of {channel}",
                    settings,
                    lines,
                    [NONE] * len(before) + [only(channel, fault)],
                    report,
                )
                if fault:
                    lines = [*lines, line(channel, beat), line(channel, replace(beat, source=7))]
                    after = only(channel, 9 if channel == "D" else 0)
                    yield Unknown(
                        f"after {name} {word} of a later beat of {channel}",
                        settings,
                        lines,
                        [NONE] * len(before) + [only(channel, fault), NONE, after],
                    )


def signals() -> Iterator[Unknown]:
    """An unknown valid or ready is 0, and no beat is accepted in an unknown reset."""
    for channel in "ABCD":
        beat = replace(LAWFUL[channel], opcode=3) if channel in "CD" else replace(LAWFUL[channel], size=13)
        fault = 1 if channel in "CD" else 3
        yield Unknown(f"nothing is unknown on {channel}", Settings(), [line(channel, beat)], [only(channel, fault)])
        for name in ("valid", "ready", "reset"):
            for digit in "xz":
                yield Unknown(f"{name} {digit} of {channel}", Settings(), [line(channel, beat, {name: digit})], [NONE])
    for digit in "xz":  # offered beats are judged if valid is 1, whatever ready is
        judging = Settings(JUDGE_OFFERED=1)
        yield Unknown(
            f"ready {digit} of an offered beat", judging, [line("A", WRONG, {"ready": digit})], [only("A", 5)]
        )
        yield Unknown(f"valid {digit} of an offered beat", judging, [line("A", WRONG, {"valid": digit})], [NONE])
        yield Unknown(f"reset {digit} of an offered beat", judging, [line("A", WRONG, {"reset": digit})], [NONE])


UNKNOWN = [*first_beats(), *later_beats(), *signals()]

# ---- parameters just outside their ranges, with the words of the error, and at the ends of the ranges

BYTES, ADDRESS, SIZE, IDS = (
    "DATA_BYTES is 1, 2, 4, 8, 16, 32, 64 or 128",
    "ADDRESS_BITS is 1 to 64",
    "SIZE_BITS is 1 to 8",
    "SOURCE_BITS and SINK_BITS are 1 to 16",
)
REFUSED = {
    ("DATA_BYTES", 0): BYTES,
    ("DATA_BYTES", 3): BYTES,
    ("DATA_BYTES", 96): BYTES,
    ("DATA_BYTES", 256): BYTES,
    ("ADDRESS_BITS", 0): ADDRESS,
    ("ADDRESS_BITS", 65): ADDRESS,
    ("SIZE_BITS", 0): SIZE,
    ("SIZE_BITS", 9): SIZE,
    ("SOURCE_BITS", 0): IDS,
    ("SOURCE_BITS", 17): IDS,
    ("SINK_BITS", 0): IDS,
    ("SINK_BITS", 17): IDS,
}
LIMITS = [
    ("DATA_BYTES", 1),
    ("DATA_BYTES", 128),
    ("ADDRESS_BITS", 1),
    ("ADDRESS_BITS", 64),
    ("SIZE_BITS", 1),
    ("SIZE_BITS", 8),
    ("SOURCE_BITS", 1),
    ("SOURCE_BITS", 16),
    ("SINK_BITS", 1),
    ("SINK_BITS", 16),
]
