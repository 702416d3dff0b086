"""The rules of one link, plainly: which fault each beat of a cycle has, and in which words the checker reports it
(docs/CHECKER.md).
"""
from dataclasses import dataclass
from functools import lru_cache
from typing import Collection, Dict, List, Mapping, Optional, Set, Tuple

NAMES = {
    "A": "PutFullData PutPartialData ArithmeticData LogicalData Get Intent AcquireBlock AcquirePerm".split(),
    "B": "PutFullData PutPartialData ArithmeticData LogicalData Get Intent ProbeBlock ProbePerm".split(),
    "C": "AccessAck AccessAckData HintAck - ProbeAck ProbeAckData Release ReleaseData".split(),
    "D": "AccessAck AccessAckData HintAck - Grant GrantData ReleaseAck -".split(),
}
PARAMS = {
    "ArithmeticData": 5,
    "LogicalData": 4,
    "Intent": 2,
    "-": 0,
    **dict.fromkeys("AcquireBlock AcquirePerm ProbeBlock ProbePerm Grant GrantData".split(), 3),
    **dict.fromkeys("ProbeAck ProbeAckData Release ReleaseData".split(), 6),
}
WITH_DATA = (
    "PutFullData PutPartialData ArithmeticData LogicalData AccessAckData ProbeAckData ReleaseData GrantData".split()
)
ANSWERS = {
    "PutFullData": ["AccessAck"],
    "PutPartialData": ["AccessAck"],
    "ArithmeticData": ["AccessAckData"],
    "LogicalData": ["AccessAckData"],
    "Get": ["AccessAckData"],
    "Intent": ["HintAck"],
    "AcquireBlock": ["Grant", "GrantData"],
    "AcquirePerm": ["Grant"],
}
FAULTS = {
    0: "",
    1: "Opcode",
    2: "Param",
    3: "Size",
    4: "Unaligned",
    5: "Mask",
    6: "Corrupt",
    7: "HeadChanged",
    8: "SourceBusy",
    9: "NoRequest",
    10: "SizeMismatch",
    27: "OpcodeMismatch",
}
NUMBER = {name: number for number, name in FAULTS.items()}
CHANNELS = "ABCD"
Head = Tuple[int, ...]


@dataclass(frozen=True)
class Beat:
    opcode: int = 0
    param: int = 0
    size: int = 0
    source: int = 0
    address: int = 0
    mask: int = 0
    corrupt: int = 0
    sink: int = 0
    denied: int = 0


@dataclass(frozen=True)
class Settings:
    DATA_BYTES: int = 8
    ADDRESS_BITS: int = 64
    SIZE_BITS: int = 4
    SOURCE_BITS: int = 8
    SINK_BITS: int = 8
    MAX_OUTSTANDING: int = 0
    ALLOW_SAME_CYCLE_RESPONSE: int = 1
    ALLOW_SAME_CYCLE_REUSE: int = 1
    RESPOND_TO_OFFERED: int = 0
    MATCH_OPCODES: int = 0
    RESYNC_AFTER_FAULT: int = 1
    JUDGE_OFFERED: int = 0
    ASSUME_OFFERED: int = 0
    ASSUME_CLIENT: int = 0
    ASSUME_MANAGER: int = 0
    MAX_REPORTS: int = 20

    def is_assumed(self, channel: str) -> bool:
        return bool(self.ASSUME_CLIENT if channel in "AC" else self.ASSUME_MANAGER)

    def judges_offered(self, channel: str) -> bool:
        return bool(self.ASSUME_OFFERED if self.is_assumed(channel) else self.JUDGE_OFFERED)


def name_of(channel: str, beat: Beat) -> str:
    return NAMES[channel][beat.opcode]


def has_data(channel: str, beat: Beat) -> bool:
    return name_of(channel, beat) in WITH_DATA


def answers_a_request(channel: str, beat: Beat) -> bool:
    return channel == "D" and name_of(channel, beat) != "ReleaseAck"


@lru_cache(maxsize=None)
def lanes_of(offset: int, size: int, width: int) -> int:
    """The mask of the lanes of a beat that begins at this lane."""
    return sum(1 << (offset + i) % width for i in range(min(1 << size, width)))


def head(channel: str, beat: Beat) -> Head:
    return (
        beat.opcode,
        beat.param,
        beat.size,
        beat.source,
        *((beat.sink, beat.denied) if channel == "D" else (beat.address,)),
    )


class Link:
    """The state of one link after its accepted beats."""

    def __init__(self, settings: Settings) -> None:
        self.settings = settings
        self.reset()

    def reset(self) -> None:
        # the first beat of the burst that is open, and how many beats it has left
        self.open: Dict[str, Optional[Tuple[Beat, int]]] = dict.fromkeys(CHANNELS)
        self.in_flight: Dict[int, Beat] = {}  # the request of each source
        self.answered: Optional[Beat] = None  # the request that was answered while it was offered
        self.beats = dict.fromkeys(CHANNELS, 0)
        self.faults = dict.fromkeys(CHANNELS, 0)
        # the faulty beat that was offered in the last cycle
        self.waits: Dict[str, Optional[Tuple[str, Head, int, int]]] = dict.fromkeys(CHANNELS)
        self.overflow = False

    def active(self, beat: Beat) -> int:
        return lanes_of(beat.address % self.settings.DATA_BYTES, beat.size, self.settings.DATA_BYTES)

    def mask_is_wrong(self, channel: str, beat: Beat) -> bool:
        if channel in "CD":
            return False
        active = self.active(beat)
        return bool(beat.mask & ~active) if name_of(channel, beat) == "PutPartialData" else beat.mask != active

    def own_fault(self, channel: str, beat: Beat) -> str:
        if name_of(channel, beat) == "-":
            return "Opcode"
        if beat.param >= PARAMS.get(name_of(channel, beat), 1):
            return "Param"
        if beat.size > 12:
            return "Size"
        if channel != "D" and beat.address % (1 << beat.size):
            return "Unaligned"
        if self.mask_is_wrong(channel, beat):
            return "Mask"
        return "Corrupt" if beat.corrupt and not has_data(channel, beat) else ""

    def head_changed(self, channel: str, beat: Beat) -> bool:
        rest = self.open[channel]
        was = rest[0] if rest else self.answered if channel == "A" else None
        return was is not None and head(channel, beat) != head(channel, was)

    def request(self, beat: Beat, offered: Optional[Beat]) -> Optional[Beat]:
        """The request that a response answers: an older one, or the one that A offers."""
        return self.in_flight.get(
            beat.source, offered if offered is not None and offered.source == beat.source else None
        )

    def fault(self, channel: str, beat: Beat, accepted: bool, offered: Optional[Beat]) -> str:
        """The fault of a beat; `offered` is the request of A that a response may answer in addition to those in
        flight.
        """
        if self.head_changed(channel, beat):
            return "HeadChanged"
        if self.open[channel]:
            return "Mask" if self.mask_is_wrong(channel, beat) else ""
        own = self.own_fault(channel, beat)
        if own:
            return own
        if channel == "A" and accepted and beat.source in self.in_flight:
            return "SourceBusy"
        if answers_a_request(channel, beat):
            request = self.request(beat, offered)
            if request is None:
                return "" if self.overflow else "NoRequest"
            if request.size != beat.size:
                return "SizeMismatch"
            if self.settings.MATCH_OPCODES and name_of("D", beat) not in ANSWERS[name_of("A", request)]:
                return "OpcodeMismatch"
        return ""

    def may_begin(self, channel: str, beat: Beat, offered: Optional[Beat]) -> bool:
        """Whether a beat with HeadChanged could begin a message."""
        rest, answered = self.open[channel], self.answered
        self.open[channel], self.answered = None, None
        fault = self.fault(channel, beat, True, offered)
        self.open[channel], self.answered = rest, answered
        return fault in ("", "SizeMismatch", "OpcodeMismatch")

    def takes(self, channel: str, beat: Beat, fault: str, offered: Optional[Beat]) -> bool:
        """Whether the link's state goes on with an accepted beat that has this fault."""
        if not fault:
            return True
        if not self.settings.RESYNC_AFTER_FAULT:
            return False
        return fault in ("SizeMismatch", "OpcodeMismatch") or (
            fault == "HeadChanged" and self.may_begin(channel, beat, offered)
        )

    def take(self, channel: str, beat: Beat, fault: str, offered: Optional[Beat]) -> None:
        rest = self.open[channel]
        if rest and not fault:
            first, left = rest
            self.open[channel] = (first, left - 1) if left > 1 else None
            return
        beats = (1 << beat.size) // min(1 << beat.size, self.settings.DATA_BYTES) if has_data(channel, beat) else 1
        self.open[channel] = (beat, beats - 1) if beats > 1 else None
        if channel == "A":
            if self.answered is None or fault:
                self.put(beat)
            self.answered = None
        if (
            answers_a_request(channel, beat)
            and self.in_flight.pop(beat.source, None) is None
            and offered is not None
            and offered.source == beat.source
        ):
            self.answered = offered

    def put(self, beat: Beat) -> None:
        if (
            self.settings.MAX_OUTSTANDING
            and len(self.in_flight) >= self.settings.MAX_OUTSTANDING
            and beat.source not in self.in_flight
        ):
            self.overflow = True
        else:
            self.in_flight[beat.source] = beat


class Checker:
    """The expected output of the checker in each cycle: the fault of each channel's beat, the count of faults,
    `overflow`, and its reports.
    """

    def __init__(self, settings: Settings) -> None:
        self.settings, self.link = settings, Link(settings)

    def offered_request(self, beats: Mapping[str, Beat], a_accepted: bool, d_accepted: bool) -> Optional[Beat]:
        """The request that A offers and that a response of this cycle may answer, by the settings."""
        link, settings, beat = self.link, self.settings, beats.get("A")
        if beat is None or link.own_fault("A", beat) or beat.source in link.in_flight:
            return None
        changed = link.head_changed("A", beat)
        if (
            (changed and not settings.RESYNC_AFTER_FAULT)
            or (link.open["A"] and not (changed and a_accepted))
            or (link.answered is not None and not changed)
        ):
            return None
        if a_accepted:
            return beat if settings.ALLOW_SAME_CYCLE_RESPONSE else None
        return beat if settings.RESPOND_TO_OFFERED or (settings.ALLOW_SAME_CYCLE_RESPONSE and not d_accepted) else None

    def judged(self, channel: str, beat: Beat, offered: Optional[Beat]) -> Tuple[str, bool]:
        """The fault of an accepted beat, and whether the link's state goes on with it."""
        fault = self.link.fault(channel, beat, True, offered)
        return fault, self.link.takes(channel, beat, fault, offered)

    def faults_of(self, beats: Mapping[str, Beat], accepted: Collection[str]) -> Tuple[Dict[str, str], Optional[Beat]]:
        """The fault of each beat that is judged; the state goes on with those that are accepted."""
        link, settings = self.link, self.settings
        request = self.offered_request(beats, "A" in accepted, "D" in accepted)
        judged = {channel for channel in beats if channel in accepted or settings.judges_offered(channel)}
        faults = {channel: link.fault(channel, beats[channel], False, request) for channel in judged - set(accepted)}
        waits = (
            "A" in faults
            and not faults["A"]
            and not link.open["A"]
            and link.answered is None
            and beats["A"].source in link.in_flight
        )
        to_offered = request if "A" not in accepted else None
        before = {channel: self.judged(channel, beats[channel], to_offered) for channel in accepted}
        fixed = {"A": not settings.ALLOW_SAME_CYCLE_REUSE, "D": not settings.ALLOW_SAME_CYCLE_RESPONSE}
        taken: Set[str] = set()
        while True:
            moved = False
            for channel in CHANNELS:
                if channel not in accepted or channel in taken:
                    continue
                fault, takes = (
                    before[channel] if fixed.get(channel) else self.judged(channel, beats[channel], to_offered)
                )
                faults[channel] = fault
                if takes:
                    link.take(channel, beats[channel], fault, to_offered)
                    taken.add(channel)
                    moved = True
            if not moved:
                break
        # an offered request waits for its source; it is assumed not to be offered before this
        if (
            waits
            and settings.is_assumed("A")
            and (beats["A"].source in link.in_flight or not settings.ALLOW_SAME_CYCLE_REUSE)
        ):
            faults["A"] = "SourceBusy"
        return faults, request

    def cycle(
        self, reset: int, beats: Mapping[str, Beat], accepted: Collection[str]
    ) -> Tuple[Dict[str, int], int, bool, List[str]]:
        """The faults, the count after the edge, `overflow`, and the reports, of a cycle with these offered beats."""
        link = self.link
        if reset:
            link.reset()
            return dict.fromkeys(CHANNELS, 0), 0, False, []
        held = {channel: (link.open[channel], link.answered) for channel in CHANNELS}
        in_flight = dict(link.in_flight)
        faults, request = self.faults_of(beats, accepted)
        reports = []
        for channel in CHANNELS:
            name = faults.get(channel, "")
            shown = (
                (
                    name,
                    head(channel, beats[channel]),
                    beats[channel].mask if channel in "AB" else 0,
                    beats[channel].corrupt,
                )
                if name
                else None
            )
            if name and shown != link.waits[channel]:
                if link.faults[channel] < self.settings.MAX_REPORTS:
                    asked = in_flight.get(beats[channel].source) or request or beats.get("A")
                    reports.append(self.words(channel, beats[channel], name, held[channel], asked))
                link.faults[channel] += 1
            link.waits[channel] = None if channel in accepted else shown
            link.beats[channel] += channel in accepted
        return (
            {channel: NUMBER[faults.get(channel, "")] for channel in CHANNELS},
            sum(link.faults.values()),
            link.overflow,
            reports,
        )

    def hex(self, value: int, bits: int) -> str:
        return f"{value:0{(bits + 3) // 4}x}"

    def field(self, channel: str, name: str, value: int) -> str:
        bits = {
            "source": self.settings.SOURCE_BITS,
            "address": self.settings.ADDRESS_BITS,
            "sink": self.settings.SINK_BITS,
        }
        return self.hex(value, bits[name]) if name in bits else str(value)

    def words(
        self,
        channel: str,
        beat: Beat,
        fault: str,
        held: Tuple[Optional[Tuple[Beat, int]], Optional[Beat]],
        asked: Optional[Beat],
    ) -> str:
        """The line of a report, after its time and place."""
        rest, answered = held
        name, width = name_of(channel, beat), self.settings.DATA_BYTES
        was = rest[0] if rest else answered
        if fault == "HeadChanged":
            fields = ["opcode", "param", "size", "source", *(["sink", "denied"] if channel == "D" else ["address"])]
            at = next(x for x in fields if getattr(beat, x) != getattr(was, x))
            said = (
                f"{at} is {self.field(channel, at, getattr(beat, at))}, expected"
                f" {self.field(channel, at, getattr(was, at))}"
            )
        elif fault == "Mask":
            partial = name == "PutPartialData"
            said = (
                f"mask is {self.hex(beat.mask, width)}, expected"
                f" {'no bit outside ' if partial else ''}{self.hex(self.link.active(beat), width)}"
            )
        else:
            said = {
                "Opcode": (
                    f"opcode is {beat.opcode}, expected {'0 to 7 without 3' if channel == 'C' else '0 to 6 without 3'}"
                ),
                "Param": f"param is {beat.param}, expected at most {PARAMS.get(name, 1) - 1}",
                "Size": f"size is {beat.size}, expected at most 12",
                "Unaligned": (
                    f"address is {self.field(channel, 'address', beat.address)}, expected a multiple of 2^{beat.size}"
                ),
                "Corrupt": "corrupt is 1, expected 0 without data",
                "SourceBusy": (
                    f"source is {self.field(channel, 'source', beat.source)}, expected one without a request in flight"
                ),
                "NoRequest": (
                    f"source is {self.field(channel, 'source', beat.source)}, expected one with a request in flight"
                ),
                "SizeMismatch": f"size is {beat.size}, expected {asked.size if asked else 0} as in the request",
                "OpcodeMismatch": (
                    f"opcode is {beat.opcode}, expected one that answers opcode {asked.opcode if asked else 0}"
                ),
            }[fault]
        last = (
            f"sink {self.field(channel, 'sink', beat.sink)}, denied {beat.denied}"
            if channel == "D"
            else f"address {self.field(channel, 'address', beat.address)}"
        )
        place = "later" if rest else "first"
        return (
            f"{channel} beat {self.link.beats[channel]}: fault {NUMBER[fault]} {fault}: {said} ({place} beat of "
            f"{'no message' if name == '-' else name}: opcode {beat.opcode}, param {beat.param}, size {beat.size}, "
            f"source {self.field(channel, 'source', beat.source)}, {last})"
        )
