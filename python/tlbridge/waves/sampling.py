"""Samples links at the rising edges of their clocks, and writes what was accepted as lines of a trace.

The values at an edge are those of the last time before it. A beat is accepted if valid and ready are both 1 and reset
is not active.
"""
from __future__ import annotations

from collections import ChainMap
from typing import Dict, List, Optional, Set, Tuple

from ..protocol import CARRIES_DATA, CHANNELS, FIELDS, GRANTS, RELEASE_ACK, active_lanes, beat_count
from ..run import FailureError, Run
from .links import Link, Signal, Values
from .vcd import Reader

MOST_SIZE, MOST_PARAM_OF_D = 15, 3  # that a trace can hold
_TO_ZERO = bytes(48 if letter in b"xXzZ" else letter for letter in range(256))
# The fields of each channel but data.
NUMBERS = {letter: tuple(name for name in names if name != "data") for letter, names in FIELDS.items()}
Seen = Optional[Tuple[int, str]]  # a time and a signal's name


def hexadecimal(text: bytes, digits: int) -> str:
    """Returns bits as $fwrite writes them with %h."""
    bits = text.lower().decode().rjust(4 * digits, "0")
    out = []
    for at in range(0, 4 * digits, 4):
        four = bits[at : at + 4]
        unknown = set(four) - set("01")
        out.append(
            f"{int(four, 2):x}" if not unknown else four[0] if len(set(four)) == 1 else "X" if "x" in unknown else "Z"
        )
    return "".join(out)


class Count:
    """How often something was seen, and where first."""

    def __init__(self) -> None:
        self.count = 0
        self.first: Seen = None

    def add(self, time: int, name: str) -> None:
        self.count += 1
        if self.first is None:
            self.first = (time, name)


class Port:
    """A channel of a link."""

    def __init__(self, letter: str, signals: Dict[str, Signal]):
        self.letter, self.signals = letter, signals
        self.valid, self.ready = signals["valid"], signals["ready"]
        self.accepted = 0
        self.unknown = {"valid": Count(), "ready": Count()}
        self.names = NUMBERS[letter]
        # the codes of these fields, if each is a separate variable, and no value is too large for a trace
        self.plain = [
            (code, signals[name].bits)
            for name in self.names
            if name in signals and (code := signals[name].code) is not None
        ]
        if (
            "size" in signals
            and signals["size"].bits > 4
            or letter == "D"
            and "param" in signals
            and signals["param"].bits > 2
        ):
            self.plain = []

    def accepts(self, values: Values, time: int) -> bool:
        """Whether valid and ready are 1. Unknown ones are counted if they matter."""
        valid, ready = self.valid.text(values), self.ready.text(values)
        if valid == b"1" and ready == b"1":
            return True
        for name, level, matters in (("valid", valid, ready != b"0"), ("ready", ready, valid != b"0")):
            if level not in (b"0", b"1") and matters:
                self.unknown[name].add(time, self.signals[name].name)
        return False


class Watch:
    """Samples one link; its beats go to `run` as those of link `index`, or are only counted if that is None.

    A beat of one of the channels `near` may have no unknown bits. In another one they are written as x, as
    tl_trace_monitor does, so that they differ from what is expected.
    """

    def __init__(
        self,
        link: Link,
        run: Optional[Run] = None,
        index: int = 0,
        version: int = 1,
        near: str = CHANNELS,
        unknown_zero: bool = False,
        span: Tuple[Optional[int], Optional[int]] = (None, None),
    ):
        self.link, self.run, self.index, self.near, self.unknown_zero = link, run, index, near, unknown_zero
        self.first, self.last = span
        self.digits = 2 * version
        self.resets = 1  # links that have a reset
        self.ports = [Port(letter, link.channels[letter]) for letter in CHANNELS if letter in link.channels]
        self._plain = [(port.valid.code, port.ready.code, port) for port in self.ports]
        self.edges = self.in_reset = self.sinks = 0
        self.zeroed, self.unknown_far, self.resets_after = Count(), Count(), Count()
        self.driven: List[Dict[bytes, str]] = []  # of each side the signals, by code, that a bench in C++ may drive
        self.at_rise: List[Count] = []  # how often they changed as the clock rose
        self._unknown: Dict[str, bytes] = {}  # fields of the beat at hand
        self._was_reset = False
        self._homes: Dict[int, int] = {}
        self._waits: Set[int] = set()
        self._home: Optional[int] = None
        self._expanded: Dict[int, int] = {}
        self._reset_level = b"0" if link.is_reset_low else b"1"
        self._reset_code = link.reset.code if link.reset else None
        self.restart()

    def restart(self) -> None:
        """Forgets what is under way."""
        self._missing = {"A": 0, "D": 0}
        self._waits.clear()

    def codes(self) -> Set[bytes]:
        signals = [
            port.signals[name] for port in self.ports for name in (port.signals if self.run else ("valid", "ready"))
        ]
        signals += [signal for signal in (self.link.clock, self.link.reset) if signal]
        return {part[0] for signal in signals for part in signal.parts}

    def sample(self, values: Values, time: int) -> None:
        self.edges += 1
        if self.first is not None and time < self.first or self.last is not None and time > self.last:
            return
        may_be_in_reset = self._was_reset or self._reset_code is None or values[self._reset_code] == self._reset_level
        if may_be_in_reset and self._is_in_reset(values, time):
            return
        moved: List[Port] = []
        for valid, ready, port in self._plain:
            if valid is not None and (
                values[valid] == b"0" or ready is not None and values[ready] == b"0" and values[valid] == b"1"
            ):
                continue
            if port.accepts(values, time):
                port.accepted += 1
                moved.append(port)
        if moved and self.run:
            self._beats(moved, values, time)

    def look_at_rise(self, values: Values, step: Values, time: int) -> None:
        """Counts the changes, in the very step in which the clock rises, of what a bench may drive."""
        for codes, count in zip(self.driven, self.at_rise):
            changed = [code for code in codes.keys() & step.keys() if step[code] != values[code]]
            if changed:
                count.add(time, codes[min(changed)])

    def _is_in_reset(self, values: Values, time: int) -> bool:
        if self.link.reset is None:
            return False
        if self.link.reset.text(values) != self._reset_level:
            if self._was_reset and self.run:
                self.run.leaves_reset(self.index)
            self._was_reset = False
            return False
        if not self._was_reset:
            self._was_reset = True
            self.restart()
            if any(port.accepted for port in self.ports):
                self.resets_after.add(time, self.link.reset.name)
            if self.run:
                self.run.reset(self.index, time, self.resets)
        self.in_reset += 1
        return True

    # ---- the fields

    def _record_unknown(self, letter: str, name: str, signal: Signal, text: bytes, time: int) -> None:
        if self.unknown_zero:
            self.zeroed.add(time, signal.name)
        elif letter in self.near:
            raise FailureError(
                f"time {time}: {signal.name} is unknown in a beat that is accepted: {text.decode()} (--unknown-zero"
                " writes 0)"
            )
        else:
            self._unknown[name] = text
            self.unknown_far.add(time, signal.name)

    def _number(self, letter: str, signals: Dict[str, Signal], name: str, values: Values, time: int) -> int:
        signal = signals.get(name)
        if signal is None:
            return 0
        if signal.code is not None:
            text = values[signal.code]
            if len(text) <= signal.bits:
                try:
                    return int(text, 2)
                except ValueError:
                    pass
        text = signal.text(values)
        try:
            return int(text, 2)
        except ValueError:
            self._record_unknown(letter, name, signal, text, time)
            return int(text.translate(_TO_ZERO), 2)

    def _data(
        self, letter: str, signals: Dict[str, Signal], values: Values, time: int, active: int, enabled: int
    ) -> int:
        """Returns the bytes of the beat; 0 on lanes that are not active, and for unknown bytes on lanes that no mask
        bit enables."""
        signal = signals.get("data")
        if signal is None or active == 0:
            return 0
        text = signal.text(values)
        if active not in self._expanded:
            self._expanded[active] = int.from_bytes(
                bytes(255 * (active >> lane & 1) for lane in range(self.link.width)), "little"
            )
        try:
            return int(text, 2) & self._expanded[active]
        except ValueError:
            pass
        lanes, is_unknown = [], False
        for lane in reversed(range(self.link.width)):
            byte = text[len(text) - 8 * lane - 8 : len(text) - 8 * lane]
            if not active >> lane & 1 or byte.strip(b"01") and not enabled >> lane & 1:
                byte = b"00000000"
            is_unknown = is_unknown or bool(byte.strip(b"01"))
            lanes.append(byte)
        text = b"".join(lanes)
        if is_unknown:
            self._record_unknown(letter, "data", signal, text, time)
        return int(text.translate(_TO_ZERO), 2)

    # ---- the lines

    def _give(self, letter: str, line: str, time: int) -> None:
        if self._unknown:
            words = line.split(" ")
            for name, text in self._unknown.items():
                at = FIELDS[letter].index(name) + 1
                words[at] = hexadecimal(text, len(words[at]))
            line = " ".join(words)
            self._unknown.clear()
        assert self.run is not None
        self.run.beat(self.index, line, time, str(time))

    def _numbers(self, port: Port, values: Values, time: int) -> List[int]:
        """Returns the fields of NUMBERS; -1 for a mask that the link does not have."""
        try:
            numbers = [int(values[code], 2) for code, _ in port.plain]
            if len(numbers) == len(port.names) and not any(
                number >> bits for number, (_, bits) in zip(numbers, port.plain)
            ):
                return numbers
        except ValueError:
            pass
        numbers = []
        for name in port.names:
            if (
                name == "sink"
                and port.letter == "D"
                and numbers[0] not in GRANTS
                and name in port.signals
                and port.signals[name].text(values).strip(b"01")
            ):
                self.sinks += 1  # nothing uses the sink of a response that is not a Grant
                numbers.append(0)
            elif name == "mask" and name not in port.signals:
                numbers.append(-1)
            else:
                numbers.append(self._number(port.letter, port.signals, name, values, time))
        for name, most in (("size", MOST_SIZE), ("param", MOST_PARAM_OF_D)):
            number = (
                numbers[port.names.index(name)]
                if name in port.signals and (name == "size" or port.letter == "D")
                else 0
            )
            if number > most:
                raise FailureError(
                    f"time {time}: {port.signals[name].name} is {number}, but a trace has at most {most} for"
                    f" {port.letter} {name}"
                )
        return numbers

    def _beats(self, moved: List[Port], values: Values, time: int) -> None:
        begins: Optional[Tuple[int, int]] = None  # the source and address of a request that begins in this cycle
        for port in moved:
            letter, numbers = port.letter, self._numbers(port, values, time)
            if letter == "D":
                begins = self._response(port, values, time, numbers, begins)
            elif letter == "E":
                self._give("E", f"E {numbers[0]:0{self.digits}x}", time)
            else:
                self._request(port, values, time, numbers)
                if letter == "A":
                    missing = self._missing["A"] or beat_count("A", numbers[0], numbers[2], self.link.width)
                    begins = begins if self._missing["A"] else (numbers[3], numbers[4])
                    self._missing["A"] = missing - 1
        if begins:
            self._homes[begins[0]] = begins[1]
            self._waits.add(begins[0])

    def _request(self, port: Port, values: Values, time: int, numbers: List[int]) -> None:
        """A beat of A, B or C."""
        opcode, param, size, source, address = numbers[:5]
        letter, width = port.letter, self.link.width
        active = active_lanes(size, address, width)
        mask, words = (1 << width) - 1, ""
        if letter != "C":
            mask = numbers[5] if numbers[5] >= 0 else active
            words = f" {mask:0{(width + 3) // 4}x}"
        data = self._data(letter, port.signals, values, time, active if opcode in CARRIES_DATA[letter] else 0, mask)
        self._give(
            letter,
            (
                f"{letter} {opcode:x} {param:x} {size:x} {source:0{self.digits}x} {address:016x}{words}"
                f" {data:0{2 * width}x} {numbers[-1]}"
            ),
            time,
        )

    def _response(
        self, port: Port, values: Values, time: int, numbers: List[int], begins: Optional[Tuple[int, int]]
    ) -> Optional[Tuple[int, int]]:
        """A beat of D. Its bytes are on the lanes for which its request asked; if none waits, that is the request of
        this very cycle.

        Returns the request of this cycle, if it still waits then.
        """
        opcode, param, size, source, sink, denied, corrupt = numbers
        width, digits = self.link.width, self.digits
        answers = not self._missing["D"] and opcode != RELEASE_ACK
        waited = source in self._waits
        at_once = begins if answers and not waited and begins is not None and begins[0] == source else None
        home = self._home if self._missing["D"] else at_once[1] if at_once else self._homes.get(source)
        # if no request came before the response, its lanes are written as they are, and as 0 if they are unknown
        active = (
            0
            if opcode not in CARRIES_DATA["D"]
            else (1 << width) - 1
            if home is None
            else active_lanes(size, home, width)
        )
        data = self._data("D", port.signals, values, time, active, 0 if home is None else active)
        self._missing["D"] = (self._missing["D"] or beat_count("D", opcode, size, width)) - 1
        self._home = home
        self._give(
            "D",
            (
                f"D {opcode:x} {param:x} {size:x} {source:0{digits}x} {sink:0{digits}x} {denied}"
                f" {data:0{2 * width}x} {corrupt}"
            ),
            time,
        )
        if answers and waited:
            self._waits.discard(source)
        if at_once:
            self._homes[source] = at_once[1]
            return None
        return begins


class Clock:
    def __init__(self, signal: Signal):
        self.signal, self.code = signal, signal.code
        self.watches: List[Watch] = []
        self.codes = {part[0] for part in signal.parts}
        self.is_fresh = True  # no value came since the dump began, or went on after a gap

    def rises(self, values: Dict[bytes, bytes], step: Dict[bytes, bytes]) -> Optional[bool]:
        """Whether a step raises it; None if the step does not change it."""
        if self.code is not None:
            if self.code not in step:
                return None
            old, new = values[self.code], step[self.code]
        elif self.codes.isdisjoint(step):
            return None
        else:
            old, new = self.signal.text(values), self.signal.text(ChainMap(step, values))
        return new == b"1" and old != b"1" and not self.is_fresh


class Sampler:
    """Reads a waveform to its end, and has the links sampled."""

    def __init__(self, reader: Reader, watches: List[Watch]):
        self.reader, self.watches = reader, watches
        clocks: Dict[object, Clock] = {}
        for watch in watches:
            assert watch.link.clock is not None
            clocks.setdefault(watch.link.clock.key(), Clock(watch.link.clock)).watches.append(watch)
        self._clocks = list(clocks.values())
        self._runs = {id(watch.run): watch.run for watch in watches if watch.run}
        codes: Set[bytes] = set().union(*(watch.codes() for watch in watches))
        self._values = dict.fromkeys(codes, b"x")
        self._step: Dict[bytes, bytes] = {}  # the changes of the time at hand
        self._now: Optional[bytes] = None  # its line
        self._off: Optional[int] = None  # since when nothing is dumped
        self.begin: Optional[int] = None
        self.end = 0
        self.gaps: List[Tuple[int, int]] = []

    def read(self) -> None:
        step = self._step
        for lines in self.reader.blocks(self._values.keys()):
            for line in lines:
                head = line[0]
                if head == 35:  # '#'
                    if line != self._now:
                        if step:
                            self._settle()
                        self._now = line
                elif head == 98 or head == 66:  # 'b', 'B'
                    text, _, code = line.partition(b" ")
                    step[code] = text[1:].lower()
                elif head == 36:  # '$'
                    self._mark(line)
                else:
                    step[line[1:]] = line[:1].lower()
        if step:
            self._settle()
        self.end = max(self.end, self._time())
        if self._off is not None:
            self._gap(self.end)

    def _time(self) -> int:
        if self._now is None:
            return 0
        if len(self._now) > 32:
            raise FailureError(f"{self.reader.name} {self.reader.line_of(self._now)}: a time has more than 31 digits")
        return int(self._now[1:])

    def _settle(self) -> None:
        """All changes of a time are there."""
        time, step, values = self._time(), self._step, self._values
        if time < self.end and self._now:
            raise FailureError(
                f"{self.reader.name} {self.reader.line_of(self._now)}: time goes back, from {self.end} to {time}"
            )
        if self.begin is None:
            self.begin = time
            for run in self._runs.values():
                run.begins(time)
        self.end = time
        for clock in self._clocks:
            if clock.code is not None and step.get(clock.code, b"0") == b"0" and not clock.is_fresh:
                continue  # no rise, as in most steps
            rises = clock.rises(values, step)
            if rises is None:
                continue
            if rises:
                for watch in clock.watches:
                    watch.sample(values, time)
                    if watch.driven:
                        watch.look_at_rise(values, step, time)
            clock.is_fresh = self._off is not None
        values.update(step)
        step.clear()

    def _mark(self, line: bytes) -> None:
        """The dump is switched off, or on again."""
        if (line == b"$off") != (self._off is None):
            return
        if self._step:
            self._settle()
        if self._off is None:
            self._off = self._time()
            return
        self._gap(self._time())
        for watch in self.watches:
            watch.restart()
        for clock in self._clocks:
            clock.is_fresh = True
        self._off = None

    def _gap(self, on: int) -> None:
        assert self._off is not None
        self.gaps.append((self._off, on))
        for run in self._runs.values():
            run.gap(self._off, on)
