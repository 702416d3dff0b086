"""Judges an adapter that splits a message into several smaller ones and joins their responses, as in front of a TL-UL
device.

The rule is section 15 of docs/SPECIFICATION.md. It is no part of the proved model: nothing here is proved. Both links
are also judged by themselves, by the program that computes verdicts.
"""
from __future__ import annotations

from collections import deque
from typing import Deque, Dict, Iterator, List, NamedTuple, Optional, Tuple

from .judge import Places, Said
from .protocol import CARRIES_DATA, NUMBERS, OPCODES, RELEASE_ACK, RESPONSES, beat_count
from .run import LINKS, FailureError, Row

CLIENT, MANAGER = 0, 1
PUT_PARTIAL = NUMBERS["A", "PutPartialData"]
# Messages on A that may be several ones: the others are one operation, or one permission.
DIVISIBLE = frozenset(NUMBERS["A", name] for name in ("PutFullData", "PutPartialData", "Get", "Intent"))
FIELDS_OF_SPLIT = ("opcode", "param")
UNKNOWN_BITS = "unknown bits"  # why later messages are not judged


class SplitBeat(NamedTuple):
    """A beat: its mask (-1 on D), data and corrupt, its place and its time."""

    mask: int
    data: int
    corrupt: int
    place: str
    time: Optional[int]


class SplitMessage:
    """A message of A or D on one link, with the beats so far."""

    def __init__(self, link: int, width: int, line: str, place: str):
        words = line.split(" ")
        self.link, self.width, self.line, self.place = link, width, line, place
        self.channel = words[0]
        self.opcode, self.param, self.size = (int(word, 16) for word in words[1:4])
        self.source = words[4]
        self.address = int(words[5], 16) if self.channel == "A" else 0
        self.denied = int(words[6], 16) if self.channel == "D" else 0
        self.beats: List[SplitBeat] = []
        self.left = beat_count(self.channel, self.opcode, self.size, width)
        self.pieces: List[SplitMessage] = []  # of a near request
        self.covered = 0  # bytes of it that are in pieces
        self.response: Optional[SplitMessage] = None

    @property
    def bytes(self) -> int:
        return 1 << self.size

    @property
    def name(self) -> str:
        return OPCODES[self.channel][self.opcode].name if self.opcode in OPCODES[self.channel] else "no message"

    @property
    def carries_data(self) -> bool:
        return self.opcode in CARRIES_DATA[self.channel]

    def add(self, line: str, place: str, time: Optional[int]) -> None:
        words = line.split(" ")
        mask = int(words[6], 16) if self.channel == "A" else -1
        self.beats.append(SplitBeat(mask, int(words[-2], 16), int(words[-1], 16), place, time))
        self.left -= 1

    def row(self) -> Row:
        return Row(self.place, self.line, 0)

    def beat_of(self, byte: int) -> SplitBeat:
        return self.beats[byte // min(self.width, self.bytes)]

    def byte(self, at: int, home: int) -> Tuple[int, bool]:
        """Returns byte `at`, and whether the mask enables it. `home` is the address of byte 0."""
        beat, lane = self.beat_of(at), (home + at) % self.width
        return beat.data >> 8 * lane & 255, bool(beat.mask >> lane & 1)


class SplitJudge:
    """Follows both links of a splitting adapter. The beats of each link come in its order; those of the two links in
    any.
    """

    def __init__(self, widths: Tuple[int, int], largest: int, places: Places, ignore_unmasked: bool = False):
        self.widths, self.largest, self.places, self._ignore = widths, largest, places, ignore_unmasked
        self._open: Dict[Tuple[int, str], SplitMessage] = {}
        self._asked: Tuple[Dict[str, SplitMessage], Dict[str, SplitMessage]] = {}, {}  # by link and source
        self._near: Deque[SplitMessage] = deque()  # requests that are not covered by pieces yet
        self._far: Deque[SplitMessage] = deque()  # requests that are no pieces yet
        self._joined: Deque[SplitMessage] = deque()  # near requests, until they are judged
        self._ahead: Dict[str, SplitMessage] = {}  # by source: a response to a request that the client still offers
        self._stopped = ""  # channel A, from a piece on that does not fit
        self.counts = {key: 0 for key in ((CLIENT, "A"), (CLIENT, "D"), (MANAGER, "A"), (MANAGER, "D"))}
        self.mistakes: Dict[str, List[Tuple[str, Said]]] = {"A": [], "D": []}  # by channel: its kind, and the text

    # ---- beats

    def beat(self, link: int, line: str, time: Optional[int], place: str) -> None:
        """Adds a beat. Errors: a `FailureError` of status 2 if it is of a channel that no adapter of this kind has."""
        channel = line[0]
        if channel not in "AD":
            where = self.places.of(LINKS[link], Row(place, line, 0), False)
            raise FailureError(
                f"{where}: --split judges links that have the channels A and D only, and this beat is of {channel}", 2
            )
        message = self._open.get((link, channel))
        try:
            if message is None:
                message = self._open[link, channel] = SplitMessage(link, self.widths[link], line, place)
                self.counts[link, channel] += 1
                self._begin(message)
            message.add(line, place, time)
        except ValueError:
            self._wrong(
                channel, "unknown", f"{self._at(link, Row(place, line, 0))}: the beat has unknown bits: {line}", time
            )
            self._stopped = UNKNOWN_BITS
            return
        if message.left == 0:
            del self._open[link, channel]
            self._end(message)

    def finish(self) -> None:
        """The record ends."""
        self._settle(is_over=True)
        if self._stopped:
            return
        for asked in self._near:
            words = f"bytes {asked.covered} to {asked.bytes - 1} are missing on the manager's link"
            self._wrong("A", "missing", f"{words}: {self._begins(asked)}", asked.beats[0].time)
        for piece in self._far:
            where = self._at(MANAGER, piece.row())
            words = f"{where}: no request of the client's link calls for this message: {piece.line}"
            self._wrong("A", "unexpected", words, piece.beats[0].time)

    def lines(self, after: Optional[int]) -> Iterator[str]:
        """Yields the lines of the report."""
        for channel, what in (("A", "split into"), ("D", "joined from")):
            near, far = self.counts[CLIENT, channel], self.counts[MANAGER, channel]
            yield f"{channel}: {near} near messages, {what} {far} far messages"
            kinds: Dict[str, List[Said]] = {}
            for kind, said in self.mistakes[channel]:
                kinds.setdefault(kind, []).append(said)
            for saids in kinds.values():
                yield f"{channel}: " + saids[0].text(after, f" ({len(saids)} of this kind)" if len(saids) > 1 else "")
        if self._stopped:
            yield f"later messages are not judged: {self._stopped}"

    def first(self) -> Optional[Tuple[str, Said]]:
        """Returns the first mistake whose time is known, with its channel."""
        found = [
            (channel, said) for channel, saids in self.mistakes.items() for _, said in saids if said.time is not None
        ]
        return min(found, key=lambda item: item[1].time or 0) if found else None

    def has_unknown_bits(self) -> bool:
        """Whether a beat has unknown bits. The model cannot judge the link of such a beat."""
        return self._stopped == UNKNOWN_BITS

    def is_offered(self) -> bool:
        """Whether the design has sent a piece of a request that the client still offers."""
        return bool(self._far)

    @property
    def is_right(self) -> bool:
        return not (self.mistakes["A"] or self.mistakes["D"])

    # ---- messages

    def _begin(self, message: SplitMessage) -> None:
        asked = self._asked[message.link]
        if message.channel == "A":
            message.response = self._ahead.pop(message.source, None) if message.link == CLIENT else None
            if message.response is None:
                asked[message.source] = message
        elif message.opcode != RELEASE_ACK:
            request = asked.pop(message.source, None)
            if request:
                request.response = message
            elif message.link == CLIENT and self.is_offered():
                self._ahead[message.source] = message
            # otherwise the judgement of the link names the beat

    def _end(self, message: SplitMessage) -> None:
        if message.channel == "A" and not self._stopped:
            if message.link == CLIENT:
                self._near.append(message)
                self._joined.append(message)
            else:
                self._far.append(message)
            while self._near and self._far and not self._stopped:
                self._assign(self._near[0], self._far[0])
        self._settle(is_over=False)

    def _assign(self, asked: SplitMessage, piece: SplitMessage) -> None:
        """Takes a far request as the next piece of a near one."""
        why = self._misfit(asked, piece)
        if why:
            words = f"{self._at(MANAGER, piece.row())}: {why}: {piece.line}; {self._begins(asked)}"
            self._wrong("A", "misfit", words, piece.beats[0].time)
            self._stopped = "a piece does not fit"
            return
        self._far.popleft()
        self._compare_piece(asked, piece, asked.covered)
        asked.pieces.append(piece)
        asked.covered += piece.bytes
        if asked.covered == asked.bytes:
            self._near.popleft()

    def _misfit(self, asked: SplitMessage, piece: SplitMessage) -> str:
        """Returns why a far request is not the next piece of a near one, or nothing."""
        wanted = asked.address + asked.covered
        for name in FIELDS_OF_SPLIT:
            mine, its = getattr(piece, name), getattr(asked, name)
            if mine != its:
                return f"{name} is {mine:x}, expected {its:x}"
        if piece.address != wanted:
            return f"address is {piece.address:016x}, expected {wanted:016x}, the next byte"
        if piece.bytes > self.largest:
            return f"it has {piece.bytes} bytes, and at most {self.largest} are expected"
        if piece.bytes > asked.bytes - asked.covered:
            return f"it has {piece.bytes} bytes, and {asked.bytes - asked.covered} are left"
        if piece.bytes != asked.bytes and asked.opcode not in DIVISIBLE:
            return f"{asked.name} cannot be split"
        return ""

    def _compare_piece(self, asked: SplitMessage, piece: SplitMessage, first: int) -> None:
        """Compares the data, masks and corrupt bits of a piece that begins at byte `first` of a near request."""
        if not asked.carries_data:
            return
        each = min(piece.width, piece.bytes)
        for number, beat in enumerate(piece.beats):
            at = range(number * each, (number + 1) * each)
            wrong = []
            for byte in at:
                mine, enabled = piece.byte(byte, piece.address)
                its, wanted = asked.byte(first + byte, asked.address)
                lane = (piece.address + byte) % piece.width
                if enabled != wanted:
                    wrong.append(f"mask bit {lane} is {enabled:d}, expected {wanted:d}")
                elif mine != its and (wanted or not self._ignore or asked.opcode != PUT_PARTIAL):
                    wrong.append(f"lane {lane} is {mine:02x}, expected {its:02x}")
            corrupt = int(any(asked.beat_of(first + byte).corrupt for byte in at))
            if beat.corrupt != corrupt:
                wrong.append(f"corrupt is {beat.corrupt}, expected {corrupt}")
            if wrong:
                where = self._at(MANAGER, Row(beat.place, piece.line, 0))
                self._wrong(
                    "A", "differ", f"{where}: {'; '.join(wrong)}: {piece.line}; {self._begins(asked)}", beat.time
                )

    # ---- responses

    def _settle(self, is_over: bool) -> None:
        """Judges the near requests whose pieces all have their responses, in order."""
        waiting: Deque[SplitMessage] = deque()
        while self._joined:
            asked = self._joined.popleft()
            is_whole = asked.covered == asked.bytes and all(_is_complete(piece.response) for piece in asked.pieces)
            came = asked.response
            if is_whole and _is_complete(came):
                assert came is not None
                self._compare_response(asked, came)
            elif is_over and not self._stopped and is_whole and came is None:
                words = f"the response is missing on the client's link: {self._begins(asked)}"
                self._wrong("D", "missing", words, asked.beats[0].time)
            elif is_over and not self._stopped and asked.covered == asked.bytes and came and _is_complete(came):
                where = self._at(CLIENT, came.row())
                words = f"{where}: a response before those of all pieces: {came.line}; {self._begins(asked)}"
                self._wrong("D", "early", words, came.beats[0].time if came.beats else None)
            elif not is_over:
                waiting.append(asked)
                if len(waiting) > 4:  # later ones are seldom complete before these
                    waiting.extend(self._joined)
                    self._joined = deque()
        self._joined = waiting

    def _compare_response(self, asked: SplitMessage, came: SplitMessage) -> None:
        """Compares the response to a near request with those to its pieces."""
        wrong: List[Tuple[str, SplitBeat]] = []
        first = came.beats[0]
        names = RESPONSES.get(asked.name, ())
        if came.name not in names:
            wrong.append((f"it is {came.name}, expected {' or '.join(names)}", first))
        if came.size != asked.size:
            wrong.append((f"size is {came.size:x}, expected {asked.size:x}", first))
        wrong += self._wrong_denied(asked, came)
        if not wrong and came.carries_data:
            wrong += self._wrong_data(asked, came)
        wrong += self._too_early(asked, came)
        for words, beat in wrong[:1]:
            where = self._at(CLIENT, Row(beat.place, came.line, 0))
            self._wrong("D", words.split(" ")[0], f"{where}: {words}: {came.line}; {self._begins(asked)}", beat.time)

    def _wrong_denied(self, asked: SplitMessage, came: SplitMessage) -> Iterator[Tuple[str, SplitBeat]]:
        """Denied of the whole response. With data, a piece that arrives after the first beat has left may be corrupt
        instead.
        """
        denied = [piece for piece in asked.pieces if _response(piece).denied]
        must = bool(denied) and (not came.carries_data or self._is_in_beat(asked, denied[0], came, 0))
        if came.denied and not denied:
            yield "denied is 1, expected 0, since no piece is denied", came.beats[0]
        elif must and not came.denied:
            place = self._at(MANAGER, _response(denied[0]).row())
            yield f"denied is 0, expected 1 as of the piece at {place}", came.beats[0]

    def _is_in_beat(self, asked: SplitMessage, piece: SplitMessage, came: SplitMessage, number: int) -> bool:
        each, first = min(came.width, came.bytes), piece.address - asked.address
        return first < (number + 1) * each and first + piece.bytes > number * each

    def _wrong_data(self, asked: SplitMessage, came: SplitMessage) -> Iterator[Tuple[str, SplitBeat]]:
        """The bytes and corrupt bits. Bytes of a denied response or piece are not compared."""
        each = min(came.width, came.bytes)
        denied_is_corrupt = any(
            _response(piece).denied and any(beat.corrupt for beat in _response(piece).beats) for piece in asked.pieces
        )
        for number, beat in enumerate(came.beats):
            must = bool(came.denied and denied_is_corrupt)
            for piece in asked.pieces:
                if not self._is_in_beat(asked, piece, came, number):
                    continue
                back, first = _response(piece), piece.address - asked.address
                if back.denied:
                    must = must or not came.denied
                    must = must or any(part.corrupt for part in back.beats)
                    continue
                for byte in range(max(first, number * each), min(first + piece.bytes, (number + 1) * each)):
                    must = must or bool(back.beat_of(byte - first).corrupt)
                    mine, _ = came.byte(byte, asked.address)
                    its, _ = back.byte(byte - first, piece.address)
                    if mine != its and not came.denied:
                        lane = (asked.address + byte) % came.width
                        place = self._at(MANAGER, back.row())
                        yield f"lane {lane} is {mine:02x}, expected {its:02x} from {place}", beat
            if must and not beat.corrupt:
                yield "corrupt is 0, expected 1", beat
            elif beat.corrupt and not must and not came.denied:
                yield "corrupt is 1, expected 0", beat

    def _too_early(self, asked: SplitMessage, came: SplitMessage) -> Iterator[Tuple[str, SplitBeat]]:
        """A response comes no sooner than those of which it is made, if the times are known."""
        for number, beat in enumerate(came.beats):
            for piece in asked.pieces:
                if came.carries_data and not self._is_in_beat(asked, piece, came, number):
                    continue
                back, first = _response(piece), piece.address - asked.address
                last = back.beats[-1]
                if came.carries_data and back.carries_data:
                    each = min(came.width, came.bytes)
                    last = back.beat_of(min((number + 1) * each, first + piece.bytes) - 1 - first)
                if beat.time is not None and last.time is not None and beat.time < last.time:
                    where = self._at(MANAGER, Row(last.place, back.line, 0))
                    yield f"early: it comes before the response at {where}", beat

    # ---- words

    def _at(self, link: int, row: Row) -> str:
        return self.places.of(LINKS[link], row, False)

    def _begins(self, asked: SplitMessage) -> str:
        return f"its message begins at {self._at(CLIENT, asked.row())}: {asked.line}"

    def _wrong(self, channel: str, kind: str, words: str, time: Optional[int]) -> None:
        self.mistakes[channel].append((kind, Said(words, time)))


def _is_complete(message: Optional[SplitMessage]) -> bool:
    return message is not None and message.left == 0


def _response(piece: SplitMessage) -> SplitMessage:
    assert piece.response is not None
    return piece.response
