"""Which bursts and requests are outstanding on a link, as its accepted beats show it."""
from __future__ import annotations

from typing import Dict, List, Optional, Tuple

from .protocol import CHANNELS, GRANTS, RELEASE_ACK, RELEASES, beat_count


class LinkFlow:
    """Follows one link. Beats are lines of a trace whose ids have `digits` digits."""

    def __init__(self, width: int, digits: int):
        self.width, self.digits = width, digits
        self.restart()

    def restart(self) -> None:
        """Forgets everything, as after a reset."""
        self.beats_left = dict.fromkeys(CHANNELS, 0)
        self.messages = dict.fromkeys(CHANNELS, 0)
        self._heads = dict.fromkeys(CHANNELS, "")
        self._requests: Dict[Tuple[str, str], int] = {}
        self._bursts = 0  # channels within a burst
        self._is_unclear = False
        self.began: Optional[Tuple[int, int, str]] = None

    def beat(self, line: str) -> bool:
        """Records an accepted beat. Returns whether it answers a request that was never seen. If the beat is the first
        one of a message, `began` is its opcode, size and source, otherwise None.
        """
        channel, digits = line[0], self.digits
        self.began = None
        if channel == "E":
            self.began = 0, 0, ""
            self.messages["E"] += 1
            return not self._answered("D", line[2:])
        head = line[: 8 + digits]
        left = self.beats_left[channel]
        if left and self._heads[channel] == head:
            self.beats_left[channel] = left - 1
            if left == 1:
                self._bursts -= 1
            return False
        if left:  # the burst is cut short
            self._bursts -= 1
        try:
            opcode, size = int(line[2], 16), int(line[6], 16)
        except ValueError:  # unknown bits: nothing after this is certain
            self._is_unclear = True
            return False
        self._heads[channel] = head
        left = self.beats_left[channel] = beat_count(channel, opcode, size, self.width) - 1
        if left:
            self._bursts += 1
        self.messages[channel] += 1
        source, sink = head[8:], line[9 + digits : 9 + 2 * digits]
        self.began = opcode, size, source
        return self._message(channel, opcode, source, sink)

    def _message(self, channel: str, opcode: int, source: str, sink: str) -> bool:
        if channel in "AB" or channel == "C" and opcode in RELEASES:
            self._asked(channel, source)
            return False
        if channel == "C":
            return not self._answered("B", source)
        if opcode in GRANTS:
            self._asked("D", sink)
        return not self._answered("C" if opcode == RELEASE_ACK else "A", source)

    def _asked(self, channel: str, name: str) -> None:
        self._requests[channel, name] = self._requests.get((channel, name), 0) + 1

    def _answered(self, channel: str, name: str) -> bool:
        count = self._requests.pop((channel, name), 0)
        if count > 1:
            self._requests[channel, name] = count - 1
        return count > 0

    def is_quiet(self) -> bool:
        """Returns whether no burst and no request is outstanding."""
        return not (self._requests or self._bursts or self._is_unclear)

    def outstanding(self) -> List[str]:
        """Returns the outstanding bursts and requests, as text."""
        words = [f"a burst on {channel}" for channel, left in self.beats_left.items() if left]
        return words + [
            f"{channel} {'sink' if channel == 'D' else 'source'} {name}" for channel, name in sorted(self._requests)
        ]
