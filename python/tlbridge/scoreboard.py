"""The scoreboard of include/tlbridge_scoreboard.h, and what a cocotb test needs to watch two links."""
import ctypes as c
import weakref
from types import TracebackType
from typing import Any, Callable, List, Optional, Type

from .beats import Beat
from .library import MissingLibraryError, load, pairs
from .protocol import FIELDS
from .sampling import Bits, LinkSampler, number_of_bits

LINKS = ("client", "manager")
# flags of tl_scoreboard_open
_COMPARE_UNMASKED, _ALLOW_NO_BEATS = 1, 2


class DiffersError(AssertionError):
    """A scoreboard had differences. `board` has their lines."""

    def __init__(self, board: "Scoreboard"):
        super().__init__("\n".join([f"{board.differences} differences in {board.beats} beats", *board.lines]))
        self.board = board


def _number_of_link(link: str) -> int:
    if link not in LINKS:
        raise ValueError(f"a link is 'client' or 'manager', and not {link!r}")
    return LINKS.index(link)


class Scoreboard:
    """Compares a design between a client's link of `client` bytes and a manager's link of `manager` bytes with the
    proved bridge.

    Pass each beat that either link accepts to `beat()`. Beats wait in queues, so a far beat may come before its near
    beat. With `compare_unmasked`, bytes of PutPartialData whose mask bit is 0 are also compared. Each message is added
    to `lines` and passed to `on_message`. A scoreboard that saw no beat has a difference at its end, unless
    `allow_no_beats`.

    A test passes if `end()` returns 0. A `with` statement ends the scoreboard when its block is left, and raises
    DiffersError if there were differences. A scoreboard that saw beats and is never ended prints a warning on standard
    error.
    """

    def __init__(
        self,
        client: int,
        manager: int,
        compare_unmasked: bool = False,
        on_message: Optional[Callable[[str], Any]] = None,
        allow_no_beats: bool = False,
    ):
        self._library = load()
        flags = compare_unmasked * _COMPARE_UNMASKED | allow_no_beats * _ALLOW_NO_BEATS
        self._board = c.c_void_p(self._library.tl_scoreboard_open(client, manager, flags))
        if not self._board:
            raise MissingLibraryError(
                f"the library has no pair {client}:{manager}, or there is no memory; it has {pairs()}"
            )
        # also when the program ends
        self._free = weakref.finalize(self, self._library.tl_scoreboard_free, self._board)
        self._widths = {"client": client, "manager": manager}
        self._on_message = on_message
        self._unknown = 0  # beats with unknown bits
        self.lines: List[str] = []

    def beat(self, link: str, channel: str, time: int, beat: Beat) -> None:
        """Passes a beat that a link, "client" or "manager", accepted at a time."""
        number = _number_of_link(link)
        if channel not in FIELDS:
            raise ValueError(f"a channel is one of A, B, C, D and E, and not {channel!r}")
        passed, lanes = beat.passed(channel, self._widths[link])
        self._library.tl_scoreboard_beat(self._board, number, channel.encode(), time, c.byref(passed), lanes)
        self._read()

    def reset(self, link: str, asserted: bool, time: int) -> None:
        """Says whether a link is in reset from a time on.

        The first reset of either link ends what was in flight on both, and a line says so. Beats of a link that is in
        reset do not count; those that it accepts after its own reset do, also while the other link is still in reset.
        """
        self._library.tl_scoreboard_reset(self._board, _number_of_link(link), asserted, time)
        self._read()

    def _read(self) -> None:
        at = c.c_uint64()
        while line := self._library.tl_scoreboard_next_message(self._board, c.byref(at)):
            self._add(at.value, c.string_at(line).decode())

    def _add(self, time: int, message: str) -> None:
        self.lines.append(f"time {time}: {message}")
        if self._on_message:
            self._on_message(self.lines[-1])

    @property
    def differences(self) -> int:
        """The number of differences so far."""
        return int(self._library.tl_scoreboard_differences(self._board)) + self._unknown

    @property
    def beats(self) -> int:
        """The number of beats that both links accepted so far."""
        return int(self._library.tl_scoreboard_beats(self._board))

    def end(self) -> int:
        """Ends the test: adds messages for missing beats, unexpected beats and outstanding requests.

        Returns the number of all differences; a test without any beat counts as one. Later beats are not judged.
        """
        self._library.tl_scoreboard_finish(self._board)
        self._read()
        return self.differences

    def __enter__(self) -> "Scoreboard":
        return self

    def __exit__(
        self, kind: Optional[Type[BaseException]], error: Optional[BaseException], trace: Optional[TracebackType]
    ) -> None:
        if self.end() and error is None:
            raise DiffersError(self)

    async def watch(
        self, link: str, clock: Any, signals: Callable[[str, str], Any], reset: Any = None, channels: str = "AD"
    ) -> None:
        """Samples one link of a cocotb test at each rising clock edge, and passes its beats on, until the test ends.

        `signals` returns the handle of a signal for a channel in lower case and a field (valid, ready, opcode and so
        on), for example `lambda channel, field: getattr(dut, f"client_{channel}_{field}")`. `reset` is active high;
        beats do not count while it is 1.

        A beat with unknown bits (x or z) is a difference, and a message names its fields. It is compared with 0 in
        their place. Nothing reads some unknown bits, which are 0 and no difference: on lanes without a byte of the
        message, in a byte whose mask bit is 0, and in the sink of a response that is not a Grant. In valid, ready and
        reset an unknown bit is also 0.
        """
        from cocotb.triggers import RisingEdge
        from cocotb.utils import get_sim_time

        sampler = LinkSampler(self._widths[link])
        while True:
            await RisingEdge(clock)
            time = int(get_sim_time("step"))
            if reset is not None:
                self.reset(link, bool(number_of(reset)), time)
                if number_of(reset):
                    sampler = LinkSampler(self._widths[link])
                    continue
            accepted = {
                channel: _bits_of(signals, channel.lower())
                for channel in channels
                if _is_accepted(signals, channel.lower())
            }
            for channel, beat, unknown in sampler.edge(accepted):
                if unknown:
                    self._unknown += 1
                    self._add(time, f"{channel} beat of the {link}'s link has unknown bits: {', '.join(unknown)}")
                self.beat(link, channel, time, beat)


def _is_accepted(signals: Callable[[str, str], Any], letter: str) -> bool:
    return bool(number_of(signals(letter, "valid")) and number_of(signals(letter, "ready")))


def _bits_of(signals: Callable[[str, str], Any], letter: str) -> Bits:
    return lambda field: str(signals(letter, field).value)


def number_of(handle: Any) -> int:
    """Returns the value of a signal, with 0 for each unknown bit."""
    return number_of_bits(str(handle.value))
