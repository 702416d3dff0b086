"""Both sides of a bridge."""
import ctypes as c
import itertools
from dataclasses import astuple, dataclass
from types import TracebackType
from typing import Any, Iterator, List, Optional, Type

from .beats import Beat, beat_of
from .library import (
    INBOX,
    NOT_SENT,
    NOT_TAKEN,
    VERSION,
    BeatFields,
    HandleFields,
    MissingLibraryError,
    StandingsFields,
    TotalsFields,
    call_of,
    check,
    inbox_fields,
    load,
    pairs,
)
from .protocol import CHANNELS, FROM_CLIENT

# Tells bridges apart: a receipt is refused by a side of another bridge.
_numbers = itertools.count(1)


@dataclass(frozen=True)
class Counts:
    """The numbers of far beats of a channel that wait at each place."""

    staged: int
    in_ring: int
    inbox: int


@dataclass(frozen=True)
class Standings:
    """The numbers of far beats of each channel that wait, at each place."""

    a: Counts
    b: Counts
    c: Counts
    d: Counts
    e: Counts

    @property
    def drained(self) -> bool:
        """Whether no beat waits. Then the taken beats are all that are expected."""
        return all(at == Counts(0, 0, 0) for at in (self.a, self.b, self.c, self.d, self.e))


@dataclass(frozen=True)
class Totals:
    """How many far beats a side has sent on each channel that it sends, and how many were taken from it on each of the
    others.

    A receipt of a side has the same fields. `bridge` is the number of its bridge in this process, and `opening` counts
    how often its handle was opened. `finished` is 1 in a receipt of the client's side, 2 in one of the manager's, and 0
    if this is no receipt. Each number is exact if it is below 2**63.
    """

    bridge: int
    opening: int
    finished: int
    a: int
    b: int
    c: int
    d: int
    e: int


class Side:
    """One side of a bridge. Each side may be in a different thread. No call waits for the other side."""

    def __init__(self, calls: "_Calls", name: str, width: int):
        self._calls, self._name, self.width = calls, name, width
        self._handle = HandleFields()
        self._sends = FROM_CLIENT if name == "client" else "BD"

    def _call(self, name: str, channel: str, sends: bool) -> Any:
        if channel not in CHANNELS or len(channel) != 1 or (channel in self._sends) != sends:
            lawful = self._sends if sends else "".join(x for x in CHANNELS if x not in self._sends)
            raise ValueError(
                f"the {self._name}'s side {'sends' if sends else 'takes'} {', '.join(lawful)}, and not {channel!r}"
            )
        return self._calls.of(f"{name}_{channel.lower()}")

    def ready(self, channel: str) -> bool:
        """Returns whether a beat may be offered now."""
        return bool(self._call("ready", channel, True)(c.byref(self._handle)))

    def offer(self, channel: str, beat: Beat) -> None:
        """Offers a near beat. Raises RefusedError, and changes nothing, for faults 1 to 10, and with 254 if the channel
        is not ready."""
        call = self._call("offer", channel, True)
        passed, lanes = beat.passed(channel, self.width)
        check(call(c.byref(self._handle), c.byref(passed), lanes))

    def take(self, channel: str) -> Optional[Beat]:
        """Removes and returns the first far beat of the inbox. Returns None if it is empty."""
        came, lanes = BeatFields(), (c.c_uint8 * self.width)()
        if not self._call("take", channel, False)(c.byref(self._handle), c.byref(came), lanes):
            return None
        return beat_of(channel, came, bytes(lanes))

    def take_all(self, channel: str) -> List[Beat]:
        """Removes and returns all far beats of the inbox, in order: what `take` returns until it returns None."""
        came = inbox_fields(self.width)()
        count = self._call("take_all", channel, False)(c.byref(self._handle), came, INBOX)
        return [beat_of(channel, at.beat, bytes(at.lanes)) for at in came[:count]]

    def close(self, channel: str) -> None:
        """Ends the offers of a channel. Staged beats still cross. Raises RefusedError within a burst."""
        check(self._call("close", channel, True)(c.byref(self._handle)))

    def pump(self) -> int:
        """Moves staged beats into the rings, and returns their number."""
        return int(self._calls.of(f"pump_{self._name}")(c.byref(self._handle)))

    def fetch(self) -> int:
        """Moves beats of the other side's rings into the inboxes, and returns their number."""
        return int(self._calls.of(f"fetch_{self._name}")(c.byref(self._handle)))

    def totals(self) -> Totals:
        """Returns how many far beats this side has moved into its rings, and how many were taken from it, on each
        channel. It is no receipt."""
        fields = TotalsFields()
        check(self._calls.of(f"count_{self._name}")(c.byref(self._handle), c.byref(fields)))
        return _totals_of(fields)

    def finish(self) -> Optional[Totals]:
        """Returns the receipt of this side if it has sent everything: its channels are closed, and nothing is staged.

        Otherwise returns None: close the channels, pump, and call again. The side can still fetch and take. The receipt
        may go to any thread.
        """
        fields = TotalsFields()
        status = self._calls.of(f"finish_{self._name}")(c.byref(self._handle), c.byref(fields))
        if status == NOT_SENT:
            return None
        check(status)
        return _totals_of(fields)

    def drained(self, receipt: Totals) -> bool:
        """Returns whether as many beats were taken from this side as the other side's receipt counts: then no more will
        come.

        Raises RefusedError if the receipt is of another bridge, or is not one that `finish` of the other side returned.
        """
        fields = TotalsFields(*astuple(receipt))
        status = self._calls.of(f"drained_{self._name}")(c.byref(self._handle), c.byref(fields))
        if status == NOT_TAKEN:
            return False
        check(status)
        return True


def _totals_of(fields: TotalsFields) -> Totals:
    return Totals(*(getattr(fields, name) for name, _ in TotalsFields._fields_))


class _Calls:
    """The calls of one pair of widths."""

    def __init__(self, client: int, manager: int):
        self._library, self._widths = load(), (client, manager)
        try:
            self.of("version")
        except AttributeError:
            raise MissingLibraryError(f"the library has no pair {client}:{manager}; it has {pairs()}") from None
        if (version := self.of("version")()) != VERSION:
            raise MissingLibraryError(f"the library is of version {version}, and this package of {VERSION}")

    def of(self, name: str) -> Any:
        return call_of(self._library, *self._widths, name)


class Bridge:
    """A bridge between a client's link of `client` bytes and a manager's of `manager`, each 1 to 128. Each ring holds
    `ring` beats, 1 to 4,096."""

    def __init__(self, client: int, manager: int, ring: int = 4096):
        self._calls = _Calls(client, manager)
        self.client = Side(self._calls, "client", client)
        self.manager = Side(self._calls, "manager", manager)
        self._both = (c.byref(self.client._handle), c.byref(self.manager._handle))
        if not 0 <= ring < 1 << 64:
            raise ValueError(f"a ring of {ring} beats")
        check(self._calls.of("open")(*self._both, ring, next(_numbers)))

    def sender(self, channel: str) -> Side:
        """Returns the side that offers on this channel."""
        return self.client if channel in FROM_CLIENT else self.manager

    def receiver(self, channel: str) -> Side:
        """Returns the side that takes from this channel."""
        return self.manager if channel in FROM_CLIENT else self.client

    def offer(self, channel: str, beat: Beat) -> None:
        """Settles both sides, and then offers a near beat on the side that sends it. Raises as Side.offer does."""
        self.settle()
        self.sender(channel).offer(channel, beat)

    def receive_all(self, channel: str) -> Iterator[Beat]:
        """Removes and yields each far beat of a channel that waits, at whatever place."""
        while True:
            self.settle()
            beat = self.receiver(channel).take(channel)
            if beat is None:
                return
            yield beat

    def _standings(self, call: str) -> Standings:
        all_counts = StandingsFields()
        check(self._calls.of(call)(*self._both, c.byref(all_counts)))
        counts = (getattr(all_counts, channel) for channel in "abcde")
        return Standings(*(Counts(at.staged, at.in_ring, at.inbox) for at in counts))

    def meet(self) -> Standings:
        """Returns how many beats wait at each place. Requires that no other thread uses either side meanwhile."""
        return self._standings("meet")

    def settle(self) -> Standings:
        """Moves beats on both sides until none can move, and then returns as `meet` does. Requires that no other thread
        uses either side."""
        return self._standings("settle")

    def free(self) -> None:
        """Frees both sides. Each later call is refused."""
        self._calls.of("free_client")(self._both[0])
        self._calls.of("free_manager")(self._both[1])

    def __enter__(self) -> "Bridge":
        return self

    def __exit__(
        self, kind: Optional[Type[BaseException]], value: Optional[BaseException], trace: Optional[TracebackType]
    ) -> None:
        self.free()

    def __del__(self) -> None:
        if hasattr(self, "_both"):
            self.free()
