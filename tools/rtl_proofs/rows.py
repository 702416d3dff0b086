"""What is proved of rtl/tl_bridge.sv: each row is one model, and the steps in which its assertions are proved."""
from __future__ import annotations

import dataclasses
import itertools
import re
from dataclasses import dataclass
from typing import Dict, Iterable, Iterator, Optional, Tuple, Union

# Every model: addresses of 4 bits, sources and sinks of 1 bit.
ADDRESS_BITS, SOURCE_BITS, SINK_BITS = 4, 1, 1
LARGEST = 8  # bytes of the largest message, if no beat of the row has 8 bytes
CHANNELS = "ABCDE"
LEMMAS_ONE_PLACE = r"Source(One|Room)$"


@dataclass(frozen=True)
class Step:
    """Proves the assertions whose names match `proves` while those that match `given`, which earlier steps proved, are
    assumed.
    """

    proves: str
    given: str = "$^"


@dataclass(frozen=True)
class Stage:
    """One model, and its steps. Assumptions whose names match `forget` are not made, and wires in `cuts` may have any
    value: both make the result stronger.
    """

    steps: Tuple[Step, ...] = (Step("."),)
    forget: str = ""
    cuts: Tuple[str, ...] = ()


@dataclass(frozen=True)
class Bound:
    """What is not proved: the assertions whose names match `assertions` have no counterexample in the first `cycles`
    steps of time, the reset among them. `obstacle` says why there is no proof.
    """

    cycles: int
    obstacle: str
    assertions: str = "."


@dataclass(frozen=True)
class Row:
    """One channel of the bridge, or some together (`AD`, `ABCDE`), between a client's link of `client` bytes and a
    manager's of `manager`.

    With `by_lemmas` there are lemmas (lemmas.py). With `by_contracts` the FIFOs and the reset agreement are replaced by
    their contracts (contracts.sv). With `rules` the far beats also keep the rules of their link (rules.sv, links.sv),
    and the model has all channels. With `within` the assertions `Late` and `Ready` have this bound. `outstanding` is
    MAX_OUTSTANDING. `resets` is whose reset comes again at any time: both sides' together, or that of the client or of
    the manager alone. Without `same_cycle` the manager never responds in the cycle in which it accepts the request.
    """

    channel: str
    client: int
    manager: int
    stages: Tuple[Stage, ...] = (Stage(),)
    clocks: int = 1
    depth: int = 2
    outstanding: int = 0
    resets: str = ""
    same_cycle: bool = True
    by_lemmas: bool = False
    by_contracts: bool = False
    rules: bool = False
    within: int = 0
    bound: Optional[Bound] = None

    @property
    def name(self) -> str:
        return (
            f"{'all' if self.channel == CHANNELS else self.channel}-{self.client}-{self.manager}"
            + ("-two-clocks" if self.clocks == 2 else "")
            + (f"-depth-{self.depth}" if self.depth != 2 else "")
            + (f"-entries-{self.outstanding}" if self.outstanding else "")
            + (f"-resets-of-{self.resets}" if self.resets else "")
            + ("" if self.same_cycle else "-later")
            + ("-rules" if self.rules else "")
            + (f"-within-{self.within}" if self.within else "")
        )

    @property
    def variant(self) -> str:
        """The differences from most rows, in words."""
        words = [f"`MAX_OUTSTANDING` {self.outstanding}"] if self.outstanding else []
        words += [] if self.same_cycle else ["`ALLOW_SAME_CYCLE_RESPONSE` 0"]
        words += [f"messages up to {self.largest} bytes"] if self.largest != LARGEST else []
        words += ["later resets of both sides"] if self.resets == "both" else []
        words += [f"later resets of the {self.resets} alone"] if self.resets in ("client", "manager") else []
        return ", ".join(words) or "-"

    @property
    def largest(self) -> int:
        """The bytes of the largest message: two beats of the wider link or more."""
        return 16 if max(self.client, self.manager) == 8 and self.channel != "E" else LARGEST

    @property
    def size_bits(self) -> int:
        return (self.largest.bit_length() - 1).bit_length()

    @property
    def count_bits(self) -> int:
        """The bits of the counts of messages in the watch: of those in a full FIFO, and of two more."""
        return max(3, (self.depth + 2).bit_length())

    def words(self, channel: str) -> int:
        """The most words in the FIFO of a channel: 0 if it is wires."""
        near, far = (self.client, self.manager) if channel in "ACE" else (self.manager, self.client)
        if self.depth == 0 and near > far and channel != "E":
            return 2
        return self.depth + (self.clocks == 2)

    @property
    def has_all_channels(self) -> bool:
        """Whether the model has all channels, and not A and D alone."""
        return self.rules or self.channel not in ("A", "D", "AD")

    def has_chain(self, channel: str) -> bool:
        """Whether the proof needs the lemmas of chain.sv.

        It does with four words or more in the queue, and with four near beats or more in a word of 8 bytes.
        """
        near, far = (self.client, self.manager) if channel in "ACE" else (self.manager, self.client)
        return channel != "E" and (self.words(channel) >= 4 or far == 8 >= 4 * near)

    def has_places(self, channel: str) -> bool:
        """Whether the proof needs the lemmas of places.sv, as a long queue does."""
        return self.has_chain(channel) and self.words(channel) >= (4 if self.channel == "D" else 8)

    @property
    def has_order(self) -> bool:
        """Whether the proof of D needs the lemmas of order.sv, as a long queue does, and eight narrow beats in a wide
        one.
        """
        return self.channel == "D" and (self.depth >= 4 or self.client >= 8 * self.manager)

    @property
    def parameters(self) -> Dict[str, str]:
        values = {
            "ADDRESS_BITS": ADDRESS_BITS,
            "SIZE_BITS": self.size_bits,
            "SOURCE_BITS": SOURCE_BITS,
            "SINK_BITS": SINK_BITS,
            "FIFO_DEPTH": self.depth,
            "ASYNC": int(self.clocks == 2),
            "CLIENT_BYTES": self.client,
            "MANAGER_BYTES": self.manager,
            "HAS_B_C_E": int(self.has_all_channels),
            **({"MAX_OUTSTANDING": self.outstanding} if self.outstanding else {}),
            **({} if self.same_cycle else {"ALLOW_SAME_CYCLE_RESPONSE": 0}),
        }
        return {name: str(value) for name, value in values.items()}


@dataclass(frozen=True)
class Refinement:
    """A FIFO of `depth` words keeps the contracts that other rows have in its place: with two clocks between the two
    sides of the reset agreement.
    """

    clocks: int
    depth: int
    bits: int = 1  # of a word
    stages: Tuple[Stage, ...] = (Stage(),)
    by_lemmas: bool = False
    bound: Optional[Bound] = None

    @property
    def name(self) -> str:
        return f"FIFO-{self.depth}" + ("-two-clocks" if self.clocks == 2 else "")

    @property
    def variant(self) -> str:
        return f"words of {self.bits} bit"


@dataclass(frozen=True)
class Part:
    """A part of the bridge by itself, or the bridge between two checkers.

    `kind` is `resets` for the FIFO between two clocks and the reset agreement, with resets of each side at any time. It
    is `convert` for the converter from beats of `client` bytes to beats of `manager` bytes, and `links` for the bridge
    between two checkers (links.py), with two clocks.
    """

    kind: str
    client: int = 0
    manager: int = 0
    depth: int = 0
    sync_stages: int = 2
    stages: Tuple[Stage, ...] = (Stage(),)
    bound: Optional[Bound] = None

    @property
    def clocks(self) -> int:
        return 1 if self.kind == "convert" else 2

    @property
    def name(self) -> str:
        if self.kind == "resets":
            return f"FIFO-{self.depth}-resets" + (f"-stages-{self.sync_stages}" if self.sync_stages != 2 else "")
        return f"{self.kind}-{self.client}-{self.manager}"

    @property
    def variant(self) -> str:
        """The differences from most rows, in words."""
        if self.kind == "resets":
            return f"later resets of each side, `SYNC_STAGES` {self.sync_stages}"
        return f"messages up to {LARGEST} bytes" if self.kind == "convert" else "all channels, `SYNC_STAGES` 2"


AnyRow = Union[Row, Refinement, Part]


def others(channel: str) -> str:
    """Matches the assumptions about the senders of all other channels, and about requests and responses."""
    return rf"senders\.[{'abcde'.replace(channel.lower(), '')}]\.|watch\.\\d\."


def unneeded(channels: str) -> str:
    """Matches the assumptions that say nothing about these channels. D has those about its requests, too."""
    needed = channels.lower() + ("a" if "D" in channels else "")
    rest = "".join(letter for letter in "abcde" if letter not in needed)
    found = ([rf"senders\.[{rest}]\."] if rest else []) + ([] if "D" in channels else [r"watch\.\\d\."])
    return "|".join(found)


LANES = r"_lemmas\.(Lane|Held|Aligned)$"
ORDER_OF_WORDS = r"|_order_lemmas\.|^response_lemmas\.|_words_(chain|rest)_lemmas\."


def known_of(one: str) -> str:
    """Matches the lemmas about the words of a channel that come first."""
    return (
        rf"^{one}_words(_(clean|chain|rest)_lemmas)?\.|^{one}_order_lemmas\.|^{one}_words_deep_lemmas\.Count$"
        r"|^response_lemmas\.Fresh$"
    )


def stages_of(channel: str) -> Tuple[Stage, ...]:
    """Returns the stages of a proof by lemmas. Steps whose lemmas a row does not have are left out."""
    letter = channel.lower()
    if channel == "E":
        return (Stage((Step(r"^e\."),), others(channel)),)
    marks = rf"^{letter}_words(_(clean|deep|part|chain|rest|place)_lemmas)?\."
    known = rf"^{letter}_words\.(Begins|Empty)$|{letter}_words_(clean|chain|rest|deep|place)_lemmas\.|" + LANES
    clean = r"_words_clean_lemmas\."
    words = (
        Step(clean),
        Step(rf"^{letter}_words\.Empty$|_words_deep_lemmas\.Count$|_words_chain_lemmas\.Sender$", clean),
        Step(
            rf"^{letter}_words\.Begins$|_words_(chain|rest)_lemmas\.",
            rf"^{letter}_words\.Empty$|_words_deep_lemmas\.Count$|_words_chain_lemmas\.Sender$|" + clean,
        ),
        Step(r"_words_deep_lemmas\.(Near|Later|Far|None)$", known),
        Step(r"_words_place_lemmas\.Parts$", known),
        Step(r"_words_deep_lemmas\.(Kind|Size|Fields)$", known),
        Step(r"_words_deep_lemmas\.Marks$|_words_place_lemmas\.", known),
        Step(rf"^{letter}_words\.(Watched|Here)$", known),
        Step(r"_words_part_lemmas\.(Fits|Part)", known),
        Step(r"_words_part_lemmas\.Put", marks + "|" + LANES),
        Step(r"_words_deep_lemmas\.(Bad|Masked|Active)$|_words_part_lemmas\.Idle$", marks + "|" + LANES),
        Step(rf"^{letter}_words\.Value", marks + "|" + LANES),
        Step(rf"^{letter}\.(?!Source)", marks + "|" + LANES),
        Step(r"^far_rules_lemmas\.", rf"^{letter}\."),
        Step(r"^far_rules\.", rf"^{letter}\.|^far_rules_lemmas\."),
    )
    if channel != "D":
        return (Stage(words, others(channel)),)
    in_flight = tuple(
        Stage(
            (
                Step(rf"^{one}_words_clean_lemmas\."),
                Step(
                    rf"^{one}_words\.Empty$|^{one}_words_deep_lemmas\.Count$|^{one}_order_lemmas\.(Full|Sender)$"
                    rf"|^{one}_words_chain_lemmas\.Sender$|^response_lemmas\.Fresh$",
                    rf"^{one}_words_clean_lemmas\.",
                ),
                Step(
                    rf"^{one}_words\.Begins$|{one}_words_(chain|rest)_lemmas\.",
                    known_of(one),
                ),
                Step(rf"^{one}_order_lemmas\.Open$", known_of(one)),
                Step(rf"^{one}_order_lemmas\.Order$", known_of(one)),
                Step(rf"^{one}_order_lemmas\.Chosen$", known_of(one)),
                Step(rf"^{one}_sources\.Inside$", known_of(one)),
                Step(f"Source{one.upper()}$", rf"^{one}_"),
            ),
            others(one),
            ("dut.d_lane",),
        )
        for one in "ad"
    )
    counts = r"Source|_sources\.Inside|_words\.(Begins|Empty)$"
    lanes = Stage(
        (
            Step(LEMMAS_ONE_PLACE, r"Source(A|D)$|_sources\.Inside"),
            Step(r"_lemmas\.(One|Entry)$", counts),
            Step(r"^response_lemmas\.(Gathering|Messages|Begun)$", counts + ORDER_OF_WORDS),
            Step(r"^response_lemmas\.(Place|Opens|Newest)$", counts + ORDER_OF_WORDS),
            Step(r"_lemmas\.(Table|Own|Words|AtClient)$", counts + r"|_lemmas\.(One|Entry)$" + ORDER_OF_WORDS),
            Step(r"_lemmas\.(Kept|Same|AtManager|Asked)$", counts + r"|_lemmas\."),
            Step(LANES, counts + r"|_lemmas\."),
            Step(r"^size_lemmas\.", counts + r"|_lemmas\."),
            Step(r"^book_lemmas\.", counts + r"|_lemmas\."),
            Step(r"^request_rules\.", counts + r"|_lemmas\."),
        )
    )
    rest = Stage(words, others("D"), ("dut.d_lane", "watch.d.lane"))
    return (*in_flight, lanes, rest)


ORDER = Stage(
    (
        Step(r"^(Run|Clear)$"),
        Step(r"^gray_lemmas\.(Fresh|Rests)$", r"^(Run|Clear)$"),
        Step(r"^gray_lemmas\.(Steps|Order)$", r"^(Run|Clear)$|^gray_lemmas\."),
        Step(r"^gray_lemmas\.Count$", r"^(Run|Clear)$|^gray_lemmas\."),
        Step(r"^gray_lemmas\.Words$", r"^(Run|Clear)$|^gray_lemmas\."),
        Step(".", r"^(Run|Clear)$|^gray_lemmas\."),
    )
)


NAME = re.compile(
    r"([A-E]+|all)-([1248])-([1248])(-two-clocks)?(?:-depth-([048]))?(?:-entries-(\d))?(?:-resets-of-(\w+))?(-later)?"
    r"(-rules)?(?:-within-(\d))?"
)
NAME_OF_FIFO = re.compile(r"FIFO-([248])(-two-clocks)?")
NAME_OF_PART = re.compile(r"FIFO-([248])-resets(?:-stages-(\d))?|(convert|links)-([1248])-([1248])")


def is_name(name: str) -> bool:
    """Whether a row can have this name. The rules of links need lemmas about the FIFO of one channel with data, without
    later resets.
    """
    found = NAME.fullmatch(name)
    if found and found[9]:
        return found[1] in ("A", "B", "C", "D") and found[5] != "0" and not (found[7] or found[10])
    return any(one.fullmatch(name) for one in (NAME, NAME_OF_FIFO, NAME_OF_PART))


def part_named(name: str) -> Optional[Part]:
    """Returns the part of a name, if it is one. The bridge between two checkers always has a bound."""
    found = NAME_OF_PART.fullmatch(name)
    if not found:
        return None
    if found[1]:
        return Part("resets", depth=int(found[1]), sync_stages=int(found[2] or 2))
    kind, client, manager = found[3], int(found[4]), int(found[5])
    if kind == "convert":
        return Part(kind, client, manager)
    return Part(kind, client, manager, 2, stages=(), bound=Bound(LINK_CYCLES.get(name, 10), LINKS_OBSTACLE))


def row_named(name: str) -> AnyRow:
    """Returns the row of a name. Rows of one channel are proved by lemmas, except for E and `within`, and with two
    clocks by contracts. Rows in BOUNDS are not proved.
    """
    part = part_named(name)
    if part:
        return part
    bound = BOUNDS.get(name)
    of_fifo = NAME_OF_FIFO.fullmatch(name)
    if of_fifo:
        depth, clocks = int(of_fifo[1]), 1 + bool(of_fifo[2])
        if clocks == 2 and depth > 2:
            return Refinement(clocks, depth, stages=(ORDER,), by_lemmas=True, bound=bound)
        return Refinement(clocks, depth, bound=bound)
    found = NAME.fullmatch(name)
    assert found, name
    channel = CHANNELS if found[1] == "all" else found[1]
    row = Row(
        channel,
        int(found[2]),
        int(found[3]),
        clocks=1 + bool(found[4]),
        depth=int(found[5] or 2),
        outstanding=int(found[6] or 0),
        resets=found[7] or "",
        same_cycle=not found[8],
        rules=bool(found[9]),
        within=int(found[10] or 0),
        bound=bound,
    )
    if row.within and row.bound:
        return dataclasses.replace(row, stages=())
    if row.within:
        return dataclasses.replace(row, stages=(Stage((Step(r"Late$|Ready$"),), others(channel)),))
    if len(channel) > 1:
        return dataclasses.replace(row, stages=())
    return dataclasses.replace(row, stages=stages_of(channel), by_lemmas=channel != "E", by_contracts=row.clocks == 2)


WIDTHS = (1, 2, 4, 8)
PAIRS = tuple(f"{client}-{manager}" for client in WIDTHS for manager in WIDTHS)


def names(channels: str, pairs: Iterable[str], *endings: str) -> Iterator[str]:
    """Yields the names of the rows of each of these channels at each of these pairs of widths, with each ending."""
    for channel, pair, ending in itertools.product(channels, pairs, endings or ("",)):
        yield f"{channel}-{pair}{ending}"


def named_rows() -> Iterator[str]:
    """Yields the name of each row of the table."""
    small = ("2-2", "2-4", "4-2")
    yield from names("ABCDE", PAIRS)
    yield from names("A", ["1-1", "2-1", "2-2", "2-4", "4-2", "4-4", "4-8", "8-4", "8-8"], "-two-clocks")
    yield from names("BC", ["2-2", "2-4", "4-2", "4-4", "8-8"], "-two-clocks")
    yield from names("D", [*small, "4-4"], "-two-clocks")
    yield from names("E", PAIRS, "-two-clocks")
    yield from names("AC", ["2-4"], "-depth-0")
    yield from names("D", ["2-4"], "-depth-0", "-entries-1")
    yield from names("A", ["4-2"], "-depth-0-later", "-entries-1")
    yield from names("ABCDE", ["4-2"], "-depth-4")
    yield from names("D", ["4-2"], "-entries-2", "-resets-of-client")
    yield from names("AE", ["4-2"], "-resets-of-manager")
    yield from names("ABCDE", ["2-2"], "-within-2")
    yield from names("BDE", ["4-2"], "-within-2")
    yield from names("AC", ["4-2"], "-within-3")
    yield from names("ACE", ["2-4"], "-within-2")
    yield from names("BD", ["2-4"], "-within-3")
    yield from names("ABCD", [*small, "4-4"], "-rules")
    yield from names("ABCD", ["4-2"], "-two-clocks-rules")
    yield from ("E-2-2-two-clocks-within-5", "AD-4-2-depth-8", "AD-2-4-depth-8")
    yield from ("FIFO-2", "FIFO-2-two-clocks", "FIFO-4-two-clocks", "FIFO-8-two-clocks")
    yield from ("FIFO-2-resets", "FIFO-2-resets-stages-3", "FIFO-4-resets")
    yield from (f"convert-{pair}" for pair in PAIRS)
    yield from (f"links-{pair}" for pair in (*small, "4-4"))


# No run of these has ended, so they claim nothing. They are tried if they are named.
NOT_RUN = ("A-4-2-depth-8", *names("ABCD", ["2-2", "2-4"], "-two-clocks-rules"))
LINK_CYCLES = {"links-4-2": 15, "links-2-4": 14, "links-4-4": 14, "links-2-2": 13}  # others: 10
LINKS_OBSTACLE = (
    "This has the FIFOs and the reset agreement themselves, and no lemma connects their Gray codes with the checkers."
)
NO_RUN = "No run of its proof has ended."
BOUNDS: Dict[str, Bound] = {name: Bound(8, NO_RUN) for name in (*named_rows(), *NOT_RUN) if name.startswith("AD-")}
# Here the FIFO and the reset agreement are those of rtl/.
BOUNDS["E-2-2-two-clocks-within-5"] = Bound(
    40,
    "The contract allows any delay, so this has the FIFO itself, from the initial values of the registers. "
    "Without `Ready`, since ready is 0 until both sides run.",
    "Late$",
)


def place(row: AnyRow) -> Tuple[Union[int, str], ...]:
    """Returns the place of a row in the table: by channel, clocks, depth (2 first), what else differs, and widths."""
    if isinstance(row, Refinement):
        return (2, "", row.clocks, row.depth)
    if isinstance(row, Part):
        return (3, row.kind, row.depth, row.sync_stages, row.client, row.manager)
    also = (row.outstanding, row.resets, not row.same_cycle, row.rules, row.within)
    of_channel = (len(row.channel) > 1, row.channel, row.clocks, row.depth != 2, row.depth)
    return (*of_channel, *also, row.client, row.manager)


ROWS: Tuple[AnyRow, ...] = tuple(sorted(map(row_named, named_rows()), key=place))
OTHER_ROWS: Tuple[AnyRow, ...] = tuple(map(row_named, NOT_RUN))
NOT_TRIED = (("user and echo bits, wider ids and addresses, longer messages, widths above 8", "not modelled"),)
