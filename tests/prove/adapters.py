"""The adapters that tlbridge-prove is tried on, and the bugs that they plant. `play.py` plays all."""

from typing import NamedTuple, Tuple

from bugs import NARROW

DESIGNS = "tests/prove/designs"


class Planted(NamedTuple):
    """A planted bug: the words that plant it, and what it is. `expected` are the assertions that may fail first, in
    this cycle after the reset or earlier; in a step, with two clocks.
    """

    words: Tuple[str, ...]
    name: str
    expected: Tuple[str, ...]
    cycle: int
    options: Tuple[str, ...] = ()


class Adapter(NamedTuple):
    """A design. `proof` are the further words for the correct one. Each of its assertions is proved without a bound, or
    has no counterexample in `cycles`.
    """

    name: str
    what: str
    words: Tuple[str, ...]
    bugs: Tuple[Planted, ...]
    proof: Tuple[str, ...] = ()
    cycles: int = 20

    @property
    def unit(self) -> str:
        return "steps" if self.words[-2:] == ("--clocks", "2") else "cycles"


def macro(name: str, what: str, expected: Tuple[str, ...], cycle: int, options: Tuple[str, ...] = ()) -> Planted:
    return Planted(("--define", name), what, expected, cycle, options)


def files(top: str, *more: str) -> Tuple[str, ...]:
    return (*(f"{DESIGNS}/{name}.sv" for name in (*more, top)), "--top", top)


START = Adapter(
    "start",
    "examples/start: 8 to 4 bytes, TL-UL, no register on the way",
    ("examples/start/adapter.sv", "--top", "adapter"),
    (
        macro(
            "BUG", "the half of a response is that of the last request", ("d.Data0",), 3, ("--no-same-cycle-response",)
        ),
        Planted((), "a response in the cycle of its request, which this adapter does not support", ("d.Data0",), 1),
    ),
    ("--no-same-cycle-response",),
)
NARROW_4_2 = Adapter(
    "narrow",
    "4 to 2 bytes, TL-UH with bursts, registers on the way",
    (*files("narrow"), "--level", "uh"),
    tuple(Planted(("--param", f"BUG={bug.number}"), *bug[1:]) for bug in NARROW),
    ("--zero-lanes", "--within", "3"),
)
HALVES = Adapter(
    "halves",
    "examples/verilator at 4 to 2 bytes, TL-UH, a FIFO in each channel, with one clock",
    (*files("halves", "fifo"), "--level", "uh", "--clocks", "1", "--source-bits", "2"),
    (
        macro("LANE", "the second half of a beat of A has the bytes of the first", ("a.Data0",), 8),
        macro("MASK", "the second half of a beat of A has the mask of the first", ("a.Mask", "a.Lanes"), 8),
        macro("CORRUPT", "a beat of D whose first half only is corrupt is not corrupt", ("d.Corrupt",), 10),
        macro(
            "DROP_WHEN_FULL",
            "a FIFO accepts a beat while it is full, and loses it",
            ("a.Head", "a.Corrupt", "a.Data0"),
            10,
        ),
        macro(
            "INTERLEAVE",
            "the last beat of a burst leaves after the next message",
            ("a.Head", "a.Corrupt", "a.Early"),
            9,
        ),
        macro("D_LANE_0", "the bytes of a short response begin at lane 0", ("d.Data0",), 9),
        macro("SHORT_ID", "a response's source loses its highest bit", ("d.Head", "d.SourceD"), 9),
    ),
)
SKID = Adapter(
    "skid",
    "register slice of 4 bytes, TL-UL, two beats in each channel",
    files("skid"),
    (
        macro(
            "BUG_1",
            "a beat that comes while the slice is stalled is lost",
            ("a.Head", "a.Data0", "a.Mask", "d.SourceOne"),
            5,
        ),
        macro("BUG_2", "the beat that waits is sent with the data of the next one", ("a.Head", "a.Data0", "a.Mask"), 5),
        macro("BUG_3", "a response that waits has the source of the next one", ("d.Head", "d.SourceD"), 6),
        macro("BUG_4", "a request that waits has a full mask", ("a.Mask", "a.Lanes"), 4),
    ),
)
WIDE = Adapter(
    "wide",
    "2 to 4 bytes, TL-UH with bursts",
    (*files("wide"), "--level", "uh"),
    (
        macro("BUG_1", "the corrupt of the lower half of a beat of A is lost", ("a.Corrupt",), 5),
        macro("BUG_2", "a short response is taken from the half of the last request", ("d.Data0",), 7),
        macro("BUG_3", "a short put has the mask of the lower half of the beat before", ("a.Lanes",), 5),
        macro("BUG_4", "a beat of A is sent with its lower half", ("a.Early",), 4),
    ),
)
CROSSING = Adapter(
    "crossing",
    "crossing of 2 bytes between two clocks, TL-UL, a FIFO of two words in each channel",
    (*files("crossing", "fifo"), "--clocks", "2"),
    (
        macro("FULL_LATE", "full is seen one word late", ("a.Head", "a.Data0", "a.Mask", "d.SourceOne"), 9),
        macro(
            "DROP_WHEN_FULL",
            "a word that comes while the FIFO is full is lost",
            ("a.Head", "a.Data0", "d.SourceOne", "a.Room"),
            10,
        ),
        macro("LEAVES", "a word leaves although it is not accepted", ("a.Head", "a.Data0", "d.SourceOne"), 9),
        macro("COUNT_FIRST", "a count crosses before its word is written", ("a.Head", "a.Data0", "d.SourceOne"), 9),
    ),
)
COHERENT = Adapter(
    "coherent",
    "buffer of 2 bytes, TL-C with five channels",
    files("coherent"),
    (
        macro("BUG_1", "the param of a Probe that waits is lost", ("b.Head",), 4),
        macro("BUG_2", "the corrupt of a beat of C that waits is lost", ("c.Corrupt",), 4),
        macro("BUG_3", "a GrantAck that comes while another one waits is lost", ("e.Head", "e.Room"), 6),
        macro("BUG_4", "a Grant has the sink of the one that is offered next", ("d.Head",), 6),
        macro("BUG_5", "a message of C without data is sent twice", ("c.Invented",), 4),
        macro("BUG_6", "each GrantAck after the first one is lost", ("e.Room",), 7, ("--count-bits", "2")),
    ),
)
STRUCTS = Adapter(
    "structs",
    "buffer of 4 bytes, TL-UL, packed structs as in OpenTitan, user bits",
    files("structs"),
    (
        macro("BUG_1", "the error of a response that waits is lost", ("d.Head",), 5),
        macro("BUG_2", "a request has the user bits of the one before", ("a.Head",), 4),
        macro("BUG_3", "a response's source has one bit", ("d.Head", "d.SourceD"), 5),
        macro("BUG_4", "a response that waits is overwritten by the next one", ("d.Head", "d.SourceOne", "d.Data0"), 5),
    ),
)
EARLY = Adapter(
    "early",
    "4 to 2 bytes, TL-UH, sends parts of a beat before it accepts the beat",
    (*files("early"), "--level", "uh", "--forwards-offered"),
    (
        macro("BUG_1", "the second part has the mask of the first", ("a.Mask", "a.Lanes"), 3),
        macro("BUG_2", "the parts are swapped behind a stall", ("a.Data0",), 3),
        macro("BUG_3", "the half of a short response is that of the last request", ("d.Data0",), 4),
        macro(
            "BUG_4", "a beat of a burst is accepted with its first part", ("a.Head", "a.Data0", "a.Mask", "a.Early"), 4
        ),
    ),
)
FEW_RULES = ("--watched-source-only",)  # with the rules of all 16 sources a run takes too long
WIDTHS = Adapter(
    "widths",
    "16 to 8 bytes, TL-UH, messages up to 64 bytes, all bits of address and source free",
    (*files("widths"), "--level", "uh", "--largest", "64", "--address-bits", "32", "--source-bits", "4"),
    (
        macro("BUG_1", "a short message is cut from the lowest part", ("a.Data0", "a.Lanes", "a.Mask"), 3, FEW_RULES),
        macro("BUG_2", "a wide beat of D is corrupt only if its last part is", ("d.Corrupt",), 4, FEW_RULES),
        macro("BUG_3", "the lane of a response is that of the last request", ("d.Data0",), 4, FEW_RULES),
    ),
)
ADAPTERS = (START, NARROW_4_2, HALVES, SKID, WIDE, CROSSING, COHERENT, STRUCTS, EARLY)
