"""The shared library, and the meaning of its status numbers."""
import ctypes as c
import ctypes.util
import os
from dataclasses import dataclass
from functools import lru_cache
from pathlib import Path
from typing import Any, Dict, Optional, Tuple

VERSION = 7  # of the library whose structures are here

INBOX = 128  # the most beats in an inbox

# Statuses of drained and finish that are not refusals in Python.
NOT_TAKEN = 249
NOT_SENT = 253


class MissingLibraryError(Exception):
    """There is no library, or it has another version, or it does not have the pair of widths."""


@dataclass(frozen=True)
class Status:
    """The status of a call, with its name and its sentence. 0 is success."""

    number: int
    name: str
    sentence: str

    def __str__(self) -> str:
        return f"{self.number} {self.name}: {self.sentence}"


class RefusedError(Exception):
    """A call was refused, and changed nothing. `status` says why."""

    def __init__(self, status: Status):
        super().__init__(str(status))
        self.status = status


class TextFields(c.Structure):
    _fields_ = [("name", c.c_char * 16), ("sentence", c.c_char * 144)]


class BeatFields(c.Structure):
    _fields_ = [
        ("address", c.c_uint64),
        ("mask", c.c_uint64),
        ("source", c.c_uint16),
        ("sink", c.c_uint16),
        ("opcode", c.c_uint8),
        ("param", c.c_uint8),
        ("size", c.c_uint8),
        ("denied", c.c_uint8),
        ("corrupt", c.c_uint8),
        ("reserved", c.c_uint8 * 7),
        ("mask_high", c.c_uint64),
    ]


@lru_cache(maxsize=None)
def inbox_fields(width: int) -> Any:
    """Returns the type of an array with room for all beats of an inbox, with their lanes, at this width."""

    class LanedBeat(c.Structure):
        _fields_ = [("beat", BeatFields), ("lanes", c.c_uint8 * width)]

    return LanedBeat * INBOX


class HandleFields(c.Structure):
    _fields_ = [("impl", c.c_void_p), ("is_open", c.c_bool), ("bridge", c.c_uint64), ("opening", c.c_uint64)]


class CountsFields(c.Structure):
    _fields_ = [("staged", c.c_size_t), ("in_ring", c.c_size_t), ("inbox", c.c_size_t)]


class StandingsFields(c.Structure):
    _fields_ = [(channel, CountsFields) for channel in "abcde"]


class TotalsFields(c.Structure):
    _fields_ = [(name, c.c_uint64) for name in ("bridge", "opening", "finished", *"abcde")]


class AnswerFields(c.Structure):
    _fields_ = [
        ("text", c.c_void_p),
        ("length", c.c_size_t),
        ("line", c.c_uint64),
        ("impl", c.c_void_p),
        ("is_open", c.c_bool),
        ("all_done", c.c_uint8),
    ]


_SIDE, _BEAT, _LANES = c.POINTER(HandleFields), c.POINTER(BeatFields), c.c_char_p
_TOTALS, _STANDINGS = c.POINTER(TotalsFields), c.POINTER(StandingsFields)
# The calls that this package makes: for each its result and its arguments, as in include/tlbridge.h and
# tlbridge_scoreboard.h.
PROTOTYPES: Dict[str, Tuple[Any, ...]] = {
    "tl_status_text": (None, c.c_uint8, c.POINTER(TextFields)),
    "tl_answer_trace": (c.c_uint8, c.c_char_p, c.c_size_t, c.c_uint8, c.POINTER(AnswerFields)),
    "tl_answer_free": (None, c.POINTER(AnswerFields)),
    "tl_scoreboard_pairs": (c.c_char_p,),
    "tl_scoreboard_open": (c.c_void_p, c.c_uint, c.c_uint, c.c_uint),
    "tl_scoreboard_free": (None, c.c_void_p),
    "tl_scoreboard_reset": (None, c.c_void_p, c.c_int, c.c_bool, c.c_uint64),
    "tl_scoreboard_beat": (None, c.c_void_p, c.c_int, c.c_char, c.c_uint64, _BEAT, _LANES),
    "tl_scoreboard_beats": (c.c_uint64, c.c_void_p),
    "tl_scoreboard_next_message": (c.c_void_p, c.c_void_p, c.POINTER(c.c_uint64)),
    "tl_scoreboard_finish": (c.c_uint64, c.c_void_p),
    "tl_scoreboard_differences": (c.c_uint64, c.c_void_p),
}
# The calls of a pair of widths: of both sides, of one of them, and of one channel.
_OF_A_PAIR: Dict[str, Tuple[Any, ...]] = {
    "version": (c.c_uint32,),
    "open": (c.c_uint8, _SIDE, _SIDE, c.c_size_t, c.c_uint64),
    "meet": (c.c_uint8, _SIDE, _SIDE, _STANDINGS),
    "settle": (c.c_uint8, _SIDE, _SIDE, _STANDINGS),
    "free": (None, _SIDE),
    "pump": (c.c_size_t, _SIDE),
    "fetch": (c.c_size_t, _SIDE),
    "count": (c.c_uint8, _SIDE, _TOTALS),
    "finish": (c.c_uint8, _SIDE, _TOTALS),
    "drained": (c.c_uint8, _SIDE, _TOTALS),
    "ready": (c.c_bool, _SIDE),
    "offer": (c.c_uint8, _SIDE, _BEAT, _LANES),
    "take": (c.c_bool, _SIDE, _BEAT, c.POINTER(c.c_uint8)),
    "take_all": (c.c_size_t, _SIDE, c.c_void_p, c.c_size_t),
    "close": (c.c_uint8, _SIDE),
}


def call_of(library: c.CDLL, client: int, manager: int, name: str) -> Any:
    """Returns a call of a pair of widths, such as `open`, `pump_client` or `offer_a`. Raises AttributeError if the
    library does not have it."""
    call = getattr(library, f"tl_{client}_{manager}_{name}")
    call.restype, *call.argtypes = _OF_A_PAIR[name.rpartition("_")[0] or name]
    return call


_loaded: Optional[c.CDLL] = None


def _find() -> str:
    """Returns the path in TLBRIDGE_LIBRARY, or else the library in this package, or else the one of the tree that
    `make install` made around it, or else the one that the system's loader finds."""
    package = Path(__file__).resolve().parent
    places = [package, *(folder / "lib" for folder in list(package.parents)[3:4])]
    own = (str(place / "libtlbridge.so") for place in places if (place / "libtlbridge.so").is_file())
    found = os.environ.get("TLBRIDGE_LIBRARY") or next(own, None) or ctypes.util.find_library("tlbridge")
    if not found:
        raise MissingLibraryError(
            "libtlbridge.so was not found: `make install` makes it, and the variable TLBRIDGE_LIBRARY may name it"
        )
    return found


def load(path: Optional[str] = None) -> c.CDLL:
    """Loads the library at `path`, or the one that is found, and returns it. Later calls without a path return the same
    one."""
    global _loaded
    if _loaded is None or path is not None:
        found = path or _find()
        try:
            library = c.CDLL(found)
        except OSError as error:
            raise MissingLibraryError(str(error)) from error  # which begins with the path
        for name, (result, *arguments) in PROTOTYPES.items():
            call = getattr(library, name)
            call.restype, call.argtypes = result, arguments
        _loaded = library
    return _loaded


def pairs() -> str:
    """Returns the pairs of widths of the library, for example "8:4 4:8"."""
    names: bytes = load().tl_scoreboard_pairs()
    return names.decode()


def status_of(number: int) -> Status:
    """Returns the status with this number."""
    text = TextFields()
    load().tl_status_text(number, c.byref(text))
    return Status(number, text.name.decode(), text.sentence.decode())


def check(number: int) -> None:
    """Raises RefusedError unless the number is 0."""
    if number:
        raise RefusedError(status_of(number))
