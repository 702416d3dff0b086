"""The output of `tlexplain --json` as typed records: what happened to each line of a trace.

    with subprocess.Popen(["tlexplain", "--json", "link.trace"], stdout=subprocess.PIPE, text=True) as program:
        for record in explain.read(program.stdout):
            if isinstance(record, explain.Line) and record.fault:
                print(record.line, record.time, record.fault.name)

docs/SPECIFICATION.md, section 13, says what each field means. The names here are those of the output.
"""
import json
from dataclasses import dataclass, fields
from typing import Any, Dict, Iterable, Iterator, Optional, Tuple, Type, TypeVar, Union, cast

from .protocol import CHANNELS

Made = TypeVar("Made")


@dataclass(frozen=True)
class Fault:
    """Why a beat was not accepted, or why a text is not a trace. `said` is a sentence, except in a summary."""

    number: int
    name: str
    said: str = ""


@dataclass(frozen=True)
class Remark:
    """A protocol monitor's remark on an accepted beat; `partner` is the line of the other message, or the same line."""

    number: int
    name: str
    partner: int
    said: str


@dataclass(frozen=True)
class Staged:
    """How many bytes of the next far beat are there, of how many."""

    far: int
    bytes: int
    of: int


@dataclass(frozen=True)
class FarBeat:
    """A far beat: its number on its channel, its line, and where its bytes of the message are."""

    number: int
    text: str
    corrupt: bool
    first_byte: Optional[int] = None
    first_lane: Optional[int] = None
    bytes: Optional[int] = None
    lanes: Tuple[str, ...] = ()


@dataclass(frozen=True)
class Line:
    """A line of the trace. A field that its channel or its fate does not have is None."""

    line: int
    channel: str
    message: Optional[str]
    fate: str
    time: Optional[str] = None
    opcode: Optional[int] = None
    param: Optional[int] = None
    size: Optional[int] = None
    source: Optional[int] = None
    sink: Optional[int] = None
    address: Optional[int] = None
    denied: Optional[bool] = None
    corrupt: Optional[bool] = None
    message_line: Optional[int] = None
    beat: Optional[int] = None
    beats: Optional[int] = None
    staged: Optional[Staged] = None
    answers: Optional[int] = None
    answered_in: Optional[int] = None
    since_line: Optional[int] = None
    fault: Optional[Fault] = None
    first_byte: Optional[int] = None
    first_lane: Optional[int] = None
    bytes: Optional[int] = None
    lanes: Tuple[str, ...] = ()
    far: Tuple[FarBeat, ...] = ()
    remarks: Tuple[Remark, ...] = ()


@dataclass(frozen=True)
class Verdict:
    """How a channel ended, and after how many accepted beats."""

    verdict: str
    near: int
    far: Optional[int] = None
    fault: Optional[Fault] = None
    message_line: Optional[int] = None
    beat: Optional[int] = None
    beats: Optional[int] = None


@dataclass(frozen=True)
class Summary:
    """The whole trace; `channels` has the verdict of each channel, by its letter."""

    version: int
    client: int
    manager: int
    lines: int
    remarks: int
    channels: Dict[str, Verdict]


@dataclass(frozen=True)
class BadTrace:
    """A text that is not a trace: its first faulty line, and the place of the fault there, counted from 0."""

    line: int
    fault: Fault
    place: int
    text: str
    form: Optional[str] = None


Record = Union[Line, Summary, BadTrace]


def _made(kind: Type[Made], values: Dict[str, Any], **more: Any) -> Made:
    """Makes a record of this kind; fields that it does not know are left out."""
    known = {field.name for field in fields(cast(Any, kind))}
    return kind(**{**{name: value for name, value in values.items() if name in known}, **more})


def _fault(values: Dict[str, Any]) -> Optional[Fault]:
    return _made(Fault, values["fault"]) if "fault" in values else None


def _far(values: Dict[str, Any]) -> FarBeat:
    return _made(FarBeat, values, lanes=tuple(values.get("lanes", ())))


def _line(values: Dict[str, Any]) -> Line:
    more: Dict[str, Any] = {
        "far": tuple(map(_far, values["far"])),
        "lanes": tuple(values.get("lanes", ())),
        "fault": _fault(values),
    }
    more["remarks"] = tuple(_made(Remark, remark) for remark in values["remarks"])
    if "address" in values:
        more["address"] = int(values["address"], 16)
    if "staged" in values:
        more["staged"] = _made(Staged, values["staged"])
    return _made(Line, values, **more)


def record_of(text: str) -> Record:
    """Returns the record in a line of the output. Raises ValueError if the line is not a record."""
    values = json.loads(text)
    if "summary" in values:
        summary = values["summary"]
        channels = {name: _made(Verdict, summary[name], fault=_fault(summary[name])) for name in CHANNELS}
        return _made(Summary, summary, channels=channels)
    if "place" in values:
        return _made(BadTrace, values, fault=_made(Fault, values["fault"]))
    return _line(values)


def read(lines: Iterable[str]) -> Iterator[Record]:
    """Returns the records of an output, line by line."""
    return map(record_of, lines)
