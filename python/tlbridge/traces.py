"""The answer to the text of a trace."""
import ctypes as c
from dataclasses import dataclass
from typing import Union

from .library import AnswerFields, Status, load, status_of


@dataclass(frozen=True)
class TraceResult:
    """The text of an answer, as `tlbridge run` writes it, and whether all five channels are done."""

    text: str
    all_done: bool


class TraceFaultError(Exception):
    """The text is not a valid trace, or memory ran out. `line` is the bad line, counted from 1, or 0 if there is
    none."""

    def __init__(self, status: Status, line: int):
        super().__init__(f"line {line}: {status}" if line else str(status))
        self.status = status
        self.line = line


def run_trace(text: Union[str, bytes], check: bool = False) -> TraceResult:
    """Returns the answer to a trace, as `tlbridge run` writes it. With `check` it has no far beats. Raises
    TraceFaultError."""
    data = text.encode() if isinstance(text, str) else bytes(text)
    library, made = load(), AnswerFields()
    number = library.tl_answer_trace(data, len(data), check, c.byref(made))
    if number:
        raise TraceFaultError(status_of(number), made.line)
    try:
        return TraceResult(c.string_at(made.text, made.length).decode(), bool(made.all_done))
    finally:
        library.tl_answer_free(c.byref(made))
