"""The page of a waveform: the page of `tlexplain --html` for a trace, with the notes on the dump and the links at its
top."""
from __future__ import annotations

import html
import os
import shutil
import subprocess
import sys
import tempfile
from pathlib import Path
from typing import IO, Callable, List, Optional, Sequence

from ..judge import built_program, find_program
from ..run import MOST_BYTES, FailureError, Part

MOST_NOTES = 100  # of one kind on a page
HEAD_BYTES = 1 << 16  # the places for the style and for the notes are among the first bytes of a page
STYLE = b"""<style>
.notes { max-width: 60rem; margin: 0 0 1rem; padding: .5rem .75rem; }
.notes { border: 1px solid var(--line, GrayText); border-left: 4px solid var(--slow, GrayText); border-radius: 6px; }
.notes { color: var(--ink, CanvasText); background: var(--card, Canvas); overflow-wrap: anywhere; }
.notes h2 { font-size: 1rem; } .notes ul { padding-left: 1.2rem; max-height: 12rem; overflow-y: auto; }
@media print { .notes { break-inside: avoid; } .notes ul { max-height: none; } }
</style>
"""
REMEDY = "install it, build it in a clone with ./tlexplain --version, or name it with --tlexplain"


def tlexplain_of(given: Optional[str]) -> str:
    """Finds tlexplain: the named one, or the one of `find_program`. Errors: a `FailureError` of status 4 if there is
    none that can be run."""
    if not given:
        program = find_program("tlexplain")
        if program is None:
            raise FailureError(f"--html needs the program tlexplain, and none was found: {REMEDY}", 4)
        return program
    found = shutil.which(given)
    if found is None:
        raise FailureError(f"--tlexplain {given}: there is no program of this name: {REMEDY}", 4)
    program = os.path.abspath(found)
    itself = built_program(Path(program).resolve())
    if itself is None:
        raise FailureError(f"{given} is not built yet: run {given} --version, which proves and builds it", 4)
    return program if itself == Path(program).resolve() else str(itself)


class Notes:
    """Notes that are printed, and kept for the page: the first ones, and the number of the others."""

    def __init__(self, printed: Callable[[str], None]):
        self._printed, self._texts, self._more = printed, [], 0  # type: Callable[[str], None], List[str], int

    def __call__(self, text: str) -> None:
        if len(self._texts) < MOST_NOTES:
            self._texts.append(text)
        else:
            self._more += 1
        self._printed(text)

    def texts(self) -> List[str]:
        return self._texts + ([f"{self._more} more notes are left out here"] if self._more else [])


def printable(text: str) -> str:
    """Returns the text as a page shows it: letters of markup are escaped, and letters without a glyph are written as
    numbers."""
    return html.escape(
        "".join(letter if letter.isprintable() else f"\\x{ord(letter):02x}" for letter in text), quote=False
    )


def list_of(notes: Sequence[str]) -> bytes:
    items = "".join(f"<li>{printable(text)}</li>" for text in notes)
    return f'<aside class="notes"><h2>Notes of tlbridge-trace</h2><ul>{items}</ul></aside>'.encode()


def with_notes(head: bytes, notes: Sequence[str]) -> Optional[bytes]:
    """Returns the beginning of a page with the notes below its header. Returns None if it has no place for them."""
    before, style, after = head.partition(b"</head>")
    header, notes_here, rest = after.partition(b"</header>")
    if not style or not notes_here:
        return None
    return b"".join((before, STYLE, style, header, notes_here, list_of(notes), rest))


def copy_page(page: IO[bytes], path: str, notes: Sequence[str]) -> bool:
    """Writes the page to a file, with the notes. Returns whether the page had a place for them."""
    head = page.read(HEAD_BYTES)
    made = with_notes(head, notes)
    with open(path, "wb") as out:
        out.write(head if made is None else made)
        shutil.copyfileobj(page, out)
    return made is not None


class Pages:
    """The pages of a run, one for each part. The traces are kept until the whole dump has been read, since some notes
    are only known then."""

    def __init__(self, path: str, program: str):
        self._path, self._program = path, program
        self._folder = tempfile.TemporaryDirectory(prefix="tlbridge-")
        self._parts: List[str] = []  # the time of each
        self._bytes = 0

    def name(self, number: int) -> str:
        """Returns the file of a part's page: PAGE, and from the second part on with its number, as in up.2.html."""
        stem, ending = os.path.splitext(self._path)
        return self._path if number == 1 else f"{stem}.{number}{ending}"

    def add(self, part: Part) -> None:
        """Keeps the trace and the times of a part. Errors: a `FailureError` of status 4 if the traces so far are too
        long for pages."""
        self._bytes += os.path.getsize(part.trace)
        if self._bytes > MOST_BYTES:
            raise too_long(f"the trace up to time {part.end} has more than {MOST_BYTES} bytes")
        self._parts.append(f"time {part.begin or 0} to {part.end}")
        for kind, write in (("trace", part.write_trace), ("times", part.write_times)):
            with open(self._kept(kind, part.number), "w", encoding="ascii") as out:
                write(out)

    def write(self, source: str, unit: str, notes: Sequence[str], told: Callable[[str], None]) -> None:
        """Writes the pages. `source` has the dump and its links, and `unit` the unit of the times. `told` gets the
        message that a page has no place for the notes. Errors: a `FailureError` of status 3 if tlexplain cannot
        understand the trace, or 4 if it does not write a page.
        """
        for number, time in enumerate(self._parts, 1):
            of = f", part {number} of {len(self._parts)} of the run" if len(self._parts) > 1 else ""
            about = f"{source}, {time}" + (f", in units of {unit}" if unit else "") + of
            self._write(number, [about, *notes], told)

    def _write(self, number: int, notes: Sequence[str], told: Callable[[str], None]) -> None:
        path = self.name(number)
        with tempfile.TemporaryFile(dir=self._folder.name) as page:
            status = self._explain(number, page)
            is_page = (
                status in (0, 1, 3) and os.fstat(page.fileno()).st_size > 0
            )  # that of status 3 shows the line that is not valid
            page.seek(0)
            if is_page and not copy_page(page, path, notes):
                told(
                    f"{path}: the notes are not on this page, since {self._program} wrote no </head> and </header> at"
                    " its beginning"
                )
        if status not in (0, 1) or not is_page:
            ending = f"signal {-status}" if status < 0 else f"status {status}"
            raise FailureError(
                f"{self._program} ended with {ending}: {path} " + ("shows the fault" if is_page else "was not written"),
                3 if status == 3 else 4,
            )

    def close(self) -> None:
        self._folder.cleanup()

    def _kept(self, kind: str, number: int) -> str:
        return os.path.join(self._folder.name, f"{kind}.{number}")

    def _explain(self, number: int, page: IO[bytes]) -> int:
        """Runs tlexplain over a part. Returns its exit status, and passes its standard error on."""
        words = [self._program, "--html", "--times", self._kept("times", number), self._kept("trace", number)]
        try:
            done = subprocess.run(words, stdin=subprocess.DEVNULL, stdout=page, stderr=subprocess.PIPE, check=False)
        except OSError as error:
            raise FailureError(f"{self._program}: {error.strerror}", 4) from error
        sys.stderr.write(done.stderr.decode("utf-8", "replace"))
        return done.returncode


def too_long(why: str) -> FailureError:
    return FailureError(f"{why}. That is too long for a page: choose a part of the run with --from and --to", 4)
