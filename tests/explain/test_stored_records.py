"""python/tlbridge/explain.py reads the stored output of `tlexplain --json`. Its records make the stored
text again, and no program is needed.
"""

from pathlib import Path

import pytest
import records
from project import EXAMPLES
from tlbridge import explain

SENTENCES = Path(__file__).parent / "sentences"
STORED = [(SENTENCES / f"{name}.json", SENTENCES / f"{name}.text") for name in ("remarks", "request_not_arrived")]
STORED += [(EXAMPLES / "get.json", EXAMPLES / "get.explain")]


@pytest.mark.parametrize("made, text", STORED, ids=lambda path: str(path.name))
def test_records_make_the_text(made: Path, text: Path) -> None:
    """Lawful beats, beats with remarks, and one whose request has not arrived."""
    assert records.text_of(list(explain.read(made.read_text().splitlines()))) == text.read_text()


def test_a_text_that_is_no_trace() -> None:
    """It has one record, with the line and its fault."""
    (record,) = explain.read((SENTENCES / "line_ends_here.json").read_text().splitlines())
    assert isinstance(record, explain.BadTrace)
    said = f"line {record.line}: {record.fault.number} {record.fault.name}: {record.fault.said}\n"
    assert (SENTENCES / "line_ends_here.text").read_text().startswith(said)
