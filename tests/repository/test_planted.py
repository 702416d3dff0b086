"""The mistakes that long tests plant can be planted: the text that each replaces is in its file once."""

from pathlib import Path

import pytest
from planted import mistakes
from project import ROOT

FILES = sorted(ROOT.glob("tests/**/bugs.txt"))


def test_there_are_planted_mistakes() -> None:
    assert len(FILES) >= 3


@pytest.mark.parametrize("path", FILES, ids=lambda path: str(path.relative_to(ROOT)))
def test_each_planted_mistake_can_be_planted(path: Path) -> None:
    """Each changes a file. A line that was moved or wrapped has to be changed in bugs.txt, too."""
    made = mistakes(path)
    assert made
    for planted in made:
        for file, text in planted.changed(ROOT).items():
            assert text != (ROOT / file).read_text(), planted.name
