"""Finds sentences that docs/STYLE.md rules out, in documents, comments and printed messages.

A line of prose.exceptions excepts one sentence for good: its file, a part of the sentence, and the reason, with ` | `
between them. An exception that excepts nothing fails, and there may be at most 40. `tests/lib/prose.py PATH ..` lists
the sentences of any files.
"""

from pathlib import Path
from typing import List, Set, Tuple

import prose
import pytest
from project import ROOT
from prose import FORMS, HABIT_PAGES, HABITS, MOST_IN_A_ROW, MOST_WORDS, SHORT_PAGES, Sentence, forms_in, habits_in

EXCEPTIONS = Path(__file__).with_name("prose.exceptions").read_text().splitlines()
MOST_EXCEPTIONS = 40
FOLDERS = sorted({prose.folder_of(prose.name_of(path)) for path in prose.read_files()})

Findings = List[Tuple[Sentence, List[str]]]


@pytest.mark.parametrize("name", FORMS)
def test_a_form_is_found(name: str) -> None:
    """Each form is found in its first sentence, and nothing is found in its second one."""
    _, bad, good = FORMS[name]
    assert name in forms_in(Sentence("", 1, bad))
    assert forms_in(Sentence("", 1, prose.plain(good))) == []


def test_a_long_sentence_is_found() -> None:
    assert forms_in(Sentence(SHORT_PAGES[0], 1, "word " * (MOST_WORDS + 1)))


@pytest.fixture(scope="module")
def found() -> Findings:
    return prose.findings(prose.read_files())


def excepted_by(line: str, found: Findings) -> Set[prose.Sentence]:
    """The sentences that a line of prose.exceptions excepts."""
    path, part, _ = [*line.split(" | "), "", ""][:3]
    return {sentence for sentence, _ in found if part and sentence.path == path and part in sentence.text}


def test_there_are_few_exceptions() -> None:
    assert len(EXCEPTIONS) <= MOST_EXCEPTIONS


@pytest.mark.parametrize("line", EXCEPTIONS)
def test_an_exception_excepts_a_sentence(found: Findings, line: str) -> None:
    """Each exception has a sentence that is there, and a reason."""
    assert excepted_by(line, found)
    assert [*line.split(" | "), "", ""][2], "it has no reason"


@pytest.mark.parametrize("folder", FOLDERS)
def test_the_prose_of_a_folder(found: Findings, folder: str) -> None:
    """No sentence is ruled out, except those of prose.exceptions."""
    excepted = {sentence for line in EXCEPTIONS for sentence in excepted_by(line, found)}
    assert [
        f"{sentence.path}:{sentence.line}: {', '.join(forms)}: {sentence.text}"
        for sentence, forms in found
        if prose.folder_of(sentence.path) == folder and sentence not in excepted
    ] == []


@pytest.mark.parametrize("name", HABITS)
def test_a_habit_is_found(name: str) -> None:
    """Each habit is found in its first sentence, and not in its second one."""
    _, bad, good = HABITS[name]
    assert [habit for _, habit in habits_in([Sentence("", 1, bad)])] == [name]
    assert list(habits_in([Sentence("", 1, good)])) == []


def test_short_sentences_in_a_row_are_found() -> None:
    """Four of them are found, and three are not."""
    row = [Sentence("", 1, "It reads a line.")] * (MOST_IN_A_ROW + 1)
    assert [habit for _, habit in habits_in(row)] == ["one fact per full stop"]
    assert list(habits_in(row[1:])) == []


@pytest.mark.parametrize("page", HABIT_PAGES)
def test_a_page_has_none_of_the_habits(page: str) -> None:
    """A line that begins with `> ` is a sentence that the program prints."""
    lines = (ROOT / page).read_text().splitlines()
    found = habits_in(prose.sentences(ROOT / page))
    assert [
        f"{page}:{sentence.line}: {habit}: {sentence.text}"
        for sentence, habit in found
        if not lines[sentence.line - 1].startswith("> ")
    ] == []
