"""Compares docs/READING_LIST.md, and the names in the table of promises of docs/ASSURANCE.md, with the crates."""

import re
from typing import Any, Iterator, List, Tuple

import pytest
from project import ROOT, script

READING = script(ROOT / "tools" / "reading-list")


@pytest.fixture(scope="module")
def calls() -> List[Any]:
    return list(READING.calls())


def promised(page: str) -> Iterator[Tuple[List[str], str]]:
    """Yields each name that carries a promise, with the crates that may have it.

    These are the crates of its row, or the one in front of it. Clauses are left out.
    """
    section = page.partition("## Promises and their contracts")[2].partition("\n## ")[0]
    crates: List[str] = []
    for row in re.findall(r"^\|(.*)\|$", section, re.M):
        *before, last = row.split("|")
        first = before[0] if len(before) == 2 else ""
        if first.strip() or len(before) == 1:
            crates = [name for name in re.findall(r"`(\w+)`", first) if (ROOT / "crates" / name).is_dir()]
        for crate, name in re.findall(r"(?<!clause )`(?:(tl_\w+)::)?(?:laws::)?(\w+)(?:::\w+)?`", last):
            if crate or crates:
                yield [crate] if crate else crates, name


def missing_carriers(page: str, calls: List[Any]) -> List[str]:
    """Returns each name of the table that its crate does not have as a public item."""
    return [
        f"no public item of {' or '.join(crates)} is named {name}"
        for crates, name in promised(page)
        if not any(READING.carried_by(calls, crate, name) for crate in crates)
    ]


def test_the_page_is_up_to_date(calls: List[Any]) -> None:
    page = (ROOT / "docs" / "READING_LIST.md").read_text()
    assert page == READING.page_of(calls), "run tools/reading-list --write"
    assert not re.search(r"\| 0 in 0 \|", page)


def test_the_carriers_of_promises_are_public_items(calls: List[Any]) -> None:
    page = (ROOT / "docs" / "ASSURANCE.md").read_text()
    assert len(list(promised(page))) > 60
    assert missing_carriers(page, calls) == []


def test_a_carrier_that_is_gone_is_reported(calls: List[Any]) -> None:
    page = (ROOT / "docs" / "ASSURANCE.md").read_text().replace("`run_threads`", "`run_in_threads`")
    assert "no public item of tl_bridge is named run_in_threads" in missing_carriers(page, calls)
