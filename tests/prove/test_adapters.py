"""Each adapter of adapters.py: tlbridge-prove finds each planted bug, and proves the correct design.

One is quick; `-m long` plays all of them. `play.py` prints the same as the tables of docs/PROVE.md.
"""

from pathlib import Path
from typing import Dict

import pytest
from adapters import ADAPTERS, CROSSING, EARLY, SKID, START, STRUCTS, WIDE, WIDTHS, Adapter, Planted
from play import Played, is_found, line_of_bug, line_of_correct, play, play_bug, play_correct
from project import needs_tools

pytestmark = pytest.mark.simulator
BUGS = [(adapter, bug) for adapter in ADAPTERS for bug in adapter.bugs]
TOOLS = ("yosys", "yosys-abc", "verilator", "iverilog")


@pytest.fixture(scope="module")
def models(tmp_path_factory: pytest.TempPathFactory) -> Path:
    """A cache of models that the tests of this file share."""
    return tmp_path_factory.mktemp("models")


def kinds(run: Played) -> Dict[str, str]:
    """The first word of each verdict: `proved`, `no` or `fails`."""
    return {name: verdict.split()[0] for name, (verdict, _) in run.rows.items()}


# ---- quick


def test_two_clocks(tmp_path: Path) -> None:
    """A word of a FIFO between two free clocks is overwritten, and Icarus replays it with both clocks."""
    needs_tools(*TOOLS)
    words = ("--define", "FULL_LATE", "--cycles", "8", "--only", "a.(Head|Data0)", "--watched-source-only")
    run = play((*CROSSING.words, *words), tmp_path)
    assert run.status == 1 and run.fails[0][0] <= 6, run.said
    assert "two clocks of any frequency and phase" in run.said
    assert "in which the watch reports a." in run.said
    assert "A: far beat 0" in run.said  # tlbridge-compare sees it, too


@pytest.mark.long
def test_user_bits_are_part_of_the_head(tmp_path: Path, models: Path) -> None:
    """A design with packed structs whose a_user is that of the request before: the bytes are right, the head is not."""
    needs_tools(*TOOLS)
    bug = (*STRUCTS.words, "--define", "BUG_2", "--cycles", "3", "--only", "a.(Head|Data0)")
    run = play(bug, tmp_path, models)
    assert run.status == 1 and {name for _, _, name in run.fails} == {"a.Head"}, run.said
    assert "user and echo bits: 3 on A, 2 on D" in run.said


# ---- long: the tables


@pytest.mark.long
@pytest.mark.parametrize("adapter, bug", BUGS, ids=[f"{adapter.name}: {bug.name}" for adapter, bug in BUGS])
def test_planted_bug_is_found(adapter: Adapter, bug: Planted, tmp_path: Path) -> None:
    """An expected assertion is among the first that fail. `-rP` prints the rows of the table."""
    needs_tools(*TOOLS)
    run = play_bug(adapter, bug, tmp_path)
    print(line_of_bug(adapter, bug, run))
    assert is_found(bug, run), run.said


@pytest.mark.long
@pytest.mark.parametrize("adapter", ADAPTERS, ids=[adapter.name for adapter in ADAPTERS])
def test_correct_adapter_has_no_failure(adapter: Adapter, tmp_path: Path, models: Path) -> None:
    """Each assertion is proved, or has no counterexample in the adapter's number of cycles."""
    needs_tools(*TOOLS)
    run = play_correct(adapter, tmp_path, models)
    print(line_of_correct(adapter, run))
    assert run.status == 0, run.said
    assert {verdict for verdict, _ in run.rows.values()} <= {
        "proved",
        f"no counterexample in {adapter.cycles} {adapter.unit}",
    }


# ---- long: the options


@pytest.mark.long
def test_more_free_bits_change_no_verdict(tmp_path: Path, models: Path) -> None:
    """All bits of address and source are free, or few: each verdict is the same, without and with a planted bug. The
    fewest are four of the address: the three that choose the lane, and the highest.
    """
    needs_tools(*TOOLS)
    fewer, more = ("--address-bits", "4", "--source-bits", "1"), ("--address-bits", "32", "--source-bits", "2")
    for words in ((), ("--define", "BUG")):
        runs = [
            play((*START.words, *START.proof, *words, *free, "--unbounded", "--keep-going"), tmp_path, models)
            for free in (fewer, more)
        ]
        assert len(runs[0].rows) == 32, runs[0].said
        assert kinds(runs[0]) == kinds(runs[1])


@pytest.mark.long
def test_later_resets_change_no_verdict(tmp_path: Path, models: Path) -> None:
    """The first reset begins with any register values, so it covers later resets of both sides."""
    needs_tools(*TOOLS)
    runs = [play((*SKID.words, *more, "--unbounded"), tmp_path, models) for more in ((), ("--later-resets",))]
    assert kinds(runs[0]) == kinds(runs[1])
    assert set(kinds(runs[1]).values()) == {"proved"}, runs[1].said
    assert "later ones of both sides at any time" in runs[1].said


@pytest.mark.long
def test_messages_of_64_bytes(tmp_path: Path, models: Path) -> None:
    """A burst of 32 narrow beats: proved for any number of cycles."""
    needs_tools(*TOOLS)
    words = (*WIDE.words, "--param", "SIZE_BITS=3", "--largest", "64", "--unbounded", "--cycles", "8")
    run = play((*words, "--only", "a.(Early|Head|Corrupt|Data0)"), tmp_path, models)
    assert run.status == 0 and set(kinds(run).values()) == {"proved"}, run.said


@pytest.mark.long
def test_all_bits_of_ids_and_addresses(tmp_path: Path, models: Path) -> None:
    """16 to 8 bytes, messages up to 64 bytes: no byte is wrong in the cycles that the search reaches."""
    needs_tools(*TOOLS)
    run = play((*WIDTHS.words, "--unbounded", "--seconds", "100", "--only", "Data0"), tmp_path, models)
    assert run.status == 0 and set(run.rows) == {"a.Data0", "d.Data0"}, run.said
    assert all(verdict == "proved" or int(verdict.split()[3]) >= 8 for verdict, _ in run.rows.values()), run.said


@pytest.mark.long
@pytest.mark.parametrize("option", ("--no-user-bits", "--forwards-offered"))
def test_option_changes_a_verdict(option: str, tmp_path: Path) -> None:
    """Without user bits their bug is not seen. Without --forwards-offered the correct adapter that needs it fails."""
    needs_tools(*TOOLS)
    if option == "--no-user-bits":
        run = play((*STRUCTS.words, "--define", "BUG_2", "--cycles", "3", option), tmp_path)
        assert run.status == 0, run.said
    else:
        words = [word for word in EARLY.words if word != option]
        run = play((*words, "--cycles", "3"), tmp_path)
        assert run.status == 1 and f"add {option}" in run.said, run.said
