"""Tests what tools/mutants reads: each chosen mistake can be planted, and each product file has tests that exist."""

from project import ROOT, script

MUTANTS = script(ROOT / "tools" / "mutants")


def test_each_chosen_mistake_can_be_planted() -> None:
    """Its lines are in its file once, and it changes the file."""
    made = MUTANTS.chosen()
    assert 0 < len(made) <= 250
    assert len({(mutant.file, mutant.name) for mutant in made}) == len(made)
    assert [mutant.name for mutant in made if mutant.text == (ROOT / mutant.file).read_text()] == []


def test_each_product_file_has_tests() -> None:
    for file in {*MUTANTS.FILES, *(mutant.file for mutant in MUTANTS.chosen())}:
        assert (ROOT / file).is_file(), file
        tests = MUTANTS.tests_of(file)
        assert tests and all((ROOT / path).exists() for path in tests), file
