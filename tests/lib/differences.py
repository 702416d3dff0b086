"""The differences that one test finds: it goes on after the first, and fails with all of them."""

from typing import List

import pytest

# How many characters of a value a report shows.
SHOWN = 3000


def short(value: object) -> str:
    text = value if isinstance(value, str) else repr(value)
    return text if len(text) <= SHOWN else f"{text[:SHOWN]} .. ({len(text)} characters)"


class Differences:
    """Compares values. The fixture `differences` fails the test if one differed, or if nothing was compared."""

    def __init__(self) -> None:
        self.compared = 0
        self.found: List[str] = []

    def same(self, name: str, got: object, wanted: object) -> None:
        """Notes a difference, with a name, if two values are not equal."""
        self.holds(name, got == wanted, f"got    {short(got)}\nwanted {short(wanted)}")

    def holds(self, name: str, is_right: object, why: object = "") -> None:
        """Notes a difference, with a name and a reason, unless a condition holds."""
        self.compared += 1
        if not is_right:
            self.found.append(f"{name}: {short(why)}" if why != "" else name)

    def fail(self) -> None:
        """Fails the test with all differences."""
        if self.found:
            pytest.fail(f"{len(self.found)} of {self.compared} differ\n" + "\n".join(self.found), pytrace=False)
        if not self.compared:
            pytest.fail("nothing was compared", pytrace=False)
