"""Many small comparisons of one behaviour: all that fail are reported together."""

from typing import List

MOST = 20  # failures that are shown


class Checks:
    """Counts comparisons, and keeps the words of those that fail."""

    def __init__(self) -> None:
        self.passed = 0
        self.failures: List[str] = []

    def test(self, holds: object, failure: str) -> None:
        """Keeps the words of a failure unless it holds."""
        if holds:
            self.passed += 1
        else:
            self.failures.append(failure)

    def verdict(self) -> None:
        """Fails with all failures; also if nothing was compared."""
        print(f"{self.passed} comparisons")
        shown = "\n".join(self.failures[:MOST])
        assert not self.failures, f"{len(self.failures)} of {self.passed + len(self.failures)} fail:\n{shown}"
        assert self.passed, "nothing was compared"
