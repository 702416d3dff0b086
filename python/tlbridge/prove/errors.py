"""The reasons why tlbridge-prove has no result."""
from __future__ import annotations

USAGE, UNREADABLE, TOOL = 2, 3, 4


class ProveError(Exception):
    """Why nothing is claimed, with the remedy, and the exit status.

    The status is 2 for a wrong command line or a question that cannot be asked, 3 for a design that cannot be read, 4
    for a tool that is missing or died.
    """

    def __init__(self, words: str, status: int = USAGE):
        super().__init__(words)
        self.status = status
