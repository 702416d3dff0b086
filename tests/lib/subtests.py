"""Test cases of unittest whose `subTest` also names the case and continues with the next one under pytest."""

import unittest
from contextlib import contextmanager
from typing import Any, Iterator, List

MOST = 5  # failures that are shown in full


class CaseTest(unittest.TestCase):
    """At the end of a test, all its cases that failed are reported together."""

    @contextmanager
    def subTest(self, msg: Any = None, **params: Any) -> Iterator[None]:
        try:
            yield
        except AssertionError as error:
            failures: List[str] = self.__dict__.setdefault("_failures", [])
            if not failures:
                self.addCleanup(self._fail_with_all)
            case = ", ".join([*([str(msg)] if msg is not None else []), *(f"{name}={params[name]}" for name in params)])
            failures.append(f"{case}: {str(error)[:2000]}")

    def _fail_with_all(self) -> None:
        failures = self.__dict__.pop("_failures")
        raise AssertionError(f"{len(failures)} cases fail\n" + "\n".join(failures[:MOST]))
