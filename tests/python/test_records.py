"""Beats, counts, statuses, results and the records of an explanation cannot be changed after they were made."""

import dataclasses
from typing import Any, List

import pytest
import tlbridge
from tlbridge import explain


def records() -> List[Any]:
    """The public dataclasses of the package, and those of tlbridge.explain."""
    public = [getattr(tlbridge, name) for name in tlbridge.__all__]
    return [kind for kind in (*public, *vars(explain).values()) if dataclasses.is_dataclass(kind)]


@pytest.mark.parametrize("kind", records(), ids=lambda kind: str(kind.__name__))
def test_no_field_of_a_record_can_be_changed(kind: Any) -> None:
    """Each field of a record refuses a value."""
    record = kind.__new__(kind)
    for field in dataclasses.fields(kind):
        with pytest.raises(dataclasses.FrozenInstanceError):
            setattr(record, field.name, None)
