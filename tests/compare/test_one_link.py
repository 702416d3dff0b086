"""The judge of one link, over beats that are written by hand, with the unverified model."""

import os
from pathlib import Path
from typing import List, Optional

from project import MODEL

from tlbridge.one_link import LinkFault, LinkJudge
from tlbridge.run import Row

GET, DATA = "A 4 0 2 {source} 0000000000001000 f 00000000 0", "D 1 0 2 {source} 00 0 11223344 0"
WRONG = "A 4 0 2 {source} 0000000000001000 7 00000000 0"  # its mask has not all active lanes


def time_of(row: Row) -> Optional[int]:
    """The time of a beat, which is its place here."""
    return int(row.place) if row.place.isdecimal() else None


def judged(*beats: str, has_times: bool = True) -> List[LinkFault]:
    """The faults of a link of 4 bytes that accepts these beats at the times 10, 20 and so on."""
    judge = LinkJudge(str(MODEL), 4, 1, lambda note: None, time_of)
    try:
        for number, line in enumerate(beats, 1):
            judge.beat(line, 10 * number if has_times else None, str(10 * number) if has_times else f"line {number}")
        judge.run.finish(10 * len(beats) + 10 if has_times else None)
        assert judge.beats == {letter: sum(line[0] == letter for line in beats) for letter in "ABCDE"}
        return judge.faults(lambda row: f"<{row.place}>")
    finally:
        judge.close()


def test_a_link_without_a_fault() -> None:
    assert judged(GET.format(source="01"), DATA.format(source="01")) == []


def test_a_beat_that_is_refused() -> None:
    """It is a fault with and without times, and one that two judges see at one time is named once."""
    wrong = WRONG.format(source="02")
    (found,) = judged(GET.format(source="01"), DATA.format(source="01"), wrong)
    assert (found.channel, found.time, found.place, found.line) == ("A", 30, "<30>", wrong)
    (found,) = judged(GET.format(source="01"), DATA.format(source="01"), wrong, has_times=False)
    assert (found.channel, found.time, found.place, found.line) == ("A", None, "<line 3>", wrong)
    answered = [GET.format(source="01"), DATA.format(source="01")]
    (found,) = judged(*answered, answered[1])
    assert (found.channel, found.time, found.name) == ("D", 30, "NoRequest") and "at <20>" in found.words


def test_the_files_of_a_judge_are_removed(tmp_path: Path) -> None:
    """When it is closed, and not before."""
    judge = LinkJudge(str(MODEL), 4, 1, lambda note: None, time_of)
    folder = Path(judge.run._folder.name)
    assert folder.is_dir() and os.listdir(folder)
    judge.close()
    assert not folder.exists() and judge.run._spool.file.closed
