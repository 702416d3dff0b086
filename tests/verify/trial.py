#!/usr/bin/env python3
"""Plays each design of the folders beside it, right and with each of its planted mistakes, and prints a table.

    tests/verify/trial.py [--jobs N] [--right-only] [DESIGN ..] [-- OPTION ..]

OPTION is one of tlbridge-verify. Without one, how much is played depends on the speed of the machine. With
`-- --messages 20000` it does not; `-- --simulator icarus --messages 2600` takes a third of the time.

With --right-only, the right versions are played, and examples/start/adapter.sv. The last line has the sum of their
beats. `--right-only -- --messages 100000` looks for false alarms in many of them.

For each mistake: whether it was found, or found under a condition, after how many seconds of processor time, those of
the whole run, and the messages and beats of the shrunk run. It is found under a condition if the verdict names one that
it does not name for the right design. A right design has to be called right. The exit status is 0 if all mistakes were
found in time, and no right design was called wrong.
"""
import argparse
import concurrent.futures
import json
import os
import re
import subprocess
import sys
import tempfile
from pathlib import Path
from typing import Dict, List, NamedTuple, Optional, Tuple

HERE = Path(__file__).resolve().parent
ROOT = HERE.parent.parent
FOLDERS = (HERE / "designs", HERE / "blind", HERE / "more", HERE / "unseen", HERE / "fresh")
MOST_SECONDS = 240  # of processor time: two minutes of the two simulations that a run plays at once
# Options with which the same rounds are played on any machine. The defaults play what fits into their time.
SAME_ROUNDS = ("--messages", "20000")
# The mistakes that the defaults find under a condition only, and those that they miss. docs/VERIFY.md says why.
UNDER = {
    "narrow_64_to_8": (7,),
    "source_remapper": (7,),
    "serializer": (6,),
    "register_file": (5,),
    "dma_copy": (6,),
    "wide32x64": (5,),
    "gray_cdc": (2,),
    "hs4_cdc": (2, 3),
    "frag": (5,),
    "burst_ram": (7,),
    "regfile": (4,),
    "dma_host": (1, 3, 4, 6),
    "src_shrink": (5,),
    "id_pool": (4, 6),
    "uh_async": (3,),
    "ul_handshake": (2,),
    "uh_fragment": (6, 7),
    "ot_ram": (2,),
    "parts": (2,),
}
MISSED = {"hs4_cdc": (5,)}


def designs() -> Dict[str, Path]:
    """The designs of the folders, by name."""
    return {path.stem: path for folder in FOLDERS for path in sorted(folder.glob("*.*v"))}


def right_designs() -> Dict[str, Path]:
    """The designs of the folders and of the first example, by name."""
    return {**designs(), "adapter": ROOT / "examples" / "start" / "adapter.sv"}


def table() -> Dict[str, List[str]]:
    """The options of each design: lines of FILE OPTION .. in the files options.txt of the folders."""
    found: Dict[str, List[str]] = {}
    for folder in FOLDERS:
        for line in (folder / "options.txt").read_text().splitlines() if (folder / "options.txt").exists() else []:
            name, *options = line.split() or [""]
            if (folder / name).is_file() and name:
                found[Path(name).stem] = options
    return found


def bugs_of(path: Path) -> List[int]:
    """The numbers of its planted mistakes, which are behind the macros BUG_1 and so on."""
    return sorted({int(number) for number in re.findall(r"\bBUG_(\d+)\b", path.read_text())})


class Result(NamedTuple):
    design: str
    bug: int  # 0: the right design
    status: int
    words: str
    found: float  # processor seconds until the first mistake
    total: float  # processor seconds of the whole run
    messages: int
    beats: int
    conditions: Tuple[str, ...] = ()  # under which a design that was called right is not right
    judged: int = 0  # beats of the whole run

    @property
    def is_right(self) -> bool:
        """Whether the verdict is the right one, in time."""
        if self.bug == 0:
            return self.status == 0
        return (self.status == 1 or bool(self.conditions)) and self.total <= MOST_SECONDS

    def beside(self, right: Tuple[str, ...]) -> "Result":
        """Returns it without the conditions that the right design has, too: they tell nothing."""
        return self._replace(conditions=tuple(one for one in self.conditions if one not in right))


def called(words: List[str]) -> Tuple[int, str, float]:
    """Runs a command. Returns its status, its messages, and the processor seconds of it and of all that it started."""
    with tempfile.TemporaryFile() as messages:
        process = subprocess.Popen(words, stdout=subprocess.DEVNULL, stderr=messages)
        _, status, used = os.wait4(process.pid, 0)
        process.returncode = os.waitstatus_to_exitcode(status)
        messages.seek(0)
        return process.returncode, messages.read().decode(errors="replace"), used.ru_utime + used.ru_stime


def played(design: str, bug: int, more: Tuple[str, ...] = ()) -> Result:
    """Runs tlbridge-verify on a design with this mistake, or with none."""
    with tempfile.TemporaryDirectory() as folder:
        path = right_designs()[design]
        words = [sys.executable, str(ROOT / "tlbridge-verify"), str(path), "--out", f"{folder}/out"]
        words += [*table().get(design, []), *([f"-DBUG_{bug}"] if bug else []), *more]
        exit_status, messages, total = called(words)
        made = Path(folder) / "out" / "verdict.json"
        if not made.exists():  # no verdict: a message, or (status 1) a traceback
            words_of = messages.strip()[-200:].replace("\n", " ")
            return Result(design, bug, -1 if exit_status == 1 else exit_status, words_of, 0, total, 0, 0)
        verdict = json.loads(made.read_text())
        beats = sum(len(side.read_text().splitlines()) for side in made.parent.glob("*.beats"))
        found = verdict["found_processor_seconds"] if verdict["verdict"] == "mistake" else total
        number = verdict["messages"] if verdict["verdict"] == "mistake" else 0
        said = {one["unless"]: f"unless {one['unless']}: {one['words']}" for one in verdict["conditions"]}
        words_of = verdict["words"] or "; ".join([f"{verdict['beats']} beats", *said.values()])
        return Result(design, bug, exit_status, words_of, found, total, number, beats, tuple(said), verdict["beats"])


def line_of(result: Result) -> str:
    kind = f"mistake {result.bug}" if result.bug else "right"
    found = "as it should be" if result.is_right else "WRONG VERDICT" if not result.bug else "NOT FOUND"
    if result.is_right and result.bug and result.status == 0:
        found = "under a condition"
    shrunk = f"{result.messages:4} messages, {result.beats:5} beats" if result.bug and result.status == 1 else " " * 27
    return (
        f"{result.design:16} {kind:10} status {result.status}  {found:17} {result.found:6.1f} s, {result.total:6.1f} s "
        f" {shrunk}  {result.words[:110]}"
    )


def main(words: Optional[List[str]] = None) -> int:
    parser = argparse.ArgumentParser(description=__doc__, formatter_class=argparse.RawDescriptionHelpFormatter)
    parser.add_argument("--jobs", type=int, default=1)
    parser.add_argument("--right-only", action="store_true", help="play no mistake, and sum up the beats")
    parser.add_argument("designs", nargs="*", metavar="DESIGN", help="its name, or NAME:NUMBER for one mistake")
    words = sys.argv[1:] if words is None else words
    at = words.index("--") if "--" in words else len(words)
    options, more = parser.parse_args(words[:at]), tuple(words[at + 1 :])
    cases: List[Tuple[str, int]] = []
    for word in options.designs or list(right_designs() if options.right_only else designs()):
        name, _, number = word.partition(":")
        if options.right_only or number:
            cases.append((name, 0 if options.right_only else int(number)))
        else:
            cases += [(name, bug) for bug in (0, *bugs_of(right_designs()[name]))]
    results: List[Result] = []
    right: Dict[str, Tuple[str, ...]] = {}  # the conditions of the right designs, which are played before the others
    with concurrent.futures.ThreadPoolExecutor(options.jobs) as pool:
        for result in pool.map(lambda case: played(case[0], case[1], more), cases):
            if not result.bug:
                right[result.design] = result.conditions
            results.append(result.beside(right.get(result.design, ())) if result.bug else result)
            print(line_of(results[-1]), flush=True)
    if options.right_only:
        print(f"{sum(result.judged for result in results)} beats of {len(results)} right designs")
    planted = [result for result in results if result.bug]
    found = sum(result.is_right for result in planted)
    under = sum(result.is_right and result.status == 0 for result in planted)
    alarms = sum(not result.is_right for result in results if not result.bug)
    print(
        f"{found} of {len(planted)} mistakes found in {MOST_SECONDS} processor seconds, {under} under a condition;"
        f" {alarms} of {len(results) - len(planted)} right designs called wrong"
    )
    return int(found < len(planted) or alarms > 0)


if __name__ == "__main__":
    sys.exit(main())
