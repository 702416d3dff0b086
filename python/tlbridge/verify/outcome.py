"""The verdict of a seed, and the folder in which it is written."""
from __future__ import annotations

import os
import shutil
import tempfile
from dataclasses import asdict, dataclass, field
from pathlib import Path
from typing import Any, Dict, List

from .bench import SimulatorError
from .design import DesignError

PROGRAM = "tlbridge-verify"
RIGHT, MISTAKE, INCOMPLETE, FAILED = "right", "mistake", "incomplete", "failed"


@dataclass
class Condition:
    """Something that a right design does not hold, and need not hold: it is right, unless .."""

    unless: str
    words: str  # what goes wrong then
    option: str = ""  # that makes it a mistake, if there is one
    folder: str = ""  # of the smallest run, in that of the verdict, if a run shows it
    messages: int = 0  # of the smallest run

    @property
    def line(self) -> str:
        return f"unless {self.unless}: {self.words}"


@dataclass
class Outcome:
    """The verdict of a seed."""

    seed: int
    verdict: str
    words: str = ""  # the mistake, or what never arrived
    judge: str = ""
    beats: int = 0
    cycles: int = 0
    found_seconds: float = 0
    found_processor_seconds: float = 0
    seconds: float = 0
    messages: int = 0  # of the shrunk run
    conditions: List[Condition] = field(default_factory=list)  # of a right design
    coverage: Dict[str, Any] = field(default_factory=dict)
    text: List[str] = field(default_factory=list)  # for a reader

    def as_json(self) -> Dict[str, Any]:
        counted = ("seed", "verdict", "words", "judge", "beats", "cycles")
        timed = ("found_seconds", "found_processor_seconds", "seconds", "messages")
        names = (*counted, *timed)
        conditions = [asdict(condition) for condition in self.conditions]
        return {**{name: getattr(self, name) for name in names}, "conditions": conditions}


def written(path: Path, text: str) -> None:
    """Writes a file under another name first, so that no half of it is ever found under its own."""
    beside = path.with_name(f".{path.name}.{os.getpid()}")
    try:
        beside.write_text(text)
        os.replace(beside, path)
    except OSError as error:
        beside.unlink(missing_ok=True)
        raise SimulatorError(f"{path} cannot be written: {error.strerror}") from error


class Folder:
    """The folder of a verdict. It is filled under another name, and replaces an older one of this program when it is
    complete."""

    def __init__(self, path: Path):
        self.path = path
        if path.exists() and not path.is_dir() or path.is_dir() and any(path.iterdir()) and not self._is_ours():
            raise DesignError(f"--out {path} exists and is no folder of {PROGRAM}: choose another name")
        try:
            path.parent.mkdir(parents=True, exist_ok=True)
            self.draft = Path(tempfile.mkdtemp(prefix=f".{path.name}.", dir=path.parent))
            self.draft.chmod(0o755)
        except OSError as error:
            raise SimulatorError(f"{path} cannot be written: {error.strerror}") from error

    def _is_ours(self) -> bool:
        return (self.path / "verdict.json").exists() or any(self.path.glob("seed-*/verdict.json"))

    def publish(self) -> None:
        old = self.draft.with_name(self.draft.name + ".old")
        if self.path.exists():
            self.path.rename(old)
        self.draft.rename(self.path)
        shutil.rmtree(old, ignore_errors=True)

    def discard(self) -> None:
        shutil.rmtree(self.draft, ignore_errors=True)
