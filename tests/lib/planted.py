"""Planted mistakes: edits of a file of the product, each of which a test has to see. One format for all of them:

    # a comment
    name: a response of another size does not free its source
    file: sv/tl_checker.sv
    seen: the test or the part of it that has to see the mistake
    KEY: value                      (more that the test wants to know)
    - a line of the file, or several with a `-` each, that are in it exactly once
    + the text in its place

A mistake may have several changes, one after the other, and a `file:` before each. A blank line ends it.
"""

import shutil
from dataclasses import dataclass, field
from pathlib import Path
from typing import Dict, List, Tuple


@dataclass
class Change:
    """A text of a file, which is in it exactly once, and the text in its place."""

    file: str
    old: str
    new: str


@dataclass
class Planted:
    """A mistake. `seen` says what has to see it; `more` has the other keys."""

    name: str
    seen: str = ""
    changes: List[Change] = field(default_factory=list)
    more: Dict[str, str] = field(default_factory=dict)

    def __str__(self) -> str:
        return self.name

    def changed(self, root: Path) -> Dict[str, str]:
        """The text of each changed file. `root` is the folder to which the files are relative."""
        texts: Dict[str, str] = {}
        for change in self.changes:
            text = texts.get(change.file) or (root / change.file).read_text()
            count = text.count(change.old)
            assert count == 1, f"{self.name}: {change.file} has the text {change.old!r} {count} times, not once"
            texts[change.file] = text.replace(change.old, change.new)
        return texts

    def plant(self, root: Path, folder: Path) -> Path:
        """Copies the files beside each changed file into `folder`, and changes them there. Returns the folder of the
        last change.
        """
        assert self.changes, f"{self.name} changes nothing"
        place = folder
        for file, text in self.changed(root).items():
            place = (folder / file).parent
            if not place.is_dir():
                shutil.copytree((root / file).parent, place)
            (folder / file).write_text(text)
        return place


def entry(block: List[str], path: Path) -> Planted:
    """The mistake that the lines of a block describe."""
    made, file, last = Planted(""), "", ""
    for line in block:
        mark, text = line[:1], line[2:]
        if mark in "-+" and line[1:2] in ("", " "):
            if mark == "-" and last != "-":
                made.changes.append(Change(file, text, ""))
            elif mark == "-":
                made.changes[-1].old += "\n" + text
            else:
                made.changes[-1].new += ("\n" if last == "+" else "") + text
            last = mark
            continue
        key, _, value = line.partition(":")
        value, last = value.strip(), ""
        if key == "name":
            made.name = value
        elif key == "seen":
            made.seen = value
        elif key == "file":
            file = value
        else:
            made.more[key] = value
    if not made.name or not all(change.file for change in made.changes):
        raise ValueError(f"{path.name}: a mistake has no name or no file: {block[:2]}")
    return made


def mistakes(path: Path) -> List[Planted]:
    """All mistakes of a file in this format, in their order. Two of one name are an error."""
    made: List[Planted] = []
    block: List[str] = []
    for line in [*path.read_text().splitlines(), ""]:
        if line.startswith("#"):
            continue
        if line:
            block.append(line)
        elif block:
            made.append(entry(block, path))
            block = []
    names: List[Tuple[str, str]] = [(planted.seen, planted.name) for planted in made]
    twice = [name for name in names if names.count(name) > 1]
    if twice:
        raise ValueError(f"{path.name}: there are two mistakes named {twice[0][1]!r}")
    return made
