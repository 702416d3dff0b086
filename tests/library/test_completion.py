"""What bash completes after the words of a command, by packaging/completion.bash. Nothing is installed."""

import subprocess
from pathlib import Path
from typing import List

import pytest
from project import ROOT, needs_tools

SCRIPT = '. "$1"; shift; COMP_WORDS=("$@"); COMP_CWORD=$(($# - 1)); _tlbridge "$1"; printf "%s\\n" "${COMPREPLY[@]}"'


def completed(folder: Path, *words: str) -> List[str]:
    """The completions in a folder, in their order."""
    needs_tools("bash")
    command = ["bash", "-c", SCRIPT, "bash", str(ROOT / "packaging" / "completion.bash"), *words]
    done = subprocess.run(command, cwd=folder, capture_output=True, text=True, timeout=60, check=True)
    assert done.stderr == ""
    return done.stdout.split()


def test_merge_is_the_first_word_of_verify(tmp_path: Path) -> None:
    """After it come its own options. Otherwise come those of a run, at any place."""
    first, later = completed(tmp_path, "tlbridge-verify", ""), completed(tmp_path, "tlbridge-verify", "x.sv", "--")
    assert first[0] == "merge" and "--seeds" in first
    assert "merge" not in later and set(later) == {word for word in first if word.startswith("--")}
    assert completed(tmp_path, "tlbridge-verify", "merge", "--j") == ["--json", "--junit"]
    assert completed(tmp_path, "tlbridge-verify", "x.sv", "--j") == ["--jobs", "--junit"]


@pytest.mark.parametrize(
    "command, wanted", (("tlbridge-verify", "UL UH C"), ("tlbridge-compare", "ul uh c"), ("tlbridge-trace", "ul uh c"))
)
def test_levels(command: str, wanted: str, tmp_path: Path) -> None:
    """tlbridge-verify writes them with capital letters."""
    assert completed(tmp_path, command, "x", "--level", "") == wanted.split()


def test_files(tmp_path: Path) -> None:
    """Each word that is no option may be a file."""
    for name in ("dump.vcd", "--dump"):
        (tmp_path / name).write_text("")
    assert completed(tmp_path, "tlbridge-trace", "du") == ["dump.vcd"]
    assert completed(tmp_path, "tlbridge-trace", "--html", "du") == ["dump.vcd"]
    assert completed(tmp_path, "tlbridge-trace", "--d") == []
