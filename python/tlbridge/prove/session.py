"""A design between its free neighbours, its models, and the assertions that a run asks about."""
from __future__ import annotations

import argparse
import re
import shutil
import tempfile
import time
from dataclasses import replace
from functools import cached_property
from pathlib import Path
from typing import Dict, List, Tuple

from ..verify.design import DesignError, described, read_design
from .engine import in_parallel
from .errors import TOOL, ProveError
from .harness import TOP, Harness, is_cover, is_helper, write_harness
from .model import Model, Recipe, build, cache_folder, short_name
from .options import choice_of, options_of, source_of
from .projects import write_sby, write_tcl
from .report import Progress, say, stated, unit_of
from .sizes import check_sizes, sizes_of
from .tools import find_tool, proof_files
from .user_bits import strange_ports


class Session:
    """A design, its options and its harness. `model`, which has all assertions and covers, is made by `build_whole`."""

    model: Model

    def __init__(self, words: argparse.Namespace):
        self.words = words
        self.shown = Progress()
        for option in ("out", "sby", "tcl"):
            folder = getattr(words, option)
            if folder and Path(folder).exists() and not Path(folder).is_dir():
                raise ProveError(f"--{option} {folder}: this is a file: name a folder")
        try:
            self.source = source_of(words)
            self.design = read_design(self.source, choice_of(words))
        except DesignError as error:
            raise ProveError(str(error), error.status) from error
        self.options = options_of(words, self.design)
        for signal in self.options.user_bits.signals():  # free inputs, and not tied ones
            self.design.tied.pop(signal.port, None)
        self.harness = write_harness(self.design, self.options)
        self.frames = words.cycles + words.reset_cycles
        self.folder = Path(tempfile.mkdtemp(prefix="tlbridge-prove."))

    def close(self) -> None:
        """Removes the temporary files."""
        shutil.rmtree(self.folder, ignore_errors=True)

    @property
    def unit(self) -> str:
        return unit_of(self.options)

    @cached_property
    def sizes(self) -> Dict[str, int]:
        """The bits of each variable of the design, as Verilator reads it."""
        return sizes_of(self.source, self.folder)

    def name(self, index: int) -> str:
        """Returns the name of an assertion of `model` as it is printed."""
        return short_name(self.model.labels[index])

    def progress(self, what: str, done: int, total: int, seconds: int) -> None:
        """Shows how many questions have a result. `seconds` of processor time are the limit of each."""
        if done < total:
            self.shown.show(f"{what}: {done} of {total}, each in up to {seconds} s of processor time")

    def describe(self) -> None:
        """Prints the links, and what a result holds under."""
        for line in described(self.design):
            say(line)
        strange = strange_ports(self.design, self.options.user_bits)
        if strange:
            say(
                f"  no fields of TileLink by their names: {' '.join(strange)}; inputs are 0 (--tie NAME=VALUE), and "
                "outputs are not looked at"
            )
        for line in stated(self.options, self.harness):
            say(line)

    def write_projects(self) -> None:
        """Writes the harness for other tools, without covers."""
        text = write_harness(self.design, replace(self.options, extra_lines=""), cover=False).text
        for name, write, command in (
            (self.words.sby, write_sby, "sby -f prove.sby"),
            (self.words.tcl, write_tcl, "jg -batch prove.tcl"),
        ):
            if not name:
                continue
            folder = Path(name)
            folder.mkdir(parents=True, exist_ok=True)
            (folder / "proof.sv").write_text(text)
            files = [*proof_files(), folder / "proof.sv"]
            words = self.words
            path = write(folder, self.source, files, words.cycles, words.reset_cycles, self.options.two_clocks)
            say(f"wrote {path}, which was not run: `{command}` in that folder runs it")

    def build(self, harness: Harness, what: str = "model", design_asserts: bool = False) -> Model:
        """Makes the model of a harness, or takes it from the cache. `design_asserts`: with the design's assertions."""
        for tool in ("yosys", "yosys-abc"):
            find_tool(tool)
        (self.folder / "proof.sv").write_text(harness.text)
        ticks = {f"{side}_clock": f"{side}_tick" for side in ("client", "manager")} if self.options.two_clocks else {}
        recipe = Recipe(
            TOP,
            self.source.files,
            (*map(str, proof_files()), str(self.folder / "proof.sv")),
            self.source.defines,
            self.source.includes,
            ticks,
            design_asserts=design_asserts,
        )
        began = time.monotonic()
        cache = self.folder / "models" if self.words.no_cache else cache_folder()

        def make() -> Tuple[Model, bool]:
            return build(recipe, cache, lambda netlist: check_sizes(netlist, self.sizes))

        def tick() -> None:
            self.shown.show(f"{what}: yosys reads the design")

        tick()
        ((_, (model, was_there)),) = in_parallel(1, [(0, make)], tick)
        how = "from the cache" if was_there else f"in {time.monotonic() - began:.0f} s"
        helpers = [label for label in model.labels if is_helper(label)]
        count = len([label for label in model.labels if not is_cover(label)]) - len(helpers)
        say(f"{what} of {count} assertions" + (f" and {len(helpers)} helpers" if helpers else "") + f", {how}")
        return model

    def build_whole(self) -> None:
        """Makes the model with all assertions and covers. Errors: yosys cannot read an assumption of the user (2)."""
        try:
            self.model = self.build(self.harness)
        except ProveError as error:
            found = re.search(r"proof\.sv:(\d+): ([^.]*)", str(error))
            line = self.harness.text.splitlines()[int(found[1]) - 1] if found else ""
            for words in self.options.assumptions:
                if found and f"assume ({words})" in line:
                    raise ProveError(f"--assume '{words}': {found[2]}: write an expression of SystemVerilog") from error
            raise
        folded = sorted(short_name(label) for label in self.model.folded if not is_cover(label))
        if folded:
            say(f"  not asked, since yosys simplified them to true or to another assertion: {', '.join(folded)}")

    def build_small(self, letter: str) -> Model:
        """Makes the model of one channel, which assumes less.

        It has the rules of this channel, for D also those of A, and the rules about outstanding requests of the watched
        source only. With --lemmas it has the assertions in the design.
        """
        options = replace(self.options, all_sources=False, all_channels=False, watched=letter, helpers=True)
        harness = write_harness(self.design, options, cover=False)
        return self.build(harness, f"smaller model of {letter}", *([True] if self.words.lemmas else []))

    def chosen(self) -> List[int]:
        """Returns the numbers of the assertions to prove."""
        try:
            wanted = re.compile(self.words.only)
        except re.error as error:
            raise ProveError(f"--only {self.words.only}: this is not a regular expression: {error}") from error
        labels = [(index, label) for index, label in enumerate(self.model.labels) if not is_cover(label)]
        found = [index for index, label in labels if wanted.search(short_name(label))]
        if not found:
            names = sorted({short_name(label) for _, label in labels})
            raise ProveError(
                f"--only {self.words.only}: no assertion of the model has such a name. There are "
                f"{', '.join(names) or 'none'}: nothing is proved",
                2 if labels else TOOL,
            )
        return sorted(found, key=self.name)
