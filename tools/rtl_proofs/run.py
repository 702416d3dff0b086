"""Builds the model of each row, proves its assertions one at a time, shows that its beats can arrive, and prints the
table.
"""
from __future__ import annotations

import argparse
import dataclasses
import re
import sys
import tempfile
import time
from dataclasses import dataclass, field
from pathlib import Path
from typing import Dict, List, Optional, Sequence, Tuple

from tlbridge.prove import engine
from tlbridge.prove.engine import BOUNDED, FAILS, OPEN, PROVED, Verdict
from tlbridge.prove.errors import ProveError
from tlbridge.prove.harness import Options, is_cover, write_harness
from tlbridge.prove.model import Model, Recipe, build, cache_folder, short_name
from tlbridge.prove.tools import proof_files
from tlbridge.verify.design import DesignError, Source, read_design

from .given import step_model
from .lemmas import gray_lines, lemma_lines, place_of_crossing, sides
from .parts import PART_NAMES, place_of_part, recipe_of_part
from .rows import NOT_TRIED, OTHER_ROWS, ROWS, AnyRow, Bound, Part, Refinement, Row, Stage, is_name, row_named, unneeded
from .table import HEADING, read_lines, write_lines, write_page

ROOT = Path(__file__).resolve().parent.parent.parent
HERE = Path(__file__).resolve().parent
CONTRACTS = HERE / "contracts.sv"
COVER_FRAMES, COVER_SECONDS = 16, 5  # at most
REFINEMENT_COVER_FRAMES = 60  # the reset at power-up takes 12 cycles
INDUCTION_SECONDS = 60  # at most, for each of its two cases
INDUCTIVE = r"^Networks are equivalent\."  # what abc's `ind` prints if there is no counterexample to the step
TICKS = {"client_clock": "client_tick", "manager_clock": "manager_tick"}
SYNCHRONIZER = HERE / "tl_synchronizer.sv"
# Assertions of a step that match the same one are proved together
TOGETHER = (
    r"\.Data\d$",
    r"_words\.Value\d$",
    r"^[a-e]\.(Mask|Lanes)$",
    r"^[a-e]\.(Corrupt|Early|Invented|Room|Zeros)$",
    r"_words\.Empty$|_words_deep_lemmas\.Count$",
    r"_words\.Begins$|_words_(chain|rest)_lemmas\.",
    r"_words\.(Watched|Here)$",
    r"_words_deep_lemmas\.(Near|Later|Far|None)$",
    r"_words_deep_lemmas\.(Kind|Size|Fields)$",
    r"_words_deep_lemmas\.Marks$|_words_place_lemmas\.(Left|Whole)$",
    r"_part_lemmas\.(Fits|Part)",
    r"_part_lemmas\.Put",
    r"_deep_lemmas\.(Bad|Masked|Active)$|_part_lemmas\.Idle$",
    r"^(size|book|far_rules)_lemmas\.",
    PART_NAMES,
    r"^(Data|Due|Gathered|Kept|Mask|Whole)$",
)
REPLACED = ("tl_async_fifo.sv", "tl_fifo.sv", "tl_reset.sv", "tl_synchronizer.sv")


@dataclass
class Outcome:
    """The result of one row. `verdicts` maps the name of each assertion to what abc found."""

    row: AnyRow
    verdicts: Dict[str, Verdict] = field(default_factory=dict)
    seconds: float = 0.0  # of abc, added up over the assertions
    slowest: Tuple[str, float] = ("", 0.0)
    reached: int = 0
    covers: int = 0
    not_reached: List[str] = field(default_factory=list)
    tried_all: bool = True  # each assertion was tried: no --only, and no lemma was open
    fails_below: List[str] = field(default_factory=list)  # the assertions that fail with a bound that is 1 less

    @property
    def is_complete(self) -> bool:
        """Whether each assertion of the row was tried, and is proved or has its bound."""
        return bool(self.verdicts) and self.tried_all and not self.left

    @property
    def proved(self) -> List[str]:
        """The names of the assertions that are proved, lemmas too."""
        return [name for name, found in self.verdicts.items() if found.kind == PROVED]

    @property
    def bounded(self) -> List[str]:
        """The names of the assertions that have the bound of the row."""
        bound = self.row.bound
        return [
            name
            for name, found in self.verdicts.items()
            if bound and found.kind == BOUNDED and found.frames >= bound.cycles and re.search(bound.assertions, name)
        ]

    @property
    def left(self) -> List[str]:
        """The names of the assertions that are neither proved nor have the bound."""
        return [name for name in self.verdicts if name not in self.proved and name not in self.bounded]


def design_files(rtl: Path) -> Tuple[str, ...]:
    """Returns the files of the bridge without its wrappers."""
    return tuple(str(path) for path in sorted(rtl.glob("tl_*.sv")) if not path.name.startswith("tl_bridge_"))


def recipe_of(row: AnyRow, stage: Stage, rtl: Path, folder: Path) -> Recipe:
    """Writes the harness of a row into `folder` and returns the recipe of the model of a stage."""
    path = folder / "proof.sv"
    if isinstance(row, Refinement):
        return recipe_of_refinement(row, rtl, path)
    files = design_files(rtl)
    if isinstance(row, Part):
        return recipe_of_part(row, files, SYNCHRONIZER, path)
    real = row.clocks == 2 and not row.by_contracts
    try:
        design = read_design(Source("tl_bridge", files, row.parameters))
    except DesignError as error:
        raise ProveError(str(error), error.status) from error
    options = Options(
        level="c",
        largest=row.largest,
        same_cycle_response=row.same_cycle,
        later_resets=bool(row.resets),
        idle_lanes_zero=True,
        all_sources=False,
        free=(("address", 4), ("source", 1), ("sink", 1)),
        watched=row.channel,
        lanes_by_client_address=row.manager > row.client,
        two_clocks=row.clocks == 2,
        max_wait=row.within,
        count_bits=row.count_bits,
    )
    proof, probes = [*map(str, proof_files()), str(path)], {}
    if row.by_lemmas:
        lemmas = lemma_lines(row)
        options, probes = dataclasses.replace(options, extra_lines=lemmas.text), lemmas.probes
        proof = [str(HERE / "lemmas.sv"), str(HERE / "deep.sv"), *proof]
        if any(map(row.has_chain, row.channel)):
            proof.insert(0, str(HERE / "chain.sv"))
        if row.has_places(row.channel):
            proof.insert(0, str(HERE / "places.sv"))
        if row.has_order:
            proof.insert(0, str(HERE / "order.sv"))
        if row.rules:
            proof += [str(HERE / "rules.sv"), str(HERE / "links.sv")]
    if row.by_contracts:
        probes = {**probes, **ticks_of_queues(row)}
        files = (*(one for one in files if Path(one).name not in REPLACED), str(CONTRACTS), str(HERE / "replaced.sv"))
    if real:
        files = (*(one for one in files if Path(one).name != SYNCHRONIZER.name), str(SYNCHRONIZER))
    text = write_harness(design, options).text
    if row.resets in ("client", "manager"):
        text = with_reset_of_one_side(text, row)
        proof.insert(0, str(HERE / "cut.sv"))
    path.write_text(text)
    return Recipe(
        "tlbridge_proof",
        files,
        tuple(proof),
        ticks=TICKS if row.clocks == 2 else {},
        probes=probes,
        forget=stage.forget,
        cuts=stage.cuts,
        drop=r"^(client|manager)_judge\." if row.rules else Recipe.drop,
        free_initial="" if real else Recipe.free_initial,
        zero_initial=real,
    )


def with_reset_of_one_side(text: str, row: Row) -> str:
    """Returns the harness of a row in which later resets are those of one side alone. The watch begins again at each,
    and sees nothing of the rest of a burst that the reset has cut at the other side.
    """
    other = "manager" if row.resets == "client" else "client"
    lines = [
        "    logic at_power_up = 1'b1;\n    always @(posedge clock) if (!reset) at_power_up <= 1'b0;\n",
        f"    wire {other}_reset = reset && at_power_up;\n",
    ]
    changes = [(f".{other}_reset(reset)", f".{other}_reset({other}_reset)")]
    for channel in "AD" if row.channel == "D" else row.channel:
        letter = channel.lower()
        if sides(channel)[0] == other and channel != "E":
            link = f"{other}_{letter}"
            has_data = f"!{link}_opcode[2]" if channel in "AB" else f"{link}_opcode[0]"
            lines.append(
                f"    wire {link}_cut;\n"
                f"    tl_cut #(.BYTES({getattr(row, other)}), .SIZE_BITS({row.size_bits})) {link}_rest (\n"
                f"        .clock(clock), .at_power_up({other}_reset), .reset(reset), .valid({link}_valid), "
                f".ready({link}_ready),\n        .has_data({has_data}), .size({link}_size), .cut({link}_cut));\n"
            )
            changes.append((f".{link}_valid({link}_valid),\n", f".{link}_valid({link}_valid && !{link}_cut),\n"))
    for old, new in changes:
        before, found, after = text.rpartition(old)
        if not found:
            raise ProveError(f"{row.name}: the harness has no {old.strip()}: nothing is proved")
        text = before + new + after
    return text.replace("    tl_bridge #(", "".join(lines) + "    tl_bridge #(", 1)


def recipe_of_refinement(row: Refinement, rtl: Path, path: Path) -> Recipe:
    """Returns the recipe of the model in which a FIFO and its contract do the same."""
    text = (HERE / "refines.sv").read_text()
    for name, value in (("FIFO_DEPTH", row.depth), ("BITS", row.bits)):
        text = re.sub(rf"(parameter int {name}) = \d+", rf"\1 = {value}", text)
    proof, probes = [str(CONTRACTS), str(path)], {}
    if row.by_lemmas:
        lemmas = gray_lines(row.depth)
        text = text.replace("endmodule\n\nmodule tl_same", f"{lemmas.text}endmodule\n\nmodule tl_same", 1)
        proof.insert(0, str(HERE / "gray.sv"))
        probes = lemmas.probes
    path.write_text(text)
    if row.clocks == 1:
        return Recipe("tl_refines_one_clock", (str(rtl / "tl_fifo.sv"),), (str(CONTRACTS), str(path)))
    files = (str(rtl / "tl_async_fifo.sv"), str(rtl / "tl_reset.sv"), str(SYNCHRONIZER))
    return Recipe("tl_refines", files, tuple(proof), ticks=TICKS, probes=probes)


def ticks_of_queues(row: Row) -> Dict[str, str]:
    """Returns the ticks of both sides of each queue between two clocks, which the harness drives."""
    if row.clocks == 1:
        return {}
    return {
        f"{place_of_crossing(row, channel)}.{end}_tick": f"{side}_tick"
        for channel in ("ABCDE" if row.has_all_channels else "AD")
        for end, side in zip("wr", sides(channel))
    }


def name_of(label: str) -> str:
    """Returns the name of an assertion: of the watch as tlbridge-prove prints it, of a lemma as lemmas.py names it."""
    return short_name(label) if label.startswith("watch.") else re.sub(r"(\w+)\.\1_asserted$", r"\1", label)


def prove(row: AnyRow, rtl: Path, jobs: int, seconds: int, cache: Optional[Path], only: str = "") -> Outcome:
    """Proves the assertions of a row, step by step. A step whose lemmas were not proved is not tried. Errors: as of
    `build` and `ask`.
    """
    outcome = Outcome(row, tried_all=not only)
    for stage in row.stages:
        with tempfile.TemporaryDirectory(prefix="prove-rtl.") as folder:
            model, _ = build(recipe_of(row, stage, rtl, Path(folder)), cache)
            if not stage.cuts and not outcome.covers:
                reach(model, outcome, jobs)
            if not prove_steps(model, stage, outcome, Path(folder) / "steps", jobs, seconds, only):
                outcome.tried_all = False
                break
    if row.bound:
        prove_bound(row.bound, outcome, rtl, seconds, cache)
    if not outcome.covers:
        raise ProveError(f"{row.name}: nothing shows that a beat can arrive: nothing is proved")
    if isinstance(row, Row) and row.within > 1 and not row.bound:
        outcome.fails_below = failures(dataclasses.replace(row, within=row.within - 1), rtl, seconds, cache)
    return outcome


def prove_bound(bound: Bound, outcome: Outcome, rtl: Path, seconds: int, cache: Optional[Path]) -> None:
    """Looks for a counterexample to what has a bound, in the bridge alone: without lemmas, and nothing assumed that was
    proved.
    """
    row = outcome.row
    stage = Stage(forget=unneeded(row.channel)) if isinstance(row, Row) else (*row.stages, Stage())[0]
    if not isinstance(row, Part):
        row = dataclasses.replace(row, by_lemmas=False)
    with tempfile.TemporaryDirectory(prefix="prove-rtl.") as folder:
        model, _ = build(recipe_of(row, stage, rtl, Path(folder)), cache)
        if not outcome.covers:
            reach(model, outcome, 1)
        names = [name_of(label) for label in model.labels]
        tried = [
            number
            for number, name in enumerate(names)
            if not is_cover(model.labels[number]) and name not in outcome.verdicts and re.search(bound.assertions, name)
        ]
        part = step_model(model, tried, (), Path(folder) / "step")
        found = engine.verdict(*engine.ask(part.small, [f"bmc3 -F {bound.cycles} -T {seconds}"], seconds))
    outcome.seconds += found.seconds
    outcome.verdicts.update({names[number]: found for number in tried})
    print(f"  {outcome.row.name} all together: {words_of(found)}, {found.seconds:.1f} s", flush=True)


def failures(row: Row, rtl: Path, seconds: int, cache: Optional[Path]) -> List[str]:
    """Returns the assertions of a row with one step that fail within COVER_FRAMES frames."""
    (stage,) = row.stages
    with tempfile.TemporaryDirectory(prefix="prove-rtl.") as folder:
        model, _ = build(recipe_of(row, stage, rtl, Path(folder)), cache)
        names = [name_of(label) for label in model.labels]
        tried = [number for number, name in enumerate(names) if re.search(stage.steps[0].proves, name)]
        part = step_model(model, tried, (), Path(folder) / "step")
        found = [engine.bounded(part, place, COVER_FRAMES, seconds) for place in range(len(tried))]
    return [names[number] for number, one in zip(tried, found) if one.kind == FAILS]


def prove_steps(model: Model, stage: Stage, outcome: Outcome, folder: Path, jobs: int, seconds: int, only: str) -> bool:
    """Proves the assertions of the steps of a stage. Returns whether all that were tried are proved.

    An assertion is assumed only if an earlier step of the same run proved it.
    """
    row, names = outcome.row, [name_of(label) for label in model.labels]
    numbers = [number for number, label in enumerate(model.labels) if not is_cover(label)]
    for count, step in enumerate(stage.steps):
        given = [
            number for number in numbers if re.search(step.given, names[number]) and names[number] in outcome.proved
        ]
        tried = [
            number
            for number in numbers
            if number not in given
            and re.search(step.proves, names[number])
            and not (row.bound and re.search(row.bound.assertions, names[number]))
            and re.search(only, names[number])
            and names[number] not in outcome.verdicts
        ]
        if not tried:
            continue
        groups = [[tried[place] for place in group] for group in together([names[number] for number in tried])]
        part = step_model(model, [number for group in groups for number in group], given, folder / str(count))
        ask_groups(part, [[names[number] for number in group] for group in groups], outcome, jobs, seconds)
        if any(outcome.verdicts[names[number]].kind != PROVED for number in tried) and step != stage.steps[-1]:
            print(f"  {row.name}: a lemma is not proved, so the next step is not tried", flush=True)
            return False
    return not outcome.left


def together(names: Sequence[str]) -> List[List[int]]:
    """Returns the places of these names, in groups that are proved together: those that match the same of TOGETHER.
    A name that matches none is alone.
    """
    groups: Dict[str, List[int]] = {}
    for place, name in enumerate(names):
        pattern = next((one for one in TOGETHER if re.search(one, name)), name)
        groups.setdefault(pattern, []).append(place)
    return list(groups.values())


def ask_groups(part: Model, groups: Sequence[Sequence[str]], outcome: Outcome, jobs: int, seconds: int) -> None:
    """Asks for a proof of each group, whose names are those of the outputs of `part` in order. A proof of a group is
    one invariant for all its assertions. If there is none, each is asked for by itself.
    """
    starts = [sum(map(len, groups[:number])) for number in range(len(groups))]
    questions = [
        (number, lambda start=start, group=group: conjunction(part, start, len(group), seconds))
        for number, (start, group) in enumerate(zip(starts, groups))
    ]
    left: List[Tuple[int, str]] = []
    for number, found in engine.in_parallel(jobs, questions):
        outcome.seconds += found.seconds
        if found.kind != PROVED and len(groups[number]) > 1:
            left += [(starts[number] + place, name) for place, name in enumerate(groups[number])]
        else:
            note(outcome, groups[number], found)
    alone = [(place, lambda place=place: engine.unbounded(part, place, seconds)) for place, _ in left]
    for place, found in engine.in_parallel(jobs, alone):
        outcome.seconds += found.seconds
        note(outcome, [dict(left)[place]], found)


def conjunction(part: Model, start: int, count: int, seconds: int) -> Verdict:
    """Looks for a proof of `count` assertions of a model from `start` on, all with one invariant."""
    found = induction(part, start, count)
    if found.kind == PROVED:
        return found
    if count == 1:
        searched = engine.unbounded(part, start, seconds)
    else:
        steps = [f"cone -s -O {start} -R {count}", "orpos", "scorr", "dc2", f"pdr -T {seconds}"]
        searched = engine.verdict(*engine.ask(part.small, steps, seconds))
    return dataclasses.replace(searched, seconds=searched.seconds + found.seconds)


def induction(part: Model, start: int, count: int) -> Verdict:
    """Looks for a proof by induction over one step: `count` assertions from `start` on hold in the first frame, and in
    each frame after one in which they hold. pdr would write a sum or an order of words as very many clauses.
    """
    cone = [f"cone -s -O {start} -R {count}", *(["orpos"] if count > 1 else [])]
    said, seconds = engine.ask(part.small, [*cone, f"ind -F 2 -T {INDUCTION_SECONDS}"], INDUCTION_SECONDS)
    if not re.search(INDUCTIVE, said, re.MULTILINE):
        return Verdict(OPEN, 0, seconds)
    said, more = engine.ask(part.small, [*cone, f"bmc3 -F 2 -T {INDUCTION_SECONDS}"], INDUCTION_SECONDS)
    base = engine.verdict(said, seconds + more)
    if base.kind == BOUNDED and base.frames >= 2:
        return Verdict(PROVED, 0, base.seconds)
    return base if base.kind == FAILS else Verdict(OPEN, 0, base.seconds)


def note(outcome: Outcome, names: Sequence[str], found: Verdict) -> None:
    """Notes what abc found of these assertions together."""
    outcome.verdicts.update({name: found for name in names})
    label = ", ".join(grouped(names))
    outcome.slowest = max(outcome.slowest, (label, found.seconds), key=lambda pair: pair[1])
    print(f"  {outcome.row.name} {label}: {words_of(found)}, {found.seconds:.1f} s", flush=True)


def words_of(found: Verdict) -> str:
    words = {
        PROVED: "proved",
        FAILS: f"fails in frame {found.frames}",
        BOUNDED: f"no counterexample in {found.frames} cycles",
    }
    return words.get(found.kind, "open")


def reach(model: Model, outcome: Outcome, jobs: int) -> None:
    """Shows that the assumptions of the last step exclude no kind of beat. Errors: no beat can arrive (2)."""
    covers = [i for i, label in enumerate(model.labels) if is_cover(label)]
    frames = COVER_FRAMES if isinstance(outcome.row, Row) else REFINEMENT_COVER_FRAMES
    if outcome.row.bound:
        frames = outcome.row.bound.cycles
    questions = [(i, lambda i=i: engine.bounded(model, i, frames, COVER_SECONDS)) for i in covers]
    for index, found in engine.in_parallel(jobs, questions):
        name = model.labels[index].rpartition(".")[2]
        outcome.covers += 1
        if found.kind == FAILS:
            outcome.reached += 1
        else:
            outcome.not_reached.append(name)
            if name == "SeesBeat":
                raise ProveError(f"{outcome.row.name}: no beat can arrive: nothing is proved")
    if outcome.covers and not outcome.reached:
        raise ProveError(f"{outcome.row.name}: nothing arrives within {frames} cycles: nothing is proved")


def line_of(one: Outcome) -> str:
    """Returns the line of a row. Assertions that were not tried are in no line."""
    row = one.row
    lemmas = [name for name in one.proved if is_lemma(name)]
    proved = ", ".join(grouped([name for name in one.proved if name not in lemmas])) or "nothing"
    left = ", ".join(grouped(one.left))
    what = proved + (f"; open: {left}" if left else "")
    if one.is_complete and not one.bounded:
        what = f"all {len(one.verdicts) - len(lemmas)}: {what}"
    elif not one.is_complete:
        what = f"a part: {what}"
    if lemmas:
        what += f"; by {len(lemmas)} lemmas"
    if isinstance(row, Row) and row.within:
        below = " and ".join(grouped(one.fails_below))
        what += f" within {row.within}" + (f"; within {row.within - 1} not {below}" if below else "")
    bounded = "-"
    if row.bound and one.bounded:
        count = len(one.verdicts) - len(lemmas)
        share = f"all {count}" if len(one.bounded) == count else f"{len(one.bounded)} of {count}"
        bounded = f"{row.bound.cycles} cycles, {share}: {', '.join(grouped(one.bounded))}. {row.bound.obstacle}"
    kinds = f"{one.reached} of {one.covers}" + (f", not {', '.join(one.not_reached)}" if one.not_reached else "")
    name, slowest = one.slowest
    slow = f"{name} {slowest:.0f}" if name else "-"
    place = f"{letters(row.channel)} | {row.client}:{row.manager}" if isinstance(row, Row) else "FIFO | -"
    if isinstance(row, Refinement) and row.clocks == 2:
        place = "FIFO and reset | -"
    depth = str(row.depth)
    if isinstance(row, Part):
        place, depth = place_of_part(row), "-" if row.kind == "convert" else depth
    place += f" | {row.clocks} | {depth} | {row.variant}"
    return f"| {place} | {what} | {bounded} | {kinds} | {one.seconds:.0f} | {slow} |"


def keep(one: Outcome) -> None:
    """Stores the line of a row."""
    write_lines({**read_lines(), one.row.name: line_of(one)}, [row.name for row in ROWS])


def letters(channel: str) -> str:
    return "A to E" if channel == "ABCDE" else ", ".join(channel)


def is_lemma(name: str) -> bool:
    return re.search(r"_words\.|_sources\.|_lemmas\.", name) is not None


def grouped(names: Sequence[str]) -> List[str]:
    """Returns the names without their channel, `Data0` to `Data7` as one word if all are there."""
    short = sorted({name.rpartition(".")[2].removesuffix("_asserted") for name in names})
    for word in ("Data", "Value"):
        bits = [name for name in short if re.fullmatch(rf"{word}\d", name)]
        if len(bits) == 8:
            short = [name for name in short if name not in bits] + [f"{word}0 to {word}7"]
    return short


def command_line() -> argparse.ArgumentParser:
    words = argparse.ArgumentParser(
        prog="prove-rtl",
        description="Proves rtl/tl_bridge.sv against the layout of messages, one channel and one pair of widths at a "
        "time, and prints its line. The status is 0 if each row is proved or has its bound, 1 if not, 2 to 4 as of "
        "tlbridge-prove.",
    )
    words.add_argument("rows", metavar="ROW", nargs="*", help="as A-4-2 [default: each row]")
    words.add_argument("--list", action="store_true", help="list the rows")
    words.add_argument(
        "--table", action="store_true", help="write the tables of docs/RTL_PROOFS.md from the stored lines"
    )
    words.add_argument("--keep", action="store_true", help="store the line of each row that is complete")
    words.add_argument("--rtl", metavar="FOLDER", type=Path, default=ROOT / "rtl", help="the bridge [default: rtl/]")
    words.add_argument("--jobs", metavar="N", type=int, default=2, help="assertions at once [default: 2]")
    words.add_argument(
        "--seconds", metavar="S", type=int, default=600, help="of processor time for each assertion [default: 600]"
    )
    words.add_argument("--only", metavar="REGEX", default="", help="only assertions whose names match")
    words.add_argument("--no-cache", action="store_true", help="do not keep the models")
    return words


def main(arguments: Optional[Sequence[str]] = None) -> int:
    words = command_line().parse_args(arguments)
    known = {row.name: row for row in (*ROWS, *OTHER_ROWS)}
    if words.list:
        for row in ROWS:
            print(f"{row.name}" + (f": not proved: {row.bound.obstacle}" if row.bound else ""))
        for row in OTHER_ROWS:
            print(f"{row.name}: no claim: no run of this row has ended")
        for what, why in NOT_TRIED:
            print(f"no row: {what}: {why}")
        return 0
    if words.table:
        write_page()
        return 0
    unknown = [name for name in words.rows if not is_name(name)]
    if unknown:
        print(f"prove-rtl: there is no row {unknown[0]}; --list names all", file=sys.stderr)
        return 2
    if words.keep and words.rtl.resolve() != ROOT / "rtl":
        print("prove-rtl: --keep stores lines of rtl/ alone: do not use it with --rtl", file=sys.stderr)
        return 2
    chosen = [known.get(name) or row_named(name) for name in words.rows] or list(ROWS)
    outcomes = []
    began = time.monotonic()
    try:
        for row in chosen:
            at = time.monotonic()
            outcomes.append(
                prove(
                    row,
                    words.rtl.resolve(),
                    words.jobs,
                    words.seconds,
                    None if words.no_cache else cache_folder(),
                    words.only,
                )
            )
            print(f"{line_of(outcomes[-1])}\n{row.name}: {time.monotonic() - at:.0f} s", flush=True)
            if words.keep and outcomes[-1].is_complete:
                keep(outcomes[-1])
    except ProveError as error:
        print(f"prove-rtl: {error}", file=sys.stderr)
        return error.status
    print("\n".join(["", *HEADING, *map(line_of, outcomes), ""]))
    print(f"{time.monotonic() - began:.0f} s with {words.jobs} at once")
    return 0 if all(one.is_complete for one in outcomes) else 1
