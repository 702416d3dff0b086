"""SystemVerilog with assertions as a model for abc (AIGER), by yosys 0.23, and a cache of such models."""
from __future__ import annotations

import hashlib
import os
import re
import shutil
import tempfile
from dataclasses import dataclass, field
from pathlib import Path
from typing import Callable, Iterator, List, Mapping, Optional, Sequence, Tuple

from .clocks import line_of, settle_clocks
from .errors import TOOL, UNREADABLE, ProveError
from .netlist import check_assignments, check_netlist, loop_in
from .remedies import remedy_of
from .tools import run_tool

YOSYS_SECONDS = 4 * 3600.0
KEPT_MODELS = 40  # in the cache
MOST_MEMORY_BITS = 1 << 16  # of one memory of the design
SAFE_PATH = re.compile(r"[A-Za-z0-9_./+,:@%=-]+")


@dataclass(frozen=True)
class Recipe:
    """Everything a model depends on.

    `design_files` are read as for synthesis: assertions and assumptions in them are ignored, but with `design_asserts`
    their assertions count, too. `proof_files` have the assertions. `keep` and `assume` are regular expressions for
    labels: with `keep` other assertions are removed, and those that match `assume` become assumptions. `free_initial`
    names the instance whose registers begin with any value. `probes` maps a wire of the top to a wire inside the
    design. `zero_initial`: registers without an initial value begin with 0. `forget` is a regular expression for names
    of assumptions, which are removed; `cuts` names wires that become free inputs. Both only allow more.
    """

    top: str
    design_files: Tuple[str, ...]
    proof_files: Tuple[str, ...]
    defines: Tuple[str, ...] = ()
    includes: Tuple[str, ...] = ()
    ticks: Mapping[str, str] = field(default_factory=dict)
    keep: str = ""
    drop: str = r"neighbours\."
    assume: str = ""
    free_initial: str = "dut"
    probes: Mapping[str, str] = field(default_factory=dict)
    zero_initial: bool = False
    design_is_formal: bool = False
    design_asserts: bool = False
    forget: str = ""
    cuts: Tuple[str, ...] = ()


@dataclass(frozen=True)
class Model:
    """A model in a folder: `model.aig`, the same after simplification (`small.aig`), and the map of its inputs
    (`model.map`).

    `labels` are the assertions in the order of the model's outputs, with their places: `watch.a.watch.Data0`. `folded`
    are those that yosys simplified to true or merged with another one, so the model does not have them.
    """

    folder: Path
    labels: Tuple[str, ...]
    folded: Tuple[str, ...] = ()

    @property
    def path(self) -> Path:
        return self.folder / "model.aig"

    @property
    def small(self) -> Path:
        return self.folder / "small.aig"


def short_name(label: str) -> str:
    """Returns the name of an assertion as it is printed: `a.Data0`. The four about a source belong to channel D."""
    words = label.split(".")
    if words[-1].startswith("Source") and len(words) < 3:
        return f"d.{words[-1]}"
    return f"{words[-3]}.{words[-1]}" if len(words) >= 3 and words[-2] == "watch" else words[-1]


def cache_folder() -> Path:
    """Returns the folder of the cache: $TLBRIDGE_CACHE, or `tlbridge` in the user's cache folder."""
    given = os.environ.get("TLBRIDGE_CACHE")
    if given:
        return Path(given)
    return Path(os.environ.get("XDG_CACHE_HOME") or Path.home() / ".cache") / "tlbridge" / "models"


def included_files(paths: Sequence[str], includes: Sequence[str]) -> Iterator[Path]:
    """Yields each file that these files include, found as yosys finds it."""
    waiting = [Path(path) for path in paths]
    seen = set(waiting)
    while waiting:
        path = waiting.pop()
        for name in re.findall(r'^\s*`include\s+"([^"]+)"', path.read_text(errors="replace"), re.M):
            for folder in (path.parent, *map(Path, includes)):
                found = folder / name
                if found.is_file():
                    if found not in seen:
                        seen.add(found)
                        waiting.append(found)
                        yield found
                    break


def key_of(recipe: Recipe) -> str:
    """Returns the name of a model in the cache: a digest of yosys' version, the recipe and each file."""
    digest = hashlib.sha256()
    digest.update(run_tool(["yosys", "-V"], 60).said.encode())
    plain = {name: getattr(recipe, name) for name in recipe.__dataclass_fields__}
    proof_names = [Path(path).name for path in recipe.proof_files]
    digest.update(
        repr(
            {
                **plain,
                "ticks": sorted(recipe.ticks.items()),
                "probes": sorted(recipe.probes.items()),
                "proof_files": proof_names,
            }
        ).encode()
    )
    for name in ("model.py", "clocks.py", "netlist.py", "sizes.py"):
        digest.update((Path(__file__).parent / name).read_bytes())
    files = [*recipe.design_files, *recipe.proof_files]
    for path in [*map(Path, files), *included_files(files, recipe.includes)]:
        digest.update(hashlib.sha256(path.read_bytes()).digest())
    return digest.hexdigest()[:32]


def no_check(netlist: Path) -> None:
    """Passes each netlist."""


def build(recipe: Recipe, cache: Optional[Path], check: Callable[[Path], None] = no_check) -> Tuple[Model, bool]:
    """Returns the model of a recipe, and whether it was in the cache. Without a cache it is made in a temporary folder.

    A new one is made only if its flat netlist passes `check`, which raises a ProveError otherwise.

    Errors (ProveError): yosys cannot read a file (3), yosys or abc is missing or died (4), the model has no assertion
    (4).
    """
    for path in (*recipe.design_files, *recipe.proof_files, *recipe.includes):
        if not SAFE_PATH.fullmatch(path):
            raise ProveError(f"{path}: yosys needs a file name without spaces and quotes: rename it")
    if cache is None:
        return _made(recipe, Path(tempfile.mkdtemp(prefix="tlbridge-model.")), check), False
    place = cache / key_of(recipe)
    try:
        if (place / "labels").is_file():
            os.utime(place)
            return _read(place), True
        cache.mkdir(parents=True, exist_ok=True)
        folder = Path(tempfile.mkdtemp(prefix="new.", dir=cache))
    except OSError as error:
        raise ProveError(
            f"the cache {cache} cannot be used: {error.strerror}: add --no-cache or set TLBRIDGE_CACHE"
        ) from error
    try:
        _made(recipe, folder, check)
        for name in ("flat.il", "flat.json", "before.il", "clocked.json", "settled.json"):
            (folder / name).unlink(missing_ok=True)
        try:
            folder.rename(place)
        except OSError:
            if not (place / "labels").is_file():  # another run made it at the same time
                raise
    finally:
        shutil.rmtree(folder, ignore_errors=True)
    _prune(cache)
    return _read(place), False


def _prune(cache: Path) -> None:
    models = sorted((path for path in cache.iterdir() if path.is_dir()), key=lambda path: path.stat().st_mtime)
    for path in models[:-KEPT_MODELS]:
        shutil.rmtree(path, ignore_errors=True)


def _read(folder: Path) -> Model:
    labels = tuple(line.rpartition("/")[2] for line in (folder / "labels").read_text().split())
    if not labels:
        raise ProveError("the model has no assertion: nothing is proved", TOOL)
    folded = folder / "folded"
    return Model(folder, labels, tuple(folded.read_text().split()) if folded.is_file() else ())


def _made(recipe: Recipe, folder: Path, check: Callable[[Path], None]) -> Model:
    flags = "".join(f" -D{name}" for name in recipe.defines) + "".join(f" -I{path}" for path in recipe.includes)
    as_design = "-formal" if recipe.design_is_formal else "-noassume -norestrict"
    if not recipe.design_is_formal and not recipe.design_asserts:
        as_design = f"-noassert {as_design}"
    # -noassert of yosys 0.23 also holds for the files that are read after it, so the design comes last
    steps = [f"read_verilog -sv -formal{flags} {' '.join(recipe.proof_files)}"]
    if recipe.design_files:
        steps.append(f"read_verilog -sv {as_design}{flags} {' '.join(recipe.design_files)}")
    steps += [f"hierarchy -check -top {recipe.top}", "proc", "flatten", "write_rtlil flat.il", "write_json flat.json"]
    _yosys(steps, folder)
    text = (folder / "flat.il").read_text(errors="replace")
    check_memories(text)
    check_assignments(text)
    check_netlist(folder / "flat.json", ("clock", *recipe.ticks))
    check(folder / "flat.json")
    steps = ["read_rtlil flat.il", "memory_map -formal"]
    if recipe.free_initial:
        steps.append(f"setattr -unset init w:{recipe.free_initial}.*")
    steps += ["async2sync", "chformal -assume -early", f"cd {recipe.top}"]
    steps += [f"connect -nounset -set {name} {inner}" for name, inner in recipe.probes.items()]
    steps += [f"cutpoint w:{name}" for name in recipe.cuts]
    steps += ["cd ..", "opt_clean", "write_rtlil before.il"]
    steps += ["select -write labels.all t:$assert", "select -write assumed.all t:$assume"]
    _yosys(steps, folder)
    names = (folder / "labels.all").read_text().split()
    script: List[str] = []
    kept: List[str] = []
    for name in names:
        label = name.rpartition("/")[2]
        if recipe.assume and re.search(recipe.assume, label):
            script.append(f"chformal -assert -assert2assume {name}")
        elif (recipe.drop and re.search(recipe.drop, label)) or (recipe.keep and not re.search(recipe.keep, label)):
            script.append(f"chformal -assert -remove {name}")
        else:
            kept.append(label)
    if recipe.forget:
        assumed = (folder / "assumed.all").read_text().split()
        script += [f"chformal -assume -remove {name}" for name in assumed if re.search(recipe.forget, name)]
    (folder / "labels.ys").write_text("\n".join(script) + "\n")
    steps = ["read_rtlil before.il", "script labels.ys", "opt -full", "dffunmap", "opt_clean"]
    _yosys([*steps, "write_json clocked.json"], folder)
    settle_clocks(folder / "clocked.json", folder / "settled.json", recipe.ticks)
    (folder / "numbers.il").write_text("autoidx 100000000\n")  # yosys' new names differ from those in the file
    gates = ["read_rtlil numbers.il", "read_json settled.json", "dffunmap", "setundef -anyseq"]
    if recipe.zero_initial:
        gates.append("setundef -zero -init")
    gates += ["opt -fast", "techmap", "opt -fast", "dffunmap", "opt_clean"]
    steps = [*gates, "abc -g AND -fast", "opt_clean", "select -write labels.last t:$assert"]
    try:
        _yosys([*steps, "write_aiger -I -B -zinit -map model.map model.aig"], folder)
    except ProveError as error:  # write_aiger ends in a signal if the logic has a loop
        place = _loop(gates, folder)
        if not place:
            raise
        raise ProveError(f"{place}: a loop of logic without a register: break it by a register", UNREADABLE) from error
    labels = (folder / "labels.last").read_text().split()
    if not labels:
        raise ProveError("the model has no assertion: nothing is proved", TOOL)
    simplify(folder, len(labels))
    there = {name.rpartition("/")[2] for name in labels}
    (folder / "folded").write_text("".join(f"{label}\n" for label in kept if label not in there))
    (folder / "labels").write_text("\n".join(labels) + "\n")
    return _read(folder)


def check_memories(text: str) -> None:
    """Refuses memories that are too large to become registers. `text` is a flat design in RTLIL. Errors: status 3."""
    for found in re.finditer(
        r'(?:attribute \\src "([^"]*)"\s+)?memory width (\d+) size (\d+)(?: offset \d+)? \\(\S+)', text
    ):
        bits = int(found[2]) * int(found[3])
        if bits > MOST_MEMORY_BITS:
            place, name = line_of(found[1] or found[4]), re.sub(r"^dut\.", "", found[4])
            raise ProveError(
                f"{place}: the memory {name} has {bits} bits. Each bit becomes a register, and a memory may have "
                f"{MOST_MEMORY_BITS} at most: make it smaller by a parameter (-P NAME=VALUE)",
                UNREADABLE,
            )


def simplify(folder: Path, outputs: int) -> None:
    """Merges equivalent registers once for all assertions."""
    steps = ["read_aiger model.aig", "fold", "strash", *2 * ["scorr", "dc2"], "write_aiger small.aig"]
    done = run_tool(["yosys-abc", "-c", "; ".join([*steps, "print_stats", "echo simplified"])], YOSYS_SECONDS, folder)
    status, said = done.status, done.said
    found = re.search(r"i/o *= *\d+/ *(\d+)", re.sub(r"\x1b\[[0-9;]*m", "", said))
    if (
        status
        or "simplified" not in map(str.strip, said.splitlines())
        or not (folder / "small.aig").is_file()
        or not found
    ):
        raise ProveError(
            f"yosys-abc ended with status {status} while it simplified the model: nothing is proved. {last_line(said)}",
            TOOL,
        )
    if int(found[1]) != outputs:
        raise ProveError(f"the model has {found[1]} outputs for {outputs} assertions: nothing is proved", TOOL)


def last_line(said: str) -> str:
    lines = [line.strip() for line in said.splitlines() if line.strip()]
    return lines[-1][:300] if lines else "It printed nothing."


def _yosys(steps: Sequence[str], folder: Path) -> None:
    done = run_tool(["yosys", "-q", "-p", "; ".join(steps)], YOSYS_SECONDS, folder)
    status, said = done.status, done.said
    if status == 0:
        return
    errors = [line for line in said.splitlines() if "ERROR" in line]
    first = re.sub(r"\bERROR: ", "", errors[0].strip()) if errors else last_line(said)
    if status < 0 or not errors:
        how = f"was ended by signal {-status}" if status < 0 else f"ended with status {status}"
        raise ProveError(f"yosys {how}: nothing is proved. {first}", TOOL)
    raise ProveError(f"yosys cannot read the design: {first[:400].rstrip('.!')}. {remedy_of(first)}", UNREADABLE)


def _loop(gates: Sequence[str], folder: Path) -> str:
    """Returns the line of a loop in the logic, or nothing. yosys finds it among gates: it sees no bits of words."""
    try:
        _yosys([*gates, "tee -q -o loops check", "write_json gates.json"], folder)
    except ProveError:
        return ""
    return loop_in((folder / "loops").read_text(errors="replace"), folder / "gates.json")
