"""A design with its benches: one build, for one seed or more."""
from __future__ import annotations

import argparse
import shutil
import sys
import threading
import time
from dataclasses import dataclass, replace
from pathlib import Path
from typing import Dict, List, Optional, Sequence

from .bench import Bench, Cancel, EndlessError, OverTimeError, Settings, Simulation, sv_folder
from .design import Design, DesignError, described, read_design
from .explore import explored, held_largest, rules_out_atomics, stated_bits, stated_largest, stated_level
from .judge import Judge, Rules
from .options import SECONDS, choice_of, source_of, window_of
from .report import not_compared
from .skew import skewed
from .strict import RULES
from .traffic import ATOMICS, PLAIN_LARGEST, Traffic, limits_of

FIRST_ROUNDS = 13  # in Icarus, if both simulators are used: two directed rounds and each style
# Messages of a round in Icarus, and of the first and the later ones in Verilator.
SHORT, MIDDLE, LONG = 200, 400, 1500
# The options that make a strict rule one whose breach is a mistake.
_STRICT = tuple(name.replace("-", "_") for name in RULES)
_LOOP_SECONDS = 5  # of processor time for a hundred cycles, which no design needs


class Session:
    """A design with its benches."""

    def __init__(self, options: argparse.Namespace, room: Path):
        self.options, self.room = options, room
        self.start = time.monotonic()
        source, choice = source_of(options), choice_of(options)
        if options.messages is not None and options.messages < 1:
            raise DesignError("--messages has to be 1 or more")
        if options.seconds is not None and options.seconds <= 0:
            raise DesignError("--seconds has to be above 0")
        self.design = read_design(source, choice)
        self._examine()
        self.is_bridge = self.design.is_bridge and not options.rules_only
        self.one_clock = options.one_clock
        window = window_of(options.window)
        by_ports = options.level is None and options.only is None
        self.stated_level = stated_level(source.files, self.design.level) if by_ports else None
        self.level: str = options.level or self.stated_level or self.design.level
        self.limits = limits_of(self.design, self.is_bridge, self.level, options.largest, options.only, window)
        has_atomics = not (by_ports and rules_out_atomics(source.files))
        self.finds_atomics = by_ports and has_atomics and self.stated_level is None and self.design.has("A", "param")
        if not has_atomics:
            kinds = tuple(kind for kind in self.limits.kinds if kind not in ATOMICS)
            self.limits = replace(self.limits, kinds=kinds)
        self.stated = stated_largest(source.files) if options.largest is None else None
        self.too_large = ""  # what goes wrong with messages above the largest that were found to pass
        self.most_bytes = self.limits.largest  # that the size field can say, if nothing else is known
        if self.stated is not None:
            self.most_bytes = min(self.most_bytes, self.stated)
            self.limits = replace(self.limits, largest=self.most_bytes)
        elif options.largest is None:
            self.limits = replace(self.limits, largest=min(self.most_bytes, PLAIN_LARGEST))
        plain = not set(self.limits.kinds) & {"acquire", "acquireperm", "release", "probe"}
        self.has_memory = not self.is_bridge and plain
        strict = [name for name in _STRICT if getattr(options, name)]
        self.rules = Rules(
            self.is_bridge,
            self.has_memory and self.design.client is not None and not options.no_memory,
            tuple(name.replace("_", "-") for name in strict),
        )
        if self.has_memory and self.design.client is not None:  # a memory computes what fits into a beat
            self.limits = replace(self.limits, atomic=min(self.design.client.width, 8))
        self._limit_window()
        self.judge = Judge(self.design, self.rules)
        self.bench = Bench(self.design, self.is_bridge, self.one_clock, self.has_memory)
        self.bench.level = options.level or ""
        self.bench.text()
        self.late: Optional[Late] = None
        self.netlist_lock = threading.Lock()
        self.has_late = self.bench.has_two and not options.no_skew and bool(options.skew or shutil.which("yosys"))
        if options.skew and not self.netlist().bits:
            raise DesignError("--skew: no bit of the design crosses directly to a flip-flop of another clock")
        self.forced = self._forced()
        self.compiled: Dict[str, Simulation] = {}
        self.failed: Dict[str, DesignError] = {}
        self.is_mixed = False  # Verilator plays after Icarus
        self.build_seconds = 0.0  # of the slowest compilation
        self.background: Optional[threading.Thread] = None
        self.cancel = Cancel()

    def _examine(self) -> None:
        options, design = self.options, self.design
        if options.one_clock and not design.has_two_clocks:
            raise DesignError("--one-clock: the design has one clock")
        if options.skew and (not design.has_two_clocks or options.one_clock):
            raise DesignError("--skew: the design has one clock, so no bit crosses")
        if options.skew and options.no_skew:
            raise DesignError("--skew and --no-skew exclude each other")
        if options.rules_only and not design.is_bridge:
            raise DesignError("--rules-only: a design with one link is judged so anyway")
        if options.no_memory and design.is_bridge and not options.rules_only:
            raise DesignError("--no-memory is for a design with one link, or with --rules-only")
        if options.same_cycle and options.no_same_cycle:
            raise DesignError("--same-cycle and --no-same-cycle exclude each other")
        if options.denied_is_corrupt and (design.client is None or design.is_bridge and not options.rules_only):
            raise DesignError("--denied-is-corrupt is for a device, or with --rules-only")
        if options.copies_all and design.client is not None:
            raise DesignError("--copies-all is for a host")
        if options.corrupt_stays and design.is_bridge:
            raise DesignError("--corrupt-stays is for a host or a device")
        if (options.reads_accepted or options.reads_no_later) and (design.client is None or design.is_bridge):
            raise DesignError("--reads-accepted and --reads-no-later are for a device")
        is_judged = design.client is not None and (not design.is_bridge or options.rules_only)
        if (options.denied_alike or options.reads_alike) and not is_judged:
            raise DesignError("--denied-alike and --reads-alike are for a device, or with --rules-only")
        if options.done_not_denied and not options.rules_only:
            raise DesignError("--done-not-denied is for --rules-only")
        if options.after_reset and options.no_reset:
            raise DesignError("--after-reset and --no-reset exclude each other")
        if options.no_memory and design.client is None:
            raise DesignError("--no-memory: a host has no link on which memory is judged")
        if options.jobs is not None and options.seeds is None:
            raise DesignError("--jobs is for --seeds")
        if options.jobs is not None and options.jobs < 1:
            raise DesignError("--jobs has to be 1 or more")
        if "client" not in design.links:
            for name in ("only", "level", "largest", "window", "no_reuse"):
                if getattr(options, name):
                    raise DesignError(f"--{name.replace('_', '-')}: a host sends its own traffic")

    def _limit_window(self) -> None:
        limits, design = self.limits, self.design
        if limits.window is None and self.rules.is_memory:
            span = 256 if not design.is_bridge else 4096
            span = min(span, 1 << min(link.bits("address") for link in design.links.values()))
            bits = stated_bits(design.source.files)
            limits = replace(limits, window=(0, span), has_pages=design.is_bridge, page_bits=bits)
        if limits.window and limits.largest > limits.window[1]:
            if self.options.largest:
                raise DesignError(f"--largest {limits.largest}: the window has {limits.window[1]} bytes")
            limits = replace(limits, largest=1 << (limits.window[1].bit_length() - 1))
        self.limits = limits

    def _forced(self) -> Settings:
        options = self.options
        forced = {"in_order": 1} if options.in_order else {}
        for name, setting in (
            ("no_early", "early"),
            ("no_reuse", "reuse"),
            ("no_denied", "denied"),
            ("no_blocking", "blocking"),
            ("no_reset", "reset_at"),
            ("may_withdraw", "steady"),
        ):
            if getattr(options, name):
                forced[setting] = 0
        return forced

    def describe(self) -> List[str]:
        lines = described(self.design)
        if self.design.has_two_clocks:
            how = (
                "one clock for both inputs"
                if self.one_clock
                else "two clocks of any ratio (--one-clock if both inputs have to get the same clock)"
            )
            lines.append(f"  {how}")
        if self.late and self.late.bits:
            lines.append(
                f"  {self.late.bits} bits cross directly to a flip-flop of another clock: each may arrive late"
            )
        limits = self.limits
        level = f"{self.level}, as a comment of the design says" if self.stated_level else self.level
        if self.design.client is not None:
            stated = ", as a comment of the design says" if self.stated == limits.largest else ""
            where = f", at {limits.window[0]:#x} to {sum(limits.window) - 1:#x}" if limits.window else ""
            where += " or one higher address bit away" if limits.has_pages else ""
            lines.append(
                f"  traffic: TL-{level}, up to {limits.largest} bytes{stated}{where}: {', '.join(limits.kinds)}"
                " (--level, --largest, --only)"
            )
        if self.is_bridge and level == "UL" and limits.largest < self.design.links["client"].width:
            lines.append(
                f"  no access of more than {limits.largest} bytes is played: at TL-UL an adapter splits it"
                " (--rules-only --level UL plays and judges them)"
            )
        if self.is_bridge and not_compared(self.design):
            lines.append(f"  not compared, since only one link has it: {', '.join(not_compared(self.design))}")
        lines.append(f"  judged by {self.judge.name}")
        return lines

    # -- building

    def netlist(self) -> "Late":
        """Returns the netlist with late bits, which is made once. Errors: there is no yosys, or it cannot read the
        design."""
        with self.netlist_lock:  # a thread in the background makes it, too
            if self.late is None:
                design, bits, single = skewed(self.design, self.room)
                bench = Bench(design, self.is_bridge, self.one_clock, self.has_memory)
                bench.level = self.bench.level
                self.late = Late(design, bench, bits, single)
            return self.late

    def build(self, name: str, cancel: Optional[Cancel] = None) -> Optional[Simulation]:
        """Compiles the bench once: for `icarus` or `verilator`, with ` late` after it for the netlist with late bits.
        Returns None if it cannot be compiled, and `failed` has the reason."""
        if name not in self.compiled and name not in self.failed:
            simulator, _, is_late = name.partition(" ")
            try:
                design, bench, extra = self.design, self.bench, []
                if is_late:
                    late = self.netlist()
                    design, bench, extra = late.design, late.bench, [sv_folder() / "tl_skew.sv"]
                    if not late.bits:
                        raise DesignError("no bit of the design crosses directly to a flip-flop of another clock")
                begun = time.monotonic()
                room, plusargs = self.room / name.replace(" ", "-"), self.options.plusarg
                made = Simulation(design, simulator, room, bench, extra, plusargs, cancel=cancel)
                self.compiled[name] = made
                self.build_seconds = max(self.build_seconds, time.monotonic() - begun)
            except DesignError as error:
                self.failed[name] = error
        return self.compiled.get(name)

    def build_in_background(self, names: Sequence[str]) -> None:
        """Begins to compile benches that are needed later."""

        def build_each() -> None:
            for name in names:
                if not self.cancel.is_set:
                    self.build(name, self.cancel)

        if self.background is None:
            self.background = threading.Thread(target=build_each)
            self.background.start()

    def is_building(self, name: str) -> bool:
        """Whether a bench is still being compiled in the background, or waits for it."""
        if name in self.compiled or name in self.failed or self.background is None:
            return False
        return self.background.is_alive()

    def cancel_background(self) -> None:
        """Ends a compilation in the background, whose result nobody needs."""
        if self.background is not None:
            self.cancel.set()
            self.background.join()
            self.background = None

    def simulation(self, name: str) -> Simulation:
        """Returns the compiled bench. Errors: it cannot be compiled."""
        while self.is_building(name):
            time.sleep(0.05)
        made = self.build(name)
        if made is None:
            raise self.failed[name]
        return made

    def first_simulator(self, say: "Voice") -> str:
        """Compiles the first simulator: Icarus if it can read the design, since it starts at once and knows x."""
        wanted: str = self.options.simulator
        begun = time.monotonic()
        if wanted == "auto":
            wanted = "icarus" if shutil.which("iverilog") else "verilator"
            if wanted == "icarus" and not self.build("icarus"):
                reason = str(self.failed["icarus"]).partition(": ")[2]
                say(f"  Icarus cannot compile it ({reason[:160]}), so Verilator plays all rounds")
                wanted = "verilator"
        simulation = self.simulation(wanted)
        say(f"  compiled for {wanted} in {time.monotonic() - begun:.1f} s")
        self.settle(simulation)
        return wanted

    def settle(self, simulation: Simulation) -> None:
        """Plays a few cycles. Errors: they do not end, since signals change without end in one of them."""
        traffic = Traffic(self.design, self.limits, 1, self.is_bridge, self.bench.has_two, self.has_memory)
        script = traffic.drawn(4, 2, "small") if self.design.client is not None else []
        settings = {**traffic.settings(0x3FF), **self.forced, "most": 100}
        try:
            simulation.run(script, settings, self.room / "settle", seconds=2 * SECONDS, processor=_LOOP_SECONDS)
        except OverTimeError:
            return
        except EndlessError:
            raise DesignError(
                f"the design has a combinational loop: {simulation.simulator} did not end 100 cycles within"
                f" {_LOOP_SECONDS} processor seconds",
                3,
            ) from None

    def explore(self, first: str, say: "Voice") -> None:
        """Finds out at which addresses a device answers, and whether it computes atomics, unless the user says so."""
        options, before = self.options, self.limits
        if not self.rules.is_memory or self.design.is_bridge:
            return
        room = self.room / "explore"
        limits = explored(self.design, self.simulation(first), before, room, options.window is None, self.finds_atomics)
        self.limits = limits
        self._limit_window()
        if limits.window != before.window and limits.window:
            held = f", of which it holds {limits.held} bytes" if limits.held else ""
            say(f"  it answers at {limits.window[0]:#x} to {sum(limits.window) - 1:#x}{held} (--window)")
        if limits.kinds != before.kinds:
            say(f"  it computes atomics: {', '.join(limits.kinds)} (--level, --only)")

    def explore_sizes(self, simulation: Simulation, say: "Voice") -> None:
        """Finds out which messages above 64 bytes a design holds, once, unless that is known."""
        if self.most_bytes <= self.limits.largest or self.design.client is None:
            return
        most, self.most_bytes = self.most_bytes, 0
        if self.limits.window:
            most = min(most, 1 << (self.limits.window[1].bit_length() - 1))
        if most <= self.limits.largest:
            return
        traffic = Traffic(self.design, self.limits, 1, self.is_bridge, self.bench.has_two, self.has_memory)
        held, self.too_large = held_largest(traffic, simulation, self.judge, self.forced, self.room / "sizes", most)
        self.limits = replace(self.limits, largest=held)
        more = f"; it fails with those of {2 * held} bytes, so add --largest {2 * held} if it has to hold them"
        say(f"  messages of up to {held} bytes are played{more if held < most else ''}")

    def long_simulator(self, first: str) -> str:
        """The simulator of the rounds after the first ones."""
        self.is_mixed = first == "icarus" and self.options.simulator == "auto" and not self.is_short()
        return "verilator" if self.is_mixed else first

    def is_short(self) -> bool:
        """Whether the first rounds are all that was asked for."""
        return self.options.messages is not None and self.options.messages <= FIRST_ROUNDS * SHORT

    def later_builds(self, first: str) -> List[str]:
        """The benches that are needed after the first rounds."""
        long = self.long_simulator(first)
        names = [long] if long != first else []
        return names + ([f"{long} late"] if self.has_late else [])


@dataclass(frozen=True)
class Late:
    """A netlist of the design in which bits that cross to another clock may each arrive late."""

    design: Design
    bench: Bench
    bits: int
    single: List[str]  # registers that a bit from another clock enters, and that logic reads without a second one


class Voice:
    """Prints lines; with several seeds only what is final. Progress goes to a terminal only."""

    def __init__(self, is_quiet: bool = False):
        self.is_quiet = is_quiet
        self.has_progress = not is_quiet and sys.stderr.isatty()

    def __call__(self, *lines: str) -> None:
        if self.is_quiet:
            return
        self.progress("")
        for line in lines:
            print(line, flush=True)

    def progress(self, text: str) -> None:
        if self.has_progress:
            print(f"\r\x1b[K{text}", end="", file=sys.stderr, flush=True)
