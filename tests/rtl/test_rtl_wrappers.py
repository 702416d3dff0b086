"""The wrappers rtl/tl_bridge_rocket.sv and rtl/tl_bridge_structs.sv, by the bench of test_rtl_long.py.

Each wrapper takes the place of the bridge: a shim named tl_bridge, made here, joins the bench's ports to the wrapper's.
Its far beats have to be
those of the model: in Icarus, with X on all that is not valid, and in Verilator, both also with user and echo bits,
which have to arrive with
their beats. Verilator -Wall, Icarus -Wall and yosys read each without a warning. Responses with only corrupt set are
left out of the traffic of
tl_bridge_structs, since its links have one bit for denied and corrupt. Icarus also has to see each mistake that is
planted in a wrapper.
"""

import re
import shutil
from dataclasses import dataclass
from pathlib import Path
from typing import Any, Callable, Dict, List, Optional, Tuple

import pytest
from commands import Word, run, said
from configurations import SCENARIOS
from planted import Planted, mistakes
from project import RTL, ROOT, needs_tools
from rtl_checks import played_in_icarus, simulated_in_icarus
from rtl_simulations import BEATS, DEFAULTS, HERE, Config, Room, first_difference, named

pytestmark = [pytest.mark.long, pytest.mark.simulator]

PAIRS = [{"CLIENT_BYTES": 8, "MANAGER_BYTES": 4}, {"CLIENT_BYTES": 4, "MANAGER_BYTES": 16}]
IN_VERILATOR = ("wandering clocks", "few sources, no stalls")  # scenarios of configurations.py
USER_BITS = {"REQUEST_USER_BITS": 23, "RESPONSE_USER_BITS": 14}
LINTED: List[Tuple[str, Config]] = [
    ("tl_bridge_rocket", {}),
    ("tl_bridge_rocket", {**PAIRS[1], **USER_BITS, "ECHO_BITS": 3}),
    ("tl_bridge_structs", {}),
    ("tl_bridge_structs", {"HOST_BYTES": 4, "DEVICE_BYTES": 16, "A_USER_BITS": 1, "D_USER_BITS": 2}),
]
PORT = re.compile(r"^\s*(input|output)\s+logic\s+(\[.*\]\s+)?(\w+)\s*[,)]?", re.M)


def head_of(text: str) -> str:
    """The module's head, up to the end of its ports."""
    return text[: text.index(");", text.index(") (")) + 2]


def rocket_shim(bridge: str) -> str:
    """A module tl_bridge that joins its ports to those of tl_bridge_rocket."""
    head = head_of(bridge)
    names = [name for _, _, name in PORT.findall(head)]
    parameters = re.findall(r"parameter (?:int|bit) (\w+)", head)

    def other(name: str) -> str:
        if name in ("client_clock", "client_reset", "manager_clock", "manager_reset"):
            return name.replace("client", "in").replace("manager", "out")
        side, channel, field = name.split("_")
        place = f"{channel}_{field}" if field in ("valid", "ready") else f"{channel}_bits_{field}"
        return f"auto_{'in' if side == 'client' else 'out'}_{place}"

    return (
        f"{head}\n    tl_bridge_rocket #({', '.join(f'.{name}({name})' for name in parameters)}) wrapper (\n        "
        + ",\n        ".join(f".{other(name)}({name})" for name in names)
        + ");\nendmodule\n"
    )


def structs_shim(bridge: str) -> str:
    """A module tl_bridge around tl_bridge_structs: fields in the order of OpenTitan's structs; what they do not have is
    0.
    """
    head = head_of(bridge)
    request = "valid opcode param size source address mask data".split()

    def requests(side: str, user: str, ready: str) -> str:
        return "{" + ", ".join([*(f"{side}_a_{field}" for field in request), user, ready]) + "}"

    to_bridge = (
        "{manager_d_valid, manager_d_opcode, 1'b0, manager_d_param, manager_d_size, manager_d_source, manager_d_sink,"
        " manager_d_data, response_user, manager_d_denied, manager_a_ready}"
    )
    from_bridge = (
        "{client_d_valid, client_d_opcode, spare, client_d_param, client_d_size, client_d_source, client_d_sink,"
        " client_d_data, client_d_user, client_d_denied, client_a_ready}"
    )
    outputs = [
        name
        for kind, _, name in PORT.findall(head)
        if kind == "output" and (name.split("_")[1] in "bce" or name.endswith("echo"))
    ]
    more = (
        "ADDRESS_BITS SIZE_BITS SOURCE_BITS SINK_BITS ASYNC FIFO_DEPTH SYNC_STAGES MAX_OUTSTANDING"
        " ALLOW_SAME_CYCLE_RESPONSE".split()
    )
    return f"""{head}
    wire spare;
    // links of these structs have one user bit at least; with REQUEST_USER_BITS = 0 the bench expects 0
    wire [$bits(client_a_user)-1:0] request_user = REQUEST_USER_BITS > 0 ? client_a_user : '0;
    wire [$bits(manager_d_user)-1:0] response_user = RESPONSE_USER_BITS > 0 ? manager_d_user : '0;
    assign client_d_corrupt  = client_d_denied && client_d_opcode == 3'd1;
    assign manager_a_corrupt = 1'b0;
    assign {{{', '.join(outputs)}}} = '0;
    tl_bridge_structs #(.HOST_BYTES(CLIENT_BYTES), .DEVICE_BYTES(MANAGER_BYTES),
        .A_USER_BITS(REQUEST_USER_BITS > 0 ? REQUEST_USER_BITS : 1),
        .D_USER_BITS(RESPONSE_USER_BITS > 0 ? RESPONSE_USER_BITS : 1),
        {', '.join(f'.{name}({name})' for name in more)}) wrapper (
        .clk_h_i(client_clock), .rst_h_ni(!client_reset),
        .tl_h_i({requests('client', 'request_user', 'client_d_ready')}),
        .tl_h_o({from_bridge}),
        .clk_d_i(manager_clock), .rst_d_ni(!manager_reset),
        .tl_d_o({requests('manager', 'manager_a_user', 'manager_d_ready')}),
        .tl_d_i({to_bridge}));
endmodule
"""


def one_error_bit(trace: str) -> str:
    """The trace with what links without a corrupt bit can say: on A none is corrupt, on D what is denied and carries
    data.
    """
    lines = []
    for line in trace.splitlines():
        words = line.split(" ")
        if words[0] == "A":
            words[-1] = "0"
        elif words[0] == "D":
            words[-1] = words[6] if words[1] == "1" else "0"
        lines.append(" ".join(words))
    return "\n".join(lines) + "\n"


@dataclass
class Wrapper:
    """A wrapper: its name, its shim, the bridge's parameters that it fixes, its own user bits, and the change of a
    trace that its links need.
    """

    name: str
    shim: Callable[[str], str]
    more: Dict[str, int]
    bits: Dict[str, int]
    change: Optional[Callable[[str], str]]

    def __str__(self) -> str:
        return self.name


ROCKET = Wrapper("tl_bridge_rocket", rocket_shim, {}, {**USER_BITS, "ECHO_BITS": 3}, None)
STRUCTS = Wrapper("tl_bridge_structs", structs_shim, {"HAS_B_C_E": 0}, USER_BITS, one_error_bit)
WRAPPERS = {"tl_bridge_rocket": ROCKET, "tl_bridge_structs": STRUCTS}
BUGS = [planted for planted in mistakes(HERE / "bugs.txt") if planted.seen in WRAPPERS]


def folder_with(wrapper: Wrapper, folder: Path, rtl: Path = RTL) -> Path:
    """A copy of a design in which the bridge is tl_bridge_core, inside the wrapper, inside the shim."""
    folder = folder / f"with_{wrapper}"
    shutil.copytree(rtl, folder)
    bridge = (folder / "tl_bridge.sv").read_text()
    (folder / "core.sv").write_text(bridge.replace("module tl_bridge #(", "module tl_bridge_core #("))
    (folder / "tl_bridge.sv").write_text(wrapper.shim(bridge))
    text = (folder / f"{wrapper}.sv").read_text()
    for name in WRAPPERS:
        (folder / f"{name}.sv").unlink()
    (folder / "wrapper.sv").write_text(text.replace("    tl_bridge #(", "    tl_bridge_core #("))
    return folder


def traffic(room: Room, wrapper: Wrapper, config: Config, seed: int, **options: Any) -> Tuple[Path, Path]:
    """The files of a trace and of its answer, with the change that the wrapper's links need."""
    trace, answer = room.trace({**DEFAULTS, **config}, seed, BEATS, **options)
    change = wrapper.change
    if not change:
        return trace, answer
    text = change(trace.read_text())
    changed = room.once(room.path / f"{trace.stem}.changed.trace", lambda path: path.write_text(text))
    return changed, room.answer(changed)


NO_BITS: Config = {}
CONFIGS = [
    (wrapper, {**pair, **wrapper.more, **bits})
    for wrapper in WRAPPERS.values()
    for pair in PAIRS
    for bits in (NO_BITS, wrapper.bits)
]
IDS = [f"{wrapper} {named(config)}" for wrapper, config in CONFIGS]


@pytest.mark.parametrize("wrapper, config", CONFIGS, ids=IDS)
def test_a_wrapper_in_icarus(wrapper: Wrapper, config: Config, room: Room, tmp_path: Path) -> None:
    """No difference, no fault of the checkers, no X, and user and echo bits as sent."""
    files = sorted(folder_with(wrapper, tmp_path).glob("*.sv"))
    assert simulated_in_icarus(config, traffic(room, wrapper, config, 7), files, tmp_path) == ""


@pytest.mark.parametrize("wrapper, config", CONFIGS[1::2], ids=IDS[1::2])
def test_a_wrapper_in_verilator(wrapper: Wrapper, config: Config, room: Room, tmp_path: Path) -> None:
    """With user and echo bits."""
    needs_tools("verilator", "g++")
    program = room.build(config, rtl=folder_with(wrapper, tmp_path))
    beats = 0
    for name, seed, _, options, flags in SCENARIOS:
        if name in IN_VERILATOR:
            trace, answer = traffic(room, wrapper, config, seed, **options)
            ran = room.play(program, trace, answer, [*flags, f"seed={seed}"])
            assert not ran.wrong, f"{name}: {ran.wrong}"
            beats += ran.far
    assert beats > 0


@pytest.mark.parametrize("planted", BUGS, ids=lambda planted: f"{planted.seen}: {planted}")
def test_a_mistake_that_is_planted_in_a_wrapper_is_seen(planted: Planted, room: Room, tmp_path: Path) -> None:
    """At 8:4 with user and echo bits, in a simulation that ran to its end."""
    wrapper = WRAPPERS[planted.seen]
    folder = folder_with(wrapper, tmp_path, planted.plant(ROOT, tmp_path / "planted"))
    config = {**PAIRS[0], **wrapper.more, **wrapper.bits}
    trace, answer = traffic(room, wrapper, config, 7)
    far, faults, printed = played_in_icarus(config, trace, sorted(folder.glob("*.sv")), tmp_path)
    assert faults is not None, f"the simulation did not end: {printed[-600:]}"
    assert faults or first_difference(answer.read_text(), far), "not seen"


def lint_words(tool: str, wrapper: str, config: Config) -> Tuple[Word, ...]:
    """The command of a tool that reads a wrapper."""
    files = sorted(RTL.glob("*.sv"))
    if tool == "verilator":
        given = [f"-G{name}={value}" for name, value in config.items()]
        return ("verilator", "--lint-only", "-Wall", "--top-module", wrapper, *given, *files)
    if tool == "iverilog":
        given = [f"-P{wrapper}.{name}={value}" for name, value in config.items()]
        return ("iverilog", "-g2012", "-Wall", "-s", wrapper, *given, "-o", "/dev/null", *files)
    sets = "".join(f"chparam -set {name} {value} {wrapper}; " for name, value in config.items())
    script = f"read_verilog -sv {' '.join(map(str, files))}; {sets}hierarchy -check -top {wrapper}; proc; check -assert"
    return ("yosys", "-q", "-p", script)


@pytest.mark.parametrize("tool", ["verilator", "iverilog", "yosys"])
@pytest.mark.parametrize("wrapper, config", LINTED, ids=[f"{name} {' '.join(config)}" for name, config in LINTED])
def test_a_wrapper_is_read_without_a_warning(wrapper: str, config: Config, tool: str) -> None:
    """With the defaults and with other parameters."""
    needs_tools(tool)
    done = run(lint_words(tool, wrapper, config))
    assert (done.returncode, done.stdout, done.stderr) == (0, "", ""), said(done)
