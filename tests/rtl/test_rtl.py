"""rtl/, the bridge in SystemVerilog, and docs/RTL.md.

Without any tool:
- the far beats of recorded simulations are those of the model and of the verified program;
- the ports and parameters of rtl/tl_bridge.sv are those of docs/RTL.md, and those that the wrappers join and pass on;
- each register that rtl/tl_bridge.sdc names is in the RTL.

With Verilator, Icarus or yosys: some configurations are read without a warning, and a small one is simulated.
test_rtl_long.py has all of them.
"""

import re
import sys
from pathlib import Path
from typing import Dict, Iterator, List, Optional, Tuple, Union

import pytest
from commands import Word, run, said, succeed_silently
from configurations import LINT_CORNERS, REFUSED
from project import MODEL, ROOT, RTL, needs_program, needs_tools
from rtl_checks import played_in_icarus, reads_without_a_warning, refuses_value, simulated_in_icarus
from rtl_simulations import HERE, PAIRS, Config, Room, first_difference, named, sources

PAGE = ROOT / "docs" / "RTL.md"
RECORDED = sorted((HERE / "recorded").glob("*.trace"))
CHANNELS = {"A": "client", "B": "manager", "C": "client", "D": "manager", "E": "client"}
WRAPPERS = ("tl_bridge_rocket", "tl_bridge_structs")
PORT = re.compile(r"^\s*(input|output)\s+logic\s+(?:\[(.+):0\]\s+)?(\w+)\s*(?:,|\)|$)")
PASSED_ON: Dict[
    str, Optional[str]
] = {  # parameters that tl_bridge_structs passes on under another name, or does not have
    "CLIENT_BYTES": "HOST_BYTES",
    "MANAGER_BYTES": "DEVICE_BYTES",
    "REQUEST_USER_BITS": "A_USER_BITS",
    "RESPONSE_USER_BITS": "D_USER_BITS",
    "HAS_B_C_E": "0",
    "ECHO_BITS": None,
}
PARAMETER = re.compile(r"\bparameter (?:int|bit) (\w+) = (\d+)")
Port = Tuple[str, str]  # direction, bits


# ---- recorded simulations


def test_there_are_recorded_simulations() -> None:
    """Each with enough far beats to say something."""
    assert len(RECORDED) >= 4
    for trace in RECORDED:
        lines = trace.with_suffix(".far").read_text().splitlines()
        assert sum(line[:2] in ("A ", "B ", "C ", "D ", "E ") for line in lines) >= 40, trace.name


def far_beats_differ(program: List[Word], trace: Path) -> Optional[str]:
    """The first recorded far beat that is not that of a program."""
    done = run(program, text=trace.read_text())
    assert done.returncode in (0, 1), said(done)
    return first_difference(done.stdout, trace.with_suffix(".far").read_text())


@pytest.mark.parametrize("trace", RECORDED, ids=lambda trace: str(trace.stem))
def test_the_far_beats_of_a_recorded_simulation_are_those_of_the_model(trace: Path) -> None:
    """No simulator is needed."""
    assert far_beats_differ([sys.executable, MODEL, "run"], trace) is None


@pytest.mark.program
@pytest.mark.parametrize("trace", RECORDED, ids=lambda trace: str(trace.stem))
def test_the_far_beats_of_a_recorded_simulation_are_those_of_the_program(trace: Path) -> None:
    """The verified program."""
    assert far_beats_differ([needs_program("tlbridge"), "run", "--sync"], trace) is None


# ---- docs/RTL.md


def head_of(file: str) -> str:
    """The text of a module's parameters and ports, without comments."""
    text = re.sub(r"//.*", "", (RTL / file).read_text())
    end = text.index(");", text.index(") ("))
    return text[:end] + ","


def tables(text: str) -> Dict[str, List[List[str]]]:
    """The rows of each table, by its first heading."""
    found: Dict[str, List[List[str]]] = {}
    for table in re.findall(r"(?:^\|.*\n)+", text, re.M):
        rows = [[cell.strip().strip("`") for cell in re.split(r"(?<!\\)\|", line)[1:-1]] for line in table.splitlines()]
        found[rows[0][0]] = rows[2:]
    return found


def ports_of(file: str) -> Dict[str, Port]:
    """The ports of a module: direction and bits of each name."""
    ports: Dict[str, Port] = {}
    for line in head_of(file).split("\n"):
        match = PORT.match(line.replace("),", ",").rstrip())
        if match:
            direction, top, name = match.groups()
            ports[name] = (direction, bits_of(top))
    return ports


def bits_of(top: Optional[str]) -> str:
    """`[SIZE_BITS-1:0]` has SIZE_BITS bits, `[2:0]` 3; that of no bits is one bit wide."""
    if top is None:
        return "1"
    top = re.sub(r"\((\w+) > 0 \? \1 : 1\)", r"\1", top)
    return str(int(top) + 1) if top.isdigit() else re.sub(r"-1$", "", top)


def ports_in_page(rows: List[List[str]]) -> Dict[str, Port]:
    """The ports that the page names, each with its direction and its bits."""
    ports: Dict[str, Port] = {}
    for side in ("client", "manager"):
        for clock in ("clock", "reset"):
            ports[f"{side}_{clock}"] = ("input", "1")
        for field, bits, channels in [["valid", "1", "A B C D E"], ["ready", "1", "A B C D E"], *rows]:
            for channel in channels.split():
                sends = (CHANNELS[channel] == side) != (field == "ready")
                width = re.sub("BYTES$", f"{side.upper()}_BYTES", bits)
                ports[f"{side}_{channel.lower()}_{field}"] = ("input" if sends else "output", width)
    return ports


def differences(shown: Dict[str, Port], real: Dict[str, Port]) -> List[str]:
    """What the page and the RTL do not say alike."""
    names = sorted({*shown, *real})
    pairs = [(name, shown.get(name), real.get(name)) for name in names]
    return [f"{name}: {one} in {PAGE.name}, {other} in the RTL" for name, one, other in pairs if one != other]


def test_the_parameters_are_those_of_the_page() -> None:
    """With their defaults."""
    shown = {name: ("", default) for name, default, _ in tables(PAGE.read_text()).get("Parameter", [])}
    real = {name: ("", default) for name, default in PARAMETER.findall(head_of("tl_bridge.sv"))}
    assert len(real) > 10
    assert differences(shown, real) == []


def test_the_ports_are_those_of_the_page() -> None:
    """With their directions and bits."""
    assert differences(ports_in_page(tables(PAGE.read_text()).get("Field", [])), ports_of("tl_bridge.sv")) == []


def test_the_rocket_wrapper_has_each_port_under_its_name() -> None:
    """In the style of Rocket Chip."""
    rocket, bridge = ports_of("tl_bridge_rocket.sv"), ports_of("tl_bridge.sv")
    assert [name for name in bridge if rocket.get(rocket_name(name)) != bridge[name]] == []


@pytest.mark.parametrize("wrapper", WRAPPERS)
def test_a_wrapper_joins_each_port(wrapper: str) -> None:
    """By its name."""
    text = (RTL / f"{wrapper}.sv").read_text()
    joined = set(re.findall(r"\.(\w+)\(", text[text.index(") bridge (") :]))
    assert [name for name in ports_of("tl_bridge.sv") if name not in joined] == []


@pytest.mark.parametrize("wrapper", WRAPPERS)
def test_a_wrapper_passes_on_each_parameter(wrapper: str) -> None:
    """Under its own name, or as PASSED_ON says."""
    text = (RTL / f"{wrapper}.sv").read_text()
    own = text[text.index("    tl_bridge #(") : text.index(") bridge (")]
    passed = dict(re.findall(r"\.(\w+)\(([\w']+)\)", own))
    renamed = PASSED_ON if wrapper == "tl_bridge_structs" else {}
    names = dict(PARAMETER.findall(head_of("tl_bridge.sv")))
    wrong = {name: passed.get(name) for name in names if passed.get(name) != renamed.get(name, name)}
    assert wrong == {}


def test_the_rocket_wrapper_has_the_defaults_of_the_bridge() -> None:
    """Of each parameter."""
    real = dict(PARAMETER.findall(head_of("tl_bridge.sv")))
    defaults = dict(PARAMETER.findall(head_of("tl_bridge_rocket.sv")))
    assert {name: defaults.get(name) for name in real} == real


def rocket_name(name: str) -> str:
    """The name of a port of tl_bridge in Rocket Chip's style."""
    side, *rest = name.split("_")
    if len(rest) == 1:
        return f"{'in' if side == 'client' else 'out'}_{rest[0]}"
    channel, field = rest
    place = field if field in ("valid", "ready") else f"bits_{field}"
    return f"auto_{'in' if side == 'client' else 'out'}_{channel}_{place}"


# ---- rtl/tl_bridge.sdc


def modules() -> Dict[str, str]:
    """The text of each module, without comments."""
    return {file.stem: re.sub(r"//.*", "", file.read_text()) for file in RTL.glob("tl_*.sv")}


def find(texts: Dict[str, str], module: str, place: str) -> Union[None, bool, str]:
    """The module of an instance, or True of a register, that `place` names below `module`; None if there is none."""
    first, _, rest = place.partition("/")
    *blocks, name = first.split(".")
    text = texts[module]
    if any(not re.search(rf"begin\s*:\s*{block}\b", text) for block in blocks):
        return None
    if not rest:
        return True if re.search(rf"\b{name}\b[^;]*<=", text) else None
    instance = re.search(rf"\b(tl_\w+)\s*#\((?:[^()]|\([^()]*\))*\)\s*{name}\s*\(", text) or re.search(
        rf"\b(tl_\w+)\s+{name}\s*\(", text
    )
    return find(texts, instance[1], rest) if instance and instance[1] in texts else None


def constraint_names(sdc: str) -> Iterator[str]:
    """Each register that the file names, with its loops done; `$from` and `$to` of the reset agreement are both
    sides.
    """
    text = re.sub(r"^\s*#.*", "", sdc, flags=re.M)
    fifos = [fifo for group in re.findall(r"(?:set|lappend) TL_FIFOS \{?([^}\n]+)", text) for fifo in group.split()]
    for first, last in re.findall(r"^\s*tl_crosses(?:_together)? (\S+) (\S+)$", text, re.M):
        for name in (word for word in (first, last) if "/" in word):
            if name.startswith("$fifo/"):
                yield from (name.replace("$fifo", fifo) for fifo in fifos)
            else:
                yield from (re.sub(r"\$(from|to)\b", side, name) for side in ("client_side", "manager_side"))


def test_the_constraints_name_registers_of_the_rtl() -> None:
    """Each of at least 30."""
    names, texts = sorted({*constraint_names((RTL / "tl_bridge.sdc").read_text())}), modules()
    assert len(names) >= 30
    assert [name for name in names if not find(texts, "tl_bridge", name)] == []


def test_the_constraints_refuse_one_clock_for_both_links() -> None:
    """With an error."""
    text = (RTL / "tl_bridge.sdc").read_text()
    assert re.search(r"if \{\$CLIENT_CLOCK eq \$MANAGER_CLOCK\} \{\s*error", text)


# ---- with tools

FEW = LINT_CORNERS[:4]


@pytest.mark.simulator
@pytest.mark.parametrize("config", [*LINT_CORNERS[:6], *PAIRS[::9], {**PAIRS[27], "SIZE_BITS": 2}], ids=named)
def test_verilator_reads_a_configuration_without_a_warning(config: Config) -> None:
    """Some corners of the parameters, each width, and sizes of which none makes a burst."""
    reads_without_a_warning("verilator", config)


@pytest.mark.simulator
@pytest.mark.parametrize("wrapper, bits", [("tl_bridge_rocket", "ECHO_BITS"), ("tl_bridge_structs", "A_USER_BITS")])
def test_verilator_reads_a_wrapper_without_a_warning(wrapper: str, bits: str) -> None:
    """With one bit of that kind. test_rtl_wrappers.py has other parameters and tools."""
    needs_tools("verilator")
    words: List[Word] = ["verilator", "--lint-only", "-Wall", "--top-module", wrapper, f"-G{bits}=1"]
    succeed_silently([*words, *sorted(RTL.glob("*.sv"))])


@pytest.mark.simulator
@pytest.mark.parametrize("tool", ["iverilog", "yosys"])
@pytest.mark.parametrize("config", FEW, ids=named)
def test_icarus_and_yosys_read_a_configuration_without_a_warning(config: Config, tool: str) -> None:
    """Some corners of the parameters."""
    reads_without_a_warning(tool, config)


@pytest.mark.simulator
@pytest.mark.parametrize("tool", ["verilator", "iverilog", "yosys"])
@pytest.mark.parametrize("config, words", REFUSED[:3], ids=lambda value: value if isinstance(value, str) else "")
def test_a_wrong_value_is_refused_by_a_message_that_names_the_parameter(config: Config, words: str, tool: str) -> None:
    """By each tool."""
    refuses_value(tool, config, words)


@pytest.mark.simulator
def test_a_small_configuration_in_icarus(room: Room, tmp_path: Path) -> None:
    """The far beats are those of the model, with X on all that is not valid, and neither checker sees a fault."""
    config = dict(CLIENT_BYTES=8, MANAGER_BYTES=4, SOURCE_BITS=4)
    assert simulated_in_icarus(config, room.trace(config, 7, 200), sources(), tmp_path) == ""


ZEROS = """tilelink-trace 1 client 8 manager 4
A 0 0 0 00 0000000000000000 01 00000000000000aa 0
D 0 0 0 00 00 0 00000000 0
E 00
E 07
"""


@pytest.mark.simulator
def test_beats_whose_fields_are_all_zero_in_icarus(room: Room, tmp_path: Path) -> None:
    """An AccessAck and a GrantAck: the bench plays them, and what comes after them."""
    trace = tmp_path / "zeros.trace"
    trace.write_text(ZEROS)
    config = dict(CLIENT_BYTES=8, MANAGER_BYTES=4, SOURCE_BITS=4)
    assert simulated_in_icarus(config, (trace, room.answer(trace)), sources(), tmp_path) == ""


@pytest.mark.simulator
def test_a_recorded_simulation_in_icarus(tmp_path: Path) -> None:
    """It has beats of all five channels, and is what the RTL does. test_rtl_long.py has the others."""
    trace = HERE / "recorded" / "8_8_max_outstanding_4.trace"
    config = dict(CLIENT_BYTES=8, MANAGER_BYTES=8, MAX_OUTSTANDING=4)
    far, faults, printed = played_in_icarus(config, trace, sources(), tmp_path)
    assert (faults, far) == (0, trace.with_suffix(".far").read_text()), printed[-600:]


@pytest.mark.simulator
def test_directed_resets_in_icarus(tmp_path: Path) -> None:
    """The cases of resets.sv."""
    needs_tools("iverilog", "vvp")
    built = run(["iverilog", "-g2012", "-s", "resets", "-o", tmp_path / "resets", HERE / "resets.sv", *sources()])
    assert built.returncode == 0, said(built)
    printed = run(["vvp", "-n", tmp_path / "resets"]).stdout
    assert printed.strip().endswith("as expected"), printed
    assert "WRONG" not in printed


STAGES = """module bench;
    logic clock = 0;
    logic [1:0] d = 2'b00, two, three;
    tl_synchronizer #(.BITS(2), .SYNC_STAGES(2)) of_two (.clock(clock), .d(d), .q(two));
    tl_synchronizer #(.BITS(2), .SYNC_STAGES(3)) of_three (.clock(clock), .d(d), .q(three));
    initial begin
        repeat (4) begin #1 clock = 1; #1 clock = 0; end
        d = 2'b10;
        repeat (4) begin #1 clock = 1; #1 clock = 0; $display("%b %b", two, three); end
    end
endmodule
"""


@pytest.mark.simulator
def test_a_synchronizer_has_its_stages(tmp_path: Path) -> None:
    """A bit needs as many edges of the clock as SYNC_STAGES. No simulation of the whole block sees one fewer."""
    needs_tools("iverilog", "vvp")
    (tmp_path / "bench.sv").write_text(STAGES)
    words: List[Word] = ["iverilog", "-g2012", "-o", tmp_path / "bench", tmp_path / "bench.sv"]
    succeed_silently([*words, RTL / "tl_synchronizer.sv"])
    assert run(["vvp", "-n", tmp_path / "bench"]).stdout.split() == ["00", "00", "10", "00", "10", "10", "10", "10"]
