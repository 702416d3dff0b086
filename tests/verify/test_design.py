"""The links that the reader of ports finds in small designs, and what it says of those that it cannot use."""

import re
import subprocess
from pathlib import Path
from typing import Dict, Tuple

import pytest
from project import EXAMPLES, RTL, needs_tools

from tlbridge.verify.design import Choice, Design, DesignError, Signal, Source, described, read_design, read_file_list
from tlbridge.verify.plain import plain
from tlbridge.verify.skew import skewed

pytestmark = pytest.mark.simulator
A = "opcode:3 size:2 source:2 address:16 mask:{lanes} data:{bits}"
D = "opcode:3 size:2 source:2 denied:1 data:{bits}"


def ports(
    stem: str, receives: bool, width: int = 4, infix: str = "", names: Tuple[str, str] = ("address", "denied")
) -> str:
    """The ports of a link with A and D, as a module has them."""
    said = []
    for letter, fields, is_input in (("a", A, receives), ("d", D, not receives)):
        way, back = ("input", "output") if is_input else ("output", "input")
        said += [f"{way} {stem}{letter}_valid", f"{back} {stem}{letter}_ready"]
        for field in fields.format(lanes=width, bits=8 * width).split():
            name, bits = field.split(":")
            name = {"address": names[0], "denied": names[1]}.get(name, name)
            said.append(f"{way} [{int(bits) - 1}:0] {stem}{letter}_{infix}{name}")
    return ", ".join(said)


def module(folder: Path, text: str) -> Source:
    needs_tools("verilator")
    path = folder / "design.sv"
    path.write_text(text)
    return Source("dut", (str(path),))


def bridge(folder: Path, clocks: str = "input clock, input reset", infix: str = "") -> Source:
    return module(
        folder,
        (
            f"module dut({clocks}, {ports('up_', True, 8, infix=infix)}, {ports('down_', False, 4, infix=infix)});"
            " endmodule"
        ),
    )


def error_of(source: Source, choice: Choice = Choice()) -> Tuple[str, int]:
    with pytest.raises(DesignError) as caught:
        read_design(source, choice)
    return str(caught.value), caught.value.status


def test_plain_prefixes(tmp_path: Path) -> None:
    design = read_design(bridge(tmp_path))
    assert design.client and design.manager and design.is_bridge
    assert [design.client.name, design.client.width, design.manager.name, design.manager.width] == ["up", 8, "down", 4]
    assert design.client.channels["A"]["data"] == Signal("up_a_data", 0, 64, "input")
    assert [design.channels, design.level, design.has_two_clocks] == ["AD", "UL", False]
    assert "client link up: channels A D, 8 bytes" in described(design)[1]


@pytest.mark.parametrize("infix", ["bits_", "payload_", "payload_fragment_"])
def test_names_of_rocket_chip_and_spinalhdl(tmp_path: Path, infix: str) -> None:
    design = read_design(bridge(tmp_path, infix=infix))
    assert design.client and design.client.channels["A"]["mask"].port == f"up_a_{infix}mask"


def test_other_words_for_address_and_denied(tmp_path: Path) -> None:
    source = module(tmp_path, f"module dut(input clk, {ports('', True, names=('addr', 'error'))}); endmodule")
    design = read_design(source)
    assert design.client and not design.manager and not design.is_bridge
    assert design.client.channels["D"]["denied"].port == "d_error"
    assert [design.client.reset, design.client.name] == ["", "(no prefix)"]


STRUCTS = """
package p;
    typedef struct packed {logic [3:0] extra; logic parity;} user_t;
    typedef struct packed {logic a_valid; logic [2:0] a_opcode; logic [1:0] a_size; logic [7:0] a_source;
        logic [31:0] a_address;
        logic [3:0] a_mask; logic [31:0] a_data; user_t a_user; logic d_ready;} tl_h2d_t;
    typedef struct packed {logic d_valid; logic [2:0] d_opcode; logic [1:0] d_size; logic [7:0] d_source;
        logic [31:0] d_data; logic d_error;
        logic a_ready;} tl_d2h_t;
endpackage
module dut(input clk_h_i, input rst_h_ni, input clk_d_i, input rst_d_ni, input p::tl_h2d_t tl_h_i,
    output p::tl_d2h_t tl_h_o,
    output p::tl_h2d_t tl_d_o, input p::tl_d2h_t tl_d_i);
endmodule
"""


def test_packed_structs(tmp_path: Path) -> None:
    design = read_design(module(tmp_path, STRUCTS))
    assert design.client and design.manager
    assert design.client.channels["A"]["valid"] == Signal("tl_h_i", 87, 1, "input")
    assert design.client.channels["A"]["ready"] == Signal("tl_h_o", 0, 1, "output")
    assert [design.client.clock, design.manager.clock, design.has_two_clocks] == ["clk_h_i", "clk_d_i", True]
    assert [design.manager.reset, design.manager.reset_is_low] == ["rst_d_ni", True]


def test_structs_of_which_only_the_layout_is_known() -> None:
    needs_tools("verilator")
    request = "a_valid:1,a_opcode:3,a_param:3,a_size:2,a_source:8,a_address:32,a_mask:4,a_data:32,a_user:23,d_ready:1"
    response = "d_valid:1,d_opcode:3,d_param:3,d_size:2,d_source:8,d_sink:1,d_data:32,d_user:14,d_error:1,a_ready:1"
    source = Source("tl_bridge_structs", tuple(str(path) for path in sorted(RTL.glob("tl_*.sv"))))
    design = read_design(source, Choice(structs=(request, response)))
    assert design.client and design.client.width == 4 and design.client.clock == "clk_h_i"
    said, status = error_of(source, Choice(structs=(request + ",more:1",)))
    assert "no port of tl_bridge_structs has the 110 bits" in said and status == 2


def test_clocks_of_their_own(tmp_path: Path) -> None:
    design = read_design(
        bridge(tmp_path, "input up_clk, input up_rst_n, input down_clk, input down_rst_n, input scan, input [3:0] id")
    )
    assert design.client and design.manager
    assert [design.client.clock, design.client.reset, design.client.reset_is_low] == ["up_clk", "up_rst_n", True]
    assert design.tied == {"scan": "0", "id": "0"}


def test_two_clocks_that_fit(tmp_path: Path) -> None:
    source = bridge(tmp_path, "input fast_clk, input slow_clk, input rst")
    assert error_of(source) == (
        "more than one clock fits the link up: fast_clk, slow_clk. Add --client-clock fast_clk, or another of them",
        2,
    )
    design = read_design(
        source, Choice(clocks={"client": "fast_clk", "manager": "fast_clk"}, resets={"client": "!rst"})
    )
    assert design.client and design.client.reset_is_low and not design.has_two_clocks


def test_two_links_that_fit(tmp_path: Path) -> None:
    source = module(
        tmp_path, f"module dut(input clk, {ports('p_', True)}, {ports('q_', True)}, {ports('r_', False)}); endmodule"
    )
    assert error_of(source) == ("more than one client link: p, q. Add --client p, or another of them", 2)
    design = read_design(source, Choice(client="q"))
    assert design.client and design.client.name == "q" and design.others == ["p"] and design.tied["p_a_valid"] == "0"
    assert "has the prefix z. Links found: p, q, r" in error_of(source, Choice(client="z"))[0]


REFUSED: Dict[str, Tuple[str, str, int]] = {
    "nothing": ("module dut(input clk, input x); endmodule", "no TileLink link found among the 2 ports of dut", 2),
    "syntax": ("module dut(input clk; endmodule", "the design does not compile: ", 3),
    "top": ("module other(input clk); endmodule", "the files have no module dut", 2),
    "inout": ("module dut(inout x); endmodule", "the port x is inout", 2),
    "array": ("module dut(input x [4]); endmodule", "the port x is an unpacked array", 2),
    "clock": (
        f"module dut({ports('p_', True)}); endmodule",
        "no clock found for the link p, and the design has no input for one: write a wrapper module with a clock",
        2,
    ),
    "clock of another name": (
        f"module dut(input tick, input [1:0] mode, input go, {ports('p_', True)}); endmodule",
        "no clock found for the link p. Add --client-clock NAME, with one of tick, go",
        2,
    ),
    "clocks": (
        f"module dut(input clk_a, input clk_b, {ports('p_', True)}); endmodule",
        "more than one clock fits the link p: clk_a, clk_b. Add --client-clock clk_a",
        2,
    ),
    "width": (
        f"module dut(input clk, {ports('p_', True, 3)}); endmodule",
        "has 24 bits: a width in bytes is one of",
        2,
    ),
    "source": (
        "module dut(input clk, " + ports("p_", True).replace("[1:0] p_a_source", "[0:0] x") + "); endmodule",
        "channel A of the link p has no source",
        2,
    ),
    "wide source": (
        "module dut(input clk, " + ports("p_", True).replace("[1:0] p_a_source", "[15:0] p_a_source") + "); endmodule",
        "the source of the link p has 16 bits, and this tool plays at most 12",
        2,
    ),
    "direction": (
        "module dut(input clk, " + ports("p_", True).replace("output p_a_ready", "input p_a_ready") + "); endmodule",
        "p_a_ready of the link p has the wrong direction",
        2,
    ),
}


@pytest.mark.parametrize("case", REFUSED)
def test_what_is_refused(tmp_path: Path, case: str) -> None:
    text, words, status = REFUSED[case]
    said, came = error_of(module(tmp_path, text))
    assert words in said and came == status and "\n" not in said


def test_what_is_named_and_not_there(tmp_path: Path) -> None:
    source = bridge(tmp_path)
    assert (
        "the design has no input of one bit of that name; it has clock, reset"
        in error_of(source, Choice(clocks={"client": "clk"}))[0]
    )
    assert "--tie mode: the design has no such input left over" in error_of(source, Choice(ties={"mode": "1"}))[0]
    assert "no parameter WIDTH" in error_of(Source(source.top, source.files, {"WIDTH": "3"}))[0]
    assert "there is no file missing.sv" in error_of(Source("dut", ("missing.sv",)))[0]
    assert f"{tmp_path} is a folder: name the files" in error_of(Source("dut", (str(tmp_path),)))[0]
    assert "is VHDL" in error_of(Source("dut", ("design.vhd",)))[0]


def test_parameters_and_macros(tmp_path: Path) -> None:
    text = (
        f"`include \"wide.svh\"\nmodule dut #(parameter int W = 4) (`TICK, {ports('p_', True)}, input [W-1:0] more);"
        " endmodule"
    )
    (tmp_path / "inc").mkdir()
    (tmp_path / "inc" / "wide.svh").write_text("`define TICK input `CLOCK\n")
    source = module(tmp_path, text)
    design: Design = read_design(
        Source("dut", source.files, {"W": "9"}, defines=("CLOCK=my_clk",), includes=(str(tmp_path / "inc"),))
    )
    assert design.ports["more"].bits == 9 and design.client and design.client.clock == "my_clk"


def test_file_lists(tmp_path: Path, monkeypatch: pytest.MonkeyPatch) -> None:
    monkeypatch.setenv("HERE", "x")
    (tmp_path / "sub").mkdir()
    (tmp_path / "sub" / "in.f").write_text("b.sv -GN=1\n")
    (tmp_path / "all.f").write_text(
        "// first\n$HERE/a.sv # note\n+incdir+i+j -I k\n+define+P+Q=2 -DR\n/* c.sv\n*/ -F sub/in.f -y lib\n"
    )
    monkeypatch.chdir(tmp_path)
    found = read_file_list(Path("all.f"))
    assert found == Source("", ("x/a.sv", "sub/b.sv"), {"N": "1"}, ("P", "Q=2", "R"), ("i", "j", "k"), ("lib",))
    (tmp_path / "loop.f").write_text("-f loop.f\n")
    (tmp_path / "odd.f").write_text("--assert a.sv\n")
    for name, words in (("loop.f", "contains itself"), ("odd.f", "has --assert"), ("none.f", "cannot be read")):
        with pytest.raises(DesignError, match=words):
            read_file_list(Path(name))


def test_the_designs_of_this_project() -> None:
    needs_tools("verilator")
    design = read_design(Source("adapter", (str(EXAMPLES / "start" / "adapter.sv"),)))
    assert design.client and design.manager and [design.client.name, design.manager.name] == ["up", "down"]
    files = tuple(str(path) for path in sorted(RTL.glob("tl_*.sv")))
    design = read_design(Source("tl_bridge_rocket", files))
    assert design.client and design.level == "C" and design.has_two_clocks and design.client.name == "auto_in"


# ---- what yosys gets


def dense(text: str) -> str:
    """A text without spaces."""
    return "".join(text.split())


HEAD = "function automatic logic [3:0] f(input logic [3:0] x);"
FORMS = {
    "return": (f"{HEAD} return x + 1; endfunction : f", f"{HEAD} f = x + 1 ; endfunction"),
    "an early one": (
        f"{HEAD} if (x < 2) return x; x = x + 1; return 3; endfunction",
        f"{HEAD} if (x < 2) begin f = x ; end else begin x = x + 1; f = 3 ; end endfunction",
    ),
    "one in each branch": (
        f"{HEAD} if (x == 1) begin return 2; end else return 3; endfunction",
        f"{HEAD} if (x == 1) begin begin f = 2 ; end end else begin f = 3 ; end endfunction",
    ),
    "a case without a default": (
        f"{HEAD} case (x) 1, 2: return 7; 3: x = 4; endcase return x; endfunction",
        f"{HEAD} case (x) 1, 2 : begin f = 7 ; end 3 : begin x = 4; f = x ; end default : begin f = x ; end endcase"
        " endfunction",
    ),
    "a loop before it": (
        f"{HEAD} for (int i = 0; i < 4; i++) x = x + i; return x; endfunction",
        f"{HEAD} for (int i = 0; i < 4; i++) begin x = x + i; end f = x ; endfunction",
    ),
    "one in a loop stays": (
        f"{HEAD} for (int i = 0; i < 4; i++) if (x[i]) return i; return 0; endfunction",
        f"{HEAD} for (int i = 0; i < 4; i++) if (x[i]) return i; return 0; endfunction",
    ),
    "no value": (
        "function automatic void f(input logic x); y = x; endfunction",
        "task automatic f(input logic x); y = x; endtask",
    ),
    "a first value": (
        f"{HEAD} logic [3:0] k = x + 1; return k; endfunction",
        f"{HEAD} logic [3:0] k ; k = x + 1; f = k ; endfunction",
    ),
    "a local variable": (
        "always_comb begin automatic int i; automatic logic t = d; q = t; end",
        "always_comb begin int i; logic t ; t = d; q = t; end",
    ),
    "a package": (
        "package p; localparam N = 3; endpackage : p\n"
        "module m import p::*; (input a); import p::N; assign b = p::N + N;",
        "localparam N = 3; module m (input a); assign b = N + N;",
    ),
    "a foreign package stays": ("module m import q::*; (input a);", "module m import q::*; (input a);"),
    "inside": ("assign y = r.op[1] inside {4'd1, N};", "assign y = (r.op[1] == (4'd1 ) || r.op[1] == ( N ) );"),
    "inside a range stays": ("assign y = x inside {[1:3]};", "assign y = x inside {[1:3]};"),
    "an array whose indices choose stays": (
        "module m; logic [1:0][3:0] a; assign b = a[c ? 1 : 0]; endmodule",
        "module m; logic [1:0][3:0] a; assign b = a[c ? 1 : 0]; endmodule",
    ),
    "a pattern of zeros": ("s = '{default: '0}; t = '{default: 1};", "s = '0; t = '{default: 1};"),
    "unique if": (
        "always_comb unique if (a) b = 1; unique case (a) 1: b = 0; endcase",
        "always_comb if (a) b = 1;" " unique case (a) 1: b = 0; endcase",
    ),
    "assertions": (
        'x: assert property (@(posedge c) disable iff (r) a |-> b) else $error("no"); assert (a); cover property (b);'
        " property p; a; endproperty b = 1;",
        "assert (a); b = 1;",
    ),
    "text and comments": (
        '/* return */ s = "return // x"; // import p::*;\n c <= d >>> 2;',
        '/* return */ s = "return // x"; // import p::*;\n c <= d >>> 2;',
    ),
}


@pytest.mark.parametrize("case", FORMS)
def test_forms_that_yosys_does_not_read(case: str) -> None:
    """Each is replaced by one that means the same, in the copy that yosys gets, or stays as it is."""
    before, after = FORMS[case]
    assert dense(plain(before)) == dense(after)


EARLY = """package p; localparam N = 3;
  function automatic logic [3:0] twice(input logic [3:0] x); return x + x; endfunction
endpackage
module dut import p::*; (input logic [3:0] d, output logic [3:0] q);
  function automatic logic [3:0] f(input logic [3:0] x, input logic z);
    logic [3:0] k = 4'd1;
    if (x == 4'd2) return 4'd9;
    if (x inside {4'd3, 4'd4}) begin k = k + 4'd1; if (z) return k; k = k + 4'd2; end
    unique case (x) 4'd5, 4'd6: return 4'd1; 4'd7: k = 4'd7; default: if (z) return 4'd2; else k = k + 4'd3; endcase
    for (int i = 0; i < 2; i++) k = k + 4'd1;
    return k + p::N;
  endfunction
  assign q = f(twice(d) >> 1, d[0]);
endmodule
"""


ARRAYS = """module dut #(parameter W = 4) (input logic [3:0] d, output logic [3:0] q);
  logic [1:0][W-1:0] s, u;
  logic [2:0][1:0] v;
  assign s[0] = d;
  assign s[1] = {s[0][2:0], s[0][3]};
  always_comb begin for (int i = 0; i < 2; i++) u[i] = s[1 - i]; end
  assign v = {2'd1, 2'd2, 2'd3};
  assign q = u[d[0]] ^ {2'd0, v[d[1]]};
endmodule
"""
# By text, the value of q for each value of d from 0 on.
COMPUTED = {"functions": (EARLY, [9, 2, 9, 2, 12, 1, 1, 12, 9]), "arrays": (ARRAYS, [3, 2, 6, 1, 11, 6, 14, 5])}


@pytest.mark.parametrize("case", COMPUTED)
def test_rewritten_text_computes_the_same(tmp_path: Path, case: str) -> None:
    needs_tools("yosys")
    text, values = COMPUTED[case]
    (tmp_path / "plain.sv").write_text(plain(text))
    steps = "".join(f"eval -set d {d} -show q; " for d in range(len(values)))
    words = f"read_verilog -sv {tmp_path / 'plain.sv'}; hierarchy -auto-top; proc; flatten; opt; {steps}"
    done = subprocess.run(["yosys", "-p", words], capture_output=True, text=True, check=True)
    assert [int(bits, 2) for bits in re.findall(r"Eval result: \\q = 4'([01]+)", done.stdout)] == values


CROSSING = """module dut(input clock, reset, fast, input [7:0] d, output reg [7:0] q, output y);
  function automatic logic [3:0] gray(input logic [3:0] b); return b ^ (b >> 1); endfunction
  reg [3:0] g, g1, g2, h1; reg [15:0] word, wide;
  always @(posedge clock) begin g <= gray(d[3:0]); word <= {d, d}; end
  always @(posedge fast) begin g1 <= g; g2 <= g1; h1 <= {3'd0, g[0]}; wide <= word; q <= {g2, 4'd0} ^ {4'd0, READ}
    ^ wide[15:8]; end
  assign y = LONE;
endmodule
"""


def test_flip_flops_alone_between_two_clocks(tmp_path: Path) -> None:
    """A bit that crosses is read after two of them. Words that are wider than a pointer are taken for data."""
    needs_tools("yosys", "verilator")
    for name, lone_bit, read, expected in (
        ("two", "g2[0]", "g2", []),
        ("one", "h1[0]", "g2", ["h1"]),
        ("pointer", "g2[0]", "g1", ["g1"]),
    ):
        path = tmp_path / f"{name}.sv"
        path.write_text(CROSSING.replace("LONE", lone_bit).replace("READ", read))
        design = Design(Source("dut", (str(path),)), {})
        _, bits, single = skewed(design, tmp_path)
        assert single == expected and bits >= 4 + 16, name


def test_what_yosys_cannot_read_at_all(tmp_path: Path) -> None:
    needs_tools("yosys", "verilator")
    (tmp_path / "design.sv").write_text("module dut(input a, output b); assign b = {<<{a}}; endmodule\n")
    with pytest.raises(DesignError, match="yosys cannot read the design: .*design.sv:1: ERROR"):
        skewed(Design(Source("dut", (str(tmp_path / "design.sv"),)), {}), tmp_path)
