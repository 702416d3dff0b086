"""A bench in SystemVerilog: the adapter of adapter.sv under the names of a convention, traffic, monitors, and a dump.

With the convention `bridge` the design is rtl/tl_bridge.sv itself.
"""

from typing import Any, Dict, Iterable, Iterator, List, Tuple

HEAD = [("opcode", 3), ("param", 3), ("size", 4), ("source", 6)]
MASKED = HEAD + [("address", 32), ("mask", "W"), ("data", "8W"), ("corrupt", 1)]
CHANNELS: Dict[str, List[Tuple[str, Any]]] = {
    "a": MASKED,
    "b": MASKED,
    "c": [field for field in MASKED if field[0] != "mask"],
    "d": [
        ("opcode", 3),
        ("param", 2),
        ("size", 4),
        ("source", 6),
        ("sink", 4),
        ("denied", 1),
        ("data", "8W"),
        ("corrupt", 1),
    ],
    "e": [("sink", 4)],
}
WIDTHS = {"c": 8, "m": 4}
# The names of the clock and the reset of each link.
CLOCKS = {
    "rocket": ("auto_in_clock", "auto_in_reset", "auto_out_clock", "auto_out_reset"),
    "spinal": ("up_clk", "up_reset", "down_clk", "down_reset"),
    "struct": ("up_clk", "up_reset", "down_clk", "down_reset"),
    "bridge": ("client_clock", "client_reset", "manager_clock", "manager_reset"),
}
LINK_SIZES = ".ADDRESS_BITS(32), .SOURCE_BITS(6), .SINK_BITS(4)"
# The structs of a link in the convention `struct`, by its link and whether it is an input of the design.
STRUCTS = {("c", True): "up_req", ("c", False): "up_rsp", ("m", False): "down_req", ("m", True): "down_rsp"}
OTHER_CLOCKS = ("s_clk", "s_rst", "m_clk", "m_rst")


def signals() -> Iterator[Tuple[str, str, str, int, bool]]:
    """Each signal: its link, channel and field, its bits, and whether it is an input of the design."""
    for side in "cm":
        for channel, fields in CHANNELS.items():
            for field, bits in [("valid", 1), ("ready", 1)] + fields:
                is_input = ((channel in "ace") == (side == "c")) != (field == "ready")
                yield side, channel, field, {"W": WIDTHS[side], "8W": 8 * WIDTHS[side]}.get(bits, bits), is_input


def name_of(convention: str, side: str, channel: str, field: str) -> str:
    held = field in ("valid", "ready")
    if convention == "rocket":
        return f"auto_{'in' if side == 'c' else 'out'}_{channel}_{'' if held else 'bits_'}{field}"
    if convention == "spinal":
        return f"io_{'up' if side == 'c' else 'down'}_{channel}_{'' if held else 'payload_'}{field}"
    if convention in ("pattern", "scope"):
        shown = {"valid": "VLD", "ready": "RDY"}.get(field, field.upper())
        return f"{'Slv' if side == 'c' else 'Mst'}{channel.upper()}__{shown}"
    if convention == "bridge":
        return f"{'client' if side == 'c' else 'manager'}_{channel}_{field}"
    return f"{'s' if side == 'c' else 'm'}_{channel}_{field}"


def declared(kind: str, bits: int, name: str, value: str = "") -> str:
    return f"{kind} {f'[{bits - 1}:0] ' if bits > 1 else ''}{name}{value}"


def connected(names: Iterable[Tuple[str, str]]) -> str:
    return ", ".join(f".{port}({name})" for port, name in names)


def members(side: str, is_input: bool) -> List[Tuple[str, int]]:
    return [
        (f"{channel}_{field}", bits)
        for of, channel, field, bits, inward in signals()
        if (of, inward) == (side, is_input)
    ]


def design(convention: str) -> str:
    """Returns the adapter with the ports of the convention, or nothing if the design is tl_bridge."""
    if convention == "bridge":
        return ""
    clocks = CLOCKS.get(convention, OTHER_CLOCKS)
    inner = list(zip(("cclk", "crst", "mclk", "mrst"), clocks))
    if convention == "struct":
        return struct_design(clocks, inner)
    ports = [f"input {clock}" for clock in clocks]
    ports += [
        declared("input" if is_input else "output", bits, name_of(convention, side, channel, field))
        for side, channel, field, bits, is_input in signals()
    ]
    if convention == "rocket":
        ports.append("input [6:0] auto_in_a_bits_user_amba_prot")
    inner += [
        (f"{side}_{channel}_{field}", name_of(convention, side, channel, field))
        for side, channel, field, _, _ in signals()
    ]
    taps = "".join(tap(convention, side, clocks) for side in "cm") if convention == "scope" else ""
    modules = "".join(tap_module(side) for side in "cm") if convention == "scope" else ""
    return f"{modules}module Dut({', '.join(ports)});\n  adapter inner({connected(inner)});\n{taps}endmodule\n"


def tap_module(side: str) -> str:
    """A scope that has the signals of a link by the names of the channels and fields alone."""
    ports = [declared("input", bits, f"{channel}_{field}") for of, channel, field, bits, _ in signals() if of == side]
    return f"module {side}_tap(input clock, input reset, {', '.join(ports)});\nendmodule\n"


def tap(convention: str, side: str, clocks: Any) -> str:
    ports = [("clock", clocks[0 if side == "c" else 2]), ("reset", clocks[1 if side == "c" else 3])]
    ports += [
        (f"{channel}_{field}", name_of(convention, of, channel, field))
        for of, channel, field, _, _ in signals()
        if of == side
    ]
    return f"  {side}_tap {'up' if side == 'c' else 'down'}({connected(ports)});\n"


def struct_design(clocks: Any, inner: Any) -> str:
    """The adapter with a packed struct for each direction of each link."""
    lines = ["package link_pkg;"]
    lines += [
        f"  typedef struct packed {{ {' '.join(declared('logic', bits, name) + ';' for name, bits in members(*of))} }}"
        f" {name}_t;"
        for of, name in STRUCTS.items()
    ]
    ports = [f"input {clock}" for clock in clocks]
    ports += [f"{'input' if is_input else 'output'} {name}_t {name}" for (_, is_input), name in STRUCTS.items()]
    lines += ["endpackage", f"module Dut import link_pkg::*; ({', '.join(ports)});"]
    for (side, is_input), struct in STRUCTS.items():
        inside = [f"inside_{side}_{name}" for name, _ in members(side, is_input)]
        lines += [f"  {declared('wire', bits, name)};" for name, (_, bits) in zip(inside, members(side, is_input))]
        lines.append(
            f"  assign {{{', '.join(inside)}}} = {struct};"
            if is_input
            else f"  assign {struct} = {{{', '.join(inside)}}};"
        )
    inner += [
        (f"{side}_{channel}_{field}", f"inside_{side}_{channel}_{field}") for side, channel, field, _, _ in signals()
    ]
    return "\n".join([*lines, f"  adapter inner({connected(inner)});", "endmodule\n"])


def instances(convention: str, with_scoreboard: bool) -> List[str]:
    clocks = list(zip(CLOCKS.get(convention, OTHER_CLOCKS), ("cclk", "crst", "mclk", "mrst")))
    names = [
        (name_of(convention, side, channel, field), f"{side}_{channel}_{field}")
        for side, channel, field, _, _ in signals()
    ]
    if convention == "struct":
        names = [
            (struct, f"{{{', '.join(f'{side}_{name}' for name, _ in members(side, is_input))}}}")
            for (side, is_input), struct in STRUCTS.items()
        ]
    if convention == "rocket":
        names.append(("auto_in_a_bits_user_amba_prot", "7'd0"))
    kind = "Dut"
    if convention == "bridge":
        kind = f"tl_bridge #(.CLIENT_BYTES({WIDTHS['c']}), .MANAGER_BYTES({WIDTHS['m']}), {LINK_SIZES})"
        names += [
            (name, "1'b0")
            for name in (
                "client_a_user",
                "client_a_echo",
                "client_c_user",
                "client_c_echo",
                "manager_d_user",
                "manager_d_echo",
            )
        ]
    lines = [f"  {kind} dut({connected(clocks + names)});"]
    for side, link in (("c", "client"), ("m", "manager")):
        ports = [
            (f"{channel}_{field}", f"{side}_{channel}_{field}") for of, channel, field, _, _ in signals() if of == side
        ]
        lines.append(
            f'  tl_trace_monitor #(.FILE("{link}.beats"), .DATA_BYTES({WIDTHS[side]}), {LINK_SIZES}) {link}_monitor('
            f'{connected([("clock", side + "clk"), ("reset", side + "rst"), *ports])});'
        )
    if with_scoreboard:
        ports = [
            (name_of("bridge", side, channel, field), f"{side}_{channel}_{field}")
            for side, channel, field, _, _ in signals()
        ]
        ports += zip(CLOCKS["bridge"], ("cclk", "crst", "mclk", "mrst"))
        lines.append(
            f"  tlbridge_scoreboard #(.CLIENT_BYTES({WIDTHS['c']}), .MANAGER_BYTES({WIDTHS['m']}), {LINK_SIZES},"
            f" .ERROR_AT_END(0)) board({connected(ports)});"
        )
    return lines


# Random traffic of both sides. It is lawful; on idle lanes there is XX, which is x under Icarus.
TRAFFIC = """
  function automatic integer rnd(input integer n); rnd = $unsigned($random) % n; endfunction
  function automatic [7:0] act(input [2:0] ad, input [3:0] sz);
    act = sz > 2 ? 8'hff : ((8'd1 << (1 << sz)) - 8'd1) << ad;
  endfunction
  function automatic [63:0] lanes(input [63:0] d, input [7:0] on);
    integer k;
    for (k = 0; k < 8; k = k + 1) lanes[8*k+:8] = on[k] ? d[8*k+:8] : 8'(XX >> 8*k);
  endfunction
  reg [63:0] busy = 0, pend = 0;
  reg [2:0] pop[0:63]; reg [3:0] psz[0:63], sinks[0:63]; reg [31:0] pad[0:63];
  integer al = 0, cl = 0, dl = 0, dg = 0, ml = 0, done = 0, k, eq = 0;
  reg [2:0] op; reg [3:0] sz; reg [31:0] ad; reg [7:0] mk, dm; reg [5:0] so;
  always @(posedge cclk) if (!crst) begin
    if (!c_a_valid || c_a_ready) begin
      c_a_valid <= 0;
      if (al > 0) begin
        if (rnd(3) != 0) begin
          al = al - 1; c_a_valid <= 1; mk = op == 1 ? 8'($random) : 8'hff;
          c_a_mask <= mk; c_a_data <= lanes({$random, $random}, mk); c_a_corrupt <= rnd(8) == 0;
        end
      end else if (done < 400 && rnd(3) != 0) begin
        so = 6'($random);
        if (!busy[so]) begin
          busy[so] = 1; done = done + 1;
          op = 3'(rnd(7)); if (op == 5) op = 4;
          sz = 4'(rnd(7)); ad = $random & ~((32'd1 << sz) - 1); mk = act(ad[2:0], sz);
          if (op == 1) mk = mk & 8'($random);
          c_a_valid <= 1; c_a_opcode <= op; c_a_size <= sz; c_a_source <= so; c_a_address <= ad; c_a_mask <= mk;
          c_a_param <= op == 2 ? 3'(rnd(5)) : op == 3 ? 3'(rnd(4)) : op == 6 ? 3'(rnd(3)) : 3'd0;
          c_a_data <= op[2] ? XX : lanes({$random, $random}, mk); c_a_corrupt <= !op[2] && rnd(8) == 0;
          al = !op[2] && sz > 3 ? (1 << (sz - 3)) - 1 : 0;
        end
      end
    end
    if (!c_c_valid || c_c_ready) begin
      c_c_valid <= 0;
      if (cl > 0) begin cl = cl - 1; c_c_valid <= 1; c_c_data <= {$random, $random}; c_c_corrupt <= rnd(8) == 0; end
      else if (done < 400 && rnd(5) == 0) begin : new_c
        reg [2:0] o; reg [3:0] z; reg [31:0] a;
        o = 3'(4 + rnd(4)); z = 4'(rnd(6)); a = $random & ~((32'd1 << z) - 1);
        c_c_valid <= 1; c_c_opcode <= o; c_c_param <= 3'(rnd(6)); c_c_size <= z;
        c_c_source <= 6'($random); c_c_address <= a;
        c_c_data <= o[0] ? lanes({$random, $random}, act(a[2:0], z)) : XX; c_c_corrupt <= o[0] && rnd(8) == 0;
        cl = o[0] && z > 3 ? (1 << (z - 3)) - 1 : 0;
      end
    end
    c_b_ready <= rnd(2); c_d_ready <= rnd(3) != 0;
    if (c_d_valid && c_d_ready && c_d_opcode != 6) begin
      if (dg == 0) begin
        busy[c_d_source] = 0;
        if (c_d_opcode[2]) begin sinks[eq & 63] = c_d_sink; eq = eq + 1; end
        dg = c_d_opcode[0] && c_d_size > 3 ? (1 << (c_d_size - 3)) - 1 : 0;
      end else dg = dg - 1;
    end
    if (!c_e_valid || c_e_ready) begin
      c_e_valid <= 0;
      if (eq > 0) begin eq = eq - 1; c_e_valid <= 1; c_e_sink <= sinks[eq & 63]; end
    end
  end
  reg [5:0] ds; reg [2:0] dop;
  always @(posedge mclk) if (!mrst) begin
    m_a_ready <= rnd(3) != 0; m_c_ready <= rnd(2); m_e_ready <= rnd(2);
    if (m_a_valid && m_a_ready) begin
      if (ml == 0) begin
        pend[m_a_source] = 1; pop[m_a_source] = m_a_opcode; psz[m_a_source] = m_a_size; pad[m_a_source] = m_a_address;
        ml = !m_a_opcode[2] && m_a_size > 2 ? (1 << (m_a_size - 2)) - 1 : 0;
      end else ml = ml - 1;
    end
    if (!m_b_valid || m_b_ready) begin
      m_b_valid <= 0;
      if (rnd(20) == 0 && done < 400) begin : new_b
        reg [3:0] z; reg [31:0] a;
        z = 4'(rnd(7)); a = $random & ~((32'd1 << z) - 1);
        m_b_valid <= 1; m_b_opcode <= 3'(6 + rnd(2)); m_b_param <= 3'(rnd(3)); m_b_size <= z;
        m_b_source <= 6'($random); m_b_address <= a;
        m_b_mask <= 4'(z > 1 ? 8'hf : ((8'd1 << (1 << z)) - 8'd1) << a[1:0]); m_b_data <= 32'(XX); m_b_corrupt <= 0;
      end
    end
    if (!m_d_valid || m_d_ready) begin
      m_d_valid <= 0;
      if (dl > 0) begin
        if (rnd(3) != 0) begin dl = dl - 1; m_d_valid <= 1; m_d_data <= $random; m_d_corrupt <= rnd(6) == 0; end
      end
      else begin
        ds = 6'($random);
        for (k = 0; k < 16 && !pend[ds]; k = k + 1) ds = ds + 1;
        if (pend[ds] && rnd(2) == 0) begin
          pend[ds] = 0; dop = pop[ds] < 2 ? 3'd0 : pop[ds] == 6 ? 3'(4 + rnd(2)) : 3'd1;
          m_d_valid <= 1; m_d_opcode <= dop; m_d_param <= dop[2] ? 2'(rnd(3)) : 2'd0;
          m_d_size <= psz[ds]; m_d_source <= ds; m_d_denied <= 0;
          m_d_sink <= dop[2] ? 4'($random) : 4'(XX);
          dm = act(pad[ds][2:0], psz[ds]); if (pad[ds][2] && psz[ds] <= 2) dm = dm >> 4;
          m_d_data <= dop[0] ? 32'(lanes({$random, $random}, dm)) : 32'(XX); m_d_corrupt <= dop[0] && rnd(6) == 0;
          dl = dop[0] && psz[ds] > 2 ? (1 << (psz[ds] - 2)) - 1 : 0;
        end
      end
    end
  end
  always @(posedge cclk) begin noise = noise + 0.25; word = noise > 2 ? "yy" : "z"; end
  integer idle = 0;
  initial begin
    $dumpfile("DUMP"); $dumpvars(0, top);
    #200 crst = 0; mrst = 0;
    while (idle < 400) begin @(posedge cclk); idle = done >= 400 && pend == 0 && busy == 0 ? idle + 1 : 0; end
    $finish;
  end
endmodule"""


def struct_words() -> List[str]:
    """The fields of each struct of the convention `struct`, as the option --struct of tlbridge-trace takes them."""
    return [",".join(f"{name}:{bits}" for name, bits in members(*of)) for of in STRUCTS]


def bench_of(convention: str, simulator: str, dump: str, with_scoreboard: bool) -> str:
    """The bench for Icarus (`icarus`) or Verilator, which writes the file `dump`."""
    lines = [
        design(convention),
        "`timescale 1ns/1ps\nmodule top;",
        (
            "  reg cclk = 0, mclk = 0, crst = 1, mrst = 1;\n  always #5 cclk = !cclk;\n  always #7 mclk = !mclk;\n"
            '  real noise = 0.5; string word = "x"; event unused;'
        ),
    ]
    for side, channel, field, bits, is_input in signals():
        value = " = 0" if is_input and field in ("valid", "ready") else ""
        lines.append(f"  {declared('reg' if is_input else 'wire', bits, f'{side}_{channel}_{field}', value)};")
    lines += instances(convention, with_scoreboard)
    lines.append(
        TRAFFIC.replace("XX", "64'bx" if simulator == "icarus" else "64'h0123456789abcdef").replace("DUMP", dump)
    )
    return "\n".join(lines) + "\n"
