"""The lanes that sv/tl_trace_monitor.sv gives to a response whose request is offered, and not yet accepted."""

import subprocess
from pathlib import Path
from typing import List

import pytest
from project import SV, needs_tools

pytestmark = pytest.mark.simulator
# A cycle: valid, ready, source and address of a Get of 1 byte on A; then valid and source of its response, whose lanes
# are all aa.
BENCH = """
module bench;
    reg clock = 0, reset = 1, av = 0, ar = 0, dv = 0;
    reg [1:0] as = 0, ds = 0;
    reg [7:0] aa = 0;
    always #5 clock = !clock;
    task cycle(input v, input r, input [1:0] s, input [7:0] a, input w, input [1:0] t);
        begin av = v; ar = r; as = s; aa = a; dv = w; ds = t; @(posedge clock); #1; end
    endtask
    tl_trace_monitor #(.FILE("m.beats"), .DATA_BYTES(4), .ADDRESS_BITS(8), .SIZE_BITS(2), .SOURCE_BITS(2),
        .SINK_BITS(1)) m (
        .clock(clock), .reset(reset), .a_valid(av), .a_ready(ar), .a_opcode(3'd4), .a_param(3'd0), .a_size(2'd0),
            .a_source(as), .a_address(aa),
        .a_mask(4'd1 << aa[1:0]), .a_data(32'd0), .a_corrupt(1'b0), .b_valid(1'b0), .b_ready(1'b0), .b_opcode(3'd0),
            .b_param(3'd0), .b_size(2'd0),
        .b_source(2'd0), .b_address(8'd0), .b_mask(4'd0), .b_data(32'd0), .b_corrupt(1'b0), .c_valid(1'b0),
            .c_ready(1'b0), .c_opcode(3'd0),
        .c_param(3'd0), .c_size(2'd0), .c_source(2'd0), .c_address(8'd0), .c_data(32'd0), .c_corrupt(1'b0),
            .d_valid(dv), .d_ready(1'b1),
        .d_opcode(3'd1), .d_param(2'd0), .d_size(2'd0), .d_source(ds), .d_sink(1'b0), .d_denied(1'b0),
            .d_data(32'haaaaaaaa), .d_corrupt(1'b0),
        .e_valid(1'b0), .e_ready(1'b0), .e_sink(1'b0));
    initial begin
        repeat (2) @(posedge clock);
        #1 reset = 0;
        CYCLES
        $finish;
    end
endmodule
"""
LANE = {0: "000000aa", 1: "0000aa00", 2: "00aa0000", 3: "aa000000"}


def lanes(folder: Path, *cycles: str) -> List[str]:
    """The data of the responses, for cycles such as `1 0 2 09 1 2`."""
    needs_tools("iverilog")
    calls = []
    for cycle in cycles:
        v, r, s, a, w, t = cycle.split()
        calls.append(f"cycle(1'b{v}, 1'b{r}, 2'd{s}, 8'h{a}, 1'b{w}, 2'd{t});")
    (folder / "bench.sv").write_text(BENCH.replace("CYCLES", "\n        ".join(calls)))
    words = ["iverilog", "-g2012", "-s", "bench", "-o", "bench", "bench.sv", str(SV / "tl_trace_monitor.sv")]
    subprocess.run(words, cwd=folder, check=True)
    subprocess.run(["vvp", "-n", "bench"], cwd=folder, check=True, capture_output=True)
    return [line.split()[7] for line in (folder / "m.beats").read_text().splitlines() if line[0] == "D"]


def test_a_response_after_its_request(tmp_path: Path) -> None:
    assert lanes(tmp_path, "1 1 2 09 0 0", "0 0 0 00 1 2") == [LANE[1]]


def test_a_response_in_the_cycle_of_its_request(tmp_path: Path) -> None:
    assert lanes(tmp_path, "1 1 2 09 0 0", "0 0 0 00 1 2", "1 1 2 0b 1 2") == [LANE[1], LANE[3]]


def test_a_response_while_its_request_is_offered(tmp_path: Path) -> None:
    cycles = ("1 1 2 09 0 0", "0 0 0 00 1 2", "1 0 2 0a 1 2", "1 1 2 0a 0 0", "1 0 2 0b 1 2", "1 1 2 0b 0 0")
    assert lanes(tmp_path, *cycles) == [LANE[1], LANE[2], LANE[3]]


def test_the_next_request_waits_again(tmp_path: Path) -> None:
    """After a request that was answered while it was offered, the next one of its source gets its own response, also if
    a third one is offered."""
    cycles = ("1 0 2 0a 1 2", "1 1 2 0a 0 0", "1 1 2 09 0 0", "1 0 1 03 1 2", "1 1 1 03 0 0", "0 0 0 00 1 1")
    assert lanes(tmp_path, *cycles) == [LANE[2], LANE[1], LANE[3]]


def test_an_offer_of_another_source_is_not_answered(tmp_path: Path) -> None:
    assert lanes(tmp_path, "1 1 2 09 0 0", "1 0 1 03 1 2", "1 1 1 03 1 1") == [LANE[1], LANE[3]]
