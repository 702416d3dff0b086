"""The netlist with bits that arrive late, as yosys makes it, and the late bit itself in Icarus."""

import subprocess
from pathlib import Path
from typing import List

import pytest
from project import SV, needs_tools

from tlbridge.verify.design import Design, DesignError, Port, Source
from tlbridge.verify.skew import skewed

pytestmark = pytest.mark.simulator
TWO = """`include "name.svh"
module `NAME #(parameter N = 1) (input clk_a, clk_b, input [N-1:0] d, output [N-1:0] q);
    reg [N-1:0] a, b, c;
    always @(posedge clk_a) a <= d;
    always @(posedge clk_b) begin b <= a; c <= b; end
    assign q = c `MORE;
endmodule
"""


def test_each_bit_that_crosses_is_late(tmp_path: Path) -> None:
    needs_tools("yosys")
    (tmp_path / "two.sv").write_text(TWO)
    (tmp_path / "inc").mkdir()
    (tmp_path / "inc" / "name.svh").write_text("`define NAME two\n")
    ports = {"d": Port("input", 3)}
    parts = {"N": "3"}, ("MORE=",), (str(tmp_path / "inc"),)
    source = Source("two", (str(tmp_path / "two.sv"),), *parts)
    design, bits, *_ = skewed(Design(source, ports), tmp_path)
    assert bits == 3 and design.ports == ports
    assert design.source == Source("two", (str(tmp_path / "skewed.v"),))
    text = (tmp_path / "skewed.v").read_text()
    assert "module two(" in text and text.count("tl_skew #(") == 3
    for number in range(3):
        assert f".ID(32'd{number})" in text
    (tmp_path / "two.sv").write_text(TWO.replace("assign", "assing"))
    with pytest.raises(DesignError, match="--skew: yosys cannot read the design: .*syntax error") as caught:
        skewed(Design(source, ports), tmp_path)
    assert caught.value.status == 3


def test_there_is_no_yosys(tmp_path: Path, monkeypatch: pytest.MonkeyPatch) -> None:
    monkeypatch.setenv("PATH", str(tmp_path))
    with pytest.raises(DesignError, match="--skew needs yosys, which was not found"):
        skewed(Design(Source("two", ()), {}), tmp_path)


# Each bit changes one ns before an edge. A line has those that the flip-flop sees at an edge.
BENCH = """`timescale 1ps / 1ps
module bench;
    reg clock = 0, d = 0;
    wire [2:0] q;
    tl_skew first (.CLK(clock), .D(d), .Q(q[0]));
    tl_skew #(.ID(1)) second (.CLK(clock), .D(d), .Q(q[1]));
    tl_skew #(.ID(0)) third (.CLK(clock), .D(d), .Q(q[2]));
    integer n;
    initial begin
        #1 $display("%b", q);
        for (n = 0; n < 64; n = n + 1) begin
            #4000 d = !d;
            #1000 clock = 1;
            #1 $display("%b", q ^ {3{d}});
            #2999 clock = 0;
            #2000;
        end
    end
endmodule
"""


@pytest.fixture(scope="module")
def program(tmp_path_factory: pytest.TempPathFactory) -> Path:
    needs_tools("iverilog")
    folder = tmp_path_factory.mktemp("skew")
    (folder / "bench.sv").write_text(BENCH)
    words = ["iverilog", "-g2012", "-o", str(folder / "bench"), str(folder / "bench.sv"), str(SV / "tl_skew.sv")]
    subprocess.run(words, check=True)
    return folder / "bench"


def played(program: Path, *words: str) -> List[str]:
    done = subprocess.run(["vvp", "-n", str(program), *words], capture_output=True, text=True, check=True)
    return done.stdout.split()


def test_a_bit_is_late_at_some_edges(program: Path) -> None:
    first, *lines = played(program)
    assert first == "000" and len(lines) == 64
    for bit in range(3):
        assert 20 < sum(line[bit] == "1" for line in lines) < 44
    assert all(line[0] == line[2] for line in lines) and any(line[1] != line[2] for line in lines)
    assert played(program, "+seed=1", "+skew=1", "+skipped=0") == [first, *lines] != played(program, "+seed=2")
    # a run that begins ten cycles later sees the same
    assert played(program, "+skipped=100000")[1:55] == lines[10:]
    assert set(played(program, "+skew=0")) == {"000"}
