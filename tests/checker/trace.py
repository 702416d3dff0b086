#!/usr/bin/env python3
"""trace.py MODEL COUNTEREXAMPLE TOP     prints a bench that gives TOP the inputs of a counterexample of abc, one cycle
after the other

MODEL is the binary AIGER file that yosys wrote with its symbols, COUNTEREXAMPLE what `write_cex -n` of abc wrote.
"""
import re
import sys
from typing import Dict, Tuple

model, counterexample, top = sys.argv[1:]
symbols = re.findall(rb"^i(\d+) (\w+)(?:\[(\d+)\])?$", open(model, "rb").read(), re.M)
inputs: Dict[str, Dict[int, int]] = {}
values: Dict[Tuple[int, int], str] = {}
frames = 0
for number, name, bit in symbols:
    inputs.setdefault(name.decode(), {})[int(bit or 0)] = int(number)
for number, frame, value in re.findall(r"^pi0*(\d+)@(\d+)=(\d)", open(counterexample).read(), re.M):
    values[int(number), int(frame)] = value
    frames = max(frames, int(frame) + 1)
inputs = {name: bits for name, bits in inputs.items() if name != "clock"}

print("module shown;\n    logic clock = 0;")
for name, bits in inputs.items():
    print(f"    logic [{max(bits)}:0] {name};")
print(
    f"    {top} top (.clock(clock)", *(f".{name}({name})" for name in inputs), sep=", ", end=");\n    initial begin\n"
)
for frame in range(frames):
    for name, bits in inputs.items():
        print(
            f"        {name} = {max(bits) + 1}'b"
            + "".join(values.get((bits.get(bit, -1), frame), "0") for bit in range(max(bits), -1, -1))
            + ";"
        )
    print("        #5 clock = 1;\n        #5 clock = 0;")
print("        $finish;\n    end\nendmodule")
