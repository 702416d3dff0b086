#!/usr/bin/env python3
"""readable.py FILE ..     prints the adapter's files of examples/verilator as yosys reads them, with the planted bug
`PLANTED

yosys has no packages, assignment patterns, `return`, casts to a type, or $bits of a type. So the package's names are
written outside of modules,
and those of the bugs begin with BUG_. A pattern becomes a concatenation, since it names all fields in their order. The
bits of a type become a
number. yosys refuses anything else that it does not know.
"""
import re
import sys

text = re.sub(r"//.*", "", "\n".join(open(file).read() for file in sys.argv[1:]))
text = re.sub(r"\bpackage \w+;|\bendpackage\b|\bimport \w+::\*;", "", text)

bits = {name: "(" + high + " + 1)" for high, name in re.findall(r"typedef logic \[(.*?):0\] (\w+);", text)}
for fields, name in re.findall(r"typedef struct packed \{(.*?)\} (\w+);", text, re.S):
    kinds = re.findall(r"(\w+)\s*(?:\[(\d+):0\])?\s+\w+;", fields)
    bits[name] = "(" + " + ".join(bits[kind] if kind in bits else str(int(high or 0) + 1) for kind, high in kinds) + ")"
for name, number in bits.items():
    text = text.replace(f"$bits({name})", number)
    text = re.sub(rf"\b{name}'\(", f"{number}'(", text)

for bug in re.findall(r"typedef enum int \{(.*?)\}", text, re.S)[0].split(","):
    text = re.sub(rf"\b{bug.strip()}\b", "BUG_" + bug.strip(), text)
text = re.sub(r"bug_t planted = \w+;", "localparam int planted = `PLANTED;", text)
text = re.sub(r"'\{(.*?)\n\s*\}", lambda found: "{" + re.sub(r"\b\w+: ", "", found.group(1)) + "}", text, flags=re.S)
text = re.sub(
    r"(function automatic [^(]*?(\w+)\([^)]*\);)(.*?)endfunction",
    lambda found: found.group(1) + found.group(3).replace("return ", found.group(2) + " = ") + "endfunction",
    text,
    flags=re.S,
)
print(text)
