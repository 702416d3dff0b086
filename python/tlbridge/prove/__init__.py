"""tlbridge-prove: proves that a block between two TileLink links delivers the layout of the beats that it is sent, or
shows beats for which it does not.

`options` is the command line. `harness` writes the design between its free neighbours and the watch
(sv/tl_bridge_watch.sv) as one module, and `model` turns it into AIGER by yosys. `netlist`, `clocks` and `sizes` refuse
a design that yosys reads as another one. `session` has design, harness and models of a run. `covers` shows that the
assumptions exclude nothing. `search` asks about each assertion by `engine`, which runs yosys-abc. `failure` writes a
counterexample, which `replay` plays in Icarus. `report` has what is printed. `projects` writes the same harness for
other tools. `command` runs all this.
"""
