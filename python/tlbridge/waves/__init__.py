"""From a waveform to a trace: finds the TileLink links of a VCD or FST file, and writes or judges their beats.

    python3 -m tlbridge.waves FILE

is the command tlbridge-trace. `vcd` reads a file as a stream of changes, `links` finds the links by the names of their
signals, and `sampling` samples them at the rising edges of their clocks. `options` has the command line, `chosen` the
links that it names, `tables` the list and --all, `trace` what is written of one link or two, and `remarks` what a
reader has to know. It uses the standard library only.
"""
