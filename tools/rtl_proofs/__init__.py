"""The proofs of rtl/tl_bridge.sv against the layout of messages, by the harness and the watch of tlbridge-prove.

`rows` lists what is proved; `run` builds the models and prints the table.
"""
