"""tlbridge-verify: plays random lawful TileLink traffic through a design, judges it, and shrinks a run that fails.

`design.py` reads the ports of a design and finds its links. It needs none of the other modules.
"""
