"""Which parts the watch has, by its parameters. yosys reads it without the checker."""

import re

import pytest
from commands import run, said
from project import SV, needs_tools


@pytest.mark.simulator
@pytest.mark.parametrize(
    "neighbours, all_sources, missing", ((0, 0, ""), (0, 1, ""), (1, 0, "tl_checker_channel"), (1, 1, "tl_checker"))
)
def test_the_checkers_of_both_neighbours(neighbours: int, all_sources: int, missing: str) -> None:
    """They are there if the rules of all sources are assumed. Otherwise there are those of the watched channels, and
    without assumptions the watch needs no other file.
    """
    needs_tools("yosys")
    sets = f"chparam -set ASSUME_NEIGHBOURS {neighbours} -set ALL_SOURCES {all_sources} tl_bridge_watch"
    read = f"read_verilog -sv -formal -DFORMAL {SV / 'tl_bridge_watch.sv'}"
    done = run(["yosys", "-q", "-p", f"{read}; {sets}; hierarchy -check -top tl_bridge_watch"])
    assert (done.returncode != 0) == bool(missing), said(done)
    assert re.findall(r"Module `\\(\w+)' referenced in module", done.stdout + done.stderr) == [missing] * bool(missing)
