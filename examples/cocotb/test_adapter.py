"""A cocotb test of the adapter of examples/start: a host, a device, and the scoreboard on both links.

It was not run under a real cocotb (docs/COCOTB.md). tests/python runs `Scoreboard.watch` with a substitute for its
triggers.
"""
from typing import Any, Callable

import cocotb
from cocotb.clock import Clock
from cocotb.triggers import RisingEdge
from tlbridge import Scoreboard

# opcode (0 PutFullData, 1 PutPartialData, 4 Get), size, address, mask, data
REQUESTS = [
    (0, 2, 0x1004, 0xF0, 0x4433221100000000),
    (4, 2, 0x1004, 0xF0, 0),
    (1, 1, 0x100A, 0x08, 0x00000000BB000000),
    (4, 2, 0x1008, 0x0F, 0),
]


async def send_requests(dut: Any) -> None:
    """The host: one request in each cycle, with its number as its source."""
    for source, (opcode, size, address, mask, data) in enumerate(REQUESTS):
        dut.up_a_valid.value = 1
        dut.up_a_opcode.value = opcode
        dut.up_a_size.value = size
        dut.up_a_source.value = source
        dut.up_a_address.value = address
        dut.up_a_mask.value = mask
        dut.up_a_data.value = data
        await RisingEdge(dut.clock)
    dut.up_a_valid.value = 0


async def send_responses(dut: Any) -> None:
    """The device: it answers each request two cycles later."""
    for _ in range(2):
        await RisingEdge(dut.clock)
    for source, (opcode, size, _, _, _) in enumerate(REQUESTS):
        dut.down_d_valid.value = 1
        dut.down_d_opcode.value = 1 if opcode == 4 else 0  # AccessAckData, AccessAck
        dut.down_d_size.value = size
        dut.down_d_source.value = source
        dut.down_d_error.value = 0
        dut.down_d_data.value = 0x03020100
        await RisingEdge(dut.clock)
    dut.down_d_valid.value = 0


class Constant:
    """A signal that the link does not have: it reads as 0."""

    value = "0"


def signals_of(dut: Any, link: str) -> Callable[[str, str], Any]:
    """Finds the signal of a channel and a field on a link, "up" or "down"."""
    names = {"denied": "error"}
    return lambda channel, field: getattr(dut, f"{link}_{channel}_{names.get(field, field)}", Constant)


@cocotb.test()
async def every_beat_is_as_expected(dut: Any) -> None:
    cocotb.start_soon(Clock(dut.clock, 10, "ns").start())
    for signal in (dut.up_a_valid, dut.down_d_valid):
        signal.value = 0
    for signal in (dut.reset, dut.up_d_ready, dut.down_a_ready):
        signal.value = 1
    await RisingEdge(dut.clock)
    dut.reset.value = 0

    board = Scoreboard(client=8, manager=4, on_message=dut._log.error)
    cocotb.start_soon(board.watch("client", dut.clock, signals_of(dut, "up"), dut.reset))
    cocotb.start_soon(board.watch("manager", dut.clock, signals_of(dut, "down"), dut.reset))
    responses = cocotb.start_soon(send_responses(dut))
    await send_requests(dut)
    await responses
    await RisingEdge(dut.clock)
    assert board.end() == 0
