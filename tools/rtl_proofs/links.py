"""The bridge between two checkers, sv/tl_checker.sv, as one module for a proof.

By assumption the client keeps the rules on its link, and the manager on its own. Each beat that the bridge sends is
asserted to keep them. Both clocks are free. It begins as a reset leaves the bridge: no beat is in it, both sides run,
and no reset comes. No rule reads data, so data is 0.
"""
from __future__ import annotations

from typing import Dict, Iterator, List, Tuple

ADDRESS_BITS, SIZE_BITS, SOURCE_BITS, SINK_BITS = 4, 3, 1, 1
FIELDS = {
    "a": "opcode param size source address mask corrupt",
    "b": "opcode param size source address mask corrupt",
    "c": "opcode param size source address corrupt",
    "d": "opcode param size source sink denied corrupt",
    "e": "sink",
}
SENDER = {"a": "client", "b": "manager", "c": "client", "d": "manager", "e": "client"}
BITS = {
    "opcode": 3,
    "param": 3,
    "size": SIZE_BITS,
    "source": SOURCE_BITS,
    "address": ADDRESS_BITS,
    "corrupt": 1,
    "sink": SINK_BITS,
    "denied": 1,
}
CHECKER = (
    f".ADDRESS_BITS({ADDRESS_BITS}), .SIZE_BITS({SIZE_BITS}), .SOURCE_BITS({SOURCE_BITS}), .SINK_BITS({SINK_BITS})"
)


def bits(channel: str, field: str, width: int) -> int:
    """Returns the bits of a field of a link with beats of `width` bytes."""
    if field == "mask":
        return width
    return 2 if (channel, field) == ("d", "param") else BITS[field]


def names(side: str) -> Iterator[Tuple[str, str, bool]]:
    """Yields each port of a side: its channel, its name after the side, and whether the side drives it."""
    for channel, fields in FIELDS.items():
        sends = SENDER[channel] == side
        for field in fields.split():
            yield channel, field, sends
        yield channel, "valid", sends
        yield channel, "ready", not sends


def module(client: int, manager: int, settings: str = "") -> str:
    """Returns the text of the module. `settings` are more parameters of the bridge."""
    widths = {"client": client, "manager": manager}
    inputs: List[str] = []
    wires: List[str] = []
    joined: Dict[str, List[str]] = {"client": [], "manager": []}
    bridge = []
    for side, width in widths.items():
        for channel, field, drives in names(side):
            name = f"{side}_{channel}_{field}"
            size = 1 if field in ("valid", "ready") else bits(channel, field, width)
            (inputs if drives else wires).append(f"wire [{size - 1}:0] {name}")
            bridge.append(f".{name}({name})")
            joined[side].append(f".{channel}_{field}({name})")
        for channel in "abcd":
            if SENDER[channel] == side:
                bridge.append(f".{side}_{channel}_data({8 * width}'d0)")
    listed = ",\n    ".join(f"input {name}" for name in inputs)
    return f"""module tl_links (
    input wire clock,
    input wire client_clock, input wire client_tick, input wire manager_clock, input wire manager_tick,
    {listed}
);
    {'; '.join(wires)};
    tl_bridge #(.CLIENT_BYTES({client}), .MANAGER_BYTES({manager}), {CHECKER}{settings}) bridge (
        .client_clock(client_clock), .client_reset(1'b0), .manager_clock(manager_clock), .manager_reset(1'b0),
        {', '.join(bridge)});
    tl_checker #(.DATA_BYTES({client}), {CHECKER}, .ASSUME_CLIENT(1'b1)) client (
        .clock(client_clock), .reset(1'b0), {', '.join(joined['client'])});
    tl_checker #(.DATA_BYTES({manager}), {CHECKER}, .ASSUME_MANAGER(1'b1)) manager (
        .clock(manager_clock), .reset(1'b0), {', '.join(joined['manager'])});
{reached(client, manager)}endmodule
"""


# Messages that have to be possible: channel, label, receiver, opcode, size. With a size the whole message has to
# arrive, otherwise one beat
REACHED = (
    ("d", "SeesPutAnswered", "client", 0, None),
    ("a", "SeesBurstOfA", "manager", 0, 3),
    ("d", "SeesGetAnswered", "client", 1, 3),
    ("b", "SeesProbe", "client", 6, None),
    ("b", "SeesBurstOfB", "client", 0, 3),
    ("c", "SeesProbeAck", "manager", 4, None),
    ("c", "SeesReleaseData", "manager", 7, 3),
    ("e", "SeesGrantAck", "manager", None, None),
)


def reached(client: int, manager: int) -> str:
    """Returns an assertion for each of REACHED, which fails when it is reached."""
    text = ""
    for channel, label, side, opcode, size in REACHED:
        link = f"{side}_{channel}"
        meant = (
            [f"{link}_valid", f"{link}_ready"]
            + [f"{link}_opcode == {opcode}"] * (opcode is not None)
            + [f"{link}_size == {size}"] * (size is not None)
        )
        beats = 1 if size is None else max(1, (1 << size) // (client if side == "client" else manager))
        text += f"""    logic [3:0] beats_of_{label} = 0;
    always @(posedge {side}_clock) if ({' && '.join(meant)}) beats_of_{label} <= beats_of_{label} + 1'b1;
    always @* {label}: assert (beats_of_{label} != {beats});
"""
    return text
