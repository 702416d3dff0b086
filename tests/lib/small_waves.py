"""Small waveforms that are written by hand, for the tests of tlbridge-trace."""

from typing import Any, Dict, List, Optional, Tuple, Union

Field = Tuple[str, int]

A: List[Field] = [
    ("valid", 1),
    ("ready", 1),
    ("opcode", 3),
    ("param", 3),
    ("size", 4),
    ("source", 4),
    ("address", 32),
    ("mask", 0),
    ("data", -1),
    ("corrupt", 1),
]
D: List[Field] = [
    ("valid", 1),
    ("ready", 1),
    ("opcode", 3),
    ("param", 2),
    ("size", 4),
    ("source", 4),
    ("sink", 3),
    ("denied", 1),
    ("data", -1),
    ("corrupt", 1),
]
C = [field for field in A if field[0] != "mask"]
E: List[Field] = [("valid", 1), ("ready", 1), ("sink", 3)]
CHANNELS = {"a": A, "b": A, "c": C, "d": D, "e": E}
LOW = "A 4 0 2 07 0000000000001004 f0 0000000000000000 0"


class Wave:
    """A VCD under construction."""

    def __init__(
        self,
        style: str = "plain",
        channels: str = "ad",
        client: int = 8,
        manager: int = 4,
        scope: str = "top",
        two_clocks: bool = False,
    ) -> None:
        self.vars: List[str] = []
        self.codes: Dict[Any, Tuple[str, int]] = {}
        self.body: List[str] = []
        self.scope = scope
        self.style = style
        for side in ("in", "out") if two_clocks else ("",):
            self.add(f"{side}_clock".lstrip("_"), 1)
            self.add(f"{side}_reset".lstrip("_"), 1)
        for side, width in (("in", client), ("out", manager)):
            for channel in channels:
                for field, bits in CHANNELS[channel]:
                    bits = {0: width, -1: 8 * width}.get(bits, bits)
                    self.add(self.name(side, channel, field), bits, (side, channel, field))

    def name(self, side: str, channel: str, field: str) -> str:
        held = field in ("valid", "ready")
        if self.style == "rocket":
            return f"auto_{side}_{channel}_{'' if held else 'bits_'}{field}"
        if self.style == "spinal":
            return f"io_{side}_{channel}_{'' if held else 'payload_'}{field}"
        if self.style == "odd":
            return f"{side.upper()}{channel.upper()}CH{field.upper()}"
        return f"{side}_{channel}_{field}"

    def add(
        self,
        name: str,
        bits: int,
        key: Any = None,
        code: Optional[str] = None,
        spelled: Optional[str] = None,
        kind: str = "wire",
    ) -> str:
        code = code or self.code(len(self.codes))
        self.codes[key or name] = (code, bits)
        self.vars.append(f"$var {kind} {bits} {code} {spelled or name + (f' [{bits - 1}:0]' if bits > 1 else '')} $end")
        return code

    @staticmethod
    def code(number: int) -> str:
        return chr(33 + number) if number < 94 else chr(33 + number // 94 - 1) + chr(33 + number % 94)

    def change(self, key: Any, value: Union[int, str]) -> None:
        code, bits = self.codes[key]
        text = value if isinstance(value, str) else f"{value:b}"
        self.body.append(f"{text}{code}" if bits == 1 else f"b{text} {code}")

    def time(self, time: int, **values: Union[int, str]) -> None:
        self.body.append(f"#{time}")
        for key, value in values.items():
            self.change(key, value)

    def beat(
        self, side: str, channel: str, valid: Union[int, str] = 1, ready: Union[int, str] = 1, **fields: Union[int, str]
    ) -> None:
        for field, value in {"valid": valid, "ready": ready, **fields}.items():
            self.change((side, channel, field), value)

    def begin(self, reset: Union[int, str] = 0) -> None:
        self.body += ["#0", "$dumpvars"]
        for key in self.codes:
            self.change(key, reset if "reset" in str(key) else 0)
        self.body.append("$end")

    def text(self, header: str = "$timescale 1ns $end") -> str:
        return (
            "\n".join(
                [
                    header,
                    f"$scope module {self.scope} $end",
                    *self.vars,
                    "$upscope $end",
                    "$enddefinitions $end",
                    *self.body,
                ]
            )
            + "\n"
        )


def simple(style: str = "plain", **more: Any) -> Wave:
    """A Get at 0x1004 of source 7 and its response, both sides, at edges 10 and 20."""
    wave = Wave(style, **more)
    wave.begin()
    get = dict(opcode=4, size=2, source=7, address=0x1004)
    wave.time(5)
    wave.beat("in", "a", **get, mask=0xF0, data="x" * 64)
    wave.beat("out", "a", **get, mask=0xF, data="z")
    wave.time(10, clock=1)
    wave.beat("in", "a", valid=0)
    wave.beat("out", "a", valid=0)
    wave.time(15, clock=0)
    answer = dict(opcode=1, size=2, source=7)
    wave.beat("in", "d", **answer, data=0xDDCCBBAA << 32 | 0x99)
    wave.beat("out", "d", **answer, data=0xDDCCBBAA)
    wave.time(20, clock=1)
    wave.beat("in", "d", valid=0)
    wave.beat("out", "d", valid=0)
    wave.time(25, clock=0)
    wave.time(30, clock=1)
    return wave
