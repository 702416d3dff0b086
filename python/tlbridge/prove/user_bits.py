"""The user and echo bits of a design: signals as `in_a_user`, `auto_in_a_bits_echo_tl_state_size` or the members of a
struct `a_user`.
"""
from __future__ import annotations

import re
from dataclasses import dataclass
from typing import Container, Dict, List, Mapping, Sequence, Tuple

from ..verify.design import Design, Signal, read_ports

CHANNELS = "ACD"  # those whose user bits the watch compares
NAME = re.compile(r"(.*?)([a-eA-E])_(?:(?:bits|payload_fragment|payload|fragment)_)?((?:user|echo)(?:_\w+)?)$", re.I)


@dataclass(frozen=True)
class UserBits:
    """`both` has for each channel the fields that both links have with the same number of bits: the client's and the
    manager's signal. `others` names the ports and members that only one link has, or of another size.
    """

    both: Mapping[str, Tuple[Tuple[Signal, Signal], ...]]
    others: Tuple[str, ...]

    def bits(self, letter: str) -> int:
        return sum(client.bits for client, _ in self.both.get(letter, ()))

    def signals(self) -> List[Signal]:
        """Returns the signals of all fields that are compared."""
        return [signal for pairs in self.both.values() for pair in pairs for signal in pair]


NONE = UserBits({}, ())


def find_user_bits(design: Design, structs: Sequence[str] = (), tied: Container[str] = ()) -> UserBits:
    """Returns the user and echo bits of both links, without those of which an input port is in `tied`: it has a fixed
    value. Errors: as of `read_ports`.
    """
    found: Dict[str, Dict[Tuple[str, str], Signal]] = {side: {} for side in design.links}
    others: List[str] = []
    for name, signal in read_ports(design.source, structs)[1]:
        match = NAME.match(name)
        if not match:
            continue
        letter, field = match[2].upper(), match[3].lower()
        sides = [side for side, link in design.links.items() if _stem(match[1], name != signal.port) == link.stem]
        if sides and letter in CHANNELS and letter in design.channels:
            found[sides[0]][letter, field] = signal
        elif sides:
            others.append(name)
    both: Dict[str, List[Tuple[Signal, Signal]]] = {}
    keys = sorted({key for signals in found.values() for key in signals})
    for key in keys:
        pair = [signals[key] for signals in found.values() if key in signals]
        if any(signal.port in tied for signal in pair):
            others += [signal.port for signal in pair if signal.port not in tied]
        elif len(pair) == 2 and pair[0].bits == pair[1].bits and pair[0].direction != pair[1].direction:
            both.setdefault(key[0], []).append((pair[0], pair[1]))
        else:
            others += [f"{signal.port}" for signal in pair]
    return UserBits({letter: tuple(pairs) for letter, pairs in both.items()}, tuple(others))


def _stem(text: str, is_member: bool) -> str:
    """Returns what the names of a link's signals begin with, as `find_links` does: tl_i and tl_o are one link."""
    return re.sub(r"_(?:i|o|in|out|req|rsp)_$|_?(?:h2d|d2h)(?=_)", "_", text) if is_member else text


def strange_ports(design: Design, found: UserBits) -> List[str]:
    """Returns the ports whose names begin as those of a channel of a link, and that are no field and no user bits."""
    known = {
        signal.port for link in design.links.values() for have in link.channels.values() for signal in have.values()
    }
    known |= {signal.port for signal in found.signals()} | set(found.others)
    known |= {name for link in design.links.values() for name in (link.clock, link.reset)}
    stems = [re.escape(link.stem) for link in design.links.values() if link.stem]
    names = re.compile(rf"(?:{'|'.join(stems)})[a-eA-E]_\w+") if stems else None
    return [name for name in design.ports if names and name not in known and names.fullmatch(name)]
