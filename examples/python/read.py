#!/usr/bin/env python3
"""A Get of 16 bytes from a client of 8 lanes to a manager of 4, and its response, by the package tlbridge."""
from tlbridge import Beat, Bridge, RefusedError

with Bridge(client=8, manager=4) as bridge:
    response = Beat(opcode=1, size=4, source=0x107, data=bytes(4))
    try:
        bridge.offer("D", response)
    except RefusedError as refused:
        print("a response before its request:", refused.status.name)
    bridge.offer("A", Beat(opcode=4, size=4, source=0x107, address=0x80, mask=0xFF))
    for beat in bridge.receive_all("A"):
        print(f"the manager gets opcode {beat.opcode}, mask {beat.mask:x}")
    for first in range(0, 16, 4):
        bridge.offer("D", Beat(opcode=1, size=4, source=0x107, data=bytes(range(first, first + 4))))
    for beat in bridge.receive_all("D"):
        print("the client gets", beat.data[::-1].hex())
