#!/usr/bin/env python3
"""Writes a capture of gets by some clients at once, the same each time: capture.py FILE [PACKETS]

A get of 100 blocks of 512 bytes has 201 packets, and one in 200 DATA is lost and sent again.
"""
import random
import struct
import sys
from pathlib import Path
from typing import Iterator

sys.path.insert(0, str(Path(__file__).resolve().parents[2] / "tools"))

from lib import frames, packets  # noqa: E402

SERVER, CLIENTS = "192.0.2.1", 16
BLOCKS, SIZE = 100, 512
# the microseconds from a packet to the next
APART = 100


def get(rng, client, ports) -> Iterator[bytes]:
    """The frames of one get."""
    def sent(payload, port) -> bytes:
        return frames.link(frames.ETHERNET, frames.ipv4(client, SERVER, frames.udp(ports[0], port, payload)))

    def told(payload) -> bytes:
        return frames.link(frames.ETHERNET, frames.ipv4(SERVER, client, frames.udp(ports[1], ports[0], payload)))

    yield sent(packets.rrq(f"boot/{client}/{ports[0]}.img"), 69)
    for number in range(1, BLOCKS + 1):
        block = told(packets.data(number, rng.randbytes(SIZE if number < BLOCKS else SIZE - 1)))
        yield block
        if rng.randrange(200) == 0:
            yield block
        yield sent(packets.ack(number), ports[1])


def client_frames(number) -> Iterator[bytes]:
    """The frames of one client: gets, one after another."""
    rng = random.Random(number)
    for port in range(20_000, 60_000):
        yield from get(rng, f"192.0.2.{10 + number}", (port, 60_000 - port // 2 - number))


def write(path, count) -> None:
    """Writes a capture of so many packets."""
    clients = [client_frames(number) for number in range(CLIENTS)]
    with open(path, "wb") as file:
        file.write(frames.classic([], frames.ETHERNET))
        for index in range(count):
            frame = next(clients[index % CLIENTS])
            at = 1_764_000_000_000_000 + index * APART
            file.write(struct.pack("<IIII", at // 1_000_000, at % 1_000_000, len(frame), len(frame)) + frame)


def main() -> None:
    """Writes the capture that is asked for."""
    write(sys.argv[1], int(sys.argv[2]) if len(sys.argv) > 2 else 1_000_000)


if __name__ == "__main__":
    main()
