"""What the trials share: wrong datagrams, and ports that know when each datagram arrived."""
import socket
from contextlib import suppress
from typing import Any, Iterator

from lib import ends
from lib.addresses import own_network
from lib.process import Failure

HOST = f"{own_network()}.1"
# The longest life of a client, and how long a server may go on after the time of its trial, in seconds
LIFE, LAST = 900, 1_800
# The most bytes that UDP over IPv4 carries
LONGEST = 65_507


class Stalled(Exception):
    """This host let so much time go by between two steps of a trial that an end may have closed: nothing is known of
    what follows, and the trial begins again."""


def random_bytes(rng, most=40) -> bytes:
    return rng.randbytes(rng.randrange(most + 1))


def spliced(rng, datagram, put) -> bytes:
    """With other bytes in place of one."""
    at = rng.randrange(len(datagram)) if datagram else 0
    return datagram[:at] + put + datagram[at + 1:]


def with_number(rng, datagram) -> bytes:
    number = int.from_bytes(datagram[2:4], "big") + rng.choice([-2, -1, 1, 2, 32_768])
    return datagram[:2] + (number % 65_536).to_bytes(2, "big") + datagram[4:]


MUTATIONS = [
    lambda rng, datagram: datagram[:rng.randrange(len(datagram) + 1)],
    lambda rng, datagram: datagram + random_bytes(rng, rng.choice([1, 4, 600])),
    lambda rng, datagram: spliced(rng, datagram, rng.randbytes(1)),
    lambda rng, datagram: spliced(rng, datagram, b""),
    lambda rng, datagram: bytes([0, rng.randrange(9)]) + datagram[2:],
    with_number,
    lambda rng, _: random_bytes(rng),
]


def mutated(rng, datagram) -> bytes:
    """A datagram that is wrong in some way."""
    for _ in range(rng.choice([1, 1, 1, 2])):
        datagram = rng.choice(MUTATIONS)(rng, datagram)
    return datagram[:LONGEST]


class Port(ends.Port):
    """A port that the system chooses. `seen` has the last datagrams that it sent and received."""

    def __init__(self) -> None:
        super().__init__(HOST)
        self.socket.setsockopt(socket.SOL_SOCKET, ends.SO_TIMESTAMPNS, 1)
        self.socket.setsockopt(socket.SOL_SOCKET, socket.SO_RCVBUF, 1 << 20)
        self.seen = []

    def fileno(self) -> int:
        return self.socket.fileno()

    def send(self, datagram, to) -> None:
        self.seen = [*self.seen[-11:], datagram]
        super().send(datagram, to)

    def all_arrived(self) -> Iterator[Any]:
        """The datagrams that wait, each with its sender and the time of its arrival."""
        with suppress(BlockingIOError):
            while True:
                datagram, when, sender = self.arrived(0)
                self.seen = [*self.seen[-11:], datagram]
                yield datagram, sender, when


def has_least(counts, ways=("reads complete", "writes complete")) -> None:
    """A transfer of each kind is complete at least."""
    if lacking := [way for way in ways if not counts[way]]:
        raise Failure(f"too few {lacking[0]}: {dict(counts)}")
