"""A test's ports and its ends of transfers, which send and receive the packets of lib/packets.py."""
import os
import socket
import struct
import sys
import time
from contextlib import suppress
from pathlib import Path
from typing import Any, Optional

from lib.packets import ack, data, error, oack, rrq, wrq

# (the tests have the packets from here, too)
__all__ = ["ack", "data", "error", "oack", "rrq", "wrq"]

# The longest wait for a datagram or a line, in seconds; TESTS_PATIENCE in the environment is less, as where a fault
# is to be noticed
PATIENCE = int(os.environ.get("TESTS_PATIENCE", "60"))
# The options of a transfer in which nothing is sent again however slow the host is, since no timeout is due
PATIENT = {"timeout": 255}
# Datagrams come with the time of the kernel, of `asm/socket.h`
SO_TIMESTAMPNS = 35

TEXTS = ["file not found", "access violation", "disk full", "illegal operation", "unknown transfer id", "file exists"]
FILE_NOT_FOUND, ACCESS_VIOLATION, DISK_FULL, ILLEGAL, UNKNOWN, FILE_EXISTS = map(error, range(1, 7), TEXTS)
BUSY, FILE_CHANGED, TOO_LARGE, STOP = map(error, [0] * 4, ["server busy", "file changed", "file too large", "stop"])


def expect(found: Any, expected: Any, what: str) -> None:
    """Ends the test unless the two are equal."""
    if found != expected:
        raise AssertionError(f"{what}: {shortened(found)}; expected {shortened(expected)}")


def shortened(value: Any) -> str:
    text = repr(value)
    return text if len(text) <= 300 else f"{text[:140]}..{text[-140:]} ({len(text)} characters)"


def wait_until(holds: Any, what: str) -> float:
    """Waits until a condition holds, and returns the seconds that it took."""
    begun = time.monotonic()
    while not holds():
        expect(time.monotonic() < begun + PATIENCE, True, f"whether it comes within {PATIENCE} seconds: {what}")
        time.sleep(0.005)
    return time.monotonic() - begun


def bytes_of(length: int) -> bytes:
    """Test bytes of this length, among them CR, LF and NUL."""
    return (bytes(range(251)) * (length // 251 + 1))[:length]


class Port:
    """A UDP port of an address, which the system chooses for 0."""

    def __init__(self, address: str, number: int = 0) -> None:
        self.socket = socket.socket(socket.AF_INET, socket.SOCK_DGRAM)
        self.socket.bind((address, number))
        self.address = self.socket.getsockname()
        self.word = f"{address}:{self.address[1]}"

    def close(self) -> None:
        self.socket.close()

    def send(self, datagram: bytes, to: tuple[str, int]) -> None:
        self.socket.sendto(datagram, to)

    def receive(self, other_than: Optional[bytes] = None) -> tuple[bytes, tuple[str, int]]:
        """The next datagram and its sender. A copy of `other_than` is skipped."""
        end = time.monotonic() + PATIENCE
        while True:
            self.socket.settimeout(max(end - time.monotonic(), 0.001))
            datagram, sender = self.socket.recvfrom(65_536)
            if datagram != other_than:
                return datagram, sender

    def opened(self, expected: bytes) -> "End":
        """Receives the answer to a request, which is this. Returns the end of the transfer."""
        answer, transfer = self.receive()
        expect(answer, expected, "the answer")
        return End(self, transfer, answer)

    def waiting(self) -> list[tuple[bytes, tuple[str, int]]]:
        """The datagrams that wait at this port, each with its sender."""
        found = []
        self.socket.setblocking(False)
        with suppress(BlockingIOError):
            while True:
                found.append(self.socket.recvfrom(65_536))
        return found

    def arrived(self, patience: float = PATIENCE) -> tuple[bytes, float, tuple[str, int]]:
        """The next datagram, when it came in seconds by the clock of the kernel, and from where; of a port that is
        timed."""
        self.socket.settimeout(patience)
        found, notes, _, sender = self.socket.recvmsg(65_536, 64)
        seconds, nanos = struct.unpack("qq", notes[0][2])
        return found, seconds + nanos / 1e9, sender

    def is_timed(self) -> "Port":
        """From now on its datagrams have the time at which they came. The system begins to note times a moment after
        it is asked to: what came before has the time at which it is read."""
        self.socket.setsockopt(socket.SOL_SOCKET, SO_TIMESTAMPNS, 1)

        def is_noted() -> bool:
            self.send(b"noted?", self.address)
            time.sleep(0.02)
            return time.time() - self.arrived()[1] > 0.01

        wait_until(is_noted, "a system that notes when a datagram came")
        return self


def free_ports(count: int) -> int:
    """The first of so many ports in a row that no program has at any address, and that the system chooses for none.
    None is bound to see whether it is free: what another test starts meanwhile would have it, too, until it executes
    its program, and the port would be in use."""
    lowest, highest = map(int, Path("/proc/sys/net/ipv4/ip_local_port_range").read_text().split())
    taken = {int(line.split()[1].split(":")[1], 16) for line in Path("/proc/net/udp").read_text().splitlines()[1:]}
    below, above = range(4_001, lowest - count, count), range(highest + 1, 65_536 - count, count)
    # where the system may choose any port, one that it seldom chooses: it takes those with the parity of its first
    # alike
    places = [*below, *above] or range(4_001, 65_536 - count, count)
    return next(first for first in places if taken.isdisjoint(range(first, first + count)))


def is_bound(word: str, process: Any) -> None:
    """Waits until a program has bound this UDP port, as long as its process runs."""
    host, port = word.split(":")
    entry = f" {int.from_bytes(socket.inet_aton(host), sys.byteorder):08X}:{int(port):04X} "

    def has_it() -> bool:
        expect(process.poll(), None, f"the status of a program that is to bind {word}")
        return entry in Path("/proc/net/udp").read_text()

    wait_until(has_it, f"{word} is bound")


class End:
    """The test's end of a transfer: a port, the endpoint of its peer, and what the peer sent last. Where the host is
    slow that is sent again at any time, and such a copy is skipped; the tests of retransmissions count them."""

    def __init__(self, port: Port, peer: tuple[str, int], newest: Optional[bytes] = None) -> None:
        self.port, self.peer, self.newest = port, peer, newest

    def send(self, datagram: bytes) -> None:
        self.port.send(datagram, self.peer)

    def answer_to(self, datagram: bytes, expected: Optional[bytes] = None) -> bytes:
        """Sends a datagram, and returns the answer of the peer."""
        self.send(datagram)
        self.newest, sender = self.port.receive(None if self.newest == expected else self.newest)
        expect(sender, self.peer, "the sender of the answer")
        return self.newest

    def is_answered(self, datagram: bytes, expected: bytes) -> None:
        """The peer answers a datagram by this one."""
        expect(self.answer_to(datagram, expected), expected, "the answer")

    def gets(self, content: bytes, size: int = 512) -> None:
        """Acknowledges what opened the transfer, and each block of a file that it receives."""
        for number in range(len(content) // size + 1):
            self.is_answered(ack(number), data(number + 1, content[number * size:(number + 1) * size]))
        self.send(ack(len(content) // size + 1))

    def gives(self, *blocks: bytes, first: int = 1) -> None:
        """Sends blocks from this number on, each of which is acknowledged."""
        for number, block in enumerate(blocks, first):
            self.is_answered(data(number, block), ack(number))
