"""Exchanges that tests of several files make."""
import os
import random
import re
from contextlib import suppress
from pathlib import Path

from lib.ends import Port, expect


def random_bytes(length: int) -> bytes:
    return random.Random(length).randbytes(length)


# how many retries are counted, and their interval in seconds; one of a few intervals is hardly longer however busy
# the host is, and one that is half as long again is none of them
COUNTED, INTERVAL, HARDLY_LONGER = 5, 1, 1.25


def times_of(port: Port, datagram: bytes) -> list[float]:
    """When this datagram came to a port, in seconds by the clock of the kernel. Nothing else is to come."""
    times = list[float]()
    with suppress(BlockingIOError):
        while True:
            found, when, _ = port.arrived(0)
            expect(found, datagram, "what came")
            times.append(when)
    return times


def were_counted(times: list[float], what: str) -> None:
    """So many copies came, each an interval after the one before. (The first wait has two parts.)"""
    expect(len(times), COUNTED + 1, f"how often {what} came")
    waits = [after - before for before, after in zip(times, times[1:])]
    is_right = min(waits) >= INTERVAL - 0.01 and min(waits[1:]) < INTERVAL * HARDLY_LONGER
    expect(is_right, True, f"whether {what} is sent again after a second each, not after {waits}")


def has_checks(pid: int) -> bool:
    """Whether `rt try` compiled a program with its checks on (AddressSanitizer): then it is slow, and keeps what it
    frees."""
    return "\n7fff7000-" in "\n" + Path(f"/proc/{pid}/maps").read_text()[:4_000]


def usage_of(pid: int) -> tuple[int, int]:
    """A process's descriptors, and the KB of its data: all that it asked for, and never what is shared."""
    text = Path(f"/proc/{pid}/status").read_text()
    return len(os.listdir(f"/proc/{pid}/fd")), int(re.findall(r"(?m)^VmData:\s*(\d+) kB", text)[0])


MODES: dict[str, list[str]] = {"octet": [], "netascii": ["--netascii"]}
# The timeout of transfers of which many run at once, in seconds: once it is agreed, with the most retries, an end
# waits for its turn almost two minutes. A server goes on for two timeouts after a put
UNHURRIED = 10


def length_on_wire(content: bytes, mode: str) -> int:
    """The bytes of the DATA of a file: in netascii LF is CR LF, and CR is CR NUL (RFC 764)."""
    return len(content) + (mode == "netascii") * (content.count(b"\n") + content.count(b"\r"))
