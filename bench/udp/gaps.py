#!/usr/bin/env python3
"""The longest gaps between two blocks of many gets beside a put: gaps.py FOLDER [ROUNDS [SERVER..]]

FOLDER is on the disk that is to be measured. SERVER is the path of a tftpd of this repository, `in.tftpd` or `atftpd`;
without one it is bin/tftpd. 16 gets in blocks of 1428 read one file again and again until a put of 90 MB in blocks of
1428 is over, each beside nothing else and each round with a server of its own. A line for each server: the longest gap
in milliseconds of each round, how many gaps of its last one were longer than 5 ms, and the seconds of its put.
"""
import os
import selectors
import signal
import socket
import subprocess
import sys
import tempfile
import time
from pathlib import Path

GETS = 16
SIZE = 1428
PUT_BYTES = 90_000_000
GET_BYTES = 4_000_000
OPTIONS = b"blksize\0%d\0" % SIZE
LIMIT = 120


def command(server, root, port) -> list[str]:
    """The command line of a server at this port of the loopback address."""
    name = os.path.basename(server)
    if name == "in.tftpd":
        return [server, "--listen", "--foreground", "--create", "--permissive", "--user", "root", "--secure", root,
                "--address", f"127.0.0.1:{port}"]
    if name == "atftpd":
        return [server, "--daemon", "--no-fork", "--user", "root", "--group", "root", "--bind-address", "127.0.0.1",
                "--port", str(port), root]
    return [server, root, "--listen", f"127.0.0.1:{port}", "--cap", "64", "--forever"]


def name_of(server, name) -> bytes:
    """A file's name in a request: in.tftpd asks for absolute ones."""
    return b"/" + name if os.path.basename(server) == "in.tftpd" else name


def put(address, name) -> None:
    """Writes PUT_BYTES to the server, block by block."""
    port = socket.socket(socket.AF_INET, socket.SOCK_DGRAM)
    port.bind(("127.0.0.1", 0))
    port.settimeout(1)
    last, peer = b"\0\2" + name + b"\0octet\0" + OPTIONS, address
    blocks, rest = divmod(PUT_BYTES, SIZE)
    number, tries = 0, 0
    port.sendto(last, peer)
    while tries < 30:
        try:
            answer, sender = port.recvfrom(2048)
        except socket.timeout:
            tries += 1
            port.sendto(last, peer)
            continue
        if answer[:2] == b"\0\5":
            sys.exit(f"put: {answer}")
        acked = 0 if answer[:2] == b"\0\6" else int.from_bytes(answer[2:4], "big")
        if acked != number:
            continue
        if number == blocks + 1:
            return
        peer, number = sender, number + 1
        last = b"\0\3" + number.to_bytes(2, "big") + b"\7" * (SIZE if number <= blocks else rest)
        port.sendto(last, peer)
    sys.exit("put: no answer")


class Get:
    """A get that begins again whenever it has read the whole file."""

    def __init__(self, address, name) -> None:
        self.address, self.request = address, b"\0\1" + name + b"\0octet\0" + OPTIONS
        self.port = None

    def begin(self) -> None:
        self.port = socket.socket(socket.AF_INET, socket.SOCK_DGRAM)
        self.port.bind(("127.0.0.1", 0))
        self.port.setblocking(False)
        self.number, self.at = 0, None
        self.last, self.peer = self.request, self.address
        self.port.sendto(self.last, self.peer)
        self.sent_at = time.monotonic()

    def receive(self, gaps) -> bool:
        """Takes a datagram. Returns whether the file is whole."""
        block, sender = self.port.recvfrom(2048)
        if block[:2] == b"\0\5":
            sys.exit(f"get: {block}")
        number = 0 if block[:2] == b"\0\6" else int.from_bytes(block[2:4], "big")
        if number != self.number:
            return False
        now = time.monotonic()
        if self.at is not None:
            gaps.append(now - self.at)
        self.at, self.number, self.peer = now, number + 1, sender
        self.last = b"\0\4" + number.to_bytes(2, "big")
        self.port.sendto(self.last, self.peer)
        self.sent_at = now
        return number > 0 and len(block) < SIZE + 4


def measured(server, root, port) -> tuple[list[float], float]:
    """The gaps of gets until a put is over, and its seconds."""
    address = ("127.0.0.1", port)
    process = subprocess.Popen(command(server, root, port), stdout=subprocess.DEVNULL)
    try:
        time.sleep(0.5)
        began = time.monotonic()
        child = os.fork()
        if child == 0:
            put(address, name_of(server, b"put"))
            os._exit(0)
        ready, gets, gaps = selectors.DefaultSelector(), [Get(address, name_of(server, b"get")) for _ in range(GETS)], []
        for get in gets:
            get.begin()
            ready.register(get.port, selectors.EVENT_READ, get)
        while os.waitpid(child, os.WNOHANG)[0] == 0:
            if time.monotonic() - began > LIMIT:
                os.kill(child, signal.SIGKILL)
                sys.exit("gaps: the put has not ended")
            for key, _ in ready.select(0.1):
                get = key.data
                if get.receive(gaps):
                    ready.unregister(get.port)
                    get.port.close()
                    get.begin()
                    ready.register(get.port, selectors.EVENT_READ, get)
            for get in gets:
                if time.monotonic() - get.sent_at > 2:
                    get.port.sendto(get.last, get.peer)
                    get.sent_at = time.monotonic()
        return gaps, time.monotonic() - began
    finally:
        process.kill()
        process.wait()


def main() -> None:
    if len(sys.argv) < 2:
        sys.exit(__doc__)
    rounds = int(sys.argv[2]) if len(sys.argv) > 2 else 3
    servers = sys.argv[3:] or [str(Path(__file__).resolve().parents[2] / "bin" / "tftpd")]
    found = {server: [] for server in servers}
    for at in range(rounds):
        for server in servers:
            with tempfile.TemporaryDirectory(dir=sys.argv[1]) as root:
                os.chmod(root, 0o777)
                Path(root, "get").write_bytes(os.urandom(GET_BYTES))
                os.chmod(Path(root, "get"), 0o644)
                if os.path.basename(server) != "tftpd" and "tftpd" in os.path.basename(server):
                    Path(root, "put").touch()
                    os.chmod(Path(root, "put"), 0o666)
                os.sync()
                found[server].append(measured(server, root, 16969 + at))
                if Path(root, "put").stat().st_size != PUT_BYTES:
                    sys.exit(f"gaps: {server} has not stored the put")
    for server, rows in found.items():
        longest = " ".join(f"{1000 * max(gaps):.1f}" for gaps, _ in rows)
        gaps, seconds = rows[-1]
        print(f"{server}: longest {longest} ms; {sum(gap > 0.005 for gap in gaps)} of {len(gaps)} over 5 ms; "
              f"{seconds:.1f} s")


if __name__ == "__main__":
    main()
