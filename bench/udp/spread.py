#!/usr/bin/env python3
"""How requests spread over the servers of one tftpd, over loopback: spread.py TFTPD [SERVERS [TURNS]]

In each turn 64 clients ask for a file, each from a port of its own: all at once, and then one each millisecond, and each
two. Their transfers stay open until the last client has an answer. Prints how often each server's share was within a
quarter of an even one, the least, the median and the greatest of the largest shares, the least share, and the time to the
first answer: its median, its 99th percentile and the longest.
"""
import os
import selectors
import socket
import statistics
import subprocess
import sys
import tempfile
import time
from collections import Counter
from pathlib import Path

HOST, FILE, CLIENTS, PATIENCE = "127.0.0.1", b"x" * 1000, 64, 30
# between two turns, in seconds: servers save time for leaving requests to the others
REST = 0.2
# the ports of the transfers, divided among the servers, which so are known by them
FIRST, PORTS = 6_000, 4_096


class Turn:
    """The clients of a turn: when each asked, and when and from which port it was answered."""

    def __init__(self, address, seconds_between) -> None:
        self.asked, self.waited, self.peers = {}, [], {}
        ready = selectors.DefaultSelector()
        clients = [socket.socket(socket.AF_INET, socket.SOCK_DGRAM) for _ in range(CLIENTS)]
        begun = time.monotonic()
        for at, client in enumerate(clients):
            while time.monotonic() < begun + at * seconds_between:
                self.take(ready, begun + at * seconds_between - time.monotonic())
            ready.register(client, selectors.EVENT_READ)
            self.asked[client] = time.monotonic()
            client.sendto(b"\0\1a\0octet\0", address)
        while len(self.peers) < CLIENTS:
            if time.monotonic() > begun + PATIENCE:
                sys.exit(f"spread: {len(self.peers)} of {CLIENTS} clients have an answer")
            self.take(ready, 1)
        for client, peer in self.peers.items():
            client.sendto(b"\0\5\0\0\0", peer)
            client.close()
        time.sleep(REST)

    def take(self, ready, seconds) -> None:
        """Takes the blocks that arrive within so many seconds."""
        for key, _ in ready.select(max(seconds, 0)):
            client = key.fileobj
            block, peer = client.recvfrom(600)
            self.waited.append(time.monotonic() - self.asked[client])
            if block != b"\0\3\0\1" + FILE[:512]:
                sys.exit(f"spread: a client had {block!r}")
            self.peers[client] = peer
            ready.unregister(client)

    def shares(self, servers) -> list[int]:
        found = Counter((port - FIRST) * servers // PORTS for _, port in self.peers.values())
        return [found[server] for server in range(servers)]


def show(title, turns, servers) -> None:
    even = CLIENTS / servers
    shares = [turn.shares(servers) for turn in turns]
    fair = sum(all(0.75 * even <= share <= 1.25 * even for share in each) for each in shares)
    most, least = sorted(max(each) for each in shares), min(map(min, shares))
    waited = sorted(1e3 * wait for turn in turns for wait in turn.waited)
    print(f"{title}: {100 * fair / len(turns):.0f} % of {len(turns)} turns within {0.75 * even:.0f} to {1.25 * even:.0f}; the "
          f"largest share {most[0]}, {statistics.median(most):.0f}, {most[-1]}, the least {least}; the first answer after "
          f"{statistics.median(waited):.2f}, {waited[len(waited) * 99 // 100]:.2f}, {waited[-1]:.2f} ms", flush=True)


def main() -> None:
    tftpd = os.path.abspath(sys.argv[1])
    servers, turns = (int(word) for word in (sys.argv[2:4] + ["4", "200"][len(sys.argv[2:4]):]))
    with tempfile.TemporaryDirectory() as root:
        Path(root, "a").write_bytes(FILE)
        words = [tftpd, root, "--listen", f"{HOST}:0", "--ports", f"{FIRST}:{FIRST + PORTS - 1}", "--cap", "64", "--forever"]
        words += ["--servers", str(servers)]
        server = subprocess.Popen(words, stdout=subprocess.PIPE, stderr=subprocess.DEVNULL, text=True)
        try:
            assert server.stdout
            address = (HOST, int(server.stdout.readline().rsplit(":", 1)[1]))
            # what they print is read by nobody else
            subprocess.Popen(["cat"], stdin=server.stdout, stdout=subprocess.DEVNULL)
            time.sleep(1)
            for title, seconds_between in [("64 at once", 0), ("64, one each ms", 0.001), ("64, one each 2 ms", 0.002)]:
                show(title, [Turn(address, seconds_between) for _ in range(turns)], servers)
        finally:
            server.kill()
            server.wait()


main()
