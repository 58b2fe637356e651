#!/usr/bin/env python3
"""The server's processor seconds for a get of 12 MB in blocks of 512: beside.py TFTPD [ROUNDS]

Alone, behind a put that has finished and still has its slot, and beside a client that asked and sends no more.
"""
import os
import socket
import statistics
import sys
import tempfile
import time
from pathlib import Path

import peers
from measure import CLIENT_CPU, MB, Running, have_priority, request, started

LENGTH = 12 * MB
# The seconds for which the other transfer has been still: it counts as active for half a second
STILL = 0.8


def get(running, room) -> float:
    """The processor seconds of a get."""
    client = peers.Busybox()
    local = f"{room}/local"

    def run() -> None:
        words = client.get(running.port, "file", local, 512)
        assert started(CLIENT_CPU, words).wait() == 0
        os.remove(local)

    return running.clocked(run)[1]


def put(running, room) -> None:
    """A put that has finished."""
    words = peers.Busybox().put(running.port, "new", f"{room}/file", 512)
    assert started(CLIENT_CPU, words).wait() == 0
    Path(room, "new").unlink(missing_ok=True)


def main() -> None:
    tftpd = os.path.abspath(sys.argv[1])
    rounds = int(sys.argv[2]) if len(sys.argv) > 2 else 3
    have_priority()
    alone, behind, beside = [], [], []
    with tempfile.TemporaryDirectory(dir="/dev/shm") as room:
        os.chmod(room, 0o777)
        Path(room, "file").write_bytes(os.urandom(LENGTH))
        running = Running(peers.Tftpd(tftpd), room)
        for _ in range(rounds):
            alone.append(get(running.restarted(), room))
            running.restarted()
            put(running, room)
            time.sleep(STILL)
            behind.append(get(running, room))
            running.restarted()
            with socket.socket(socket.AF_INET, socket.SOCK_DGRAM) as silent:
                silent.sendto(request("get", "file"), (peers.HOST, running.port))
                silent.recvfrom(600)
                time.sleep(STILL)
                beside.append(get(running, room))
        running.stop()
    for name, seconds in [("alone", alone), ("behind a put", behind), ("beside a silent client", beside)]:
        print(f"{name}: {statistics.median(seconds):.3f} s ({min(seconds):.3f} to {max(seconds):.3f})")


main()
