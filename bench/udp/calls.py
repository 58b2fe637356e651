#!/usr/bin/env python3
"""Counts the system calls a block of tftpd while 16 quick clients get a file each: calls.py TFTPD [ROUNDS]

The clients are many.c, in one process: they ask for the next block as soon as they have one, so that few polls are in
vain. `run.py TFTPD TFTP 1 calls` counts under 16 processes of a peer's client, which share a processor and are slow.
"""
import os
import re
import signal
import statistics
import subprocess
import sys
import tempfile
import time
from pathlib import Path

import peers
from measure import CLIENT_CPU, MB, Running, compiled, have_priority, started

CLIENTS = 16
FIRST = "127.1.0.1"
SIZES = {512: MB // 4, 1428: MB // 2, 8192: 2 * MB, 65464: 8 * MB}
COUNT = ["perf", "stat", "-x,", "-e", "raw_syscalls:sys_enter"]


def calls(running, many, file, block) -> float:
    """The calls a block of a server while the clients get the file."""
    log = f"{file}.log"
    time.sleep(0.8)  # what asked whether it runs is active no more
    tool = subprocess.Popen([*COUNT, "-o", log, "-p", str(running.process.pid)])
    time.sleep(0.2)
    words = [many, peers.HOST, running.port, os.path.basename(file), block, FIRST, CLIENTS, 1, file]
    clients = started(CLIENT_CPU, map(str, words), stdout=subprocess.PIPE, text=True)
    whole = int(clients.communicate()[0].split()[1])
    tool.send_signal(signal.SIGINT)
    tool.wait()
    assert whole == CLIENTS
    counted = int(re.search(r"^(\d+),", Path(log).read_text(), re.M)[1])
    return counted / (CLIENTS * (os.path.getsize(file) // block + 1))


def main() -> None:
    tftpd = os.path.abspath(sys.argv[1])
    rounds = int(sys.argv[2]) if len(sys.argv) > 2 else 3
    have_priority()
    with tempfile.TemporaryDirectory(dir="/dev/shm") as room:
        os.chmod(room, 0o777)
        many = compiled("many", room)
        for block, size in SIZES.items():
            file = f"{room}/{block}"
            Path(file).write_bytes(os.urandom(size))
            counts = []
            for _ in range(rounds):
                running = Running(peers.Tftpd(tftpd), room)
                counts.append(calls(running, many, file, block))
                running.stop()
            spread = f"{min(counts):.2f} to {max(counts):.2f}"
            print(f"get {block}: {statistics.median(counts):.2f} calls a block ({spread})")


main()
