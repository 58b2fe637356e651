#!/usr/bin/env python3
"""Counts the allocations of tftpd and tftp from their start to their end, over loopback: allocations.py TFTPD TFTP

Each transfers a short and a long file in blocks of 512; tftpd also waits once, without any transfer.
"""
import os
import socket
import subprocess
import sys
import tempfile
from pathlib import Path

from measure import HERE

LENGTHS = [300_000, 12_000_000]
HOST = "127.0.0.1"
PATIENCE = 60


def free_port() -> int:
    with socket.socket(socket.AF_INET, socket.SOCK_DGRAM) as free:
        free.bind((HOST, 0))
        return free.getsockname()[1]


class Bench:
    def __init__(self, tftpd, tftp, room) -> None:
        self.tftpd, self.tftp, self.room = tftpd, tftp, room
        self.library = f"{room}/allocations.so"
        words = ["cc", "-O2", "-shared", "-fPIC", "-o", self.library, HERE / "allocations.c"]
        subprocess.run(words, check=True)

    def started(self, name, *words) -> "subprocess.Popen[bytes]":
        env = {"LD_PRELOAD": self.library, "COUNTS": f"{self.room}/{name}"}
        quiet = subprocess.DEVNULL
        return subprocess.Popen(words, env=env, stdin=quiet, stdout=quiet, stderr=quiet)

    def counts(self, name) -> str:
        allocations, reallocations = Path(self.room, name).read_text().split()
        return f"{name}: {allocations} allocations, {reallocations} reallocations"

    def server(self, *words) -> "tuple[subprocess.Popen[bytes], str]":
        """A server that ends by itself, and its port, once it is bound."""
        port = free_port()
        child = self.started("tftpd", self.tftpd, f"{self.room}/served", "--listen", f"{HOST}:{port}", *words)
        with open("/proc/net/udp") as bound:
            while f":{port:04X} " not in bound.read():
                bound.seek(0)
                if child.poll() is not None:
                    sys.exit("allocations: tftpd has not begun")
        return child, f"{HOST}:{port}"

    def wait_once(self) -> None:
        server, _ = self.server("--rounds", "1")
        assert server.wait(PATIENCE) == 0
        print("no transfer", self.counts("tftpd"), sep="; ")

    def transfer(self, verb, length) -> None:
        names = [f"{length}", f"{self.room}/got"] if verb == "get" else [f"{self.room}/served/{length}", "put"]
        server, address = self.server("--transfers", "1")
        client = self.started("tftp", self.tftp, verb, address, *names)
        assert client.wait(PATIENCE) == 0 and server.wait(PATIENCE) == 0
        for made in [Path(self.room, "got"), Path(self.room, "served", "put")]:
            made.unlink(missing_ok=True)
        print(f"{verb} of {length} bytes", self.counts("tftpd"), self.counts("tftp"), sep="; ")


def main() -> None:
    tftpd, tftp = (os.path.abspath(word) for word in sys.argv[1:3])
    with tempfile.TemporaryDirectory() as room:
        served = Path(room, "served")
        served.mkdir()
        for length in LENGTHS:
            (served / str(length)).write_bytes(os.urandom(length))
        bench = Bench(tftpd, tftp, room)
        bench.wait_once()
        for verb in ["get", "put"]:
            for length in LENGTHS:
                bench.transfer(verb, length)


main()
