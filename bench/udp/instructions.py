#!/usr/bin/env python3
"""The instructions of tftpd a block of 512 bytes, by callgrind: instructions.py TFTPD [TFTPD..] [-- WORD..]

The words behind `--` are passed to the server, too, as `--status FILE`.

Gets of one length less gets of a shorter one, divided by the blocks between: one client alone; one beside 63 that asked
and send no more; 64 at once. Instructions of the kernel are not counted, so other work on the machine does not matter.
"""
import os
import re
import selectors
import socket
import subprocess
import sys
import tempfile
from pathlib import Path

HOST = "127.0.0.1"
BLOCK = 512
SHORT, LONG = 1_000, 4_000
PATIENCE = 60
# A timeout that does not expire, so that nothing is sent again
ASK = b"\0\1%s\0octet\0timeout\x00255\0"


def free_port() -> int:
    with socket.socket(socket.AF_INET, socket.SOCK_DGRAM) as free:
        free.bind((HOST, 0))
        return free.getsockname()[1]


def client(port, name) -> socket.socket:
    """A client that has asked for a file."""
    end = socket.socket(socket.AF_INET, socket.SOCK_DGRAM)
    end.settimeout(PATIENCE)
    end.sendto(ASK % name, (HOST, port))
    return end


def get(ends) -> None:
    """Acknowledges what arrives, until each file has ended."""
    chosen = selectors.DefaultSelector()
    for end in ends:
        chosen.register(end, selectors.EVENT_READ)
    while chosen.get_map():
        for key, _ in chosen.select(PATIENCE):
            arrived, peer = key.fileobj.recvfrom(BLOCK + 4)
            number = arrived[2:4] if arrived[1] == 3 else b"\0\0"
            key.fileobj.sendto(b"\0\4" + number, peer)
            if arrived[1] == 3 and len(arrived) < BLOCK + 4:
                chosen.unregister(key.fileobj)


def counted(tftpd, room, blocks, silent, clients, more) -> int:
    """The instructions of a server from its start to its end, of which `clients` get a file of so many blocks."""
    port, log = free_port(), f"{room}/log"
    words = ["valgrind", "--tool=callgrind", f"--log-file={log}", f"--callgrind-out-file={room}/out"]
    words += [tftpd, f"{room}/served", "--listen", f"{HOST}:{port}", "--cap", "64", "--transfers", str(clients), *more]
    server = subprocess.Popen(words, stdout=subprocess.PIPE)
    server.stdout.readline()
    quiet = []
    for _ in range(silent):
        quiet.append(client(port, b"%d" % LONG))
        quiet[-1].recvfrom(BLOCK)
    get([client(port, b"%d" % blocks) for _ in range(clients)])
    assert server.wait(PATIENCE) == 0
    return int(re.search(r"Collected : (\d+)", Path(log).read_text())[1])


def main() -> None:
    words = sys.argv[1:]
    at = words.index("--") if "--" in words else len(words)
    tftpds, more = words[:at], words[at + 1:]
    with tempfile.TemporaryDirectory() as room:
        Path(room, "served").mkdir()
        for blocks in [SHORT, LONG]:
            Path(room, "served", str(blocks)).write_bytes(os.urandom(blocks * BLOCK - 1))
        for title, silent, clients in [("alone", 0, 1), ("beside 63 silent", 63, 1), ("64 at once", 0, 64)]:
            for tftpd in tftpds:
                short, long = (counted(os.path.abspath(tftpd), room, n, silent, clients, more) for n in [SHORT, LONG])
                print(f"{title}: {tftpd}: {(long - short) / (LONG - SHORT) / clients:,.0f} instructions a block")


main()
