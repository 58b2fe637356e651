#!/usr/bin/env python3
"""What a tiny file costs tftpd: tiny.py TFTPD

A file of 100 bytes in ROOT, and one and two folders below, read by one client after another: the system calls of a transfer
by their names (strace), and the instructions of the server's own code (callgrind), as many transfers less fewer. Then the
processor time of what it opens, by opens.c: of a socket of its own, and of one that would be used again. It needs strace,
valgrind and cc.
"""
import os
import re
import signal
import socket
import subprocess
import sys
import tempfile
from collections import Counter
from pathlib import Path

from measure import compiled

HOST, PATIENCE = "127.0.0.1", 60
FEW, MANY, TURNS = 50, 250, 200_000
FILE = b"x" * 100
CALLGRIND = ["valgrind", "--tool=callgrind", "--callgrind-out-file=/dev/null"]
# what a pool of sockets would leave out; it would receive once more, so that nothing old is left in the socket
OF_A_SOCKET = ["socket", "bind", "ioctl", "getsockname", "epoll_ctl"]


def get(port, name) -> None:
    """Reads the file, from a port of its own."""
    with socket.socket(socket.AF_INET, socket.SOCK_DGRAM) as end:
        end.settimeout(PATIENCE)
        end.sendto(b"\0\1%s\0octet\0" % name.encode(), (HOST, port))
        block, peer = end.recvfrom(600)
        assert block == b"\0\3\0\1" + FILE
        end.sendto(b"\0\4\0\1", peer)


def served(tool, tftpd, room, name, count) -> str:
    """The log of a tool, under which a server has sent the file so many times and has ended."""
    log = Path(room, "log")
    option = ["-o", str(log)] if tool[0] == "strace" else [f"--log-file={log}"]
    words = [*tool, *option, tftpd, f"{room}/served", "--listen", f"{HOST}:0", "--transfers", str(count)]
    server = subprocess.Popen(words, stdout=subprocess.PIPE, text=True)
    try:
        assert server.stdout
        port = int(server.stdout.readline().rsplit(":", 1)[1])
        for _ in range(count):
            get(port, name)
            server.stdout.readline()
        assert server.wait(PATIENCE) == 0
    finally:
        server.send_signal(signal.SIGKILL)
    return log.read_text()


def calls(tftpd, room, name) -> dict[str, float]:
    """The system calls of a transfer, by their names."""
    few, many = (Counter(re.findall(r"(?m)^\d+ +(\w+)\(", served(["strace", "-f"], tftpd, room, name, count)))
                 for count in [FEW, MANY])
    return {call: (many[call] - few[call]) / (MANY - FEW) for call in many}


def instructions(tftpd, room, name) -> float:
    few, many = (int(re.search(r"Collected : (\d+)", served(CALLGRIND, tftpd, room, name, count))[1]) for count in [FEW, MANY])
    return (many - few) / (MANY - FEW)


def main() -> None:
    tftpd = os.path.abspath(sys.argv[1])
    with tempfile.TemporaryDirectory() as room:
        opens = compiled("opens", room)
        for depth in range(3):
            name = "/".join(["d"] * depth + ["a"])
            path = Path(room, "served", name)
            path.parent.mkdir(parents=True, exist_ok=True)
            path.write_bytes(FILE)
            made = calls(tftpd, room, name)
            told = ", ".join(f"{call} {count:.1f}" for call, count in sorted(made.items(), key=lambda it: -it[1]) if count > 0.05)
            of_socket = sum(made.get(call, 0) for call in OF_A_SOCKET) + 1
            print(f"{depth} folders: {sum(made.values()):.1f} calls ({told}), of which {of_socket:.1f} are of its socket; "
                  f"{instructions(tftpd, room, name):,.0f} instructions", flush=True)
            done = subprocess.run([opens, path, str(TURNS)], capture_output=True, text=True, check=True)
            own, again, look, file = done.stdout.split()
            print(f"  microseconds of: a socket {own}, one that is used again {again}, a look {look}, "
                  f"an opening with a look and a close {file}")


if __name__ == "__main__":
    main()
