#!/usr/bin/env python3
"""Measures the library for C: run.py TFTPD

Prints the bytes of the archive and of a client that is linked to it, how much stack and heap a get takes, and the
instructions of a block of 512 bytes, by callgrind: a get of 4,000 blocks less one of 1,000, divided by 3,000, of the
whole process (the library, the example and the C library) and of the library's call alone, beside curl's where that is
installed; and of tftp_send and tftp_receive over blocks in memory. Needs a C compiler and valgrind. uboot.py measures U-Boot's client in the same way.
"""
import re
import shutil
import subprocess
import sys
import tempfile
from pathlib import Path

TOP = Path(__file__).resolve().parent.parent.parent
FEW, MANY = 1_000, 4_000
BLOCK = 512
# The flags of a client, and those that leave out what it does not call
SMALL = ["-Os", "-ffunction-sections", "-fdata-sections", "-Wl,--gc-sections", "-I", TOP / "include"]
# Names are looked up at the start: a first call would take the stack of the look-up, too
DEPTH = ["-Wl,-z,now"]


def run(*words, folder) -> "subprocess.CompletedProcess[str]":
    return subprocess.run([str(word) for word in words], cwd=folder, check=True, stdin=subprocess.DEVNULL,
                          capture_output=True, text=True)


def sizes(path) -> list[int]:
    """The bytes of code and constants, of data, and of zeroed data, as `size` says."""
    return list(map(int, run("size", path, folder=TOP).stdout.splitlines()[1].split()[:3]))


class Server:
    """tftpd over a folder, for one transfer."""

    def __init__(self, tftpd, folder) -> None:
        self.process = subprocess.Popen([tftpd, folder, "--listen", "127.0.0.1:0", "--transfers", "1"],
                                        stdout=subprocess.PIPE, text=True)
        self.host, self.port = self.process.stdout.readline().split()[1].split(":")

    def __enter__(self) -> "Server":
        return self

    def __exit__(self, *_) -> None:
        self.process.terminate()
        self.process.communicate()


def serve(room) -> None:
    """Makes the folder that is served."""
    (room / "served").mkdir()
    for blocks in [FEW, MANY]:
        (room / "served" / f"f{blocks}").write_bytes(bytes(blocks * BLOCK - 1))


def of_a_block(tftpd, room, words, within=None) -> str:
    """The instructions of a client a block: of all, or within this function and what it calls."""
    found = []
    only = [f"--toggle-collect={within}"] if within else []
    for blocks in [FEW, MANY]:
        with Server(tftpd, room / "served") as server:
            done = run("valgrind", "--tool=callgrind", "--callgrind-out-file=/dev/null", *only,
                       *words(server.host, server.port, f"f{blocks}"), folder=room)
            found.append(int(re.search(r"Collected : (\d+)", done.stderr)[1]))
    return f"{(found[1] - found[0]) / (MANY - FEW):,.0f}"


def of_a_call(room, call) -> str:
    """The instructions of this call, and of what it calls, a block in memory."""
    found = []
    for blocks in [FEW, MANY]:
        done = run("valgrind", "--tool=callgrind", "--callgrind-out-file=/dev/null", f"--toggle-collect={call}",
                   room / "blocks", blocks, folder=room)
        found.append(int(re.search(r"Collected : (\d+)", done.stderr)[1]))
    return f"{(found[1] - found[0]) / (MANY - FEW):,.0f}"


def beyond_empty(room, client) -> str:
    """How many bytes of code and constants a client has more than a program that does nothing."""
    (room / "none.c").write_text("int main(void) { return 0; }\n")
    run("cc", *SMALL, "none.c", "-o", "none", folder=room)
    return f"{sizes(client)[0] - sizes(room / 'none')[0]:,} bytes of code and constants more than an empty program"


def peaks(tftpd, room, words) -> list[int]:
    """The most stack and the most heap of a get, in bytes."""
    with Server(tftpd, room / "served") as server:
        run("valgrind", "--tool=massif", "--stacks=yes", "--massif-out-file=massif",
            *words(server.host, server.port, f"f{FEW}"), folder=room)
    text = (room / "massif").read_text()
    return [max(map(int, re.findall(rf"{kind}=(\d+)", text))) for kind in ["mem_stacks_B", "mem_heap_B"]]


def main() -> None:
    tftpd = Path(sys.argv[1]).resolve()
    with tempfile.TemporaryDirectory() as name:
        room = Path(name)
        serve(room)
        run(TOP / "tools/library.sh", room, folder=TOP)
        print(f"libtftp.a: {(room / 'libtftp.a').stat().st_size:,} bytes")
        print(f"libtftp.so.1: {(room / 'libtftp.so.1').stat().st_size:,} bytes, "
              f"of it code and constants {sizes(room / 'libtftp.so.1')[0]:,}")
        run("cc", *SMALL, TOP / "examples/c/get.c", room / "libtftp.a", "-o", room / "get", folder=room)
        print(f"examples/c/get: {beyond_empty(room, room / 'get')}")

        clients = {"get": lambda host, port, name: ["./get", host, port, name, "got"]}
        stack, heap = peaks(tftpd, room, clients["get"])
        print(f"a get: at most {stack:,} bytes of stack, {heap:,} of heap with stdio's")
        run("cc", *SMALL, *DEPTH, TOP / "bench/c/stack.c", room / "libtftp.a", "-o", room / "stack", folder=room)
        depths = [line.split() for line in run(room / "stack", folder=room).stdout.splitlines()]
        most = {call: max(int(depth) for name, depth in depths if name == call) for call, _ in depths}
        print("stack of a call, with the C library's:", ", ".join(f"{call} {depth:,}" for call, depth in most.items()))
        print(f"tftp_receive: {of_a_block(tftpd, room, clients['get'], 'tftp_receive')} instructions a block")
        run("cc", *SMALL, TOP / "bench/c/blocks.c", room / "libtftp.a", "-o", room / "blocks", folder=room)
        for call in ["tftp_send", "tftp_receive"]:
            print(f"{call} in memory: {of_a_call(room, call)} instructions a block")
        if shutil.which("curl"):
            clients["curl"] = lambda host, port, name: ["curl", "-s", "-o", "got", f"tftp://{host}:{port}/{name}"]
        for client, words in clients.items():
            print(f"{client}: {of_a_block(tftpd, room, words)} instructions a block")


if __name__ == "__main__":
    main()
