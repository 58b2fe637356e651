#!/usr/bin/env python3
"""Measures what the users of a server feel, beside the peers, over loopback: felt.py TFTPD FOLDER [ROUNDS [ROW..]]

FOLDER is on a disk, for the rows that need one. ROW is a word of a row's title. The clients are many.c, each at an
address of its own, which compare each byte that arrives. README.md says what is measured.
"""
import os
import statistics
import subprocess
import sys
import tempfile
from collections import namedtuple
from pathlib import Path
from typing import Any, Optional

import peers
from measure import CLIENT_CPU, GIB, MB, OWN_CPU, SHORTER, Running, compiled, have_priority, started

# many.c prints these; the times are in microseconds
Told = namedtuple("Told", "bytes whole seconds p99 longest arrived sent failed")
# Of one run, with the processor seconds of the server, and the seconds of the put beside the gets
Result = namedtuple("Result", "told cpu put_seconds")
FIRST = "127.1.0.1"
TEXT = b"".join(b"line %05d of a text that is sent with a CR before each LF\n" % at for at in range(100_000))
LENGTHS = {"text": 6 * MB, "tiny": 100, "gaps": 4 * MB, "cold": 64 * MB, "loss": MB, "slow": 300_000, "put": 90 * MB}
# The clients of a row are in one process
PROCESSES = 1


class Row:
    """A row: its title, the file, the block size, the clients, and the words of many.c."""

    def __init__(self, title, name, block, count, words=(), disk=False, cold=False, put=False) -> None:
        self.title, self.name, self.block, self.count = title, name, block, count
        self.words, self.disk, self.cold, self.put = list(words), disk, cold, put

    def is_for(self, server) -> bool:
        """Whether the server can do it: the floor neither converts nor repeats."""
        is_plain = not any(word.startswith(("netascii", "loss")) for word in self.words)
        return (server.writes or not self.put) and (is_plain or not server.name.startswith("floor"))


ROWS = [
    Row("tiny files, one after another, for 2 s", "tiny", 512, 1, ["again=2"]),
    Row("tiny files, 64 at once, for 2 s", "tiny", 512, 64, ["again=2"]),
    Row("netascii, one", "text", 1428, 1, ["netascii=1"]),
    Row("netascii, 16 at once", "text", 1428, 16, ["netascii=1"]),
    Row("gaps, 64 at once, for 4 s", "gaps", 1428, 64, ["again=4"]),
    # tftpd has 64 slots, of which the put takes one
    Row("gaps beside a put of 90 MB on a disk, 63 at once", "gaps", 1428, 63, disk=True, put=True),
    Row("a cold file, one", "cold", 1428, 1, disk=True, cold=True),
    Row("a cold file in blocks of 65464, one", "cold", 65464, 1, disk=True, cold=True),
    Row("1 % loss each way, timeouts of 1 s, 16 at once", "loss", 1428, 16, ["loss=10", "seed=1", "timeout=1"]),
    Row("1 ms of delay, 64 at once", "slow", 1428, 64, ["delay=1"]),
    Row("20 ms of delay, 64 at once", "slow", 1428, 64, ["delay=20"]),
]


class Bench:
    def __init__(self, tftpd, room, disk) -> None:
        self.room, self.disk = room, disk
        self.many, floor = compiled("many", room), compiled("floor", room)
        servers = [peers.Tftpd(tftpd), peers.TftpdHpa(), peers.Atftpd(), peers.Dnsmasq(), *peers.floors(floor)]
        self.servers = {server.name: server for server in peers.installed(servers)}

    def make(self, rows) -> None:
        """The files that are served, in memory and on the disk, and what is to arrive of each."""
        for folder in [self.room, self.disk]:
            os.chmod(folder, 0o777)
        os.mkdir(f"{self.room}/wire")
        for name in {row.name for row in rows} | {"put"}:
            length = max(LENGTHS[name] // SHORTER, 100)
            content = TEXT[:length] if name == "text" else (os.urandom(min(length, MB)) * (length // MB + 1))[:length]
            Path(self.room, "wire", name).write_bytes(content.replace(b"\n", b"\r\n") if name == "text" else content)
            for folder in [self.room, self.disk]:
                Path(folder, name).write_bytes(content)
                os.chmod(f"{folder}/{name}", 0o644)
        os.sync()

    def words(self, running, row, name, *words) -> list[str]:
        many = [self.many, peers.HOST, running.port, name, row.block, FIRST, row.count, PROCESSES]
        return [str(word) for word in [*many, f"{self.room}/wire/{row.name}", *words]]

    def run(self, running, row) -> tuple[Told, Any]:
        """The clients of a row, and what they print. A put beside them is one more client, at another processor."""
        seconds = None
        words, pipe = list(row.words), {"stdout": subprocess.PIPE, "text": True}
        if row.put:
            put = started(OWN_CPU, self.words(running, Row("", "put", row.block, 1), "new", "put=1"), **pipe)
            words.append(f"until={put.pid}")
        clients = started(CLIENT_CPU, self.words(running, row, row.name, *words), **pipe)
        if row.put:
            told = told_by(put)
            seconds = told.seconds if told.whole == 1 else None
        return told_by(clients), seconds

    def measure(self, running, row) -> Optional[Result]:
        if row.cold:
            chill(f"{self.disk}/{row.name}")
        (told, seconds), cpu = running.clocked(lambda: self.run(running, row))
        if row.put:
            Path(self.disk, "new-0").unlink(missing_ok=True)
        length = os.path.getsize(f"{self.room}/wire/{row.name}")
        is_whole = told.whole >= row.count and told.bytes == told.whole * length
        return Result(told, cpu, seconds) if is_whole and (seconds or not row.put) else None

    def compare(self, row, rounds) -> None:
        print(f"\n{row.title}\n{'':14}    MB/s  files/s    s/GiB   us/file   99% ms  most ms  datagrams a block",
              "seconds of the put" if row.put else "")
        done, names = {name: [] for name in self.servers}, list(self.servers)
        for turn in range(rounds):
            first = turn % len(names)
            for name in names[first:] + names[:first]:
                server = self.servers[name]
                if not row.is_for(server):
                    continue
                running = Running(server, self.disk if row.disk else self.room)
                try:
                    done[name].append(self.measure(running, row))
                finally:
                    running.stop()
        for name, results in done.items():
            show(name, row, [result for result in results if result], len(results))


def told_by(process) -> Told:
    """What a process of many.c prints at its end."""
    return Told(*map(float, process.communicate()[0].split()))


def chill(path) -> None:
    """Has the kernel forget what it keeps of a file in memory."""
    with open(path, "rb") as file:
        os.fsync(file.fileno())
        os.posix_fadvise(file.fileno(), 0, 0, os.POSIX_FADV_DONTNEED)
    words = ["fincore", "--bytes", "--noheadings", "--output", "RES", path]
    kept = subprocess.run(words, capture_output=True, text=True, check=True)
    if kept.stdout.strip() != "0":
        sys.exit(f"felt: {kept.stdout.strip()} bytes of {path} are still in memory")


def show(name, row, results, runs) -> None:
    """A line of medians."""
    if not results:
        print(f"  {name:12}", "failed, or not supported" if runs else "not supported")
        return
    def median(of) -> float:
        return statistics.median(map(of, results))

    numbers = [
        f"{median(lambda it: it.told.bytes / it.told.seconds / MB):8.2f}",
        f"{median(lambda it: it.told.whole / it.told.seconds):8.1f}",
        f"{median(lambda it: it.cpu * GIB / it.told.bytes):8.2f}",
        f"{median(lambda it: it.cpu * 1e6 / it.told.whole):9.0f}",
        f"{median(lambda it: it.told.p99 / 1e3):8.2f}",
        f"{median(lambda it: it.told.longest / 1e3):8.1f}",
        f"{median(lambda it: (it.told.arrived + it.told.sent) / blocks_of(it.told, row)):6.3f}",
    ]
    if row.put:
        numbers.append(f"{median(lambda it: it.put_seconds):6.2f}")
    lost = f"  {runs - len(results)} failed" if len(results) < runs else ""
    print(f"  {name:12}", *numbers, lost, flush=True)


def blocks_of(told, row) -> float:
    """The number of blocks that arrived whole, once each."""
    return told.whole * (told.bytes / told.whole // row.block + 1)


def main() -> None:
    tftpd, disk = os.path.abspath(sys.argv[1]), sys.argv[2]
    rounds = int(sys.argv[3]) if len(sys.argv) > 3 else 3
    rows = [row for row in ROWS if not sys.argv[4:] or any(word in row.title for word in sys.argv[4:])]
    have_priority()
    where = "/dev/shm" if os.access("/dev/shm", os.W_OK) else None
    with tempfile.TemporaryDirectory(dir=where) as room, tempfile.TemporaryDirectory(dir=disk) as disk:
        bench = Bench(tftpd, room, disk)
        bench.make(rows)
        for row in rows:
            bench.compare(row, rounds)


main()
