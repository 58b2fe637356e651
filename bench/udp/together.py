#!/usr/bin/env python3
"""Measures tftpd, alone and with --servers 4, beside the other servers at all processors: together.py TFTPD [ROUNDS [ROW..]]

Clients and servers are two hosts in network namespaces, as in many.py; nothing is pinned to a processor, and nothing has
priority, since of more processes with priority than processors some do not run at all: leave the machine alone. ROW is a
word of a row's title. A transfer that fails is counted: one that is refused (`server busy`), has other bytes, or has no end.
It takes about six minutes with three rounds, and needs root, cc, ip and nft. README.md says which servers are looked for.
"""
import os
import re
import statistics
import subprocess
import sys
import tempfile
import time
from collections import Counter, namedtuple
from contextlib import ExitStack
from pathlib import Path
from typing import Optional

import many
from measure import GIB, MB, SHORTER, Group

SERVERS, PATIENCE = 4, 30
PROCESSORS = f"0-{os.cpu_count() - 1}"
# what is measured of one run: MB/s or files a second, the processor time a GiB or a file, what failed, and the transfers of
# each of several servers
Result = namedtuple("Result", "rate cost failed shares")


class Row:
    """A row: its title, the clients, the block size, the length of the file, and the words of many.c."""

    def __init__(self, title, clients, block, length, words=(), is_put=False, is_tiny=False) -> None:
        self.title, self.clients, self.block, self.length = title, clients, block, max(length, 100)
        self.words, self.is_put, self.is_tiny = [*words, *["put=1"] * is_put], is_put, is_tiny


ROWS = [
    Row("64 gets of 512", 64, 512, 2 * MB // SHORTER),
    Row("64 gets of 1428", 64, 1428, 8 * MB // SHORTER),
    Row("200 gets of 512", 200, 512, MB // SHORTER),
    Row("200 gets of 1428", 200, 1428, 3 * MB // SHORTER),
    Row("tiny files by 64", 64, 512, 100, ["again=3"], is_tiny=True),
    Row("64 puts of 512", 64, 512, MB // SHORTER, is_put=True),
    Row("64 puts of 1428", 64, 1428, 3 * MB // SHORTER, is_put=True),
]


class Bench(many.Bench):
    """The servers of this machine, behind port 69 of one host."""

    def commands(self, row) -> dict[str, list[str]]:
        """The command line of each server that can do a row."""
        mode = [] if row.is_put else ["--read-only"]
        one = [self.tftpd, self.room, "--cap", "64", "--forever", *mode, "--listen", f"{many.SERVER}:69"]
        ours = {"tftpd": one, f"--servers {SERVERS}": [*one, "--servers", str(SERVERS)]}
        peers = {name: words for name, [words] in self.peers().items() if not (row.is_put and name == "dnsmasq")}
        return {**ours, **peers}

    def run(self, row) -> list[float]:
        """The clients of a row, and what they print."""
        name = "new" if row.is_put else str(row.length)
        words = [self.many, many.SERVER, "69", name, str(row.block), many.FIRST, str(row.clients), str(os.cpu_count())]
        words = self.client.words(*words, f"{self.room}/{row.length}", *row.words)
        done = subprocess.run(words, capture_output=True, text=True)
        if done.returncode != 0:
            sys.exit(f"together: {row.title}: clients that end with status {done.returncode}: {done.stderr.strip()}")
        return list(map(float, done.stdout.split()))

    def wait_until_bound(self, is_bound) -> None:
        """Waits until port 69 is bound, or no more: servers end behind their supervisor."""
        ports, end = Path(f"/proc/{self.server.process.pid}/net/udp"), time.monotonic() + PATIENCE
        while (":0045 " in ports.read_text()) != is_bound:
            if time.monotonic() > end:
                sys.exit(f"together: port 69 is {'not ' * is_bound}bound after {PATIENCE} s")
            time.sleep(0.01)

    def measured(self, name, command, row) -> Result:
        group, lines = Group(name.replace(" ", "-")), Path(self.room, "lines")
        quiet = {"stdin": subprocess.DEVNULL, "stderr": subprocess.DEVNULL}
        with open(lines, "wb") as output:
            words = self.server.words("taskset", "-c", PROCESSORS, *group.words(command))
            server = subprocess.Popen(words, stdout=output, **quiet)
        self.wait_until_bound(True)
        time.sleep(many.START)
        before = group.seconds()
        sent, whole, seconds, *_, failed = self.run(row)
        spent = group.seconds() - before if before is not None else float("nan")
        server.terminate()
        server.wait()
        self.wait_until_bound(False)
        for made in Path(self.room).glob("*new-*"):
            made.unlink()
        shares = Counter(re.findall(r"(?m)^server (\d+): \d", lines.read_text()))
        unit = (whole, 1e6) if row.is_tiny else (sent / 1e6, GIB)
        per = whole if row.is_tiny else sent
        return Result(unit[0] / seconds, spent * unit[1] / max(per, 1), int(failed), sorted(shares.values()))

    def compare_row(self, rounds, row) -> None:
        commands = self.commands(row)
        found, names = {name: [] for name in commands}, list(commands)
        for turn in range(rounds):
            first = turn % len(names)
            for name in names[first:] + names[:first]:
                found[name].append(self.measured(name, commands[name], row))
        units = "files/s, us/file" if row.is_tiny else "MB/s, s/GiB"
        print(f"\n{row.title}, {row.length} bytes each: {units}, all of the best peer, slowest to fastest, failed of each round")
        rates = {name: statistics.median(result.rate for result in results) for name, results in found.items()}
        # a peer that fails counts, as far as it comes
        best = max((rate for name, rate in rates.items() if is_peer(name)), default=float("nan"))
        for name, results in found.items():
            show(name, results, rates[name], rates[name] / best if not name.startswith("floor") else None)


def is_peer(name) -> bool:
    return not name.startswith(("tftpd ", "--servers", "floor")) and name != "tftpd"


def show(name, results, rate, ratio: Optional[float]) -> None:
    """A line of medians, and the shares of several servers in the last round."""
    cost = statistics.median(result.cost for result in results)
    spread = f"{min(result.rate for result in results):.1f} to {max(result.rate for result in results):.1f}"
    failed = ", ".join(str(result.failed) for result in results)
    shares = f"  shares {results[-1].shares}" if results[-1].shares else ""
    told = f"{ratio:6.2f}" if ratio is not None else " " * 6
    print(f"  {name:12} {rate:9.1f} {cost:8.2f} {told}  {spread:20} failed {failed}{shares}", flush=True)


def main() -> None:
    tftpd = os.path.abspath(sys.argv[1])
    if sys.argv[-1] != "--in":
        apart = ["unshare", "--net", "--mount", "--pid", "--fork", "--kill-child", "--mount-proc"]
        words = [tftpd, *(sys.argv[2:] or ["3"]), "--in"]
        sys.exit(subprocess.run([*apart, sys.executable, __file__, *words]).returncode)
    rounds, wanted = int(sys.argv[2]), sys.argv[3:-1]
    rows = [row for row in ROWS if not wanted or any(word in row.title for word in wanted)]
    with tempfile.TemporaryDirectory(dir="/dev/shm") as room, ExitStack() as stack:
        os.chmod(room, 0o777)
        for length in {row.length for row in rows}:
            Path(room, str(length)).write_bytes((os.urandom(MB) * (length // MB + 1))[:length])
            os.chmod(f"{room}/{length}", 0o644)
        bench = Bench(tftpd, room, stack)
        for row in rows:
            bench.compare_row(rounds, row)


if __name__ == "__main__":
    main()
