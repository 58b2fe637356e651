#!/usr/bin/env python3
"""Measures one and several tftpd behind port 69 beside the other servers: many.py TFTPD [ROUNDS [BLOCK [PROCESSORS]]]

Clients and servers are two hosts in network namespaces, joined by a link. The clients are many.c, each at an address of
its own, in four processes at any processor; each reads a file of FILE bytes, which is in memory, and compares it. The
servers have 1, 2 and then 4 processors, at which the system places them. Several tftpd are behind packaging/tftpd.nft, or
are started by --servers.
README.md says which servers are looked for. What is measured precedes other work. It needs root, cc, ip and nft.
"""
import os
import re
import statistics
import subprocess
import sys
import tempfile
import time
from contextlib import ExitStack
from pathlib import Path

HERE = Path(__file__).resolve().parent
sys.path += [str(HERE), str(HERE.parent.parent / "tools")]

import network  # noqa: E402
import peers  # noqa: E402
from measure import GIB, SHORTER, Group, compiled  # noqa: E402

SERVER, FIRST = "192.0.2.1", "198.51.100.20"
FILE = {512: 500_000 // SHORTER, 1428: 2_000_000 // SHORTER}
CLIENTS = [64, 200]
SEVERAL = [1, 2, 4, 8]
# behind one port by --servers
TOGETHER = [2, 4]
# the processors of the servers
PLACES = {1: "0", 2: "0-1", 4: "0-3"}
# a request waits no longer for a server to start, and the next one for servers to end with their supervisor
START = 0.5
END = 0.2


def nft(count) -> str:
    """The rules of tftpd.nft for so many servers."""
    text = (HERE.parent.parent / "packaging/tftpd.nft").read_text()
    places = ", ".join(f"{place} : {6901 + place}" for place in range(count))
    return re.sub(r"(?s)mod 8( seed \d+ map) \{.*?\}", rf"mod {count}\1 {{ {places} }}", text)


class Bench:
    def __init__(self, tftpd, room, stack) -> None:
        self.tftpd, self.room = tftpd, room
        self.client, self.server = network.Host(stack), network.Host(stack)
        self.client.link(self.server, "link")
        self.server.run(f"ip address add {SERVER}/24 dev link; ip route add 198.51.100.0/24 dev link")
        addresses = "; ".join(f"ip address add 198.51.100.{host}/24 dev link" for host in range(20, 220))
        self.client.run(f"{addresses}; ip route add 192.0.2.0/24 dev link")
        self.many, self.floor = compiled("many", room), compiled("floor", room)

    def peers(self) -> dict[str, list[list[str]]]:
        peers.HOST = SERVER
        found = [peers.TftpdHpa(), peers.Atftpd(), peers.Dnsmasq(), *peers.floors(self.floor)]
        return {it.name: [it.words(self.room, 69)] for it in peers.installed(found)}

    def ours(self, count) -> list[list[str]]:
        words = [self.tftpd, self.room, "--cap", "64", "--forever", "--read-only", "--listen"]
        if count == 1:
            return [[*words, f"{SERVER}:69"]]
        return [[*words, f"0.0.0.0:{6901 + place}"] for place in range(count)]

    def together(self, count) -> list[list[str]]:
        return [[*self.ours(1)[0], "--servers", str(count)]]

    def measure(self, name, commands, rules, block, clients, place) -> tuple[float, float, int]:
        """MB/s, the servers' processor seconds a GiB, and how many files were whole."""
        self.server.rules(rules)
        group = Group(name.replace(" ", "-"))
        quiet = {"stdin": subprocess.DEVNULL, "stdout": subprocess.DEVNULL, "stderr": subprocess.DEVNULL}
        words = [self.server.words("taskset", "-c", place, *group.words(command)) for command in commands]
        running = [subprocess.Popen(each, **quiet) for each in words]
        time.sleep(START)
        before = group.seconds()
        words = [self.many, SERVER, "69", str(FILE[block]), str(block), FIRST, str(clients), "4"]
        words = self.client.words(*words, f"{self.room}/{FILE[block]}")
        done = subprocess.run(words, capture_output=True, text=True, check=True)
        spent = group.seconds() - before if before is not None else float("nan")
        for process in running:
            process.terminate()
            process.wait()
        time.sleep(END)
        count, whole, seconds, *_ = done.stdout.split()
        return int(count) / 1e6 / float(seconds), spent * GIB / max(int(count), 1), int(whole)

    def compare(self, rounds, block, clients, processors) -> None:
        cases = {name: (commands, "") for name, commands in self.peers().items()}
        for count in SEVERAL:
            cases[f"{count} tftpd"] = self.ours(count), nft(count) if count > 1 else ""
        for count in TOGETHER:
            cases[f"--servers {count}"] = self.together(count), ""
        found = {name: [] for name in cases}
        for _ in range(rounds):
            for name, case in cases.items():
                found[name].append(self.measure(name, *case, block, clients, PLACES[processors]))
        print(f"\n{block}, {clients} at once, {processors} processors: MB/s, the best, s/GiB, the fewest whole files")
        for name, results in found.items():
            rates, seconds, whole = zip(*results)
            print(f"  {name:12} {statistics.median(rates):8.1f} {max(rates):8.1f} {statistics.median(seconds):8.2f} "
                  f"{min(whole):5}", flush=True)


def main() -> None:
    tftpd = os.path.abspath(sys.argv[1])
    if sys.argv[-1] != "--in":
        apart = ["unshare", "--net", "--mount", "--pid", "--fork", "--kill-child", "--mount-proc"]
        words = [tftpd, *(sys.argv[2:] or ["3"]), "--in"]
        sys.exit(subprocess.run([*apart, sys.executable, __file__, *words]).returncode)
    rounds, *numbers = map(int, sys.argv[2:-1])
    blocks, processors = numbers[:1] or list(FILE), numbers[1:] or [it for it in PLACES if it <= os.cpu_count()]
    # all that is measured inherits this
    if not os.environ.get("QUIETLY"):
        os.sched_setscheduler(0, os.SCHED_FIFO, os.sched_param(1))
    with tempfile.TemporaryDirectory(dir="/dev/shm") as room, ExitStack() as stack:
        os.chmod(room, 0o777)
        for size in FILE.values():
            Path(room, str(size)).write_bytes((os.urandom(500_000) * (size // 500_000 + 1))[:size])
        bench = Bench(tftpd, room, stack)
        for block in blocks:
            for clients in CLIENTS:
                for count in processors:
                    bench.compare(rounds, block, clients, count)


if __name__ == "__main__":
    main()
