#!/usr/bin/env python3
"""Measures tftpd and tftp beside the peers of this machine, over loopback: run.py TFTPD TFTP [ROUNDS [WORD]]

Servers are measured under one client, clients over one server, each pinned to a processor, and beside the floor, which
only exchanges the datagrams. With WORD, only the cases whose title has it are run, or the tiny files (tiny), or the
counts of system calls (calls). README.md says what the columns are.
"""
import os
import re
import shutil
import signal
import socket
import statistics
import subprocess
import sys
import tempfile
import time
from collections import namedtuple
from contextlib import ExitStack, contextmanager
from typing import Any, Iterator, Optional

import peers
from measure import (CLIENT_CPU, GIB, MB, SHORTER, Running, answer, children_seconds, compiled, have_priority, memory,
                     request, started)

Case = namedtuple("Case", "verb block count size")
Result = namedtuple("Result", "rate cpu peak")
CASES = [
    Case(verb, block, count, size // SHORTER)
    for verb in ["get", "put"]
    for block, count, size in [
        # a second and more, in as many blocks of 512 as have numbers
        (512, 1, 32 * MB), (1428, 1, 64 * MB), (8192, 1, 256 * MB), (65464, 1, 512 * MB),
        # long enough that the start of many clients counts little
        (512, 16, 2 * MB), (1428, 16, 4 * MB), (8192, 16, 32 * MB), (65464, 16, 64 * MB),
        (512, 64, MB), (1428, 64, 2 * MB), (8192, 64, 8 * MB), (65464, 64, 16 * MB),
    ]
]
TRACED = [
    Case(verb, block, count, size // SHORTER)
    for verb in ["get", "put"]
    for block, count, size in [
        (512, 1, MB), (1428, 1, 2 * MB), (8192, 1, 16 * MB), (65464, 1, 128 * MB),
        (512, 16, MB // 4), (1428, 16, MB // 2), (8192, 16, 2 * MB), (65464, 16, 16 * MB),
    ]
]
TINY = Case("get", 512, 1, 100)
TINY_FILES = 1_000
# rounds of a case of several clients for one of a single client: they scatter more
MANY = 3
# The seconds after which the last transfer counts as active no more: tftpd polls while several are active
STILL = 0.8
# A client waits here until the others are there, too
GATE = 'read _ <&"$0"; exec "$@"'


def title(case) -> str:
    return f"{case.verb} {case.block}" + (f", {case.count} at once" if case.count > 1 else "")


@contextmanager
def watched(words, log, process) -> Iterator[None]:
    """A tool that watches a process and its children, and writes its log at the end."""
    words = [*words, "-o", log, "-p", str(process.pid)]
    tool = subprocess.Popen(words, stdout=subprocess.DEVNULL, stderr=subprocess.DEVNULL)
    time.sleep(0.1)
    yield
    tool.send_signal(signal.SIGINT)
    tool.wait()


def launch(client, port, case, room, at, before, gate) -> "tuple[subprocess.Popen[bytes], str]":
    """Starts a client, which begins once the gate is closed at its other end. Returns it and the file that it makes."""
    if case.verb == "get":
        made = f"{room}/local/{at}"
        words = client.get(port, str(case.size), made, case.block)
    else:
        made = f"{room}/new-{at}"
        words = client.put(port, f"new-{at}", f"{room}/{case.size}", case.block)
    words = ["sh", "-c", GATE, str(gate), *before, *words]
    return started(CLIENT_CPU, words, pass_fds=[gate]), made


def transfer(client, port, case, room, before=()) -> Optional[tuple[float, float, float]]:
    """Runs the clients of a case, which begin together: the seconds until the files are there, the clients' processor
    seconds, and the peak memory of the first; None where one fails."""
    # what watches a client ends with it
    early = client.names_at_end and case.verb == "get" and not before
    spent = children_seconds()
    gate, end = os.pipe()
    jobs = [launch(client, port, case, room, at, before, gate) for at in range(case.count)]
    os.close(gate)
    # each waits at the gate by then
    time.sleep(0.02 + 0.005 * case.count)
    start, peak = time.monotonic(), 0
    os.close(end)
    while not all(job.poll() is not None or early and os.path.exists(made) for job, made in jobs):
        peak = max(peak, memory(jobs[0][0]))
        time.sleep(0.001)
    seconds = time.monotonic() - start
    # a server may still write what it has acknowledged, and a client acknowledge what it has
    time.sleep(0.02)
    for job, _ in jobs:
        if early:
            job.terminate()
    whole = [job.wait() == 0 or early for job, _ in jobs]
    spent = children_seconds() - spent
    for _, made in jobs:
        whole.append(os.path.exists(made) and os.path.getsize(made) == case.size)
        if os.path.exists(made):
            os.remove(made)
    return (seconds, spent, peak) if all(whole) else None


def agrees(oack, block) -> bool:
    """Whether an answer is an OACK with this block size."""
    if not oack or oack[:2] != b"\0\6":
        return False
    words = oack[2:].lower().split(b"\0")
    return str(block).encode() in words[1:-1:2]


def supports(client, server, port, case, room) -> bool:
    """Whether the pair carries a short file so."""
    if case.block not in client.blocks or case.verb == "put" and not server.writes:
        return False
    name = "100" if case.verb == "get" else "new-0"
    if case.block != 512 and not agrees(answer(port, request(case.verb, name, case.block)), case.block):
        return False
    time.sleep(0.02)
    if os.path.exists(f"{room}/new-0"):
        os.remove(f"{room}/new-0")
    return transfer(client, port, case._replace(count=1, size=100), room) is not None


def measure_server(client, running, case, room) -> Optional[Result]:
    running.forget_memory()
    gave, cpu = running.clocked(lambda: transfer(client, running.port, case, room))
    total = case.count * case.size
    return gave and Result(total / MB / gave[0], cpu * GIB / total, running.memory())


def measure_client(client, running, case, room) -> Optional[Result]:
    gave = transfer(client, running.port, case, room)
    total = case.count * case.size
    return gave and Result(total / MB / gave[0], gave[1] * GIB / total, gave[2])


def compare(names, rounds, run) -> None:
    """Runs each peer once a round, and prints a line for each. The first is ours, and the floor is no peer."""
    results = {name: [] for name in names}
    for turn in range(rounds):
        first = turn % len(names)
        for name in names[first:] + names[:first]:
            results[name].append(run(name))
    done = {name: [result for result in results[name] if result] for name in names}
    rates = {name: statistics.median(result.rate for result in done[name]) for name in names if done[name]}
    ours = names[0]
    for name in names:
        if name not in rates:
            print(f"  {name:12}", "not supported" if False in results[name] else "failed")
            continue
        rows = done[name]
        peak = max(result.peak for result in rows)
        cpu = statistics.median(result.cpu for result in rows)
        spread = f"{min(result.rate for result in rows):.1f} to {max(result.rate for result in rows):.1f}"
        lost = f"  {rounds - len(rows)} failed" if len(rows) < rounds else ""
        ratio = f"{ratio_to_best(rates, ours):6.2f}" if name == ours else " " * 6
        peak = f"{peak:7.1f}" if peak else f"{'-':>7}"
        print(f"  {name:12} {rates[name]:9.1f} {ratio} {cpu:8.2f} {peak}  {spread}{lost}")
    sys.stdout.flush()


def ratio_to_best(rates, ours) -> float:
    """Our rate as a multiple of the best of the peers."""
    others = [rate for name, rate in rates.items() if name != ours and not name.startswith("floor")]
    return rates[ours] / max(others) if others else float("nan")


def read_tiny(port) -> float:
    """Reads a small file many times, each from a port of its own, and returns the seconds."""
    start = time.monotonic()
    for _ in range(TINY_FILES):
        with socket.socket(socket.AF_INET, socket.SOCK_DGRAM) as end:
            end.settimeout(2)
            end.sendto(request("get", str(TINY.size)), (peers.HOST, port))
            data, peer = end.recvfrom(600)
            assert len(data) == 4 + TINY.size
            end.sendto(b"\0\4\0\1", peer)
    return time.monotonic() - start


def measure_tiny(running) -> Optional[Result]:
    running.forget_memory()
    seconds, cpu = running.clocked(lambda: read_tiny(running.port))
    return Result(TINY_FILES / seconds, cpu / TINY_FILES * 1e6, running.memory())


def measure_start(client, running, room) -> Optional[Result]:
    done = [transfer(client, running.port, TINY, room) for _ in range(5)]
    if not all(done):
        return None
    seconds, cpu, peak = (min(column) for column in zip(*done))
    return Result(1 / seconds, cpu * 1e6, peak)


def counted(log) -> int:
    """The system calls that perf counted, which slows nothing."""
    with open(log) as lines:
        return int(re.search(r"^(\d+),", lines.read(), re.M)[1])


def calls(log) -> dict[str, int]:
    """The system calls that strace counted, by their names."""
    with open(log) as lines:
        rows = re.findall(r"^\s*[\d.]+\s+[\d.]+\s+\d+\s+(\d+)(?:\s+\d+)?\s+(\w+)$", lines.read(), re.M)
    return {name: int(count) for count, name in rows if name != "total"}


def show_calls(name, case, traced) -> None:
    """Prints the calls a block by each tool: perf's sum, and those of strace by their names."""
    blocks = case.count * (case.size // case.block + 1)
    made = traced.get("strace", {})
    often = sorted(((count / blocks, call) for call, count in made.items()), reverse=True)
    told = ", ".join(f"{call} {count:.2f}" for count, call in often if count > 0.02)
    total = traced.get("perf", sum(made.values()))
    print(f"  {name:12} {total / blocks:6.2f}  {told}", flush=True)


# Each tool that counts calls: its words, and what reads its log
TRACERS = {
    "perf": (["perf", "stat", "-x,", "-e", "raw_syscalls:sys_enter"], counted),
    "strace": (["strace", "-f", "-c"], calls),
}


def trace_server(client, running, case, log, room) -> Any:
    traced = {}
    for tool, (words, read) in installed_tracers():
        time.sleep(STILL)
        with watched(words, log, running.process):
            transfer(client, running.port, case, room)
        traced[tool] = read(log)
    return traced


def trace_client(client, running, case, log, room) -> Any:
    traced = {}
    for tool, (words, read) in installed_tracers():
        transfer(client, running.port, case, room, [*words, "-o", log])
        traced[tool] = read(log)
    return traced


def installed_tracers() -> list[tuple[str, Any]]:
    return [(tool, how) for tool, how in TRACERS.items() if shutil.which(tool)]


class Bench:
    """The peers of this machine, with their servers running."""

    def __init__(self, tftpd, tftp, room, stack) -> None:
        self.room = room
        floor = compiled("floor", room)
        servers = [peers.Tftpd(tftpd), peers.TftpdHpa(), peers.Atftpd(), peers.Dnsmasq(), *peers.floors(floor)]
        self.servers = {server.name: server for server in peers.installed(servers)}
        self.running = {name: Running(server, room) for name, server in self.servers.items()}
        stack.callback(lambda: [running.stop() for running in self.running.values()])
        clients = [peers.Tftp(tftp), peers.Busybox(), peers.Atftp(), peers.Curl(), peers.TftpHpa(),
                   peers.FloorClient(floor)]
        self.clients = {client.name: client for client in peers.installed(clients)}
        self.able = {}

    def has(self, client, server, case) -> bool:
        key = client, server, case.verb, case.block
        if key not in self.able:
            port = self.running[server].port
            self.able[key] = supports(self.clients[client], self.servers[server], port, case, self.room)
        return self.able[key]

    def client_for(self, case) -> Any:
        """The client under which servers are measured: a peer where one can do the case."""
        ours, *others = self.clients
        can = (name for name in [*others, ours] if any(self.has(name, server, case) for server in self.servers))
        return next(can, None)

    def server_for(self, case) -> Any:
        """The server over which clients are measured: a peer where one can do the case."""
        ours, *others = self.servers
        can = (name for name in [*others, ours] if any(self.has(client, name, case) for client in self.clients))
        return next(can, None)

    def transfers(self, rounds, word) -> None:
        for case in CASES:
            if word not in title(case):
                continue
            client, server = self.client_for(case), self.server_for(case)
            if not client or not server:
                continue
            turns = rounds * (MANY if case.count > 1 else 1)
            print(f"\n{title(case)}: servers under {client}       MB/s  ratio    s/GiB      MB  slowest to fastest")
            compare(
                list(self.servers),
                turns,
                lambda name: self.has(client, name, case)
                and measure_server(self.clients[client], self.running[name].restarted(), case, self.room),
            )
            if case.count > 1:
                continue
            print(f"{title(case)}: clients over {server}")
            compare(
                list(self.clients),
                turns,
                lambda name: self.has(name, server, case)
                and measure_client(self.clients[name], self.running[server], case, self.room),
            )

    def tiny(self, rounds) -> None:
        print(f"\n{TINY_FILES} files of {TINY.size} bytes: servers  files/s  ratio  us/file      MB")
        compare(list(self.servers), rounds, lambda name: measure_tiny(self.running[name]))
        server = self.server_for(TINY)
        print(f"one file of {TINY.size} bytes: clients over {server}")
        compare(
            list(self.clients),
            rounds,
            lambda name: measure_start(self.clients[name], self.running[server], self.room),
        )

    def traces(self) -> None:
        log = f"{self.room}/strace.log"
        for case in TRACED:
            client, server = self.client_for(case), self.server_for(case)
            print(f"\n{title(case)}: system calls a block")
            for name in self.servers:
                if self.has(client, name, case):
                    made = trace_server(self.clients[client], self.running[name], case, log, self.room)
                    show_calls(name, case, made)
            for name in self.clients:
                if case.count == 1 and self.has(name, server, case):
                    made = trace_client(self.clients[name], self.running[server], case, log, self.room)
                    show_calls(name, case, made)


def make_files(room, sizes) -> None:
    os.chmod(room, 0o777)
    os.mkdir(f"{room}/local")
    for size in sizes:
        with open(f"{room}/{size}", "wb") as file:
            file.write((os.urandom(min(size, MB)) * (size // MB + 1))[:size])


def main() -> None:
    tftpd, tftp = (os.path.abspath(word) for word in sys.argv[1:3])
    rounds = int(sys.argv[3]) if len(sys.argv) > 3 else 3
    word = sys.argv[4] if len(sys.argv) > 4 else ""
    # in memory where that can be, so that no disk is measured
    where = "/dev/shm" if os.access("/dev/shm", os.W_OK) else None
    have_priority()
    with tempfile.TemporaryDirectory(dir=where) as room, ExitStack() as stack:
        cases = [TINY, *(case for case in CASES if word in title(case)), *(TRACED if word in "calls" else [])]
        make_files(room, {case.size for case in cases})
        bench = Bench(tftpd, tftp, room, stack)
        bench.transfers(rounds, word)
        if word in "tiny":
            bench.tiny(rounds)
        if word in "calls" and installed_tracers():
            bench.traces()


main()
