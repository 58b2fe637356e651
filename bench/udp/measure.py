"""A server that runs: how it is started, what processor time it takes with its children, and its memory."""
import atexit
import os
import re
import resource
import socket
import subprocess
import sys
import time
from contextlib import suppress
from pathlib import Path
from typing import Any, Optional

import peers

HERE = Path(__file__).resolve().parent
MB = 1_000_000
GIB = 2**30
LAST_CPU = os.cpu_count() - 1
# A divisor of all lengths, to try the rows
SHORTER = int(os.environ.get("SHORTER", "1"))
SERVER_CPU, CLIENT_CPU, OWN_CPU = 0, min(1, LAST_CPU), min(2, LAST_CPU)


def compiled(name, room) -> str:
    """The path of a C program of this folder, compiled."""
    subprocess.run(["cc", "-O2", "-o", f"{room}/{name}", HERE / f"{name}.c"], check=True)
    return f"{room}/{name}"


def have_priority() -> None:
    """This process stays at one processor; all that it starts precedes other work on the machine."""
    os.sched_setaffinity(0, {OWN_CPU})
    if os.geteuid() == 0 and not os.environ.get("QUIETLY"):
        os.sched_setscheduler(0, os.SCHED_FIFO, os.sched_param(1))


class Group:
    """A control group, whose processor time the kernel counts. `folder` is None where none can be had."""

    def __init__(self, name) -> None:
        with open("/proc/self/mounts") as mounts:
            tops = [line.split()[1] for line in mounts if line.split()[2] == "cgroup2"]
        self.folder = Path(tops[0], f"bench-{os.getpid()}-{name}") if tops else None
        try:
            if self.folder:
                self.folder.mkdir(exist_ok=True)
                atexit.register(self.remove)
        except OSError:
            self.folder = None

    def words(self, words) -> list[str]:
        """A command line that runs these words in the group."""
        if not self.folder:
            return words
        return ["sh", "-c", 'echo 0 > "$0"; exec "$@"', f"{self.folder}/cgroup.procs", *words]

    def seconds(self) -> Optional[float]:
        """The processor seconds of all that has run in it so far, or None."""
        if not self.folder:
            return None
        return int(re.search(r"usage_usec (\d+)", (self.folder / "cpu.stat").read_text())[1]) / 1e6

    def remove(self) -> None:
        for _ in range(50):
            with suppress(OSError):
                self.folder.rmdir()
            if not self.folder.exists():
                return
            time.sleep(0.02)


def started(cpu, words, **how) -> "subprocess.Popen[bytes]":
    """Starts a program at this processor, or these, as "0" or "0-3"."""
    quiet = subprocess.DEVNULL
    how = {"stdin": quiet, "stdout": quiet, "stderr": quiet, **how}
    return subprocess.Popen(["taskset", "-c", str(cpu), *words], **how)


def request(verb, name, block=None, mode="octet") -> bytes:
    option = [b"blksize", str(block).encode()] if block else []
    opcode = {"get": b"\0\1", "put": b"\0\2"}[verb]
    return opcode + b"\0".join([name.encode(), mode.encode(), *option, b""])


def answer(port, datagram, wait=1.0) -> Optional[bytes]:
    """The answer to a request, if one comes; what it opened is given up."""
    with socket.socket(socket.AF_INET, socket.SOCK_DGRAM) as end:
        end.settimeout(wait)
        try:
            end.sendto(datagram, (peers.HOST, port))
            answered, peer = end.recvfrom(70_000)
            end.sendto(b"\0\5\0\0\0", peer)
        except OSError:
            return None
        return answered


def children_seconds() -> float:
    usage = resource.getrusage(resource.RUSAGE_CHILDREN)
    return usage.ru_utime + usage.ru_stime


class Running:
    """A server of a folder, in a control group of its own."""

    def __init__(self, server, room, cpu=SERVER_CPU) -> None:
        self.server, self.group = server, Group(server.name.replace(" ", "-"))
        self.room, self.cpu = room, cpu
        self.start()

    def start(self) -> None:
        """Starts it, and waits until it answers."""
        with socket.socket(socket.AF_INET, socket.SOCK_DGRAM) as free:
            free.bind((peers.HOST, 0))
            self.port = self.server.port or free.getsockname()[1]
        self.process = started(self.cpu, self.group.words(self.server.words(self.room, self.port)))
        if not any(answer(self.port, request("get", "absent"), 0.1) or time.sleep(0.05) for _ in range(50)):
            sys.exit(f"{self.server.name} gives no answer")

    def stop(self) -> None:
        self.process.terminate()
        self.process.wait()

    def restarted(self) -> "Running":
        """The server, started anew: a run does not depend on what earlier ones left in its memory."""
        self.stop()
        self.start()
        return self

    def clocked(self, run) -> tuple[Any, float]:
        """Runs, and returns what that gave with the processor seconds of the server and its children: by its group, or
        else those until its end, at which the kernel counts them; it is started again then."""
        before = self.group.seconds()
        if before is not None:
            gave = run()
            return gave, self.group.seconds() - before
        # (what `run` starts and waits for is not the server's)
        gave = run()
        before = children_seconds()
        self.stop()
        spent = children_seconds() - before
        self.start()
        return gave, spent

    def memory(self) -> float:
        return memory(self.process)

    def forget_memory(self) -> None:
        with suppress(OSError), open(f"/proc/{self.process.pid}/clear_refs", "w") as refs:
            refs.write("5")


def memory(process) -> float:
    """The greatest memory of a process so far, in MB."""
    try:
        with open(f"/proc/{process.pid}/status") as status:
            return int(re.search(r"VmHWM:\s+(\d+)", status.read())[1]) * 1024 / MB
    except (OSError, TypeError):
        return 0
