"""What completes while datagrams are lost: how many files are whole where they were to come, of as many transfers at
once, between two hosts that each lose a share of the datagrams that arrive.

A tenth is lost for the pairs that --backoff is for. With LOSSY_TABLE in the environment each client is tried at each
server at three shares, and `-s` shows the table of docs/PERFORMANCE.md."""
import os
import time
from contextlib import ExitStack, suppress
from itertools import product
from subprocess import DEVNULL, Popen, TimeoutExpired

import pytest

from lib import others
from lib.ends import expect, is_bound
from lib.hosts import Host
from lib.programs import programs

SERVER, CLIENT, PORT = "192.0.2.1", "192.0.2.2", 7_000
LOSE = "table inet lossy {{\n chain input {{\n type filter hook input priority 0;\n meta l4proto udp {}\n }}\n}}\n"
KERNEL = LOSE.format("numgen random mod 100 < 1 drop")
# What is run of each that is not ours
PROGRAMS = {"tftpd-hpa": "in.tftpd", "atftpd": "atftpd", "tftp-hpa": "tftp", "atftp": "atftp", "busybox": "busybox",
            "curl": "curl"}
# A verb, a client and a server: the pairs, or each client at our servers and at tftpd-hpa, and ours at each server
FEW = [("put", "tftp-hpa", "tftpd --backoff"), ("get", "tftp-hpa", "tftpd --backoff"),
       ("put", "tftp --backoff", "tftpd-hpa"), ("get", "tftp --backoff", "tftpd-hpa"),
       ("put", "tftp --backoff", "tftpd --backoff"), ("get", "busybox", "tftpd --backoff")]
OURS, SERVERS = ["tftp", "tftp --backoff"], ["tftpd", "tftpd --backoff", "tftpd-hpa", "atftpd"]
ALL = [*product(["get", "put"], [*PROGRAMS][2:], SERVERS[:3]), *product(["get", "put"], OURS, SERVERS)]
# How many transfers are made at once, at losses of so many datagrams of a hundred, how long they have, of a file of
# three blocks and an empty one, or of eight; a few of them may lose too much
IS_TABLE = "LOSSY_TABLE" in os.environ
PAIRS, COUNT, LOSSES, TIME, LENGTH, LEAST = (ALL, 60, [5, 10, 20], 150, 4_096, 0) if IS_TABLE else (
    FEW, 12, [10], 50, 1_536, 10)
NAMES = [f"{verb}, {client} and {server}" for verb, client, server in PAIRS]


def whole(verb, client, server, loss, room) -> int:
    """How many files are whole in the end."""
    content, way, (tftp, tftpd) = os.urandom(LENGTH), (SERVER, PORT), programs(["tftp", "tftpd"]).values()
    root, local = room / f"root{loss}", room / f"local{loss}"
    for folder in [root, local]:
        folder.mkdir()
        folder.chmod(0o777)
        (folder / "f").write_bytes(content)
    with ExitStack() as stack:
        hosts = here, there = Host(stack), Host(stack)
        here.link(there, "between")
        here.run(f"ip address add {CLIENT}/24 dev between")
        there.run(f"ip address add {SERVER}/24 dev between")

        def starts(host, words) -> Popen:
            process = Popen(host.words(*words), cwd=local, stdin=DEVNULL, stdout=DEVNULL, stderr=DEVNULL)
            stack.callback(process.wait)
            stack.callback(process.kill)
            return process

        ours = [tftpd, root, "--listen", f"{SERVER}:{PORT}", "--forever", "--cap", "64", *server.split()[1:]]
        words = others.server(PROGRAMS[server], way, root, "root", "root") if server in PROGRAMS else ours
        serving = starts(there, words)
        with there.inside():
            is_bound(f"{SERVER}:{PORT}", serving)
        for host in hosts:
            host.rules(LOSE.format(f"numgen random mod 100 < {loss} drop"))
        running, end = [], time.monotonic() + TIME
        for name in [f"n{at}" for at in range(COUNT)]:
            names = ["f", name] if verb == "get" else [name, "f"]
            ours = [tftp, verb, f"{SERVER}:{PORT}", *(names if verb == "get" else names[::-1]), *client.split()[1:]]
            words = others.command(PROGRAMS[client], verb, way, *names) if client in PROGRAMS else ours
            running.append(starts(here, words))
        for process in running:
            with suppress(TimeoutExpired):
                process.wait(max(end - time.monotonic(), 0))
    return sum(path.read_bytes() == content for path in (local if verb == "get" else root).glob("n*[0-9]"))


@pytest.mark.parametrize("verb, client, server", PAIRS, ids=NAMES)
def test_backoff(verb, client, server, tmp_path) -> None:
    if os.geteuid() != 0:
        pytest.skip("not root")
    if not all(others.is_installed(PROGRAMS.get(name, "sh")) for name in [client, server]):
        pytest.skip("not installed")
    counts = [whole(verb, client, server, loss, tmp_path) for loss in LOSSES]
    print(f"{verb}, {client} and {server}: {counts}")
    expect(min(counts) >= LEAST, True, f"whether {counts} of {COUNT} files are most")
