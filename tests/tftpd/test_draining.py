"""A server that drains: it takes no new request once a file is there, finishes what is open, and ends with status 0;
and a request port that another program bound, and hands over as standard input: the test itself, as systemd and inetd
do."""
import socket
import subprocess
import time
from contextlib import ExitStack
from typing import Any

import pytest

from lib.ends import PATIENCE, STOP, ack, data, expect, free_ports, oack, rrq, wait_until
from lib.scene import are_gone, children_of

FILE, CONTENT = "drain.now", b"\7" * 512 + b"ABC"


def drains(scene, server, count) -> None:
    """The file appears, if it is not there, and the server drains, with so many transfers open."""
    expect([server.log_line().split()[0] for _ in range(count)], ["opened"] * count, "the log")
    scene.make(FILE, b"")
    expect(server.log_line(), f"draining: {count} transfers open", "the line of the drain")


@pytest.mark.parametrize("words", [["--forever"], ["--transfers", "3"]], ids=" ".join)
def test_an_idle_server_drains_at_once(scene, words) -> None:
    """It ends within some seconds, whatever `--transfers` is, and at once where the file is there at the start."""
    server, begun = scene.serve(*words, "--log", "--drain", FILE), time.monotonic()
    drains(scene, server, 0)
    server.has_closed()
    expect(time.monotonic() - begun < PATIENCE / 2, True, "whether it ends soon")
    server = scene.serve(*words, "--log", "--drain", FILE)
    drains(scene, server, 0)
    server.has_closed()


def test_a_transfer_that_is_silent_ends_a_drain(scene) -> None:
    """Its client has vanished: it times out, and then the server ends."""
    scene.make("a", b"ABC")
    server = scene.serve("--forever", "--retries", "0", "--log", "--drain", FILE)
    # (until the server drains, however slow the host is)
    server.opens(rrq("a", timeout=8), oack(timeout=8))
    drains(scene, server, 1)
    server.has_closed("TimedOut")


def test_the_next_server_answers(scene) -> None:
    """A server that drains completes two gets in flight. A request that comes to its socket meanwhile has no answer
    of it, and is answered by the next one."""
    scene.make("a", CONTENT)
    bound = scene.port()
    server = scene.serve_at(bound, "--forever", "--log", "--drain", FILE)
    gets = [server.reads("a") for _ in range(2)]
    drains(scene, server, 2)
    late = server.asked(rrq("a"))
    for end in gets:
        end.gets(CONTENT)
    log = server.has_closed("Complete", "Complete")
    expect([line.split()[0] for line in log], ["closed"] * 2, "the rest of the log")
    expect(late.waiting(), [], "what the late client has from the first server")
    (scene.folder / FILE).unlink()
    server = scene.serve_at(bound)
    end = late.opened(data(1, CONTENT[:512]))
    end.is_answered(ack(1), data(2, b"ABC"))
    end.send(ack(2))
    server.has_closed("Complete")


# ---- what is handed over

# What is no request port: no socket at all; or the family of one, the kind, where it is bound and connected; and the
# reason
UDP = socket.AF_INET, socket.SOCK_DGRAM
OTHERS: list[tuple[Any, str]] = [
    ({"closed": 0}, "closed"), ({}, "not a socket"), ({"stdin": subprocess.PIPE}, "not a socket"),
    ((socket.AF_UNIX, socket.SOCK_DGRAM, "", None), "not a socket of the internet"),
    ((socket.AF_INET6, socket.SOCK_DGRAM, ("::1", 0), None), "a socket over IPv6"),
    ((socket.AF_INET, socket.SOCK_STREAM, ("127.0.0.1", 0), None), "a socket for streams"),
    ((*UDP, ("127.0.0.1", 0), ("127.0.0.1", 9)), "a connected socket"),
    ((*UDP, None, None), "a socket without a port"),
]


@pytest.mark.parametrize("stdin, reason", OTHERS, ids=[reason for _, reason in OTHERS])
def test_standard_input_is_no_request_port(scene, stdin, reason) -> None:
    """Each reason has words of its own."""
    fault = f"tftpd: socket fault\ntftpd: standard input: {reason}\n"
    with ExitStack() as stack:
        if not isinstance(stdin, dict):
            family, kind, address, peer = stdin
            try:
                bound = stack.enter_context(socket.socket(family, kind))
                if address is not None:
                    bound.bind(address)
            except OSError:
                pytest.skip("this host has no such socket")
            if peer:
                bound.connect(peer)
            stdin = {"stdin": bound}
        scene.fails("tftpd", [".", "--listen", "stdin"], fault, **stdin)


@pytest.mark.parametrize("address", ["", "0.0.0.0"], ids=["an address", "every address"])
def test_a_socket_is_handed_over(scene, address) -> None:
    """A get and a put. The source of an answer is the address of the socket, or the one of the system's route."""
    scene.make("a", b"ABC")
    expected = "127.0.0.1" if address else scene.address
    bound = scene.port(address=address)
    server = scene.serve_at(bound, "--transfers", "3")
    expect(server.address, bound.address, "the address that is printed")
    server.address = (expected, bound.address[1])
    end = server.reads("a", port=scene.port(address=expected))
    expect(end.peer[0], expected, "the address of the answer")
    end.send(STOP)
    word = f"{expected}:{bound.address[1]}"
    scene.gets(word, "a", "got", 3)
    scene.tftp("put", word, "got", "new").completes(3)
    server.has_closed("PeerError(0)", "Complete", "Complete")
    scene.has(a=b"ABC", got=b"ABC", new=b"ABC")


def test_a_transfer_never_has_the_port_that_is_handed_over(scene) -> None:
    """A range that has the request port has one port less."""
    scene.make("a", b"ABC")
    first = free_ports(2)
    server = scene.serve_at(scene.port(first), "--ports", f"{first}:{first + 1}", "--transfers", "3", "--log")
    for _ in range(3):
        end = server.opens(rrq("a"), data(1, b"ABC"))
        expect(end.peer[1], first + 1, "the port of the transfer")
        end.send(ack(1))
        server.closes("Complete")
    server.has_closed(*["Complete"] * 3)


@pytest.mark.parametrize("count", [1, 2])
def test_a_restart_loses_no_request(scene, count) -> None:
    """64 ask before so many servers start, and 64 after these were killed, and again: each asks once, and the next
    answer."""
    scene.make("a", b"ABC")
    bound = scene.port()
    clients = [[scene.port() for _ in range(64)] for _ in range(3)]
    for ports in clients:
        for port in ports:
            port.send(rrq("a"), bound.address)
        process = scene.start_several(count, "--cap", "64", listen="stdin", stdin=bound.socket)
        for port in ports:
            port.opened(data(1, b"ABC")).send(ack(1))
        pids = children_of(process)
        process.kill()
        wait_until(lambda: are_gone([*pids, process.pid]), "servers that end")
