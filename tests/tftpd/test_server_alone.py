"""`tftpd` answers the datagrams of a test: from which address and port, when again, what it cannot send, and what its
log says."""
import os
import re
import time
from datetime import datetime, timedelta, timezone

import pytest

from lib.ends import PATIENT, STOP, End, ack, bytes_of, data, expect, free_ports, oack, rrq
from lib.scene import Server, logs, written_by

TWO_BLOCKS = bytes_of(600)


def test_a_slot_is_freed_first(scene) -> None:
    """A server with one slot is never busy for a client that acknowledges before it requests again: first with the
    server stopped in between, then as fast as possible. Successive requests are of the same file, and of the
    other."""
    scene.make_all({"a": b"ABC", "b": b"ABC"})
    server = scene.serve("--cap", "1", "--transfers", "105")
    end = server.first_block("b", b"ABC")
    for at in range(104):
        if at < 4:
            server.stop()
        end.send(ack(1))
        server.asked(rrq("aabb"[at % 4], **PATIENT), end.port)
        if at < 4:
            server.go_on()
        end = end.port.opened(oack(**PATIENT))
        end.is_answered(ack(0), data(1, b"ABC"))
    end.send(ack(1))
    server.has_closed(*["Complete"] * 105)


def test_an_error_to_the_server_is_seen_soon(scene) -> None:
    """An ERROR immediately after an acknowledgement closes the transfer long before the timeout of 255 seconds."""
    scene.make("a", b"ABC")
    server = scene.serve()
    end = server.reads("a")
    server.stop()
    end.send(ack(0))
    end.send(STOP)
    server.go_on()
    server.has_closed("PeerError(0)")


# Where a server listens, what address is asked, and which answers
@pytest.mark.parametrize("listen, asked, expected", [
    ("127.0.0.1", "127.0.0.1", "127.0.0.1"), ("", "", ""), ("0.0.0.0", "127.0.0.1", "127.0.0.1"),
    ("0.0.0.0", "127.0.0.2", "127.0.0.1")])
def test_two_addresses(scene, listen, asked, expected) -> None:
    """The source of an answer is the address that the server listens at; with 0.0.0.0, that of the system's route to
    the client, whatever the destination of the request."""
    scene.make("a", b"ABC")
    server = scene.serve(listen=listen)
    expect(server.address[0], listen or scene.address, "the address that is printed")
    server.address = (asked or scene.address, server.address[1])
    end = server.reads("a")
    expect(end.peer[0], expected or scene.address, "the address of the answer")
    end.send(STOP)
    server.has_closed("PeerError(0)")


@pytest.mark.parametrize("place", ["UTC", "Asia/Kolkata", "UTC+11"])
def test_lines_have_times(scene, place) -> None:
    """Each line of the log begins with the time between the start of the server and its end, in UTC, wherever it
    runs."""
    scene.make("a", b"ABC")
    words = [".", "--listen", f"{scene.address}:0", "--log", "--log-time", "--rounds", "2000"]
    before = datetime.now(timezone.utc) - timedelta(milliseconds=1)
    server = Server(scene, scene.start("tftpd", words, env={**os.environ, "TZ": place}))
    server.reads("a").send(STOP)
    _, _, lines = server.ended()
    form = r"(\d{4}-\d\d-\d\dT\d\d:\d\d:\d\d\.\d{3})Z (listening|opened|closed) .*"
    found = [re.fullmatch(form, line) for line in lines]
    kinds = [line[2] if line else None for line in found]
    expect(kinds, ["listening", "opened", "closed"], f"the lines {lines}")
    times = [before, *(datetime.fromisoformat(line[1] + "+00:00") for line in found), datetime.now(timezone.utc)]
    expect(times, sorted(times), f"whether the times of {lines} are those of the lines")


# ---- when it polls and sends again, and what it cannot send


def test_a_datagram_that_is_not_sent_is_logged(scene) -> None:
    """The system refuses one datagram of the server: the first of a transfer, a later one, an ERROR. It is logged
    with the port that it was to leave from, and a datagram of a transfer is sent again."""
    scene.make("a", TWO_BLOCKS)
    for unsent in (1, 2):
        server = scene.serve_preloaded("watch_calls.c", "--log", UNSENT=unsent)
        end = server.opens(rrq("a"), data(1, TWO_BLOCKS[:512]))
        end.is_answered(ack(1), data(2, TWO_BLOCKS[512:]))
        end.send(ack(2))
        logs(
            server.has_closed("Complete")[:-1], r"opened \d+ \S+ RRQ a octet: DATA 1 512",
            rf"unsent {end.peer[1]} {end.port.word} RRQ a octet: permission denied",
            r"closed \d+ \S+ RRQ a octet: DATA 1 512, 600 bytes, \d+ ms, [1-9]\d* sent again, Complete")
    server = scene.serve_preloaded("watch_calls.c", "--log", UNSENT=1)
    server.asked(rrq("none"))
    server.has_logged_only(r"refused \S+ RRQ none octet: ERROR 1 \(file not found\)",
                           rf"unsent {server.address[1]} \S+ RRQ none octet: permission denied")


def test_a_transfer_that_waits_makes_no_polls(scene) -> None:
    """A get whose client waits between its blocks costs a few polls a block, also beside a put that has finished and
    waits for its last block, and beside a client that is silent. However slow the host is, a poll that finds nothing
    takes a second, or half of one once after each block."""
    began, content = time.monotonic(), bytes_of(512 * 40)
    scene.make("a", content)
    server = scene.serve_preloaded("watch_calls.c", "--transfers", "1", UNSENT=0)
    server.writes("n").gives(b"N")
    server.reads("a")
    time.sleep(0.7)
    end = server.reads("a")
    for number in range(41):
        time.sleep(0.002)
        end.is_answered(ack(number), data(number + 1, content[512 * number:512 * (number + 1)]))
    end.send(ack(41))
    polls, seconds = int(written_by(server.process)[1].split()[-2]), time.monotonic() - began
    expect(polls < 41 * 4 + 60 + 3 * seconds, True, f"whether {polls} polls are few in {seconds:.1f} s")


def test_a_deadline_runs_from_a_slow_opening(scene) -> None:
    """The opening of a file takes longer than the timeout of its transfer: what answers the request is sent again a
    timeout after it was sent, not at once."""
    scene.make("slow", b"ABC")
    server = scene.serve_preloaded("slow_calls.c", DELAY=1_300)
    port = server.asked(rrq("slow", timeout=1), scene.port().is_timed())
    (answer, first, transfer), (copy, again, _) = port.arrived(), port.arrived()
    expect([answer, copy], [oack(timeout=1)] * 2, "the answer and its copy")
    waited = again - first
    expect(waited > 0.99, True, f"whether the answer is sent again after a second, not after {waited:.3f} s")
    End(port, transfer).send(STOP)


# ---- the ports of its transfers


def test_ports_are_drawn_anew(scene) -> None:
    """Transfers use the ports of `--ports` alone. What was seen of them does not foretell the next: a second round
    has another order, and so has another server."""
    scene.make("a", b"ABC")
    first, orders = free_ports(12), []
    for _ in range(2):
        server = scene.serve("--ports", f"{first}:{first + 11}", "--transfers", "48")
        ports = [server.gives("a", b"ABC").peer[1] for _ in range(48)]
        server.has_closed(*["Complete"] * 48)
        expect(set(ports) <= {*range(first, first + 12)}, True, f"whether the ports {ports} are of the range")
        orders += [tuple(ports[at:at + 12]) for at in range(0, 48, 12)]
    expect(len(set(orders)), len(orders), f"how many of the orders {orders} differ")
