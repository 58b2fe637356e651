"""Several servers by one command, at one port or at two: their life, their lines, their ports, and which of them takes
a request."""
import os
import re
import signal
import socket
import time
from collections import Counter
from pathlib import Path
from statistics import median

import pytest

from lib.ends import (
    ACCESS_VIOLATION, BUSY, PATIENCE, PATIENT, End, Port, ack, data, expect, free_ports, oack, rrq, wait_until, wrq)
from lib.scene import MARKED, Server, are_gone, children_of, next_line, preloaded, wait_for_servers, written_by

# an address beside the one of the test
SECOND = "127.0.0.2"
# how many times longer servers wait that nothing wakes; and how long they may outlive their supervisor or one of
# them, in seconds: half of all lives less than this, since one that saw it only at the end of its wait of a second
# would take twice as long. A single life may take longer where the host is busy
LONGER, SOON = 40, 20
# how often each kill is tried, at so many ports at once; and how often while servers begin
ROUNDS, AT_ONCE, BEGINNINGS = 10, 5, 60
# how many times slower the clocks of servers go in a test of what they do within milliseconds of their own, which
# other servers have then to act in, however busy the host is: the pauses of `tftp_service/src/share.rt`
SLOWER = 200
# how long a server that is full leaves a request to the others at least, by its clock in seconds: 10 ms, some of
# which may be over when the request comes, since the clock is read before; and the longest that it may
LEFT, LEFT_AT_MOST = 0.005, 0.3
# Who is killed, by a signal: the supervisor, or a server by its number; and how many servers there are
KILLED = [*((0, by, 2) for by in [signal.SIGTERM, signal.SIGINT, signal.SIGKILL]),
          (1, signal.SIGKILL, 3), (3, signal.SIGTERM, 3), (2, signal.SIGINT, 3)]


def serve_slowly(scene, count, *words) -> Server:
    """Servers of one file whose clocks go so many times slower."""
    scene.make("a", b"ABC")
    return scene.serve_several(count, *words, env=preloaded(scene, "other_time.c", SLOWER=SLOWER))


def served(server, count) -> list[End]:
    """So many clients ask at once, once each, and are answered."""
    return [port.opened(oack(**PATIENT)) for port in [server.asked(rrq("a", **PATIENT)) for _ in range(count)]]


def is_over(server, pids, begun) -> float:
    """Waits until a supervisor and all its servers are gone; nobody has their port. Returns how long that took since
    a moment."""
    wait_until(lambda: server.process.poll() is not None and are_gone(pids), "servers that end")
    lasted = time.monotonic() - begun
    Port(*server.address).close()
    return lasted


@pytest.mark.parametrize("which, by, count", KILLED)
def test_one_that_ends_ends_all(scene, which, by, count) -> None:
    """Idle servers are gone soon, and nobody has a pipe. A supervisor says which of its servers has ended, and how; a
    server says nothing where its supervisor has."""
    said = ["tftpd: server fault", f"tftpd: server {which}: signal: {int(by)} ({by.name})"] if which else []
    env, lasted = preloaded(scene, "other_time.c", LONGER=LONGER), list[float]()
    for _ in range(ROUNDS):
        processes = [scene.start_several(count, env=env) for _ in range(AT_ONCE)]
        servers = [scene.served(process, count) for process in processes]
        pids, begun = [children_of(process) for process in processes], time.monotonic()
        for process, own in zip(processes, pids):
            os.kill([process.pid, *own][which], by)
        lasted += [is_over(server, own, begun) for server, own in zip(servers, pids)]
        ends = [server.ended() for server in servers]
        expect(ends, [(2 if which else -by, [], said)] * AT_ONCE, "how the supervisors ended")
    middle = median(lasted)
    expect(middle < SOON, True, f"whether half of {len(lasted)} lives end sooner than {SOON} s, and not {middle:.3f}")


def test_servers_that_just_began_end_with_their_supervisor(scene) -> None:
    """Also those that go to wait at that moment: each sees its loss before it waits, or is woken by it."""
    env, lasted = preloaded(scene, "other_time.c", LONGER=LONGER), []
    for moment in range(BEGINNINGS):
        process = scene.start_several(4, env=env)
        next_line(process.stdout)
        time.sleep(moment % 20 / 1_000)
        pids = children_of(process)
        process.kill()
        lasted.append(wait_until(lambda: are_gone(pids), "servers that end"))
        process.communicate(timeout=PATIENCE)
    expect(max(lasted) < SOON, True, f"whether all end sooner than {SOON} s, and not {max(lasted):.3f}")


def test_busy_servers_end_with_their_supervisor(scene) -> None:
    """Transfers that go on do not keep them."""
    scene.make("a", bytes(1_000_000))
    server = scene.serve_several(2)
    pids, ends, block = children_of(server.process), [server.first_block("a", bytes(512)) for _ in range(8)], 0
    server.process.kill()
    begun = time.monotonic()
    while not are_gone(pids):
        block = block % 1_900 + 1
        for end in ends:
            end.send(ack(block))
        expect(time.monotonic() < begun + PATIENCE, True, "whether the servers end")
        time.sleep(0.001)
    is_over(server, pids, begun)


def test_lines_of_several_servers_are_whole(scene) -> None:
    """Each close has one line, which says what server printed it. Each server has its part of the ports."""
    scene.make("a", b"ABC")
    first = free_ports(160)
    server = scene.serve_several(4, "--log", "--cap", "64", "--ports", f"{first}:{first + 159}")
    ends = served(server, 64)
    for end in ends:
        end.gets(b"ABC")
    places = [(end.peer[1], end.port.address[1]) for end in ends]
    expected = [f"server {(peer - first) // 40 + 1}: {peer} {client} Complete\n" for peer, client in places]
    expect(sorted(next_line(server.process.stdout) for _ in ends), sorted(expected), "the lines")
    server.process.kill()
    log = written_by(server.process)[1].splitlines()
    kinds = Counter(re.sub(MARKED + r"(\w+) .*", r"\2", line) for line in log)
    expect(kinds, {"listening": 4, "opened": 64, "closed": 64}, f"the lines in the log {log}, each with its server")


def test_a_supervisor_waits_for_servers_that_were_there(scene) -> None:
    """The system syncs a file for three seconds, in which a server cannot end though its supervisor has: another
    supervisor with the same words tries the port until it has."""
    words = [".", "--listen", f"{scene.address}:{free_ports(1)}", "--servers", "2", "--forever"]
    server = scene.served(scene.start("tftpd", words, env=preloaded(scene, "slow_calls.c", DELAY=3_000)), 2)
    pids = children_of(server.process)
    server.writes("b").send(data(1, b"ABC"))
    time.sleep(0.3)
    server.process.terminate()
    server.process.wait(PATIENCE)
    time.sleep(1)
    expect(are_gone(pids), False, "whether no server outlives its supervisor")
    scene.served(scene.start("tftpd", words), 2).process.kill()


def test_an_address_that_comes_later(scene) -> None:
    """The other one is served meanwhile, and a line says which is tried again: then that is served, too, by each of
    its servers. Without any that is there nothing is served."""
    scene.make("a", b"ABC")
    there, late = scene.beside("there"), f"127.77.77.77:{free_ports(1)}"
    env = preloaded(scene, "absent_address.c", ABSENT=77, UNTIL=there)
    words = [".", "--listen", f"{scene.address}:0", "--listen", late, "--servers", "2", "--forever"]
    process = scene.start("tftpd", words, env=env)
    said = f"tftpd: {late}: address not available, tried again each second\n"
    expect(next_line(process.stderr), said, "what is said of the address")
    scene.gets(scene.served(process, 2), "a", "one", 3)
    there.touch()
    # (the line of the get may come before it)
    lines = [line for line in (next_line(process.stdout) for _ in range(2)) if not line.endswith(" Complete\n")]
    expect(lines, [f"listening {late}\n"], "what is said once it is there")
    wait_for_servers(process, 4)
    for name in ("two", "three"):
        scene.gets(late, "a", name, 3)
    process.kill()
    there.unlink()
    process = scene.start("tftpd", [".", "--listen", late, "--listen", "127.77.77.77:0", "--forever"], env=env)
    printed, errors = written_by(process)
    last = f"tftpd: socket fault\ntftpd: {late}: address not available\n"
    expect((process.returncode, printed, errors[-len(last):]), (2, "", last), "what is said of no address")


def test_an_address_that_is_there_at_once(scene) -> None:
    """It is not there when it is tried first, and is when the servers have started, before anything was waited for: it
    is served as any other, and so is the one that was there."""
    scene.make("a", b"ABC")
    there, late = scene.beside("there"), f"127.77.77.77:{free_ports(1)}"
    env = preloaded(scene, "absent_address.c", ABSENT=77, UNTIL=there, ONCE=1)
    words = [".", "--listen", f"{scene.address}:0", "--listen", late, "--forever"]
    process = scene.start("tftpd", words, env=env)
    said = f"tftpd: {late}: address not available, tried again each second\n"
    expect(next_line(process.stderr), said, "what is said of the address")
    listening = [next_line(process.stdout).split()[1] for _ in range(2)]
    expect(late in listening, True, f"whether {late}, which came at once, is one of {listening}")
    wait_for_servers(process, 2)
    for name, word in zip(("one", "two"), listening):
        scene.gets(word, "a", name, 3)


def test_servers_at_two_addresses(scene) -> None:
    """One command has a server at each, which answers from there, and one file ends both."""
    scene.make("a", b"ABC")
    listen = [word for address in (scene.address, SECOND) for word in ["--listen", f"{address}:0"]]
    process = scene.start("tftpd", [".", *listen, "--log", "--drain", "enough", "--forever"])
    words = [next_line(process.stdout).split()[1] for _ in range(2)]
    expect({word.split(":")[0] for word in words}, {scene.address, SECOND}, "the addresses of the first lines")
    wait_for_servers(process, 2)
    for word in words:
        scene.gets(word, "a", word, 3)
    (scene.folder / "enough").touch()
    printed, log = (text.splitlines() for text in written_by(process))
    expect(process.returncode, 0, "the status of a supervisor whose servers have drained")
    closed = sorted(re.sub(r"\d+ \d+ C", "C", line) for line in printed)
    expect(closed, ["server 1: Complete", "server 2: Complete"], f"whose transfers closed in {printed}")
    drained = sorted(line for line in log if "draining" in line)
    expect(drained, [f"server {number}: draining: 0 transfers open" for number in (1, 2)], "the lines of the drain")


def test_a_server_of_several_by_hand(scene) -> None:
    """Each line of it has its number. Once nobody reads its standard output, also the socket of a stream, it ends,
    and says nothing."""
    words = [".", "--listen", "stdin", "--server", "3", "--forever"]
    scene.fails("tftpd", words, "server 3: tftpd: socket fault\nserver 3: tftpd: standard input: not a socket\n")
    bound, (ours, theirs) = scene.port(), socket.socketpair()
    with ours, theirs:
        process = scene.start("tftpd", words, stdin=bound.socket, stdout=theirs)
        ours.settimeout(PATIENCE)
        expect(ours.recv(100), f"listening {bound.word}\n".encode(), "the first line")
    expect((written_by(process)[1], process.returncode), ("", 2), "how a server without a reader ends")


def name_to_fill(length) -> bytes:
    """A name whose request has a line that is as long as 1,024 bytes up to about `length` bytes of the name, each of
    which stands as three, and behind them a line of its own, as a client would have it."""
    line = b"<0>tftp-server:shell-tftp:opened-69-10.0.0.1:69-RRQ-a-octet:"
    return b"\x01" * length + line + b"\x02" * (140 - length // 4)


@pytest.mark.parametrize("kind", ["file", "pipe", "stream"])
def test_no_client_writes_a_line_into_the_log(scene, kind) -> None:
    """Four servers, whose standard error is a file, a pipe or the socket of a stream as that of systemd's journal, and
    clients whose names fill a line to 1,024 bytes and beyond: each line is of one request, and begins with its
    server."""
    log = scene.beside("log")
    with open(log, "wb") as file:
        errors: int = file.fileno()
        if kind != "file":
            ours, errors = os.pipe() if kind == "pipe" else (end.detach() for end in socket.socketpair())
            scene.start("cat", [], stdin=ours, stdout=file)
        server = scene.serve_several(4, "--log", stderr=errors)
    # (names that are none of paths, many at a time, so that all servers answer at once)
    names, ports = [name_to_fill(length) for length in range(280, 330)] * 12, [scene.port() for _ in range(20)]
    for at in range(0, len(names), len(ports)):
        for port, name in zip(ports, names[at:]):
            server.asked(rrq(name), port)
        for port in ports:
            expect(port.receive()[0], ACCESS_VIOLATION, "the answer")
    # (a request is logged behind its answer)
    wait_until(lambda: log.read_bytes().count(b" refused ") >= len(names), "a line of each request")
    server.process.kill()
    server.process.communicate(timeout=PATIENCE)
    pattern = MARKED + r"(?:listening .*|refused \S+ RRQ (\S+) octet: ERROR 2 \([^)]*\), name not allowed)"
    lines = [(line, re.fullmatch(pattern, line)) for line in log.read_text().splitlines()]
    expect([line for line, found in lines if not found], [], f"lines of several requests, or of no server, in a {kind}")
    shown = Counter("".join(f"%{byte:02x}" if byte < 32 else chr(byte) for byte in name) for name in names)
    expect(Counter(found[2] for _, found in lines if found[2]), shown, f"the names in the log, a {kind}")


def is_busy_soon(server, begun) -> float:
    """One more is refused soon. Returns how long that took by the servers' clock, in seconds."""
    server.refuses(rrq("a", **PATIENT), BUSY)
    lasted = (time.monotonic() - begun) / SLOWER
    expect(lasted < LEFT_AT_MOST, True, f"whether it comes soon, after {lasted:.4f} s of the servers' clock")
    return lasted


def test_a_full_server_leaves_requests_to_others(scene) -> None:
    """Each client is served at its first request as long as a server has room; a request more is refused once each
    server has left it to the others for a while of its own clock. What is no request is not left: behind 64 of these
    a request waits no longer than alone."""
    server = serve_slowly(scene, 3, "--cap", "4")
    served(server, 12)
    lasted = is_busy_soon(server, time.monotonic())
    expect(LEFT <= lasted, True, f"whether it is left to others first, for {lasted:.4f} s of the servers' clock")
    junk, begun = scene.port(), time.monotonic()
    for _ in range(64):
        server.asked(b"x", junk)
    is_busy_soon(server, begun)


def test_a_request_that_comes_again_reaches_another_server(scene) -> None:
    """Its first answer was lost: another server opens a second transfer. The client goes on with either, and of a put
    one draft is committed."""
    server, port = scene.serve_several(4, "--retries", "0"), scene.port()
    answered, until = set[tuple[str, int]](), time.monotonic() + PATIENCE
    while len(answered) < 2:
        expect(time.monotonic() < until, True, "whether another server answers")
        server.asked(wrq("new", timeout=6), port)
        time.sleep(0.05)
        answered |= {sender for _, sender in port.waiting()}
    chosen, outcomes = max(answered), dict[str, str]()
    port.send(data(1, b"ABC"), chosen)
    while port.receive()[0] != ack(1):
        pass
    while not {f"{transfer}" for _, transfer in answered} <= set(outcomes):
        _, _, transfer, _, outcome = next_line(server.process.stdout).split()
        outcomes[transfer] = outcome
    expect(outcomes.pop(f"{chosen[1]}"), "Complete", "how the transfer ended that the client chose")
    expect(set(outcomes.values()), {"TimedOut"}, "how the others ended")
    expect(scene.content("new"), b"ABC", "the file")


def test_servers_have_no_descriptor_of_each_other(scene) -> None:
    """Each has the words of its supervisor, the socket, its own pipe, standard error and two polls, and the supervisor
    one pipe of each."""
    server = scene.serve_several(4, "--overwrite", "--max-file", "99999")
    pids = children_of(server.process)
    for each in pids:
        found = Path(f"/proc/{each}/cmdline").read_text().split("\0")
        expect({"--overwrite", "--max-file=99999"} <= {*found}, True, f"whether a server has its words, {found}")
    fds = [sorted(re.sub(r"\d+", "N", os.readlink(fd)) for fd in Path(f"/proc/{each}/fd").iterdir())
           for each in [*pids, server.process.pid]]
    expect(len({*map(tuple, fds[:-1])}), 1, f"how many kinds of servers there are by their descriptors, {fds}")
    counts = fds[0].count("pipe:[N]"), fds[-1].count("pipe:[N]")
    expect((counts[0] <= 2, counts[1] <= 6), (True, True), f"whether {counts} pipes are few")
