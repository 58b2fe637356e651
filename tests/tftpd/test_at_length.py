"""What shows only at length: the most blocks of a file, and those of any size; retries to their end, each block of a
long transfer, 3,000 transfers of one server with its memory, its descriptors and the numbers of its log, and what a
block costs."""
import os
import random
import re
import time
from collections import Counter
from pathlib import Path
from statistics import median

import pytest

from lib.ends import (
    FILE_NOT_FOUND, PATIENT, STOP, UNKNOWN, End, ack, bytes_of, data, expect, free_ports, oack, rrq, wait_until, wrq)
from lib.exchanges import COUNTED, INTERVAL, UNHURRIED, has_checks, random_bytes, times_of, usage_of, were_counted
from lib.scene import Server
from lib.seeds import commit_seed

# the longest life of a client of so many blocks, in seconds: they take some, and minutes on a busy host
LONG_LIFE = 540
# the most blocks of a transfer, of which the last is shorter; and what a long file repeats: its length is no multiple
# of a block's
MOST_BLOCKS, PIECE = 65_535, 1_000_003
# how many sizes of blocks are tried: a get and a put of each run at once
SIZES = 12


@pytest.mark.parametrize("size", [512, 1_428])
def test_the_most_blocks(scene, size) -> None:
    """More than 32 MB, and more than 93, are got and put at the same time, each byte compared. The copies are removed:
    they are long."""
    length = MOST_BLOCKS * size - 1
    content = (random_bytes(PIECE) * (length // PIECE + 1))[:length]
    scene.make("long", content)
    server = scene.serve("--forever")
    more = ["--timeout", f"{2 * UNHURRIED}", *(["--blksize", f"{size}"] if size != 512 else [])]
    for client in [scene.tftp("get", server.word, "long", "got", "--no-dally", *more),
                   scene.tftp("put", server.word, "long", "new", *more)]:
        client.completes(length, LONG_LIFE)
    for name in ["got", "new"]:
        found, wrong = scene.content(name), None
        if found != content:
            wrong = next((at for at, (one, other) in enumerate(zip(found, content)) if one != other), None)
        expect((len(found), wrong), (length, None), f"the length of {name}, and the first byte that differs")
    for name in ["long", "got", "new"]:
        (scene.folder / name).unlink()


def test_blocks_of_any_size(scene) -> None:
    """From 8 bytes to 65,464, by the seed of the commit, of which some have full blocks at their end."""
    rng = random.Random(seed := commit_seed())
    sizes = sorted(rng.sample(range(8, 65_465), SIZES - 2) + [8, rng.randrange(9, 512)])
    contents = {f"{size}": random_bytes(size * rng.randrange(1, 5) + rng.choice([-1, 0, 1])) for size in sizes}
    scene.make_all(contents)
    server = scene.serve("--max-block", "65464", "--cap", "64", "--forever")
    clients = [(scene.tftp(*words, "--blksize", size, "--timeout", f"{UNHURRIED}"), len(content))
               for size, content in contents.items()
               for words in [["get", server.word, size, f"{size}.got", "--no-dally"],
                             ["put", server.word, size, f"{size}.put"]]]
    for client, length in clients:
        client.completes(length)
    print(f"seed {seed}")
    scene.has({f"{size}{ending}": content for size, content in contents.items() for ending in ["", ".got", ".put"]})


def test_retries_of_a_server_to_their_end(scene) -> None:
    """A read and a write whose client is silent: the first answer, and then each block, comes as often as `--retries`
    says and once more, a timeout apart, and then the transfer closes."""
    scene.make("a", b"ABC")
    # (a server each, whose waits no other transfer cuts short)
    servers = [scene.serve("--retries", f"{retries}") for retries in [COUNTED] * 3 + [0]]
    silent, reader, writer, once = ports = [scene.port().is_timed() for _ in servers]
    answer, reading = oack(timeout=INTERVAL), rrq("a", timeout=INTERVAL)
    for server, port, request in zip(servers, ports, [reading, reading, wrq("n", timeout=INTERVAL), reading]):
        server.asked(request, port)
    reader.opened(answer).send(ack(0))
    for server in servers:
        server.has_closed("TimedOut")
    for port, datagram in [(silent, answer), (writer, answer), (reader, data(1, b"ABC"))]:
        were_counted(times_of(port, datagram), f"{datagram!r}")
    expect(len(times_of(once, answer)), 1, "how often an OACK comes with --retries 0")


# ---- each block, and who is its client

MANY_BLOCKS, SMALL = 700, 8


def test_each_block_comes_once(scene) -> None:
    """Of a long get each DATA, and of a long put each ACK, comes once: nothing is sent twice, and nothing beside
    it."""
    content = bytes_of(MANY_BLOCKS * SMALL + 3)
    scene.make("a", content)
    server = scene.serve("--rounds", "100000")
    get, put = server.reads("a", blksize=SMALL), server.writes("n", blksize=SMALL)
    for number in range(MANY_BLOCKS + 1):
        get.newest = put.newest = None
        block = content[number * SMALL:(number + 1) * SMALL]
        get.is_answered(ack(number), data(number + 1, block))
        put.is_answered(data(number + 1, block), ack(number + 1))
    get.send(ack(MANY_BLOCKS + 1))
    server.has_closed("Complete")
    expect(get.port.waiting() + put.port.waiting(), [], "what came beside the blocks and their acknowledgements")
    scene.has(a=content, n=content)


def test_the_same_port_of_another_address_is_foreign(scene) -> None:
    """To a transfer of a server and to one of a client it gets ERROR 5, whatever it sends, and changes nothing
    (RFC 1350, section 4)."""
    content, beside, first = bytes_of(1_000), f"{scene.address.rpartition('.')[0]}.254", free_ports(2)
    scene.make("a", content)
    server = scene.serve()
    # (ports that nobody has at the other address either)
    (port, twin), (own, other) = [(scene.port(first + at), scene.port(first + at, beside)) for at in range(2)]
    end = server.reads("a", port=port)
    for datagram in [ack(0), ack(1), rrq("a")]:
        twin.send(datagram, end.peer)
        expect(twin.receive(), (UNKNOWN, end.peer), "the answer to the other address")
    twin.send(STOP, end.peer)
    end.gets(content)
    server.has_closed("Complete")
    client, asked = scene.begun_get("--no-dally")
    end = End(own, asked.peer)
    end.is_answered(oack(**PATIENT), ack(0))
    other.send(data(1, b"of another"), end.peer)
    expect(other.receive(), (UNKNOWN, end.peer), "the answer to the other address")
    end.gives(b"ABC")
    client.completes(3)
    expect(scene.content("local"), b"ABC", "the file")


def test_ports_cannot_be_foretold(scene) -> None:
    """Ports of the system's choice, of two servers and of clients: they rise and fall, hardly a step from one to the
    next comes again, nor does the step of that step, and a server that is started anew has others. So nobody
    foretells the next from the last ones."""
    scene.make("a", b"ABC")
    orders = []
    for _ in range(2):
        server = scene.serve("--cap", "64")
        ends = [server.reads("a") for _ in range(40)]
        orders.append([end.peer[1] for end in ends])
        server.kill()
    requests = scene.port()
    clients = [scene.tftp("get", requests.word, "a", f"got{at}") for at in range(12)]
    peers = list(dict.fromkeys(requests.receive()[1][1] for _ in clients))
    for ports in [*orders, peers]:
        steps = [after - before for before, after in zip(ports, ports[1:])]
        expect({step > 0 for step in steps}, {True, False}, f"whether the ports {ports} rise and fall")
        for each in [steps, [after - before for before, after in zip(steps, steps[1:])]]:
            expect(len(set(each)) > 0.9 * len(each), True, f"whether the steps {each} of {ports} differ")
    again = set(zip(orders[0], orders[0][1:])) & set(zip(orders[1], orders[1][1:]))
    expect(again, set(), "the pairs of ports that come in both servers")


# of each kind: those of system services, of users, and of the ranges from which systems choose
CLIENT_PORTS = [1, 7, 68, 1_023, 1_024, 4_095, 32_767, 32_768, 49_151, 49_152, 60_999, 61_000, 61_001, 65_534, 65_535]


def test_client_ports_of_the_whole_range(scene) -> None:
    """Each is served by one server, and gets a file from another port than its own."""
    scene.make("a", b"ABC")
    server = scene.serve("--cap", "64", "--forever")
    for number in CLIENT_PORTS:
        if number > 1_023 or os.geteuid() == 0:
            server.reads("a", port=scene.port(number)).gets(b"ABC")


# ---- many transfers

FIRST, ALL, OPEN_AT_ONCE = 1_000, 3_000, 20
# after each so many transfers there is a put, and after others a get that waits, in seconds
PUT_EACH, WAIT_EACH, WAIT = 50, 200, 0.15
# what a server may have more of after all than after the first, in KB: half of a KB each; and by how many milliseconds
# the time of its log may be off, since the clock is read once a round
MOST_MORE, NEARLY = 1_000, 20
TEXTS = {"a": b"ABC", "b": bytes_of(600)}
# parts of the lines of the log
ASKED, STOPPED = "octet timeout=255: OACK timeout=255", "N ms, 0 sent again, PeerError(0), ERROR 0 (stop)"


def transfer(server, number) -> tuple[End, str]:
    """One of many transfers, and how it ends in the log: its request and its numbers, without its milliseconds."""
    if number % 10 == 6:
        server.refuses(rrq("none"), FILE_NOT_FOUND)
    if number % PUT_EACH == 0:
        # the last block comes twice, so that its acknowledgement is sent again
        end = server.opens(wrq(f"n{number}", timeout=1), oack(timeout=1))
        for _ in range(2):
            end.newest = None
            end.gives(b"ABC")
        return end, f"WRQ n{number} octet timeout=1: OACK timeout=1, 3 bytes, N ms, 1 sent again, Complete"
    if number % 10 == 3:
        end = server.first_block("b", TEXTS["b"][:512])
        end.send(STOP)
        return end, f"RRQ b {ASKED}, 512 bytes, {STOPPED}"
    waits = number % WAIT_EACH == 7
    end = server.reads(name := "b" if waits else "a")
    time.sleep(WAIT * waits)
    end.gets(TEXTS[name])
    return end, f"RRQ {name} {ASKED}, {len(TEXTS[name])} bytes, N ms, 0 sent again, Complete"


def test_three_thousand_transfers(scene) -> None:
    """One server opens and closes 3,000, with refusals between them: it has no more descriptors than after the first
    thousand, no more memory, a line for each close, and each number of a line is the client's own."""
    scene.make_all(TEXTS)
    # (the server writes into files: it would stop where nobody reads a pipe)
    printed, logged = scene.beside("printed"), scene.beside("logged")
    words = [".", "--listen", f"{scene.address}:0", "--log", "--forever", "--cap", "64", "--retries", "10"]
    with printed.open("wb") as output, logged.open("wb") as errors:
        process = scene.start("tftpd", words, stdout=output, stderr=errors)
    wait_until(logged.read_bytes, "the first lines")
    process.stdout, process.stderr = printed.open("rb"), logged.open("rb")
    server, pid, usages = Server(scene, process), process.pid, []
    # the lines of the closes, and how long those that wait took for their client at most, in milliseconds
    closes, most = Counter[str](), dict[str, float]()
    # first as many at once as a busy host may come to have open, whose memory the server keeps
    for end in [server.writes("m") for _ in range(OPEN_AT_ONCE)]:
        end.send(STOP)
        closes[f"closed {end.peer[1]} {end.port.word} WRQ m {ASKED}, 0 bytes, {STOPPED}"] += 1
    for number in range(1, ALL + 1):
        begun = time.monotonic()
        end, line = transfer(server, number)
        place = f"{end.peer[1]} {end.port.word}"
        # (the system may choose a port again)
        closes[f"closed {place} {line}"] += 1
        if number % WAIT_EACH == 7:
            last = f"{end.peer[1]} {end.port.address[1]} Complete\n"
            wait_until(lambda: last in printed.read_text(), "the line of the close")
            most[place] = 1_000 * (time.monotonic() - begun)
        end.port.close()
        if number in (FIRST, ALL):
            # (the first line says where it listens)
            wait_until(lambda: printed.read_text().count("\n") > closes.total(), f"{closes.total()} lines")
            usages.append(usage_of(pid))
    (fds, before), (_, after) = usages
    wait_until(lambda: logged.read_text().count("\nclosed ") >= closes.total(), "the lines of the log")
    # (a port is closed behind the line of its transfer)
    wait_until(lambda: usage_of(pid)[0] <= fds, f"{fds} descriptors")
    expect(has_checks(pid) or after - before < MOST_MORE, True, f"whether {after - before} KB more are few")
    server.kill()
    log = logged.read_text().splitlines()
    found = Counter(re.sub(r", \d+ ms,", ", N ms,", line) for line in log if line.startswith("closed "))
    expect(([*(closes - found)][:3], [*(found - closes)][:3]), ([], []), "the closes that are missing, and others")
    expect(sum(line.startswith("opened ") for line in log), closes.total(), "the lines of openings")
    # the clock is read before a transfer opens and before it closes: most have a time between the two of their client
    closed = re.findall(r"(?m)^closed (\S+ \S+) .*, (\d+) ms,", "\n".join(log))
    times = [(int(millis), most[place]) for place, millis in closed if place in most]
    beside = max(median(1_000 * WAIT - millis for millis, _ in times), median(millis - own for millis, own in times))
    expect((len(times) >= 10, beside < NEARLY), (True, True), f"whether the milliseconds are the client's own: {times}")


# what the fastest block may take, in seconds, and the time on a processor on average: of both the host's other work
# changes little
BLOCKS, FASTEST, ON_A_PROCESSOR = 960, 0.000_7, 0.000_15


def test_a_block_takes_little_time(scene) -> None:
    """The fastest of many, and each some time of a processor."""
    scene.make("a", bytes_of(512 * BLOCKS))
    server = scene.serve("--forever")
    end, spent, pid = server.reads("a"), Path(f"/proc/{server.process.pid}/schedstat"), server.process.pid
    times, before = [], int(spent.read_text().split()[0])
    for number in range(BLOCKS):
        begun = time.perf_counter()
        end.answer_to(ack(number))
        times.append(time.perf_counter() - begun)
    each = (int(spent.read_text().split()[0]) - before) / BLOCKS / 1e9
    told = f"{min(times) * 1e6:.0f} microseconds of the fastest, and {each * 1e6:.0f} of a processor on average"
    expect((min(times) < FASTEST, has_checks(pid) or each < ON_A_PROCESSOR), (True, True), f"whether {told} are few")
