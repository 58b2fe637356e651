"""What shows only in quantity: 64 transfers at a time, each byte compared, puts that are synced one after the other,
thousands of requests, a hundred thousand datagrams, and hours of silence by a clock that runs fast."""
import time

from lib.disk import serve
from lib.ends import BUSY, FILE_NOT_FOUND, ILLEGAL, UNKNOWN, ack, data, expect, rrq
from lib.exchanges import has_checks, random_bytes, usage_of

# as many gets and puts as a server may have open, and the full blocks of each
GETS, PUTS, BLOCKS, SIZE = 32, 32, 4, 512


def test_sixty_four_at_once(scene) -> None:
    """Gets and puts, none of which ends before all have their last block but one: each has its own bytes, and there
    is no 65th."""
    gets, puts = ({f"{way}{at}": random_bytes(BLOCKS * SIZE + 7 * at + 1) for at in range(count)}
                  for way, count in [("get", GETS), ("put", PUTS)])
    scene.make_all({f"served/{name}": content for name, content in gets.items()})
    server = scene.serve("--cap", "64", "--forever", root="served")
    readers, writers = {name: server.reads(name) for name in gets}, {name: server.writes(name) for name in puts}
    server.refuses(rrq("get0"), BUSY)
    for number in range(BLOCKS + 1):
        at = slice(number * SIZE, (number + 1) * SIZE)
        for name, end in readers.items():
            end.is_answered(ack(number), data(number + 1, gets[name][at]))
        for name, end in writers.items():
            end.is_answered(data(number + 1, puts[name][at]), ack(number + 1))
    scene.has({f"served/{name}": content for name, content in {**gets, **puts}.items()})


def test_each_of_many_puts_is_synced(scene) -> None:
    """A server syncs the file and the folder of the 64th, the most that it may have open, as those of the first: the
    calls are those of `test_a_name_is_synced`."""
    server, disk = serve(scene, "--cap", "64", "--forever")
    for number in range(64):
        end = server.writes(f"n{number}")
        disk.forget()
        end.is_answered(data(1, b"N"), ack(1))
        disk.has_made("wsols", f"the commit of put {number}")


def test_six_thousand_requests(scene) -> None:
    """Each is answered, and then a file is served."""
    scene.make("a", b"ABC")
    server, port = scene.serve("--forever"), scene.port()
    for number in range(6_000):
        port.send(rrq("none"), server.address)
        expect(port.receive(), (FILE_NOT_FOUND, server.address), f"the answer to request {number}")
    server.gives("a", b"ABC")


# how many datagrams are sent before their answers are read, and how many KB more a server may have at the end
MANY_DATAGRAMS, BURST, MOST_MORE = 100_000, 50, 300


def test_memory_after_a_hundred_thousand_datagrams(scene) -> None:
    """Half are no packets, and half come to a transfer from another port: each is answered, and none is kept."""
    scene.make("a", b"ABC")
    server = scene.serve("--forever")
    end = server.reads("a")
    port, pid, usages = scene.port(), server.process.pid, []
    for count in [2_000, MANY_DATAGRAMS]:
        for _ in range(count // BURST // 2):
            for to, datagram, answer in [(server.address, b"\0\4", ILLEGAL), (end.peer, ack(9), UNKNOWN)]:
                for _ in range(BURST):
                    port.send(datagram, to)
                for _ in range(BURST):
                    expect(port.receive(), (answer, to), "the answer")
        usages.append(usage_of(pid))
    (descriptors, before), (descriptors_after, after) = usages
    end.is_answered(ack(0), data(1, b"ABC"))
    expect(descriptors_after, descriptors, "the descriptors")
    expect(has_checks(pid) or after - before < MOST_MORE, True, f"whether {after - before} KB more are few")


# how many times faster the clock goes, and silences in seconds of that clock: none, of a minute, five, and an hour
FASTER, SILENCES = 600, [0, 70, 310, 3_700]


def test_an_hour_of_silence(scene) -> None:
    """By a clock that runs fast: before and after each silence a get, a put and a refusal are answered."""
    scene.make("a", b"ABC")
    server = scene.serve_preloaded("other_time.c", "--forever", "--log", QUICKER=FASTER)
    for number, silence in enumerate(SILENCES):
        time.sleep(silence / FASTER)
        server.gives("a", b"ABC")
        server.writes(f"n{number}").gives(b"N")
        server.refuses(rrq("none"), FILE_NOT_FOUND)
        expect(server.process.poll(), None, f"the status of the server after {silence} s of silence")
    scene.has(a=b"ABC", **{f"n{number}": b"N" for number in range(len(SILENCES))})
