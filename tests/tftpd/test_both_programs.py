"""`tftp` gets files from `tftpd`, and puts files to it."""
import re
from itertools import product

import pytest

from lib.ends import bytes_of, expect, free_ports, is_bound
from lib.exchanges import MODES, UNHURRIED, length_on_wire
from lib.programs import of_crate
from lib.scene import LIFE, RETRIES, Server, logs


def test_loopback(scene) -> None:
    """An invalid name, a missing one, a put of an existing one, a get, and an existing local file; the log has a line
    for each request, and one for the close."""
    scene.make("a", b"ABC")
    server = scene.serve("--log")
    scene.tftp("get", server.word, "b c", "local").fails("PeerError(2)")
    scene.tftp("get", server.word, "b", "local").fails("PeerError(1)")
    scene.tftp("put", server.word, "a", "a").fails("PeerError(6)")
    scene.tftp("get", server.word, "a", "local").completes(3)
    exists = "tftp: file fault\ntftp: local: exists (--replace replaces it)\n"
    scene.tftp("get", server.word, "a", "local").ends(2, "", exists)
    log, at = server.has_closed("Complete"), r"127[.\d]+:\d+"
    logs(log, rf"refused {at} RRQ b%20c octet: ERROR 2 \(access violation\), name not allowed",
         rf"refused {at} RRQ b octet: ERROR 1 \(file not found\)",
         rf"refused {at} WRQ a octet: ERROR 6 \(file exists\)",
         rf"opened \d+ {at} RRQ a octet: DATA 1 3",
         rf"closed \d+ {at} RRQ a octet: DATA 1 3, 3 bytes, \d+ ms, \d+ sent again, Complete")
    scene.has(a=b"ABC", local=b"ABC")


def test_a_server_over_memory(scene) -> None:
    """The example of a server whose files are in memory: its text is got, and a file is put and got."""
    scene.make("a", bytes_of(1_000))
    server = Server(scene, scene.start(of_crate("memory_examples"), [f"{scene.address}:0", "3"]))
    scene.tftp("get", server.word, "greeting", "text").completes(24)
    scene.tftp("put", server.word, "a", "b").completes(1_000)
    scene.tftp("get", server.word, "b", "copy", "--blksize", "100").completes(1_000)
    server.has_closed("Complete", "Complete", "Complete")
    scene.has(a=bytes_of(1_000), copy=bytes_of(1_000), text=b"This file is in memory.\n")


# Sizes of blocks: of networks, some of whose frames have 20 bytes of VLAN tags and the like, and as boot loaders ask
@pytest.mark.parametrize("size", [512, 1_428, 1_432, 1_456, 8_192, 65_464])
def test_blocks(scene, size) -> None:
    """Files of none, one and some blocks, of a byte less and a byte more, in both modes: those of a mode and a
    direction arrive at once, and the log has the length of each on the wire."""
    files = {f"file{length}": bytes_of(length) for length in [0, 1, size - 1, size, size + 1, 3 * size]}
    scene.make_all(files)
    count = 4 * len(files)
    server = scene.serve("--max-block", "65464", "--cap", "64", "--transfers", f"{count}", "--log")
    options, copies, lines = f"blksize={size} timeout={UNHURRIED}", dict[str, bytes](), list[str]()
    for way, mode in product(["get", "put"], MODES):
        clients = []
        for name, content in files.items():
            copy = f"{way}.{mode}.{name}"
            words = ["--blksize", f"{size}", "--timeout", f"{UNHURRIED}", *["--no-dally"] * (way == "get")]
            clients.append((scene.tftp(way, server.word, name, copy, *words, *MODES[mode]), len(content)))
            copies[copy] = content
            request = f"RRQ {name}" if way == "get" else f"WRQ {copy}"
            lines.append(f"{request} {mode} {options}: OACK {options}, {length_on_wire(content, mode)} bytes")
        for client, length in clients:
            client.completes(length)
    log = server.has_closed(*["Complete"] * count)
    scene.has({**files, **copies})
    found = [re.fullmatch(r"closed \d+ \S+ (.*), \d+ ms, \d+ sent again, Complete", line) for line in log]
    expect(sorted(line[1] for line in found if line), sorted(lines), "the transfers in the log")


def test_serves_forever(scene) -> None:
    """No count ends the server, nor a log that nobody reads any more. By default it ends with the first transfer."""
    scene.make("a", b"ABC")
    server = scene.serve("--forever", "--log")
    server.process.stderr.close()
    for name in ["first", "second", "third"]:
        scene.gets(server, "a", name, 3)
    expect(server.process.poll(), None, "the status of the server")


@pytest.mark.parametrize("limit, length", [("-f 8", 20_000), ("-f 8", 200_000), ("-f 384", 200_000)])
def test_the_disk_is_full(scene, limit, length) -> None:
    """Puts to a server with a limit of file sizes, in units of 512 bytes: the client receives the ERROR of a full
    disk, the log has the system's reason, and no file gets the name. The first file is written at the commit, the
    second as it arrives; of the third only the last bytes are refused."""
    scene.make("local", bytes_of(length))
    server = scene.serve("--max-block", "8192", "--log", limit=limit)
    scene.tftp("put", server.word, "local", "n").fails("PeerError(3)", "the server says: disk full")
    logs(
        server.has_closed("StoreFault"), r"opened \d+ 127[.\d]+:\d+ WRQ n octet: ACK 0",
        r"closed \d+ 127[.\d]+:\d+ WRQ n octet: ACK 0, \d+ bytes, \d+ ms, \d+ sent again, StoreFault, file too large")
    scene.lacks("n")


CLOSED = pytest.mark.parametrize("number", range(3), ids=["input", "output", "error"])


@CLOSED
def test_closed_streams_of_a_client(scene, number) -> None:
    """With standard input, output or error closed, what would be printed there goes into no file."""
    scene.make("served/a", b"ABC")
    server = scene.serve(root="served")
    refusal = "" if number == 2 else "tftp: PeerError(1)\ntftp: the server says: file not found\n"
    scene.tftp("get", server.word, "b", "none", closed=number).ends(1, "", refusal)
    said = "" if number == 1 else "complete 3\n"
    scene.tftp("get", server.word, "a", "got", "--no-dally", closed=number).ends(0, said)
    server.has_closed("Complete")
    scene.has({"served/a": b"ABC", "got": b"ABC"})


@CLOSED
def test_closed_streams_of_a_server(scene, number) -> None:
    """The same of a server: it takes a file and gives it back."""
    scene.make_all({"local": b"ABC", "served": None})
    # what it prints may be closed, too: it has a port that the test knows, and listens once that is bound
    word = f"{scene.address}:{free_ports(1)}"
    words = ["served", "--listen", word, "--log", "--transfers", "2", *RETRIES]
    server = scene.start("tftpd", words, closed=number)
    is_bound(word, server)
    scene.tftp("put", word, "local", "n").completes(3)
    scene.gets(word, "n", "got", 3)
    expect(server.wait(LIFE), 0, "the status of the server")
    scene.has(dict.fromkeys(["local", "served/n", "got"], b"ABC"))
