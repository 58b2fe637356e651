"""The request port of `tftpd`: the answer to each request, byte for byte, and to requests that come again. With
`--requests-only` what begins neither as RRQ nor as WRQ is dropped, for clients whose session goes wrong without
that."""
import re

from lib import requests
from lib.ends import FILE_NOT_FOUND, ILLEGAL, End, ack, data, error, expect, oack, rrq
from lib.scene import Server

CONTENTS = {"a": b"ABC", "d/b": b"XY", "empty": b"", "long": b"a" * requests.LONG}


def served(scene, cap=64) -> Server:
    """A server of the files that the rows speak of."""
    scene.make_all({f"served/{name}": content for name, content in CONTENTS.items()})
    return scene.serve("--cap", f"{cap}", "--forever", root="served")


def datagram_of(answer: str, content: bytes) -> bytes:
    """The bytes of an answer by its line: of a DATA those of the file's first block; nothing where none is to come."""
    match answer.split():
        case ["ERROR", code, *_]:
            return error(int(code), re.findall(r"\((.*)\)", answer)[0])
        case ["OACK", *options]:
            return oack(**dict(option.split("=") for option in options))
        case ["ACK", number]:
            return ack(int(number))
        case ["DATA", number, _]:
            return data(int(number), content)
    return b""


def answers(server, port, row: tuple[str, bytes, str]) -> None:
    """The server answers a datagram of this port by these bytes, or not at all."""
    what, datagram, line = row
    name = datagram[2:].split(b"\0")[0].decode(errors="replace").lstrip("/")
    expected = datagram_of(line, CONTENTS.get(name, b""))
    port.send(datagram, server.address)
    if not expected:
        # (what is answered stands behind it)
        expected = ILLEGAL
        port.send(b"\0\7", server.address)
    found, sender = port.receive()
    expect((found, sender == server.address), (expected, expected[1] == 5), what)


def test_port_rows(scene) -> None:
    """Each request of a client of its own."""
    server = served(scene)
    for row in [*requests.PORT, *requests.READS, *requests.WRITES]:
        answers(server, scene.port(), row)


def test_option_rows(scene) -> None:
    server = served(scene)
    for row in requests.OPTIONS:
        answers(server, scene.port(), row)


def test_repeat_rows(scene) -> None:
    """The requests of one client; and then those to a server that is full."""
    server, port = served(scene), scene.port()
    for row in requests.REPEATS:
        answers(server, port, row)
    server, port = served(scene, cap=1), scene.port()
    answers(server, port, ("the first", rrq("a"), "DATA 1 3"))
    answers(server, scene.port(), ("the second", rrq("a"), "ERROR 0 (server busy)"))
    answers(server, port, ("the first again", rrq("a"), ""))


# ---- what is no request

# The opcodes of RFC 1350, section 5, and of RFC 2347 but those of requests; opcodes of nothing; less than an opcode;
# and a line of a chargen (RFC 864)
NOISE = [ack(0), ack(1), data(1, b"ABC"), error(1, "file not found"), oack(blksize=512), b"\0\0", b"\0\7",
         b"\1\1a\0octet\0", b"\2\0a\0octet\0", b"", b"\0", b"\1", bytes(range(32, 104)) + b"\r\n"]
# Begin as requests, and are none
MALFORMED = [b"\0\1", b"\0\2", b"\0\1a", b"\0\2a\0", b"\0\1a\0octet"]


def test_what_is_no_request_is_dropped(scene) -> None:
    """It gets no answer, and the log has a line for it: the next answer that comes to the client is that to its next
    request. A malformed request is answered by ERROR 4 as ever, and so is what is no request and no ERROR without the
    option."""
    server, port = scene.serve("--requests-only", "--log"), scene.port()
    for noise in NOISE:
        port.send(noise, server.address)
        End(port, server.address).is_answered(rrq("none"), FILE_NOT_FOUND)
    for malformed in MALFORMED:
        server.refuses(malformed, ILLEGAL)
    expect(port.waiting(), [], "what else is answered")
    log = server.has_logged(2 * len(NOISE) + len(MALFORMED))
    ignored = [line for line in log if line.startswith(f"ignored {port.word} ")]
    expect(len(ignored), len(NOISE), f"the ignored datagrams in {log}")
    server = scene.serve()
    for noise in NOISE:
        if noise[:2] != b"\0\5":
            server.refuses(noise, ILLEGAL)
