"""The model agrees with worked examples: those of RFC 1350, RFC 2347 to 2349 and RFC 764, and others by hand. And what
a seed chooses does not follow what comes, or when."""
import random
from types import SimpleNamespace

import pytest

import raw
from model import (
    Ack, Data, Error, Fault, Oack, Receiver, Refused, Request, RequestPort, Sender, ack, answer, data, decode, error,
    host_text, may_go_on, oack, path_of, wire_text)

# datagrams as hexadecimal digits, and their packets
PACKETS = [
    ("00026120253d006e6574415343494900", Request("WRQ", b"a %=", b"netascii", ())),
    ("0001626f6f742e696d67006f6374657400424c4b53495a4500313432380074696d656f7574003300",
     Request("RRQ", b"boot.img", b"octet", ((b"BLKSIZE", b"1428"), (b"timeout", b"3")))),
    ("0006610000", Oack(((b"a", b""),))), ("00030001414243", Data(1, b"ABC")), ("00030001", Data(1, b"")),
    ("0004ffff", Ack(65_535)), ("00050000613d20250a00", Error(0, b"a= %\n")), ("0005000000", Error(0, b"")),
    ("000500006100", Error(0, b"a")),
]

# and those with a fault, the first of which is this, behind so many bytes
FAULTS = [
    ("", "Short", 0), ("00", "Short", 0), ("0007", "Opcode", 0), ("000300", "Short", 2), ("00030000", "BlockZero", 2),
    ("0004000100", "Trailing", 4), ("00050000610062", "Trailing", 6), ("0005000061", "Unterminated", 4),
    ("0001", "Unterminated", 2), ("000100", "EmptyName", 2), ("000161006d61696c00", "Mode", 4),
    ("000161006f637465740000", "EmptyOption", 10), ("000161006f63746574000061", "EmptyOption", 10),
    ("000161006f63746574006100", "NoValue", 12), ("000161006f6374657400610062", "Unterminated", 12),
    ("0006", "EmptyOack", 2), ("0001" + "61" * 511, "TooLong", 512),
]

# netascii (RFC 764): a file and its wire text
TEXTS = [(b"a\nb", b"a\r\nb"), (b"\r", b"\r\0"), (b"\r\n", b"\r\0\r\n"), (b"", b"")]

NAMES = [(b"a", b"a"), (b"/a/b", b"a/b"), (b"", None), (b"/", None), (b"a//b", None), (b".a", None), (b"a/../b", None),
         (b"a+b", None), (b"x" * 65, None), (b"/".join([b"x"] * 9), None), (b"x" * 64, b"x" * 64)]

# a server's answers: the options, the kind, and what is agreed for a file of 600 bytes and blocks up to 1,428
ANSWERS = [
    ([(b"BLKSIZE", b"65464"), (b"timeout", b"3"), (b"tsize", b"0")], "RRQ",
     [(b"blksize", 1_428), (b"timeout", 3), (b"tsize", 600)]),
    ([(b"blksize", b"7"), (b"timeout", b"0"), (b"tsize", b"1"), (b"windowsize", b"4")], "RRQ", []),
    ([(b"blksize", b"0512"), (b"blksize2", b"9")], "RRQ", []),
    ([(b"blksize", b"x"), (b"BlkSize", b"512")], "RRQ", ("option refused",)),
    ([(b"tsize", b"1001")], "WRQ", ("disk full",)),
]


def told(call, *words) -> object:
    """What a function returns, or what it refuses by."""
    try:
        return call(*words)
    except Refused as refused:
        return refused.args


ROWS = [
    *((decode, [bytes.fromhex(digits)], packet) for digits, packet in PACKETS),
    *((decode, [bytes.fromhex(digits)], Fault(kind, at)) for digits, kind, at in FAULTS),
    *((wire_text, [b"netascii", content], text) for content, text in TEXTS),
    *((host_text, [b"netascii", text], content) for content, text in TEXTS),
    *((may_go_on, [text], text == b"a\r") for text in (b"\n", b"\ra", b"a\r\r\n", b"a\r")),
    *((path_of, [name], path) for name, path in NAMES),
    *((answer, [options, kind, b"octet", 600, 1_428, 1_000], expected) for options, kind, expected in ANSWERS),
]


def test_small_parts() -> None:
    for call, words, expected in ROWS:
        assert told(call, *words) == expected, f"{call.__name__}{words}"


def test_exchanges() -> None:
    """A read with options in which DATA 2 is lost and ACK 1 comes twice; a write that is committed and repeated."""
    client, stranger, port = ("127.0.0.1", 1), ("127.0.0.1", 2), RequestPort({b"a": b"x" * 600}, [])
    request = b"\0\1a\0octet\0blksize\x00512\0"
    first, end = port.on_datagram(client, request)
    assert first == oack([(b"blksize", 512)])
    assert port.on_datagram(client, request) == (None, None)
    assert end.on_datagram(client, ack(0)) == data(1, b"x" * 512)
    assert end.on_datagram(stranger, ack(1)) == error("unknown transfer id")
    assert end.on_datagram(client, ack(1)) == data(2, b"x" * 88)
    assert end.on_datagram(client, ack(1)) is None
    assert end.on_timeout() == data(2, b"x" * 88)
    assert (end.on_datagram(client, ack(2)), end.outcome) == (None, "Complete")
    first, end = port.on_datagram(client, b"\0\2n\0octet\0")
    assert first == ack(0)
    assert [end.on_datagram(client, data(1, b"ABC")) for _ in range(2)] == [ack(1), ack(1)]
    assert port.files[b"n"] == b"ABC"
    assert (end.on_timeout(), end.outcome, end.on_timeout(), end.outcome) == (None, None, None, "Complete")


def gives_up(limit, slack, retries) -> bool:
    """Whether a client gives up while its server goes on. Its datagram is received after so many timeouts of the
    client, the answer is sent some timeouts later, and as many as at first pass until that is received."""
    options = [(b"blksize", 8)]
    server = Sender("client", options, retries, bytes(20), 0, oack(options))
    client = Receiver("server", options, retries, b"octet", lambda _: None, ack(0))
    for _ in range(limit):
        client.on_timeout()
    answer = server.on_datagram("client", ack(0))
    for _ in range(slack + limit):
        client.on_timeout()
    return client.on_datagram("server", answer) is None and client.outcome == "TimedOut" and not server.outcome


@pytest.mark.parametrize("limit", [1, 2, 3])
@pytest.mark.parametrize("slack", [0, 1, 2])
def test_the_bound_of_loss_is_tight(limit, slack) -> None:
    """`2 * limit + slack` retries are enough (`an_end_outlasts_loss` of `tftp_lives`), and one fewer is not."""
    assert gives_up(limit, slack, 2 * limit + slack - 1) and not gives_up(limit, slack, 2 * limit + slack)


def test_raw_clients_draw_in_each_step_anew() -> None:
    """What they ask does not follow how many numbers the steps before have drawn."""
    asked: dict[int, list[float]] = {0: [], 3: []}
    for more, found in asked.items():
        stand = SimpleNamespace(rng=random.Random(7), live=[], is_quiet=lambda: None)
        stand.take, stand.ask = lambda _: stand.rng.randbytes(4 * more), lambda: found.append(stand.rng.random())
        raw.Trial.run(stand, 5)
    assert asked[0] == asked[3] and len(asked[0]) > 10
