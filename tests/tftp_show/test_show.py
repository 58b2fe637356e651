"""Rows of `tftp-show`: what it prints for lines of packets and of captures, and its status.

captures.txt has lines of tshark's fields, recorded on a virtual network between tftpd-hpa 5.2 at 192.0.2.1 and the
clients atftp 0.8 and curl 7.88. A packet filter of the client dropped what is called lost. What is printed for each
is derived from it by hand."""
import os
import signal
import socket
import struct
from pathlib import Path

import pytest

from lib import programs
from lib.ends import PATIENCE, expect, wait_until
from lib.scene import state_of
from lib.sections import sections, table
from lib.tool import Tool, has_parts

HERE = Path(__file__).resolve().parent
CAPTURES, PICTURES = ({row.kind: row for row in sections(HERE / name)} for name in ["captures.txt", "pictures.txt"])
INPUTS = table(HERE / "inputs.txt")
UNREADABLE, NO_TRANSFER = "tftp-show: input unreadable\n", "tftp-show: no such transfer\n"
# Command lines of status 2 over a capture, and how the message begins: a file has to be there, and a transfer is
# drawn only with `--flow`
FAULTS: list[tuple[list[object], str]] = [
    *((words, "error: ") for words in [["--verbose"], ["a.pcap", "b.pcap"], ["--svg", "/dev/null"],
                                       ["--flow", "--transfer", "0"], [b"caf\xe9"]]),
    *(([path], UNREADABLE) for path in ["/missing/packets.hex", "packets.hex", "."]),
    *((["--flow", "--svg", "a.svg", "--transfer", number], NO_TRANSFER) for number in ["2", "65535"]),
    (["--flow", "--svg", "/dev/full"], "tftp-show: svg unwritable\n"),
]


@pytest.fixture
def show(tmp_path) -> Tool:
    return Tool(programs.program("tftp-show"), tmp_path)


def test_help(scene) -> None:
    scene.has_help("tftp-show")


@pytest.mark.parametrize("words, errors", FAULTS, ids=[f"{words}" for words, _ in FAULTS])
def test_faults(show, words, errors) -> None:
    status, _, said = show.ran(CAPTURES["error"].given, words)
    expect((status, said[:len(errors)]), (2, errors), f"{words}, which says {said}")


def test_vectors_show(show) -> None:
    """Twenty lines, each alone and all together, of which the last but three is the empty datagram."""
    row, = sections(HERE / "vectors.txt")
    show.prints(row.given, row.printed, row.status)
    for given, shown in zip(row.given.splitlines(True), row.printed.splitlines(True), strict=True):
        show.prints(given, shown, int(shown.startswith(("fault", "not hex"))))


@pytest.mark.parametrize("status, given, printed", INPUTS, ids=[f"{row[1][:40]!r}" for row in INPUTS])
def test_inputs(show, status, given, printed) -> None:
    show.prints(given, printed, int(status))


def test_an_output_takes_nothing(show) -> None:
    show.fails_to_print([], "00040000\n", "tftp-show: output unwritable\n")
    show.fails_to_print(["--flow"], CAPTURES["error"].given, "tftp-show: output unwritable\n")


@pytest.mark.parametrize("row", CAPTURES.values(), ids=lambda row: row.title)
def test_captures(show, row) -> None:
    show.prints(row.given, row.printed, row.status, ["--flow"])


def long_capture() -> str:
    """A get of blocks of 8 bytes, each seen at the second of its number."""
    client, server = "192.0.2.2\t1024\t192.0.2.1\t", "192.0.2.1\t2000\t192.0.2.2\t1024\t"
    seen = [f"0\t{client}69\t000161006f6374657400626c6b73697a65003800", f"0\t{server}0006626c6b73697a65003800",
            f"0\t{client}2000\t00040000"]
    for block in range(1, 151):
        seen += [f"{block}\t{server}0003{block:04x}4142434445464748"] * (1 + (block == 75))
        seen += [f"{block}\t{client}2000\t0004{block:04x}"]
    return "".join(f"{line}\n" for line in seen)


@pytest.mark.parametrize("kind", ["lost", "put", "long"])
def test_transfers_are_drawn(show, kind) -> None:
    """The first of a capture; a long one in part."""
    capture = long_capture() if kind == "long" else CAPTURES[kind].given
    expect(show.ran(capture, ["--flow", "--svg", "a.svg"])[0::2], (0, ""), "the status")
    has_parts((show.folder / "a.svg").read_text(), PICTURES[kind].parts())


@pytest.mark.parametrize("words, parts, output", [
    ([], [b"0004", b"0000\n"], "ACK 0\n"),
    (["--flow"], [b"0\t192.0.2.2\t1024\t192.0.2.1\t69\t0001", b"61006f6374657400\n"],
     "transfer 1: 192.0.2.2:1024 reads from 192.0.2.1:69\n  asked    RRQ a octet\n")], ids=["packets", "a capture"])
def test_interrupted_reads(scene, words, parts, output) -> None:
    """A read that a signal interrupts is made again. No handler can be had from outside, but a read of a socket with
    a timeout also fails with EINTR where its process is stopped and goes on, on Linux (signal(7))."""
    ours, theirs = socket.socketpair()
    with ours, theirs:
        theirs.setsockopt(socket.SOL_SOCKET, socket.SO_RCVTIMEO, struct.pack("ll", 300, 0))
        show = scene.start("tftp-show", words, stdin=theirs)
        for part in parts:
            # a read that waits, a program that stops, and a read that is made again
            for number, states in [(0, "S"), (signal.SIGSTOP, "T"), (signal.SIGCONT, "SZ")]:
                os.kill(show.pid, number)
                wait_until(lambda: state_of(show.pid) in states, f"one of the states {states}")
            ours.sendall(part)
        ours.shutdown(socket.SHUT_WR)
        wrote, errors = show.communicate(timeout=PATIENCE)
    expect((show.returncode, wrote.decode()[:len(output)], errors), (0, output, b""), "what it prints")
