"""Each option of the two programs has the effect that its manual states."""
import signal
import time

import pytest

from lib.ends import FILE_NOT_FOUND, PATIENCE, ack, bytes_of, data, expect, rrq
from lib.units import arguments_of


def test_longest(scene) -> None:
    """With `--longest 3` a transfer times out, though its client acknowledges each block."""
    scene.make("a", bytes_of(512 * 1_000))
    server, begun, newest = scene.serve("--retries", "3", "--longest", "3"), time.monotonic(), 1
    end = server.opens(rrq("a"), data(1, bytes_of(512)))
    while server.process.poll() is None:
        expect(time.monotonic() < begun + PATIENCE, True, f"whether it is closed within {PATIENCE} seconds")
        end.send(ack(newest))
        time.sleep(0.3)
        newest = max([newest, *(int.from_bytes(datagram[2:4], "big") for datagram, _ in end.port.waiting())])
    expect((time.monotonic() - begun > 3, newest > 3), (True, True), f"whether it lasted, up to block {newest}")
    server.has_closed("TimedOut")


def test_signals(scene) -> None:
    """TERM, INT, HUP, USR1 and USR2 end the server at once; that a terminal has another size does not."""
    for number in [signal.SIGTERM, signal.SIGINT, signal.SIGHUP, signal.SIGUSR1, signal.SIGUSR2]:
        server = scene.serve("--forever")
        for harmless in [signal.SIGWINCH, signal.SIGCONT, signal.SIGURG]:
            server.process.send_signal(harmless)
        server.refuses(rrq("none"), FILE_NOT_FOUND)
        server.process.send_signal(number)
        expect(server.process.wait(PATIENCE), -number, "the status of the server")


@pytest.mark.parametrize("unit, listen", [("tftpd.service", "0.0.0.0:69"), ("tftpd@.service", "0.0.0.0:%i"),
                                          ("tftpd-socket.service", "stdin")])
def test_units(scene, unit, listen) -> None:
    """The command line of a unit serves a folder to read, and refuses writes."""
    scene.make("a", b"ABC")
    root, *arguments = arguments_of(unit)
    expect((root, *arguments[:2]), ("/srv/tftp", "--listen", listen), f"the first arguments of {unit}")
    words = arguments[2:]
    server = scene.serve_at(scene.port(), *words) if listen == "stdin" else scene.serve(*words)
    scene.gets(server, "a", "got", 3)
    scene.tftp("put", server.word, "a", "n").fails("PeerError(2)")
