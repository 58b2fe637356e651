"""`tftp` transfers files with a server of the test."""
import os
import pty
import re
import signal
import time
from contextlib import suppress

import pytest

from lib.disk import Disk
from lib.ends import DISK_FULL, FILE_EXISTS, PATIENT, STOP, End, ack, data, error, expect, oack, rrq
from lib.exchanges import COUNTED, times_of, were_counted
from lib.scene import PATIENTLY, next_line, preloaded

ABC, FULL = data(1, b"ABC"), data(1, b"\7" * 512)
LAST, WHOLE = data(2, b"ABC"), b"\7" * 512 + b"ABC"
EXISTS = "local: exists (--replace replaces it)"


def test_complete_is_printed_at_once(scene) -> None:
    """The line is printed while the client still acknowledges the last block again (RFC 1350, section 6)."""
    client, end = scene.patient_get()
    end.is_answered(ABC, ack(1))
    expect(next_line(client.process.stdout), "complete 3\n", "the line")
    scene.has(local=b"ABC")
    end.is_answered(ABC, ack(1))
    expect(client.process.poll(), None, "the status of the client")


# What lies there before a get: nothing, a link of the name of `local.part`, which is removed and its target not
# changed, and the part of an older transfer, which an empty file replaces, too
@pytest.mark.parametrize("before, content", [
    ({}, b"ABC"), ({"secret": b"another's", "local.part": "secret"}, b"ABC"), ({"local.part": b"left over"}, b"ABC"),
    ({"local.part": b"left over"}, b"")])
def test_no_dally(scene, before, content) -> None:
    """With `--no-dally` a client that is complete ends before its first timeout, and `local.part` is removed."""
    scene.make_all(before)
    client, end = scene.patient_get("--no-dally")
    end.gives(content)
    client.completes(len(content))
    scene.has({"local": content, **{name: it for name, it in before.items() if name != "local.part"}})
    scene.lacks("local.part")


# What changes during a get, by its words: another file comes to be `local.part`, LOCAL appears, or what `--replace` is
# to replace becomes a FIFO, a folder or a link; the ERROR that the server receives, and the files that are left
@pytest.mark.parametrize("words, change, answer, left", [
    ([], lambda local: local.with_name("other").rename(f"{local}.part"), DISK_FULL, {"local.part": b"another's"}),
    ([], lambda local: local.with_name("other").rename(local), FILE_EXISTS,
     {"local": b"another's", "local.part": WHOLE}),
    *((["--replace"], make, FILE_EXISTS, {"other": b"another's", "local.part": WHOLE}) for make in [
        os.mkfifo, os.mkdir, lambda local: os.symlink("elsewhere", local)])])
def test_what_is_there_by_the_commit_stays(scene, words, change, answer, left) -> None:
    scene.make_all({"other": b"another's", **({"local": b"old"} if words else {})})
    client, end = scene.patient_get("--no-dally", *words)
    end.is_answered(FULL, ack(1))
    local = scene.folder / "local"
    local.unlink(missing_ok=True)
    change(local)
    found = {path: os.lstat(path).st_ino for path in scene.folder.iterdir() if path.name != "local.part"}
    end.is_answered(LAST, answer)
    client.fails("StoreFault", EXISTS if "local" in left else "")
    expect({path: os.lstat(path).st_ino for path in found}, found, "what is there")
    scene.has(left)


def replacing(scene, mode) -> tuple:
    """A get that replaces a file of this mode, with a first block. Returns the client and the server's end."""
    scene.make("local", b"old")
    (scene.folder / "local").chmod(mode)
    client, end = scene.patient_get("--no-dally", "--replace")
    end.is_answered(FULL, ack(1))
    return client, end


# The mode of a file that is replaced, that of `local.part`, the one that the file has by the commit, and that of its
# successor: it keeps its permissions, and never its set-user-ID, set-group-ID or sticky bit
@pytest.mark.parametrize("mode, of_part, at_commit, after", [
    (0o600, 0o600, None, 0o600), (0o7751, 0o751, None, 0o751), (0o644, 0o644, 0o440, 0o440)])
def test_replaces(scene, mode, of_part, at_commit, after) -> None:
    """With `--replace` a file has its old content until the new one is whole, which has its permissions of then: what
    comes from the network gets no other user."""
    client, end = replacing(scene, mode)
    scene.has({"local": b"old", "local.part": b""})
    expect(scene.mode_of("local.part"), of_part, "the mode of local.part")
    if at_commit is not None:
        (scene.folder / "local").chmod(at_commit)
    end.is_answered(LAST, ack(2))
    client.completes(515)
    scene.has(local=WHOLE)
    expect(scene.mode_of("local"), after, "the mode of local")


@pytest.mark.parametrize("left_over", [{}, {"local.part": b"a file of the user"}], ids=["none", "left over"])
def test_a_refused_get_changes_nothing(scene, left_over) -> None:
    """Before the first bytes arrive there is no `local.part`, and what has this name already is not changed: not by
    the request, an OACK or an ERROR."""
    scene.make_all(left_over)
    client, end = scene.begun_get()
    scene.has(left_over)
    end.is_answered(oack(**PATIENT), ack(0))
    scene.has(left_over)
    end.send(STOP)
    client.fails("PeerError(0)", "the server says: stop")
    scene.has(left_over)


# The sync that fails, behind so many, and the calls: the file is synced before it gets its name, and the folder after
# that
@pytest.mark.parametrize("refused, calls", [(None, "wsls"), (0, "wS"), (1, "wslS")])
def test_is_synced_and_then_named(scene, refused, calls) -> None:
    """If either sync is refused, the transfer fails, and `local.part` stays alone."""
    disk = Disk(scene)
    client, end = scene.patient_get("--no-dally", env=preloaded(scene, "disk_calls.c", CONTROL=disk.path))
    disk.orders(error=0 if refused is None else 5, only="s", after=refused or 0)
    end.is_answered(ABC, ack(1) if refused is None else DISK_FULL)
    if refused is None:
        client.completes(3)
    else:
        client.fails("StoreFault", "local: input or output error")
    expect(disk.calls().replace("o", ""), calls, "the calls")
    scene.has({"local" if refused is None else "local.part": b"ABC"})


@pytest.mark.parametrize("number", [signal.SIGHUP, signal.SIGINT, signal.SIGTERM, signal.SIGUSR1, signal.SIGUSR2])
def test_is_ended_by_signals(scene, number) -> None:
    """A client that is ended leaves `local.part` alone. That a terminal has another size ends none."""
    client, end = scene.patient_get()
    client.process.send_signal(signal.SIGWINCH)
    end.is_answered(FULL, ack(1))
    client.process.send_signal(number)
    client.ends(-number)
    expect(sorted(scene.files()), ["local.part"], "the files")


def test_a_request_that_is_not_sent_has_its_reason(scene) -> None:
    """A client whose datagrams the system refuses to send gives up as without an answer, and says why: a broadcast is
    not permitted to a socket like its own."""
    words = ["get", "255.255.255.255:69", "a", "new", "--retries", "0"]
    scene.tftp(*words).fails("TimedOut", "255.255.255.255:69: permission denied")


# Whether standard error is a terminal, and whether the server says how long the file is (RFC 2349): then the line has
# the share of it that is there
@pytest.mark.parametrize("is_terminal, tsize", [(True, {}), (True, {"tsize": 30 * 65_464 + 3}), (False, {})])
def test_progress_goes_by_the_clock(scene, is_terminal, tsize) -> None:
    """With `--progress` a terminal has a line each tenth of a second at most, whose speed is that of the bytes by
    their sender's clock; what is none has nothing."""
    shown, stream = pty.openpty()
    how, options, length = {"stderr": stream} if is_terminal else {}, {"blksize": 65_464, **PATIENT}, 30 * 65_464 + 3
    words = ["--no-dally", "--progress", "--blksize", "65464", *PATIENTLY, *["--tsize"] * len(tsize)]
    begun = time.monotonic()
    client, end = scene.asks("get", ["a", "local"], rrq("a", **options, **dict.fromkeys(tsize, 0)), *words, **how)
    end.is_answered(oack(**options, **tsize), ack(0))
    answered = time.monotonic()
    for number in range(1, 31):
        end.is_answered(data(number, bytes(65_464)), ack(number))
        time.sleep(0.02)
    sent = time.monotonic()
    end.is_answered(data(31, b"ABC"), ack(31))
    client.ends(0, f"complete {length}\n", None if is_terminal else "")
    lasted, parts = time.monotonic() - begun, []
    os.close(stream)
    # (a read returns in parts, and behind the last part it fails)
    with suppress(OSError), open(shown, "rb", buffering=0) as terminal:
        while part := terminal.read(4_096):
            parts.append(part.decode())
    share = r" \d+%," if tsize else ""
    lines = re.findall(rf"\r(\d+) bytes,{share} (\d+\.\d) ([KM])B/s", "".join(parts))
    if is_terminal:
        # (the last one is shown in any case)
        expect(2 <= len(lines) <= lasted / 0.1 + 3, True, f"whether {len(lines)} lines are those of {lasted:.2f} s")
        count, value, unit = lines[-1]
        speed = float(value) * {"K": 1e3, "M": 1e6}[unit]
        is_so = length / lasted - 1e5 <= speed <= length / (sent - answered) + 1e5
        expect((count, is_so), (f"{length}", True), f"the bytes, and whether {speed} bytes a second are their speed")


# ---- retries and options


def test_retries_of_a_client_to_their_end(scene) -> None:
    """A request that nobody answers, and a block that nobody acknowledges."""
    scene.make("a", b"ABC")
    silent, requests, transfer = (scene.port().is_timed() for _ in range(3))
    words = ["--retries", f"{COUNTED}"]
    get = scene.tftp("get", silent.word, "b", "c", *words)
    put = scene.tftp("put", requests.word, "a", "b", *words)
    _, peer = requests.receive()
    transfer.send(ack(0), peer)
    for client in [get, put]:
        client.fails("TimedOut")
    were_counted(times_of(silent, rrq("b")), "a request")
    were_counted(times_of(transfer, data(1, b"ABC")), "a DATA")
    once = scene.port()
    cause = f"{once.word}: no answer; check address, port and firewalls"
    scene.tftp("get", once.word, "b", "c", "--retries", "0").fails("TimedOut", cause)
    expect([datagram for datagram, _ in once.waiting()], [rrq("b")], "what is sent with --retries 0")


def test_falls_back(scene) -> None:
    """After ERROR 8 the client retries without options (RFC 2347)."""
    requests = scene.port()
    client = scene.tftp("get", requests.word, "a", "local", "-b", "1428", "--fallback")
    scene.asked(requests, rrq("a", blksize=1428)).send(error(8, "no options"))
    request, peer = requests.receive(other_than=rrq("a", blksize=1428))
    expect(request, rrq("a"), "the second request")
    End(scene.port(), peer).is_answered(ABC, ack(1))
    client.completes(3)
    scene.has(local=b"ABC")
