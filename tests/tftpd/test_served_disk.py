"""What `tftpd` does where the disk fails at a chosen call, or a path is exchanged just before one: `disk_calls.c` is
loaded before it."""
import os
import select
import time

import pytest

from lib.disk import Disk, serve, serve_on
from lib.ends import (
    ACCESS_VIOLATION, DISK_FULL, FILE_CHANGED, FILE_EXISTS, FILE_NOT_FOUND, PATIENCE, TOO_LARGE, ack, data, expect, rrq, wrq)

LAST = data(1, b"new")


def test_a_text_is_measured_once(scene) -> None:
    """A text is read once for its length, whatever the block size, and again once it has changed: what was changed
    within two seconds, so that its time may be the same, at each request. A file whose bytes alone are too many is
    not read: 65,535 blocks of 512 bytes are one byte more than can be sent."""
    scene.make_all({"a": b"\n" * 1_000_000, "b": b""})
    os.truncate(scene.folder / "b", 65_535 * 512)
    server, disk = serve(scene)
    time.sleep(3)
    for name, size, is_read in [("a", 17, True), ("a", 18, False), ("a", 8, False), ("new", 17, True),
                                ("new", 18, True), ("b", 512, False)]:
        if name == "new":
            scene.make("new", b"\n" * 1_000_001)
        disk.forget()
        server.refuses(rrq(name, "netascii", blksize=size), TOO_LARGE)
        expect("r" in disk.calls(), is_read, f"whether {name} is read for blocks of {size} in {disk.calls()}")
    disk.has_made("o", "a request for a file that is too long")


def test_a_long_put_is_synced_on_its_way(scene) -> None:
    """Each long block is one write. While other ports are ready a draft is not synced, unless 16 MiB are unsynced,
    which are reached at block 257."""
    server, disk = serve(scene, "--max-block", "65464")
    end = server.writes("n", blksize=65_464)
    disk.orders(is_busy=True)
    for first, last, syncs in [(1, 256, 0), (257, 260, 1)]:
        end.gives(*[bytes(65_464)] * (last - first + 1), first=first)
        # the last block is written behind its acknowledgement
        server.refuses(rrq("none"), FILE_NOT_FOUND)
        found = disk.calls()
        expect((found.count("w"), found.count("d")), (last, syncs), f"the writes and syncs of {last} blocks in {found}")


def test_a_name_is_synced(scene) -> None:
    """The calls of a commit (fsync(2)): the draft is written and synced, gets its name, and the folder is synced,
    which was opened before. A file that is replaced is opened for writing first, to see that it may be. Without hard
    links a draft is renamed, under a lock of the name, and never over a file."""
    for words, lacks_links, calls in [([], False, "wsols"), (["--overwrite"], False, "wsooms"),
                                      ([], True, "wsoLoms")]:
        if words:
            scene.make("n", b"old")
        server, disk = serve(scene, "--log", *words)
        disk.orders(lacks_links=lacks_links)
        end, other = server.writes("n"), server.writes("n")
        disk.forget()
        end.is_answered(LAST, ack(1))
        disk.has_made(calls, f"a commit with {words}")
        if not words:
            other.is_answered(data(1, b"second"), FILE_EXISTS)
            log = server.has_logged(3)
            expect(log[-1].endswith(" sent again, StoreFault"), True, f"the log {log} has no reason of the system")
        expect(scene.content("n"), b"new", "the file")
        server.kill()
        (scene.folder / "n").unlink()


def test_each_kind_of_sync_that_fails(scene) -> None:
    """A sync on the way, that of a whole draft, or that of the folder behind the name, each alone: the put fails, no
    file has its name, and what was acknowledged is in the draft."""
    server, disk = serve(scene, "--max-block", "65464", "--log", "--transfers", "100")
    for after, calls in [(0, "wS"), (1, "wsolS")]:
        end = server.writes("n")
        disk.orders(error=5, only="s", after=after)
        end.is_answered(LAST, DISK_FULL)
        disk.has_made(calls, "a commit whose sync fails")
        disk.orders()
        scene.lacks("n")
        expect([scene.content(draft) for draft in scene.drafts()][-1:], [b"new"], "what is left of the put")
        server.closes("StoreFault", "input or output error")
    end = server.writes("n", blksize=65_464)
    disk.orders(error=5, only="d")
    # a megabyte is synced once no datagram waits, and what failed is told to the block behind it
    number, answer = 0, b""
    while answer != DISK_FULL:
        number += 1
        answer = end.answer_to(data(number, bytes(65_464)))
        expect(answer in (ack(number), DISK_FULL) and number < 100, True, f"whether {answer} answers block {number}")
        if number == 20:
            disk.has("D")
    expect((disk.calls().count("D"), number >= 17), (1, True), f"the refused syncs, and a megabyte, at {number}")
    disk.orders()
    scene.lacks("n")
    server.closes("StoreFault", "input or output error")


def test_a_read_that_fails(scene) -> None:
    """A block of a file that cannot be read is told to the client, and why to the log."""
    scene.make("a", bytes(100_000))
    server, disk = serve(scene, "--log")
    end = server.first_block("a", bytes(512))
    disk.orders(error=5, only="r")
    # (all that was read ahead is sent)
    answers = (end.answer_to(ack(number)) for number in range(1, 100))
    expect(next(answer for answer in answers if answer[:2] == b"\0\5"), FILE_CHANGED, "the answer")
    server.closes("SourceFault", "input or output error")


def test_servers_without_hard_links(scene) -> None:
    """Of puts of one name at two servers, on a file system without hard links, one is acknowledged, and its file
    stays: the other is refused between the first one's look at the name and its rename, which waits for that."""
    disk = Disk(scene)
    servers = [serve_on(scene, disk, "--log") for _ in range(2)]
    disk.orders(lacks_links=True, nap=1_000 * PATIENCE)
    texts = [b"one", b"other"]
    ends = [server.writes("n") for server in servers]
    for end, text in zip(ends, texts):
        end.send(data(1, text))
    answered = select.select([end.port.socket for end in ends], [], [], PATIENCE)[0]
    refused = [end.port.socket for end in ends].index(answered[0])
    first, second = ends[1 - refused], ends[refused]
    expect(second.port.receive(second.newest)[0], FILE_EXISTS, "the answer before the rename")
    scene.lacks("n")
    disk.orders(lacks_links=True)
    expect(first.port.receive(first.newest)[0], ack(1), "the answer behind the rename")
    expect(scene.content("n"), texts[1 - refused], "the file")
    expect(list(scene.folder.rglob("*~tftp")), [], "the locks")
    servers[refused].closes("StoreFault", "name locked")


# What is exchanged for a link of this target before the next call on the path of a name, or, once the name is linked,
# before the call behind that; and why the put fails. What has the name of a draft, once that was given, stays if it is
# another file, since another server may have acknowledged it. A name that is given in a folder that was exchanged for a
# link out, between the look at the folder and the link, is removed: the path is looked at once more behind its link
@pytest.mark.parametrize("name, exchanged, target, is_linked, why", [
    ("sub/n", "served/sub/n", "other", True, "draft replaced"),
    ("sub/n", "served/sub", "../out", False, "folder replaced")], ids=["a file", "a folder"])
def test_a_name_of_another_file(scene, name, exchanged, target, is_linked, why) -> None:
    """It is neither acknowledged nor left."""
    scene.make_all({"out": None, "served/sub/old": b"old"})
    server, disk = serve(scene, "--log", root="served")
    end = server.writes(name)
    disk.orders(exchange=(f"/{name}", exchanged, target), is_linked=is_linked)
    end.is_answered(LAST, DISK_FULL)
    server.has_closed("StoreFault", why=why)
    expect(os.readlink(scene.folder / exchanged), target, "the link")
    scene.lacks("out/n", "served/sub-away/n")


@pytest.mark.parametrize("orders, request_, why", [
    ({"elsewhere": "/elsewhere"}, wrq("elsewhere/n"), "another device"),
    ({"exchange": ("/secret", "served/sub", "..")}, rrq("sub/secret"), "leads out of the folder")],
                         ids=["a device", "a folder"])
def test_another_place(scene, orders, request_, why) -> None:
    """A write to another device than that of the drafts is refused when it begins, and leaves no draft. A folder that
    is exchanged for a link out, before its file is looked at, gives no file: the path is looked up again."""
    scene.make_all({"secret": b"S", "served/sub": None, "served/elsewhere": None})
    server, disk = serve(scene, "--log", root="served")
    disk.orders(**orders)
    server.refuses(request_, ACCESS_VIOLATION, why)
    expect(scene.drafts(), [], "the drafts")
    expect((scene.folder / "served/sub").is_symlink(), "exchange" in orders, "whether the folder was exchanged")


def test_a_read_meets_an_exchange(scene) -> None:
    """A file that comes to be another one once it is found, as by an atomic update, is looked for again, and read."""
    scene.make_all({"served/a": b"ABC", "served/b": b"new"})
    server, disk = serve(scene, root="served")
    disk.orders(exchange=("/a", "served/a", "b"))
    server.gives("a", b"new")
    expect((scene.folder / "served/a").is_symlink(), True, "whether the file was exchanged")


# Error numbers of Linux (errno(3)), the answer to a write that they refuse (RFC 1350, appendix I), and the reason
ERRORS = [
    (28, DISK_FULL, "no space"),
    (122, DISK_FULL, "quota exceeded"),
    (30, ACCESS_VIOLATION, "read-only file system"),
    (24, ACCESS_VIOLATION, "too many open files"),
    (13, ACCESS_VIOLATION, "permission denied"),
    (5, ACCESS_VIOLATION, "input or output error"),
]


def test_the_disk_fails(scene) -> None:
    """An opening, the beginning of a write, a block that is written behind its acknowledgement, and a commit fail by
    each error: the log has its reason, and no file is made."""
    scene.make("a", b"ABC")
    block = bytes(20_000)
    server, disk = serve(scene, "--log", "--max-block", "20000", "--transfers", "100")
    for number, answer, reason in ERRORS:
        disk.orders(error=number)
        server.refuses(rrq("a"), ACCESS_VIOLATION, reason)
        server.refuses(wrq("n"), answer, reason)
        disk.orders()
        end = server.writes("n", blksize=20_000)
        disk.orders(error=number)
        end.is_answered(data(1, block), ack(1))
        disk.has("W")
        disk.orders()
        end.is_answered(data(2, block), DISK_FULL)
        server.closes("StoreFault", reason)
        end = server.writes("n")
        disk.orders(error=number)
        end.is_answered(LAST, DISK_FULL)
        disk.orders()
        server.closes("StoreFault", reason)
        scene.lacks("n")
