"""What `tftpd` does in its folder: who may exchange what in it, modes, the folder of uploads, and why it refuses."""
import os
import re
from contextlib import contextmanager
from pathlib import Path
from typing import Any, Iterator

import pytest

from lib.ends import ACCESS_VIOLATION, DISK_FULL, FILE_NOT_FOUND, ILLEGAL, STOP, ack, data, error, expect, rrq, wrq
from lib.packets import request_of
from lib.scene import Server
from lib.sections import table

LAST = data(1, b"new")
# A folder with all that a request may meet in it, and what stands beside it
SERVED = {
    "served/a": b"ABC", "served/sub/b": b"B\nB", "served/incoming/sub/b": b"BB", "served/incoming2": None,
    "served/outer": "../secret", "served/up": "..", "served/beside": "../served-not/secret", "served/inner": "sub",
    "served/inside": "sub/b", "served/dangling": "nowhere", "served/locked": b"L", "served/shut/a": b"A",
    "secret": b"S", "served-not/secret": b"S", "root": "served"}
# The words of a server, a request, and how it is refused
REFUSALS = table(Path(__file__).with_name("refusals.txt"))

# What runs a program without the privileges by which root passes over the modes of files
COMMONER = ["setpriv", "--inh-caps", "-all", "--bounding-set", "-dac_override,-dac_read_search"]


def serve_as_commoner(scene, *words) -> Server:
    """Starts a server of the served folder, which the modes of files bind."""
    program, *rest = [*(COMMONER if os.geteuid() == 0 else []), scene.programs["tftpd"]]
    return Server(scene, scene.start(program, [*rest, *scene.server_words("served", f"{scene.address}:0", words)]))


@contextmanager
def modes(scene, **wanted) -> Iterator[None]:
    """Files and folders below the served one have these modes for a while."""
    for name, mode in wanted.items():
        (scene.folder / "served" / name).chmod(mode)
    yield
    for name in wanted:
        (scene.folder / "served" / name).chmod(0o755)


def test_requests_are_refused(scene) -> None:
    """Each has its ERROR, and the log its reason; no file is made or changed."""
    scene.make_all(SERVED)
    os.mkfifo(scene.folder / "served/fifo")
    before = scene.files()
    for words in dict.fromkeys(row[0] for row in REFUSALS):
        server = serve_as_commoner(scene, "--log", *words.split())
        with modes(scene, locked=0o444 if "--overwrite" in words else 0, shut=0):
            for _, request, refusal in [row for row in REFUSALS if row[0] == words]:
                code, text, why = re.findall(r"ERROR (\d) \((.*?)\)(?:, )?(.*)", refusal)[0]
                server.refuses(request_of(request), error(int(code), text), why)
        server.kill()
    with modes(scene, **{".": 0o555}):
        server = serve_as_commoner(scene, "--log")
        server.refuses(wrq("n"), ACCESS_VIOLATION, "permission denied")
        server.kill()
    scene.has(before)


# The words of a server of that folder, what is put there, and the folder of its draft
PUTS = [("", "n", "."), ("", "sub/n", "."), ("--uploads incoming", "incoming/n", "incoming"),
        ("--uploads incoming", "incoming/sub/n", "incoming"), ("--uploads incoming/", "incoming/m", "incoming"),
        ("--uploads /incoming/sub --overwrite", "incoming/sub/b", "incoming/sub"), ("--overwrite", "a", ".")]


def test_puts_are_stored(scene) -> None:
    """A ROOT that is a link is the folder that it leads to. With `--uploads` drafts are in that folder, the one that
    is served may be read-only, and each file is read; `--overwrite` replaces."""
    scene.make_all(SERVED)
    expected = scene.files()
    for words, name, of_draft in PUTS:
        with modes(scene, **{".": 0o555 if "--uploads" in words else 0o755}):
            server = scene.serve("--forever", *words.split(), root="root")
            server.opens(rrq("a"), data(1, scene.content("served/a"))).send(ack(1))
            server.opens(rrq("inside", "netascii"), data(1, b"B\r\nB")).send(ack(1))
            end = server.writes(name)
            drafts = {str(Path(draft).parent) for draft in scene.drafts()}
            expect(drafts, {os.path.normpath(f"served/{of_draft}")}, f"the folder of the draft of {name}")
            end.is_answered(LAST, ack(1))
            server.kill()
        expected[f"served/{name}"] = b"new"
        scene.has(expected)


def test_a_file_without_length(scene) -> None:
    """A file whose length is 0 and that has bytes, as those of /proc, is refused in both modes; an empty one is
    not."""
    server = scene.serve("--log", root="/proc")
    for mode in ["octet", "netascii"]:
        server.refuses(rrq("version", mode), ACCESS_VIOLATION, "length unknown")
    server.kill()
    scene.make("empty", b"")
    scene.serve().gives("empty", b"")


# A file that is replaced: its mode, which its draft has, the one that it gets by the commit, and that of its
# successor, which never has the bits that let it run as another user; of one that has gone by then the draft's is
# kept
MODES = [("secret", 0o600, 0o600, 0o600), ("open", 0o666, 0o666, 0o666), ("run", 0o755, 0o755, 0o755),
         ("narrower", 0o644, 0o600, 0o600), ("wider", 0o644, 0o646, 0o646), ("set", 0o644, 0o4755, 0o755),
         ("gone", 0o644, None, None)]


def test_a_mode_is_kept(scene) -> None:
    """With `--overwrite` a file keeps its permissions, which its draft has before its first byte, as they are at the
    commit; a new file has those that the umask leaves."""
    mask = int(re.search(r"(?m)^Umask:\s+(\d+)$", Path("/proc/self/status").read_text())[1], 8)
    for name, before, at_commit, after in [*MODES, ("n", None, None, 0o666 & ~mask)]:
        path = scene.folder / name
        if before is not None:
            scene.make(name, b"old")
            path.chmod(before)
        server = scene.serve("--overwrite")
        end = server.writes(name)
        if before is not None:
            expect([scene.mode_of(draft) for draft in scene.drafts()], [before], "the mode of the draft")
            if at_commit is None:
                path.unlink()
            else:
                path.chmod(at_commit)
        end.is_answered(LAST, ack(1))
        server.kill()
        expect(after is None or scene.mode_of(name) == after, True, f"whether the mode of {name} is {after}")
    scene.has({name: b"new" for name, *_ in [*MODES, ("n",)]})


@pytest.mark.parametrize("other, mark", [(0, "<4>"), (1, "")], ids=["own", "another"])
def test_the_log_has_priorities_in_the_journal(scene, other, mark) -> None:
    """Where JOURNAL_STREAM names standard error a warning begins with its priority, and no other line does; where it
    names another stream no line does."""
    scene.make("a", b"ABC")
    ours, errors = os.pipe()
    stream = f"{os.fstat(errors).st_dev}:{os.fstat(errors).st_ino + other}"
    process = scene.start("tftpd", scene.server_words(".", f"{scene.address}:0", ["--log"]), stderr=errors,
                          env={**os.environ, "JOURNAL_STREAM": stream})
    os.close(errors)
    process.stderr = os.fdopen(ours, "rb", buffering=0)
    server, at = Server(scene, process), rf"{scene.address}:\d+"
    server.refuses(rrq("none"), FILE_NOT_FOUND)
    server.refuses(rrq("/../a"), ACCESS_VIOLATION)
    server.opens(rrq("a"), data(1, b"ABC")).is_answered(ack(7), ILLEGAL)
    server.has_logged_only(
        rf"refused {at} RRQ none octet: ERROR 1 \(file not found\)",
        rf"{mark}refused {at} RRQ /../a octet: ERROR 2 \(access violation\), name not allowed",
        rf"opened \d+ {at} .*", rf"{mark}closed \d+ {at} .*, Illegal")


def test_a_failed_put_leaves_what_it_acknowledged(scene) -> None:
    """In its draft; the name is not given."""
    server, blocks = scene.serve(), [bytes([number]) * 512 for number in range(1, 21)]
    end = server.writes("n")
    end.gives(*blocks)
    end.send(STOP)
    server.has_closed("PeerError(0)")
    expect([*scene.files().values()], [b"".join(blocks)], "what is there")
    scene.lacks("n")


# What a file may become during a put that is to replace it, and why it is not replaced
CHANGES: list[tuple[Any, str]] = [
    (os.mkfifo, "not a file"), (lambda path: path.symlink_to("other"), "through a link"), (Path.mkdir, "not a file"),
    (lambda path: path.touch(0o444), "permission denied")]


def test_what_is_replaced_is_looked_at_again(scene) -> None:
    """With `--overwrite` the file at the name is looked at again at the commit: what is no regular file by then, or
    one that the server's user may not write, stays."""
    for place, (change, reason) in enumerate(CHANGES):
        scene.make(f"served/{place}", b"old")
        server = serve_as_commoner(scene, "--overwrite", "--log")
        end = server.writes(str(place))
        path = scene.folder / f"served/{place}"
        path.unlink()
        change(path)
        before = path.lstat()
        end.is_answered(LAST, DISK_FULL)
        server.has_closed("StoreFault", why=reason)
        found = path.lstat()
        expect((found.st_ino, found.st_mode), (before.st_ino, before.st_mode), f"what was there, {reason}")
