"""The file of --status: its text while a server serves, beside its log, of several servers, and where it cannot
be."""
import os
import re
import time
from itertools import product

import pytest

from lib.ends import ack, data, expect, oack, rrq, wait_until, wrq
from lib.metrics import Sample, metrics, promtool_says, value
from lib.packets import request_of
from lib.scene import MARKED, Server, preloaded, written_by

# The served folder and the file that ends a server; what is counted is beside both
ROOT, DRAIN, STATUS = "served", "drain.now", "tftpd.prom"
# What the log says of a close
CLOSED = re.compile(r"closed .*, (\d+) bytes, \d+ ms, (\d+) sent again, (\w+)")
# how many times faster the time of a server goes that is idle, and how old its text gets at most by that, in seconds,
# with a second for its wait and more on a busy host
QUICKER, LONGEST_AGE = 10, 90
# how many files a server has open at most, as docs/OPERATING.md says: with 64 puts, one of which is synced or
# --status written
OPEN_FILES = 134
OUTCOMES = {"Complete": "complete", "TimedOut": "timed_out", "PeerError": "peer_error"}


def serve(scene, *words, status=STATUS, **how) -> Server:
    """A server of the folder, which reports."""
    return scene.serve("--forever", "--log", "--status", status, "--drain", DRAIN, *words, root=ROOT, **how)


def samples(scene, status=STATUS) -> dict[Sample, int]:
    """Those of the file, once it is there, which is whole."""
    path = scene.folder / status
    wait_until(path.exists, "the first text")
    text = path.read_text(encoding="ascii")
    expect(promtool_says(text), None, "what promtool says")
    return metrics(text)


def drained(scene, server) -> list[str]:
    """The log of a server that is ended by its file."""
    scene.make(DRAIN, b"")
    status, _, log = server.ended()
    (scene.folder / DRAIN).unlink()
    expect(status, 0, "the status of the server")
    return log


def has_counted(found, log) -> None:
    """The samples are those of the lines of a log."""
    begins = [line.split()[0] for line in log]
    busy = sum(line.startswith("refused ") and "(server busy)" in line for line in log)
    expected = {answer: begins.count(answer) for answer in ("opened", "ignored", "lost")}
    expected.update(busy=busy, refused=begins.count("refused") - busy)
    expect({answer: value(found, "tftpd_requests_total", answer=answer) for answer in expected}, expected, "requests")
    closed = [CLOSED.match(line) for line in log if line.startswith("closed ")]
    outcomes = [line[3] if line else "no outcome" for line in closed]
    counted = {name: value(found, "tftpd_transfers_total", outcome=label) for name, label in OUTCOMES.items()}
    expect(counted, {name: outcomes.count(name) for name in OUTCOMES}, "transfers")
    sums = [value(found, name) for name in ("tftpd_bytes_total", "tftpd_blocks_sent_again_total")]
    expect(sums, [sum(int(line[at]) for line in closed if line) for at in (1, 2)], "bytes, and what was sent again")


def test_a_status_file_counts_as_the_log(scene) -> None:
    """It is there at once, without a transfer, and at the end has what the log has."""
    scene.make(f"{ROOT}/a", b"\7" * 512 + b"ABC")
    before = int(time.time())
    server = serve(scene)
    first = samples(scene)
    names = ("requests_total", "transfers_total", "bytes_total", "transfers_limit")
    counts = [value(first, f"tftpd_{name}") for name in names]
    expect(counts, [0, 0, 0, 16], "the first text")
    for metric in ("start", "report"):
        is_now = before - 1 <= value(first, f"tftpd_{metric}_time_seconds") <= time.time()
        expect(is_now, True, f"the time of the {metric}")
    for name in ["one", "two"]:
        scene.gets(server, "a", name, 515)
    scene.tftp("put", server.word, "one", "b").completes(515)
    for request in [rrq("missing"), wrq("a")]:
        server.asked(request).receive()
    log = drained(scene, server)
    last = samples(scene)
    has_counted(last, log)
    directions = [value(last, "tftpd_transfers_total", direction=way) for way in ("read", "write")]
    expect((directions, value(last, "tftpd_transfers_open")), ([2, 1], 0), "the directions, and the open transfers")
    scene.lacks(f"{STATUS}~")


# the labels of each metric, with the values of each; `server` is that of one of several
WAYS = ["read", "write"]
ENDS = ["complete", "timed_out", "peer_error", "illegal", "refused", "too_large", "store_fault", "source_fault",
        "not_netascii"]
LABELS: dict[str, dict[str, list[str]]] = {
    "tftpd_requests_total": {"answer": ["opened", "refused", "busy", "ignored", "lost"]},
    "tftpd_transfers_total": {"direction": WAYS, "outcome": ENDS}, "tftpd_bytes_total": {"direction": WAYS},
    "tftpd_blocks_sent_again_total": {}, "tftpd_datagrams_total": {"way": ["received", "sent"]},
    "tftpd_transfers_open": {"direction": WAYS}, "tftpd_transfers_limit": {}, "tftpd_start_time_seconds": {},
}


def test_each_sample(scene) -> None:
    """Each metric has each of its labels, as tftpd(8) lists them, and the version is that of `--version`; an open
    transfer is shown with its mode and its options, its bytes so far and the length of the file; everybody may read
    the file."""
    scene.make(f"{ROOT}/a", b"a line\n" * 100)
    server = serve(scene)
    found = samples(scene)
    for name, labels in LABELS.items():
        expected = [dict(zip(labels, values)) for values in product(*labels.values())]
        own = [{label: text for label, text in has if label in labels} for metric, has in found if metric == name]
        expect(sorted(map(str, own)), sorted(map(str, expected)), f"the samples of {name}")
    version = written_by(scene.start("tftpd", ["--version"]))[0].strip().removeprefix("tftpd ")
    expect(value(found, "tftpd_build_info", version=version), 1, f"the version among {[*found][-1]}")
    for asked, count in [("RRQ a octet blksize=99 timeout=100 tsize=0", "0 bytes of 700"),
                         ("RRQ a netascii timeout=200", "0 bytes.*"), ("WRQ n octet timeout=250", "0 bytes.*")]:
        port = server.asked(request_of(asked))
        line = rf"(?m)^# {port.receive()[1][1]} {re.escape(port.word)} {asked}: .*{count}, \d+ s, \d+ sent again$"
        wait_until(lambda: re.search(line, (scene.folder / STATUS).read_text()), f"the line {line}")
    wait_until(lambda: value(samples(scene), "tftpd_transfers_open", direction="read") == 2, "two reads")
    mask = os.umask(0)
    os.umask(mask)
    expect(f"{scene.mode_of(STATUS):o}", f"{0o666 & ~mask:o}", "the permissions of the file")


def test_each_of_several_servers_has_a_file(scene) -> None:
    """Named by its number, with a label; together they have what the log has."""
    scene.make(f"{ROOT}/a", b"ABC")
    server = scene.serve_several(2, "--log", "--status", STATUS, "--drain", DRAIN, root=ROOT)
    for number in range(8):
        scene.gets(server, "a", f"got{number}", 3)
    log = drained(scene, server)
    found = {}
    for number in ("1", "2"):
        own = samples(scene, f"tftpd.{number}.prom")
        labels = {(dict(labels).get("server"), dict(labels).get("address")) for _, labels in own}
        expect(labels, {(number, server.word)}, "the labels")
        found.update(own)
    has_counted(found, [re.sub(MARKED, "", line) for line in log])
    scene.lacks(STATUS)


def test_a_status_file_that_cannot_be_written(scene) -> None:
    """That is said once, nothing stops, and it is written once it can be."""
    scene.make(f"{ROOT}/a", b"ABC")
    server = serve(scene, status=f"later/{STATUS}")
    expect(server.log_line(), "tftpd: --status: not found", "what is said")
    scene.gets(server, "a", "one", 3)
    time.sleep(2.5)
    scene.make("later", None)
    samples(scene, f"later/{STATUS}")
    log = drained(scene, server)
    expect([line for line in log if "--status" in line], [], "what is said again")
    has_counted(samples(scene, f"later/{STATUS}"), log)


@pytest.mark.parametrize("make, status, place", [
    (os.mkfifo, "kept", "kept"), (lambda path: os.symlink("other", path), "kept", "kept"),
    (os.mkfifo, "draft", "draft~")], ids=["a FIFO", "a link", "at its temporary file"])
def test_a_status_file_replaces_a_file_or_nothing(scene, make, status, place) -> None:
    """What is neither stays, at its path and at that of its temporary file. That is said once."""
    scene.make_all({f"{ROOT}/a": b"ABC", "other": b"kept"})
    make(path := scene.folder / place)
    before = os.lstat(path)
    server = serve(scene, status=status)
    expect(server.log_line(), "tftpd: --status: not a file", "what is said")
    scene.gets(server, "a", "got", 3)
    log, after = drained(scene, server), os.lstat(path)
    expect([line for line in log if "--status" in line], [], "what is said again")
    expect((after.st_ino, after.st_mode), (before.st_ino, before.st_mode), f"what lies at {place}")
    expect(scene.content("other"), b"kept", "what the link leads to")


def test_an_idle_server_writes_its_file_each_minute(scene) -> None:
    """So it is told from one that hangs: nothing has changed but the time."""
    scene.make(ROOT, None)
    serve(scene, env=preloaded(scene, "other_time.c", QUICKER=QUICKER))
    samples(scene)
    first = second = metrics((scene.folder / STATUS).read_text())
    began = time.monotonic()
    while second == first and time.monotonic() < began + LONGEST_AGE:
        time.sleep(0.02)
        second = metrics((scene.folder / STATUS).read_text())
    lasted = (time.monotonic() - began) * QUICKER
    expect(LONGEST_AGE / 2 < lasted < LONGEST_AGE, True, f"whether it comes after a minute, and not {lasted:.1f} s")
    changed = {name for (name, labels), count in second.items() if first[name, labels] != count}
    expect(changed, {"tftpd_report_time_seconds"}, "what changes")


def test_open_files_of_64_puts(scene) -> None:
    """They are enough for each put, its sync and the file of --status."""
    scene.make(ROOT, None)
    server = serve(scene, "--cap", "64", limit=f"-n {OPEN_FILES}")
    samples(scene)
    # (a put dallies for two of these timeouts)
    asked = {"timeout": 5}
    puts = [server.opens(wrq(f"f{number}", **asked), oack(**asked)) for number in range(64)]
    wait_until(lambda: value(samples(scene), "tftpd_transfers_open", direction="write") == 64, "64 puts")
    for put in puts:
        put.is_answered(data(1, b"ABC"), ack(1))
    log = drained(scene, server)
    expect([line for line in log if "too many" in line], [], "what is said of open files")
    has_counted(samples(scene), log)
