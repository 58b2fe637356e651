"""Mutated lines, captures, scripts and command lines for the four programs. Each input is drawn from samples of
examples/ and of this file, by the seed of the commit, or MUTATED_SEED; MUTATED_INPUTS is how many of each kind there
are. A run has a limit of memory (`ulimit -v`), of files and of time. A program may refuse what it is given, in its
own words and with the statuses of its manual: it never ends by a signal, writes nothing else to standard error,
prints visible ASCII alone, and a line of tftp-show for each line. tftp asks a server of this test, and tftpd ends
after one wait."""
import os
import re
import subprocess
from pathlib import Path
from typing import Any

import pytest
from hypothesis import strategies as st

from lib.addresses import own_address
from lib.answerer import Answerer
from lib.mutated import many, mutated
from lib.packets import error
from lib.programs import NAMES, TOP, program

HOST = own_address()
EXAMPLES = TOP / "examples"
COUNT = int(os.environ.get("MUTATED_INPUTS", "250"))
# The limits of a run: kilobytes of address space, blocks of a file, and seconds
LIMITS, SECONDS = 'ulimit -v 400000; ulimit -f 20000; exec "$0" "$@"', 120
# What a program may write to standard error in its first line; a second has the cause
REFUSALS = {
    "tftp-show": r"tftp-show: (out of memory|input unreadable|no such transfer|svg unwritable)",
    "tftp-play": r"line \d+: fault|script: unreadable|svg: unwritable|(tftp-play: )?out of memory",
    "tftp": r"tftp: ([A-Z]\w+(\(\w+\))?|(file|socket) fault|out of memory)",
    "tftpd": r"tftpd: ((file|socket) fault|out of memory)",
}
# (these write their log, or a line more, to standard error)
FREE = {"--log", "--verbose", "--progress"}
WORDS = {
    "tftp-show": ["--flow", "--svg", "picture", "--transfer", "1", "2", "--help", "-V", "--"],
    "tftp-play": ["read.script", "--svg", "picture", "--events", "--help", "-", "--"],
    "tftp": ["get", "put", "a", "local", "--blksize", "8", "65464", "--tsize", "--netascii", "--replace", "--no-dally",
             "--verbose", "-v", "-b", "--progress", "--fallback", "--help", "--", ""],
    "tftpd": ["served", "--max-block", "8", "--max-file", "0", "--cap", "64", "--transfers", "1", "--read-only", "--log",
              "--overwrite", "--uploads", "in", "--ports", "4001:4002", "--help", "--", ""],
}
# what the last words are, so that each run ends soon and asks no other host
LAST = {"tftp": ["--retries", "0"], "tftpd": ["--rounds", "1", "--listen", f"{HOST}:0"]}


def contents(*patterns: str) -> list[bytes]:
    return [path.read_bytes() for pattern in patterns for path in sorted(EXAMPLES.glob(pattern))]


@pytest.fixture(scope="module")
def room(tmp_path_factory: pytest.TempPathFactory) -> Path:
    folder = tmp_path_factory.mktemp("mutated")
    (folder / "served").mkdir()
    (folder / "served/a").write_bytes(b"ABC")
    (folder / "read.script").write_bytes(contents("*.script")[0])
    return folder


def judged(room: Path, name: str, words: list[str], given: bytes) -> "subprocess.CompletedProcess[bytes]":
    """Runs a program, which ends as its manual says. Returns what it wrote."""
    done = subprocess.run(["sh", "-c", LIMITS, program(name), *words], input=given, cwd=room, capture_output=True,
                          timeout=SECONDS)
    said = rf"(({REFUSALS[name]})\n({name}: (?s:.+)\n)?|error: [^\0]*)?" if done.returncode else ""
    assert done.returncode in (0, 1, 2)
    is_free = any(word in FREE or word[:2] == "-v" for word in words)
    assert is_free or re.fullmatch(said, done.stderr.decode("latin-1")), done.stderr[-300:]
    assert "--svg" in words or not re.search(rb"[^\x20-\x7e\n]", done.stdout)
    return done


@many(COUNT, mutated(contents("packets.hex", "capture.hex")))
def test_lines_of_packets(room: Path, given: bytes) -> None:
    """One line for each."""
    done = judged(room, "tftp-show", [], given)
    assert done.returncode == 2 or done.stdout.count(b"\n") == given.count(b"\n") + (given[-1:] not in (b"", b"\n"))


@many(COUNT, mutated(contents("wire.txt", "netboot/uefi.txt")),
      st.sampled_from(["", "", "--svg picture", "--svg picture --transfer 2"]))
def test_captures(room: Path, given: bytes, words: str) -> None:
    judged(room, "tftp-show", ["--flow", *words.split()], given)


@many(COUNT, mutated(contents("*.script")), st.sampled_from(["", "", "", "--svg picture"]))
def test_scripts_of_play(room: Path, given: bytes, words: str) -> None:
    # (what is long by design: as many bytes or events as a script may have)
    given = re.sub(rb"(random \d+ )(\d{4,})|(\*)(\d{5,})", lambda it: (it[1] or it[3]) + (it[2] or it[4])[:4], given)
    judged(room, "tftp-play", words.split(), given)


@st.composite
def command_line(draw: Any) -> list[str]:
    """A program and its words, some of which are mutated."""
    name, words = draw(st.sampled_from(NAMES)), list[str]()
    for word in draw(st.lists(st.sampled_from(WORDS[name]), max_size=5)):
        if draw(st.integers(0, 9)) < 3:
            text = draw(mutated([word.encode()], False))[:5_000].replace(b"\0", b"").replace(b"/", b"").decode("latin-1")
            # (no word that a longer wait or another file comes of)
            word = re.sub(r"^(--?t.*|--?r.*|--?f.*|\.+)$", "x", text)
        words.append(word)
    if name == "tftp" and draw(st.integers(0, 9)) < 8:
        words = [draw(st.sampled_from(["get", "put"])), "SERVER", *words]
    return [name, *words, *LAST.get(name, [])]


@many(COUNT, command_line())
def test_command_lines(room: Path, answerer: Answerer, words: list[str]) -> None:
    name, *others = [word.replace("SERVER", answerer.word) for word in words]
    judged(room, name, others, b"")
    for left in ["local", "local.part"]:
        (room / left).unlink(missing_ok=True)


@pytest.fixture(scope="module")
def answerer() -> Answerer:
    # (a client that is answered by an ERROR ends soon)
    return Answerer(HOST, lambda _: error(1, "no"))
