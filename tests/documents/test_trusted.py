"""All files that are trusted by reading are named. A proof ends where a function of std, of `mio` or in C is called
that has no model: sockets, polls, the clock, files, processes, standard streams. The files with such calls are those
that section "What is trusted" of docs/PROVED.md names, and those of `WITHOUT_CLAIM`, on whose calls no claim rests."""
import re
from pathlib import Path

import pytest

from lib.programs import TOP

# What reaches the system, by kinds; each is one call
CALLS = {
    "sockets": r"\b(?:UdpSocket|ReadySocket|TcpStream)::(?:bind|from|from_std)\(|\.(?:recv_from|send_to|peek_from"
               r"|local_addr|set_read_timeout|set_nonblocking|try_clone_to_owned|as_fd)\(",
    "polls": r"\bPoll::new\(|\.registry\(\)|\bSourceFd\(|\bpoll\.poll\(|\.is_write_closed\(",
    "the clock": r"\.(?:monotonic|since_1970)\(",
    "random bytes": r"\bmake_rng\(",
    "standard streams": r"(?<!e)println!\(|\.println\(|\.std(?:in|out|err)\(\)|\bPrint::\w+\(",
    "files": r"\bfs::(?:open|create|read|write|rename|remove|hard_link|canonicalize|metadata|symlink_metadata|copy)"
             r"\w*\(|\bOpenOptions::new\(",
    "what the system says of a file": r"\.(?:dev|ino|ctime|ctime_nsec|mtime|mtime_nsec)\(\)",
    "processes": r"\.spawn\(&|\bStdio::|\.kill\(\)|\.try_wait\(|\bcurrent_exe\(",
    "the environment": r"\benv::(?:args|args_os|var|var_os|current_dir)\(",
    "C": r'\bextern "C"|\blibc::\w+\(',
}
# A call on an open file, in a file of Rattle that holds it as std gives it
OPEN_FILE = r"\bself\.file\.(?:metadata|sync_data|sync_all|set_permissions|set_len|read|write|seek|lock|try_lock)\("
HOLDS_NO_FILE = r"\bfile: (?:&mut )?(?:DiskFile|DiskFolder)<"
# Crates of tests and examples, and the library for C: its callers are trusted with what they pass
LEFT_OUT = ("tests_", "memory_examples", "tftp_c/")
# Files on whose calls no claim rests, and why none does
WITHOUT_CLAIM = {
    "tftp_arguments/src/arguments.rt": "the claims are of the arguments that a command found",
    "tftp_arguments/src/standard_streams.rt": "null devices for streams that are closed",
    "tftp_daemon/src/error_output.rt": "whether standard error is the journal: the form of its lines",
    "tftp_daemon/src/processors.rt": "how many processors there are: the number of servers",
    "tftp_play/src/arguments.rt": "scripts, and what tftp-play writes",
    "tftp_supervisor/src/system/reports.rt": "when a server's pipe is read: a mistake delays lines",
    "tftp_show/src/arguments.rt": "captures, and what tftp-show writes",
}
# The main of a program passes its streams on
MAIN = "/src/main.rt"


def found_in(path: Path) -> list[str]:
    """The calls of a file, each with its line and its kind, without comments and imports."""
    lines = [re.sub(r"//.*|/\*.*?\*/|^\s*(?:ghost )?use .*", "", line) for line in path.read_text().splitlines()]
    patterns = CALLS if path.suffix == ".rt" else {"C": r"\b\w+\("}
    if path.suffix == ".rt" and not re.search(HOLDS_NO_FILE, "\n".join(lines)):
        patterns = {**CALLS, "open files": OPEN_FILE}
    return [f"{number}: {kind}: {line.strip()}" for number, line in enumerate(lines, 1)
            for kind, pattern in patterns.items() if re.search(pattern, line)]


def reaching() -> dict[str, list[str]]:
    """The files with calls that reach the system, and these calls; those of a crate without the folder of crates."""
    found = {str(path.relative_to(TOP)).removeprefix("crates/"): found_in(path)
             for part in ("crates/*/src/**/*.rt", "crates/*/c/*.c", "ports/**/*.c") for path in TOP.glob(part)}
    return {name: calls for name, calls in found.items()
            if calls and not name.startswith(LEFT_OUT) and not name.endswith(MAIN)}


SECTION = re.findall(r"(?ms)^## What is trusted\n(.*?)(?=^## |\Z)", (TOP / "docs/PROVED.md").read_text())[0]
TRUSTED = {*re.findall(r"`((?:\w+/(?:src|c)|ports)/[\w/]+\.(?:rt|c))`", SECTION)}


def test_the_files_that_are_named_reach_the_system() -> None:
    found = reaching()
    assert {name: calls for name, calls in found.items() if name not in {*TRUSTED, *WITHOUT_CLAIM}} == {}
    assert {*TRUSTED, *WITHOUT_CLAIM} <= {*found}
    assert not TRUSTED & {*WITHOUT_CLAIM}


@pytest.mark.parametrize("text, count", [
    *((f"fn f() {{\n    {call}\n}}\n", 1) for call in [
        "let got = self.udp.recv_from(buffer);", "ReadySocket::bind(net, at)?", "fs::rename(rt, from, to)",
        "clock.monotonic()", "let answer = self.file.sync_all();", 'unsafe extern "C" {']),
    *((f"{line}\n", 0) for line in [
        "// self.udp.recv_from(buffer)", "use std::fs;", 'Command::new(alloc, "tftp")', 'eprintln!(rt; "")',
        "let writer = net.receive(socket, buffer);",
        "struct W<F> { file: DiskFile<F> }\nfn f() { self.file.sync_all() }"]),
    ("int f(void) {\n    return flock(1, 2);\n}\n", 2)])
def test_which_calls_are_found(text: str, count: int, tmp_path: Path) -> None:
    path = tmp_path / ("a.c" if "void" in text else "a.rt")
    path.write_text(text)
    assert len(found_in(path)) == count
