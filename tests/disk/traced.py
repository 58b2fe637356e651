"""Runs tftpd and tftp under strace, and reads their calls on the disk in its log."""
import os
import re
import signal
import subprocess
from pathlib import Path
from typing import Any, NamedTuple

import pytest

from lib.addresses import own_address
from lib.programs import may_trace, program

PATIENCE = 180
# a write beyond a file's limit is an error and no signal
LIMITED = "trap '' XFSZ; ulimit -f $0; exec \"$@\""
TOLD, PRINTED = "send the last ACK", "print that it is complete"
ASKS = "O_NOCTTY|O_CLOEXEC"
# What each function asks of the system: its call, the flags of that, and whether it is of a path or an open file
CALLS = {
    "look": ("statx", "AT_STATX_SYNC_AS_STAT|AT_SYMLINK_NOFOLLOW"), "follow": ("statx", "AT_STATX_SYNC_AS_STAT"),
    "examine": ("statx", "AT_STATX_SYNC_AS_STAT|AT_EMPTY_PATH"), "resolve": ("readlink", ""),
    "open": ("openat", f"O_RDONLY|{ASKS}"), "open_folder": ("openat", f"O_RDONLY|{ASKS}, of a folder"),
    "try_to_write": ("openat", f"O_WRONLY|{ASKS}"), "make": ("openat", f"O_WRONLY|O_CREAT|O_EXCL|{ASKS}, 0666"),
    "try_lock": ("flock", ""), "read": ("read", ""), "write": ("write", ""), "seek": ("lseek", ""),
    "sync_data": ("fdatasync", ""), "sync_all": ("fsync", ""), "sync_folder": ("fsync", ", of a folder"),
    "set_mode": ("fchmod", ""), "link": ("link", ""), "rename": ("rename", ""), "remove": ("unlink", ""),
}


class Line(NamedTuple):
    """A call as calls.txt has it; of those that read or write a file in a row the bytes of each."""
    text: str
    pieces: list[bytes]

    def of(self, content: bytes) -> str:
        """It says whether it is of the whole file."""
        moved = b"".join(self.pieces)
        return self.text + (f": {'all' if moved == content else f'{len(moved)} bytes'}" if self.pieces else "")


class Transfer(NamedTuple):
    """What came of a transfer: the status of the client, what it printed, and the logs of both."""
    status: int
    printed: str
    logs: dict[str, Path]
    names: dict[str, str]
    last_ack: bytes

    def calls(self, who: str) -> list[Line]:
        """The calls of the server or the client that touch one of the two folders. Where the last ACK is sent, and
        `complete` is printed, is a line, too."""
        found = list[Line]()
        for call, words, result in re.findall(r"(?m)^\d+ +(\w+)\((.*)\) += (.*)$", self.logs[who].read_text()):
            opened, moved = re.match(r"\d+<([^>]*)>", words), moved_by(words)
            paths = [opened[1]] if opened else re.findall(r'"([^"]*)"', words)
            said = TOLD if call == "sendto" and moved == self.last_ack else PRINTED
            if said == TOLD or moved.startswith(b"complete "):
                # (where the host is slow the ACK is sent again)
                found += [Line(said, [])] * (said not in [line.text for line in found])
            elif call in ("execve", "close", "sendto") or not any(path.startswith(tuple(self.names)) for path in paths):
                continue
            else:
                text = " ".join([function_of(call, words, paths[0]), *map(self.named, paths)])
                if text.split()[0] not in ("read", "write") or result.startswith("-"):
                    found.append(Line(f"{text}: {answer(result, words)}", []))
                    continue
                if not found or found[-1].text != text:
                    found.append(Line(text, []))
                found[-1].pieces.append(moved[:int(result)])
        return found

    def named(self, path: str) -> str:
        for folder, name in self.names.items():
            path = re.sub(rf"^{re.escape(folder)}(?=/|$)", name, path)
        return re.sub(r"ROOT/\.tftp-\d+$", "DRAFT", path)


def moved_by(words: str) -> bytes:
    """The bytes that a call moves, as strace shows them."""
    text = re.search(r'"((?:[^"\\]|\\.)*)"', words)
    return text[1].encode().decode("unicode_escape").encode("latin-1") if text else b""


def function_of(call: str, words: str, path: str) -> str:
    """The trusted function that makes such a call."""
    flags = {"statx": r"AT_STATX[\w|]*", "openat": r"O_[\w|]*(?:, 0\d+)?"}
    asked = "".join(re.findall(flags[call], words)[:1]) if call in flags else ""
    asked += ", of a folder" * (call in ("openat", "fsync") and os.path.isdir(path))
    return next((name for name, how in CALLS.items() if how == (call, asked)), f"no function: {call}({words})")


def answer(result: str, words: str) -> str:
    error, kind = re.match(r"-1 (E\w+)", result), re.search(r"stx_mode=S_IF(\w+)", words)
    return error[1] if error else {"REG": "file", "DIR": "folder"}.get(kind[1], kind[1]) if kind else "ok"


def traced(log: Path, *words: Any) -> "subprocess.Popen[str]":
    """Starts a program under strace."""
    strace = ["strace", "-f", "-y", "-s", "100000", "-e", "trace=%file,%desc,sendto", "-o", log]
    # (a program that `rt try` compiled looks for leaks at its end, which it may not under strace)
    env = {**os.environ, "ASAN_OPTIONS": "detect_leaks=0"}
    return subprocess.Popen([*strace, *words], text=True, stdout=subprocess.PIPE, stderr=subprocess.STDOUT, env=env)


def transfer(room: Path, content: bytes, server: str, client: str, last_ack: bytes, limit: str) -> Transfer:
    """Traces a transfer: more words of the server of a folder, under a limit of its files in units of 512 bytes, and
    those of a client without its address, in which HERE is the folder of LOCAL. Both folders have a file of this
    content, and another one that may be replaced."""
    if not may_trace():
        pytest.skip("no strace that may trace")
    root, here = room / "served", room / "here"
    for folder, name in [(root, "a"), (here, "file")]:
        (folder / "sub").mkdir(parents=True)
        (folder / name).write_bytes(content)
        (folder / "old").write_bytes(b"old")
        (folder / "old").chmod(0o600)
    logs = {who: room / f"{who}.log" for who in ("server", "client")}
    served = traced(logs["server"], "sh", "-c", LIMITED, limit, program("tftpd"), root, "--listen",
                    f"{own_address()}:0", "--retries", "10", "--forever", *server.split())
    try:
        assert served.stdout
        address, (way, *words) = served.stdout.readline().split()[-1], client.replace("HERE", str(here)).split()
        asked = traced(logs["client"], program("tftp"), way, address, *words, "--retries", "10")
        printed = asked.communicate(timeout=PATIENCE)[0]
    finally:
        # (strace ends, and its log is whole, once what it runs has ended)
        for child in Path(f"/proc/{served.pid}/task/{served.pid}/children").read_text().split():
            os.kill(int(child), signal.SIGKILL)
        served.communicate(timeout=PATIENCE)
    return Transfer(asked.returncode, printed, logs, {str(root): "ROOT", str(here): "HERE"}, last_ack)
