"""Processes with limits: one wrapper of a program and of a server for all checks. What a process writes is read while
it runs, so that no pipe fills; each wait has an end; and nothing outlives its check, whatever happens to that."""
import os
import select
import subprocess
import time
from contextlib import suppress
from pathlib import Path
from typing import Any, Optional, Sequence, TypeVar, Union

# The longest wait for a line or for an end, in seconds
PATIENCE = 120
# A shell script that runs a program under a limit of `ulimit`. A write beyond a file's limit is an error and no
# signal.
LIMITED = "trap '' XFSZ; ulimit $0; exec \"$@\""

Words = Sequence[Union[str, Path]]
Own = TypeVar("Own", bound="Program")


class Failure(Exception):
    """What a check showed that no rule allows, with the datagrams that led to it."""

    def __init__(self, what: str, datagrams: Sequence[bytes] = ()) -> None:
        super().__init__(what)
        self.datagrams = list(datagrams)


class Program:
    """A process, with what it has written so far. It is ended by its own number, after `life` seconds at most."""

    def __init__(self, words: Words, folder: Union[str, Path], life: float, **how: Any) -> None:
        how = {"stdin": subprocess.DEVNULL, "stdout": subprocess.PIPE, "stderr": subprocess.PIPE, **how}
        lives = ["timeout", "--foreground", "-s", "KILL", str(life)]
        self.process = subprocess.Popen([*lives, *words], cwd=folder, **how)
        self.name, self.output = Path(words[0]).name, self.process.stdout
        self.texts: dict[Any, bytes] = {pipe: b"" for pipe in (self.process.stdout, self.process.stderr) if pipe}
        for pipe in self.texts:
            os.set_blocking(pipe.fileno(), False)

    def take(self, seconds: float = 0) -> bool:
        """Reads what it has written, and waits so long for more. Returns whether some stream is still open."""
        open_ones = [pipe for pipe in self.texts if not pipe.closed]
        for pipe in select.select(open_ones, [], [], max(seconds, 0))[0]:
            piece = pipe.read()
            if piece == b"":
                pipe.close()
            self.texts[pipe] += piece or b""
        return any(not pipe.closed for pipe in self.texts)

    def lines(self) -> list[str]:
        """The whole lines of standard output since the last call."""
        self.take()
        *lines, self.texts[self.output] = self.texts[self.output].split(b"\n")
        return [line.decode() for line in lines]

    def first_line(self) -> str:
        """The first line of standard output, which leaves those behind it."""
        end = time.monotonic() + PATIENCE
        while b"\n" not in self.texts[self.output]:
            if not self.take(end - time.monotonic()) or time.monotonic() > end:
                raise Failure(f"{self.name}: no line within {PATIENCE} seconds: {[*self.texts.values()]}")
        line, _, self.texts[self.output] = self.texts[self.output].partition(b"\n")
        return line.decode()

    def pid(self) -> int:
        """The number of the program itself, below `timeout`."""
        children, end = Path(f"/proc/{self.process.pid}/task/{self.process.pid}/children"), time.monotonic() + PATIENCE
        while self.process.poll() is None and time.monotonic() < end:
            if found := children.read_text().split():
                return int(found[0])
            time.sleep(0.01)
        raise Failure(f"{self.name}: no process")

    def signal(self, number: int) -> None:
        os.kill(self.pid(), number)

    def ended(self, seconds: Optional[float] = None) -> tuple[int, str, str]:
        """Its status, and what it has written that no call took before."""
        seconds = PATIENCE if seconds is None else seconds
        end = time.monotonic() + seconds
        while self.take(min(end - time.monotonic(), 0.5)):
            if time.monotonic() > end:
                raise Failure(f"{self.name} has not ended after {seconds} seconds: {[*self.texts.values()]}")
        status = self.process.wait(max(end - time.monotonic(), 0.1))
        return status, self.text(self.process.stdout), self.text(self.process.stderr)

    def text(self, pipe: Any) -> str:
        """What it has written to one of its streams that no call took before."""
        return self.texts[pipe].decode(errors="replace") if pipe else ""

    def end(self) -> None:
        if self.process.poll() is None:
            with suppress(ProcessLookupError, Failure, FileNotFoundError):
                self.signal(9)
            self.process.kill()
        self.process.wait()
        for pipe in self.texts:
            pipe.close()

    def __enter__(self: Own) -> Own:
        return self

    def __exit__(self, *_: object) -> None:
        self.end()


class Server(Program):
    """A `tftpd` that listens at an address, at a port that the system chooses."""

    def __init__(self, program: Union[str, Path], host: str, folder: Union[str, Path], words: Words, life: float,
                 root: str = ".") -> None:
        super().__init__([program, root, "--listen", f"{host}:0", *words], folder, life)
        try:
            line = self.first_line()
            if not line.startswith(f"listening {host}:"):
                raise Failure(f"the first line of a server: {line}")
        except Failure:
            self.end()
            raise
        self.word = line.split()[1]
        self.address = (host, int(line.rpartition(":")[2]))
