"""A program that reads an input, prints, and ends: `tftp-show` or `tftp-play`."""
import os
import subprocess
from pathlib import Path
from typing import Any, Sequence

from lib.ends import expect


class Tool:
    """The program, in a folder of its own."""

    def __init__(self, path: Path, folder: Path) -> None:
        self.path, self.folder = str(path), folder

    def ran(self, given: str, words: Sequence[str] = (), output: Any = subprocess.PIPE) -> tuple[int, str, str]:
        """The status for this input, each of whose characters is a byte, and what was printed, which is ASCII."""
        done = subprocess.run([self.path, *words], input=given.encode("latin-1"), stdout=output, stderr=subprocess.PIPE,
                              cwd=self.folder, timeout=300)
        return done.returncode, (done.stdout or b"").decode(), done.stderr.decode()

    def prints(self, given: str, printed: str, status: int = 0, words: Sequence[str] = ()) -> None:
        """It prints this, with this status and no message."""
        expect(self.ran(given, words), (status, printed, ""), given)

    def fails(self, given: str, message: str, words: Sequence[str] = (), printed: str = "") -> None:
        """It ends with status 2 and a message."""
        expect(self.ran(given, words), (2, printed, message), f"{words} {given}")

    def fails_to_print(self, words: Sequence[str], given: str, message: str) -> None:
        """A disk that is full has a message; a pipe that nobody reads has none. Both have status 2."""
        with open("/dev/full", "wb") as full:
            expect(self.ran(given, words, full), (2, "", message), "a full disk")
        reading, writing = os.pipe()
        os.close(reading)
        with os.fdopen(writing, "wb") as pipe:
            expect(self.ran(given, words, pipe), (2, "", ""), "a pipe that nobody reads")


def has_parts(svg: str, parts: Sequence[tuple[str, int]]) -> None:
    """So many lines of a picture have each part."""
    found = [(part, sum(part in line for line in svg.splitlines())) for part, _ in parts]
    expect(found, list(parts), "the parts of a picture")
