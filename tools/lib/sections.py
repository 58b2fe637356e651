"""Rows of tests as text. A file of sections has, for each row, a line `### KIND: TITLE`, what goes in, a line
`=== STATUS`, and what comes out; a table has a row in each line, and a tab between two columns. A backslash begins an
escape as in Python."""
from pathlib import Path
from typing import NamedTuple


class Section(NamedTuple):
    kind: str
    title: str
    given: str
    status: int
    printed: str

    def parts(self) -> list[tuple[str, int]]:
        """What comes out as parts of a picture, each with the number of lines that have it."""
        return [(part, int(count)) for count, part in (line.split(" ", 1) for line in self.printed.splitlines())]


def plain(text: str) -> str:
    return text.encode("latin-1").decode("unicode_escape")


def sections(path: Path) -> list[Section]:
    found = []
    for text in path.read_text().split("### ")[1:]:
        head, _, body = text.partition("\n")
        given, _, rest = f"\n{body}".partition("\n=== ")
        status, _, printed = rest.partition("\n")
        kind, _, title = head.partition(": ")
        found.append(Section(kind, title, plain(f"{given}\n"[1:]), int(status), plain(printed)))
    return found


def table(path: Path) -> list[list[str]]:
    """The rows of a table, without lines that begin with `# `."""
    return [[plain(word) for word in line.split("\t")] for line in path.read_text().split("\n")
            if line and not line.startswith("# ")]
