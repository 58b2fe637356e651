#!/usr/bin/env python3
"""Writes what documents have that is made from the sources.

Statement and pictures of docs/, numbers of lines in them, the completions, and the pictures of examples/ as tftp-play
and tftp-show of bin/ draw them. In the gate tests/documents/test_made.py compares each with what stands there.
"""
import sys
from functools import partial
from pathlib import Path
from typing import Callable

TOP = Path(__file__).resolve().parents[2]
sys.path[:0] = [str(TOP / "docs/made"), str(TOP / "tools")]

import completions
import figures
import statement
from lib.programs import NAMES, program, ran

# the words that draw each picture of examples/, and its input
DRAWN = {"lossy.svg": ("tftp-play", "lossy.script"), "race.svg": ("tftp-play", "race.script"),
         "wire.svg": ("tftp-show", "wire.txt"), "netboot/boot.svg": ("tftp-show", "netboot/uefi.txt")}


def drawn(picture: str) -> str:
    """A picture of examples/."""
    name, given = DRAWN[picture]
    words = ["--flow"] * (name == "tftp-show") + ["--svg", "/dev/stderr"]
    done = ran(program(name), *words, cwd=TOP / "examples", input=(TOP / "examples" / given).read_text())
    # 1: not every client is complete, as in the race
    if done.returncode > 1:
        sys.exit(f"{picture}: {name} ends with {done.returncode}")
    return done.stderr


# what is made, by its path, or by those of several
MADE: dict[str, Callable[[], str]] = {
    "docs/STATEMENT.md": statement.document,
    **{f"completions/{name}.{shell}": partial(of, name) for shell, of in completions.SHELLS.items() for name in NAMES},
    **{f"examples/{picture}": partial(drawn, picture) for picture in DRAWN}}
FIGURES = ["docs/crates.dot", "docs/crates.svg", "docs/ratios.svg", "docs/PROVED.md", "README.md", "docs/TESTING.md"]


if __name__ == "__main__":
    for path, text in {**{path: make() for path, make in MADE.items()}, **figures.texts()}.items():
        (TOP / path).write_text(text)
