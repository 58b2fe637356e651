"""The crates of the repository by crates.txt and as the toolchain has them, and what it has built of them."""
import os
import re
import shutil
import sys
from functools import lru_cache
from pathlib import Path
from typing import Any

from lib.programs import TOP


def kit() -> Path:
    """The folder of the toolchain. Its module `rtlib` can be imported from then on."""
    found = Path(shutil.which("rt") or sys.exit("rt is not on the PATH")).resolve().parent
    if str(found) not in sys.path:
        sys.path.append(str(found))
    return found.parent


@lru_cache(None)
def listed() -> dict[str, list[str]]:
    """The crates of crates.txt, each with the words behind its name and the libraries that it uses."""
    lines = re.findall(r"(?m)^(\w+)([^:#\n]*):([^#\n]*)", (TOP / "crates.txt").read_text())
    return {name: [*words.split(), *uses.split()] for name, words, uses in lines}


@lru_cache(None)
def below(name: str) -> set[str]:
    """All crates of the repository that one is built on."""
    own = {*listed()[name]} & {*listed()}
    return own.union(*map(below, own))


def repository_of(name: str, room: Path) -> Path:
    """Makes a repository of hard links with a crate, those below it, and what was built of them: rt lets in one run at
    a time to a crate and those below it. Returns the crate's folder there."""
    own = {name, *below(name)}
    shutil.rmtree(room, ignore_errors=True)
    for place in [f"{name}/out", *(f"{each}/out/rlib" for each in below(name)),
                  *(f"{each}/{part}" for each in own for part in ("src", "specs", "proofs"))]:
        if (TOP / "crates" / place).is_dir():
            shutil.copytree(TOP / "crates" / place, room / "crates" / place, copy_function=os.link, symlinks=True)
    lines = (TOP / "crates.txt").read_text().splitlines(True)
    (room / "crates.txt").write_text("".join(line for line in lines if re.split("[ :]", line)[0] in own))
    shutil.copy2(TOP / "HANDLES", room)
    return room / "crates" / name


def crates() -> dict[str, Any]:
    """The crates by their names, as rt has them."""
    kit()
    import rtlib
    return {crate.name: crate for crate in rtlib.crates_below(str(TOP))}


def has_libraries(crate: Any) -> bool:
    """Whether all libraries below are those of `rt ci`, which have no stamp, or all of the text as it stands."""
    stamps = [Path(it.folder, "out/rlib/stamp").is_file() for it in crate.below()]
    is_there = all(Path(it.rlib, "format").is_file() for it in crate.below())
    return is_there and (not any(stamps) or all(it.is_built() for it in crate.below()))
