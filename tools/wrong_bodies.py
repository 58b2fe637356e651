#!/usr/bin/env python3
"""Tries wrong bodies: wrong_bodies.py [--stale | --in-part] [CRATE.. | CRATE/BODY..], or wrong_bodies.py --lines

A wrong body is an edit of a crate that the prover has to refuse. Each gate tries those in crates/NAME/must-fail/ by
`rt ci`, beside them five of those in the wrong-bodies/ of one crate, which the commit chooses, and behind `rt ci` those
in crates/NAME/each-gate/.
This tool tries those in wrong-bodies/, as many as may be by one check (lib/batches.py) and the others by `rt
must-fail`. With --in-part it tries them over the libraries that `rt ci` has left, by checks of the functions that they
change and of what these call, which takes a minute for most crates; those that only another function shows to be
wrong are then not refused. Without names that is done with those in each-gate/.
tools/wrong_bodies.txt has a line for each: `gate`, or the commit by which it was last refused, which this tool writes
there. Without names all of wrong-bodies/ are tried, and with --stale only such as have changed since, or whose crate
has, and such of which nothing is known. The status is 1 where a wrong body proves or cannot be read. With --lines only
tools/wrong_bodies.txt is written anew.
"""
import re
import shutil
import subprocess
import sys
import time
from contextlib import contextmanager, suppress
from pathlib import Path
from typing import Iterator, Sequence

from lib.batches import Batches, Place, changes_of
from lib.kit import below, crates, has_libraries, kit, repository_of
from lib.programs import TOP, ran
from lib.seeds import chosen

PARTS = ("src", "specs", "proofs", "c")
RECORD = TOP / "tools/wrong_bodies.txt"
# the folders of a crate that have them: those that each gate tries by `rt ci`, those that it tries behind that, and the
# others; and where these were at earlier commits
GATE, EACH, OTHERS, EARLIER = "must-fail", "each-gate", "wrong-bodies", "slips"
# what the list has in place of a commit
UNKNOWN, BY_GATE = "-", "gate"
# how many of the others each gate tries, of one crate
FEW = 5


def bodies_in(*folders: str) -> list[str]:
    """Each wrong body of such folders as CRATE/NAME."""
    paths = (path for folder in folders for path in TOP.glob(f"crates/*/{folder}/*.edit"))
    return sorted(f"{path.parent.parent.name}/{path.stem}" for path in paths)


def crate_of(body: str) -> str:
    return body.split("/")[0]


def path_of(body: str) -> Path:
    crate, name = body.split("/")
    return next(TOP.glob(f"crates/{crate}/*/{name}.edit"))


def of_this_commit() -> list[str]:
    """Those that the gate tries at this commit. They are of one crate: the first one of a crate costs a proof of all of
    the crate, and each further one a part of a minute."""
    others = bodies_in(OTHERS)
    crates = {*map(crate_of, chosen(others, 1))}
    return chosen([body for body in others if crate_of(body) in crates], FEW)


@contextmanager
def tried_by_the_gate(bodies: Sequence[str]) -> Iterator[None]:
    """Has these stand in must-fail/, where `rt ci` tries them."""
    paths = [path_of(body) for body in bodies]
    places = [path.parent.with_name(GATE) / path.name for path in paths]
    try:
        for path, place in zip(paths, places):
            place.parent.mkdir(exist_ok=True)
            shutil.copy2(path, place)
        yield
    finally:
        for place in places:
            place.unlink(missing_ok=True)
            with suppress(OSError):
                place.parent.rmdir()


# ---- by which commit each was refused


def git(*words: str) -> "subprocess.CompletedProcess[str]":
    return ran("git", *words, cwd=TOP)


def recorded() -> dict[str, str]:
    """What the list says of each wrong body."""
    return {words[0]: words[1] for words in map(str.split, RECORD.read_text().splitlines())}


def is_fresh(body: str, commit: str) -> bool:
    """Whether neither the wrong body, wherever it stood by then, nor its crate has changed since this commit."""
    crate, path = f"crates/{crate_of(body)}", path_of(body)
    if commit == UNKNOWN or git("diff", "--quiet", commit, "--", *(f"{crate}/{part}" for part in PARTS)).returncode:
        return False
    before = (git("show", f"{commit}:{crate}/{folder}/{path.name}").stdout for folder in (OTHERS, GATE, EACH, EARLIER))
    return path.read_text() in before


def record(body: str) -> None:
    """Writes that this one, which not each gate tries, was refused by the commit that made it, its crate and those
    below what they are, if it is so."""
    crate, path = crate_of(body), path_of(body)
    if path.parent.name != OTHERS:
        return
    paths = [*(f"crates/{it}/{part}" for it in [crate, *below(crate)] for part in PARTS), str(path.relative_to(TOP))]
    head = git("log", "-1", "--abbrev=10", "--format=%h", "--", *paths).stdout.strip()
    if not head or git("status", "--porcelain", "--", *paths).stdout:
        print(f"wrong body {body}: not recorded: its crates differ from the commit")
    else:
        write({**recorded(), body: head})


def write(known: dict[str, str]) -> None:
    """Writes a line for each wrong body that there is."""
    lines = {body: known.get(body, UNKNOWN) for body in bodies_in(OTHERS)}
    lines |= dict.fromkeys(bodies_in(GATE, EACH), BY_GATE)
    RECORD.write_text("".join(f"{body} {it}\n" for body, it in sorted(lines.items())))


# ---- what each changes


def fault_of(body: str) -> str:
    """Why a wrong body cannot be applied, or nothing."""
    texts = dict[str, str]()
    for file, old, new in changes_of(path_of(body).read_text()):
        place = TOP / "crates" / crate_of(body) / file
        if not place.is_file():
            return f"there is no {file}"
        text = texts.get(file) or place.read_text()
        if text.count(old) != 1:
            return f"its old text is in {file} {text.count(old)} times"
        texts[file] = text.replace(old, new)
    return "" if texts else "it changes nothing"


def not_applied() -> list[str]:
    """The wrong bodies that cannot be applied, and the lines of the list that are of none, or lack one."""
    bodies = bodies_in(GATE, EACH, OTHERS)
    return [*(f"wrong body {body}: {fault}" for body in bodies if (fault := fault_of(body))),
            *(f"tools/wrong_bodies.txt and the crates differ in {body}" for body in sorted({*recorded()} ^ {*bodies}))]


# ---- all of them


def refused(crate: str, bodies: Sequence[str]) -> set[str]:
    """Those of a crate that the prover refuses, over what earlier checks of the crate have kept. Prints what is said of
    each."""
    room = TOP / f"out/{crate}.bodies"
    folder = repository_of(crate, room)
    found, alone = Batches(folder, {body: changes_of(path_of(body).read_text()) for body in bodies}).tried()
    if alone:
        (folder / GATE).mkdir()
        for body in alone:
            shutil.copy2(path_of(body), folder / GATE)
        said = ran("rt", "must-fail", crate, cwd=room, timeout=None)
        print(said.stdout, said.stderr, sep="", flush=True)
        found |= {*re.findall(r"must-fail (\S+)\.edit: refused", said.stdout + said.stderr)}
    shutil.rmtree(room)
    return found


def chosen_by(names: Sequence[str], is_stale: bool = False) -> list[str]:
    """The bodies that a command line names: those of the gate by their own names alone."""
    bodies, others, before = bodies_in(GATE, EACH, OTHERS), bodies_in(OTHERS), recorded()
    lacking = {*names} - {*bodies} - {*map(crate_of, bodies)}
    if lacking:
        sys.exit(f"wrong bodies: there is no {', '.join(sorted(lacking))}")
    named = [body for body in bodies if body in names or body in others and (not names or crate_of(body) in names)]
    return [body for body in named if not is_stale or not is_fresh(body, before.get(body, UNKNOWN))]


# ---- by the functions that they change


def in_part(folder: Path, places: Sequence[Place]) -> "subprocess.CompletedProcess[str]":
    """A check of functions of a crate, and of those that they call, over the libraries of `rt ci`."""
    kit()
    import rtlib
    only = [word for place in places for word in ("--only", place.path())]
    words = crates()[folder.name].words(["--jobs", "1", *only], keeps=False)
    return ran(rtlib.RATTLE, "check", *words, cwd=folder, timeout=None)


def refused_in_part(crate: str, bodies: Sequence[str]) -> set[str]:
    """Those of a crate that the prover refuses in the functions that they change. Prints what is said of each."""
    if not has_libraries(crates()[crate]):
        sys.exit(f"wrong bodies: the libraries below {crate} are not built: run `rt ci` first")
    room = TOP / f"out/{crate}.bodies"
    folder = repository_of(crate, room)
    found, others = Batches(folder, {body: changes_of(path_of(body).read_text()) for body in bodies}, in_part).tried()
    print("".join(f"wrong body {body}: NOT REFUSED in the function that it changes\n" for body in others), end="")
    shutil.rmtree(room)
    return found


def main() -> int:
    names, began, good = [word for word in sys.argv[1:] if word[:1] != "-"], time.monotonic(), 0
    if not {*sys.argv[1:]} - {*names} <= {"--stale", "--in-part", "--lines"}:
        sys.exit(__doc__)
    if "--lines" in sys.argv:
        write(recorded())
        return 0
    is_part = "--in-part" in sys.argv
    bodies = chosen_by(names, "--stale" in sys.argv) if names or not is_part else bodies_in(EACH)
    for crate in dict.fromkeys(map(crate_of, bodies)):
        own = [body for body in bodies if crate_of(body) == crate]
        for body in sorted(refused_in_part(crate, own) if is_part else refused(crate, own)):
            record(body)
            good += 1
    print(f"wrong bodies: {good} refused, {len(bodies) - good} not, in {time.monotonic() - began:.0f} s")
    return int(good < len(bodies))


if __name__ == "__main__":
    sys.exit(main())
