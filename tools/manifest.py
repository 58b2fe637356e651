#!/usr/bin/env python3
"""What the gate consists of, by name: manifest.py [--write]

tools/manifest.txt has a line for each crate, check, row of a check, test in Rattle and wrong body, for HANDLES, and
for each public function, clause, type and definition with a hash of its text: so what is gone, or was weakened, is a
line of a diff that a reviewer reads. The gate fails where the file is not as the repository is (tools/gate.py).
--write writes it, as `make manifest` does; without it the lines that differ are printed, and the status is 1 where
there are any.
"""
import re
import sys
from collections import Counter
from pathlib import Path
from typing import Iterable, Sequence

import wrong_bodies
from lib import surface
from lib.checks import CHECKS
from lib.kit import listed
from lib.programs import TOP, ran

MANIFEST = TOP / "tools/manifest.txt"
# the order of the kinds of lines, each with the words of its name
KINDS = ["handles", "crate", "check", "row", "test", "body", "function", "clause", "type", "ghost", "definition"]
# What runs the tests of tests/, by the words of .ci/packages, and where it is
PACKAGES = "/usr/lib/python3/dist-packages"
RUNNER = {"pytest-3": "/usr/bin/pytest-3", "python3-pytest-xdist": f"{PACKAGES}/xdist/__init__.py",
          "python3-pytest-timeout": f"{PACKAGES}/pytest_timeout.py",
          "python3-hypothesis": f"{PACKAGES}/hypothesis/__init__.py"}


def runner_lacks() -> list[str]:
    """What this host lacks of the runner of tests."""
    return [word for word, path in RUNNER.items() if not Path(path).exists()]


def rows_of(checks: Iterable[str]) -> list[str]:
    """The tests of these folders, by their files and names. Where nothing can collect them, they are those that are
    committed."""
    if runner_lacks():
        return [line for line in committed() if line.startswith("row ")]
    done = ran("pytest-3", "--collect-only", "-q", *checks)
    if done.returncode:
        sys.exit(f"manifest: the tests are not collected: {done.stdout[-500:]}{done.stderr[-500:]}")
    return [f"row tests/{line.replace('/', ': ', 1)}" for line in done.stdout.splitlines() if "::" in line]


def of_crate(name: str) -> list[str]:
    """The tests in Rattle of a crate, its wrong bodies, with a mark on those that each gate tries, by `rt ci` or behind
    it, and its public items."""
    folder = TOP / "crates" / name
    marks = {wrong_bodies.GATE: " gate", wrong_bodies.EACH: " behind", wrong_bodies.OTHERS: ""}
    return [*(f"test {name}/{test}" for path in folder.glob("src/**/*.rt")
              for test in re.findall(r"#\[test\][^{]*?fn (\w+)", path.read_text())),
            *(f"body {name}/{path.stem} {surface.digest_of(path.read_text())}{mark}" for kind, mark in marks.items()
              for path in folder.glob(f"{kind}/*.edit")),
            *surface.of_crate(name, folder)]


def made(checks: Iterable[str]) -> list[str]:
    """All lines: by their kinds, and in each by name; rows in the order of their checks."""
    # (crates on the disk that crates.txt does not have are of no gate)
    lines = [f"handles {surface.digest_of((TOP / 'HANDLES').read_text())}",
             *(f"crate {name}: {' '.join(uses)}".rstrip() for name, uses in listed().items()),
             *(f"check {check}" for check in checks), *rows_of(checks),
             *sorted(line for crate in listed() for line in of_crate(crate))]
    return sorted(lines, key=lambda line: KINDS.index(line.split()[0]))


def differences(before: Sequence[str], now: Sequence[str]) -> list[str]:
    """The lines that are gone, and those that are new."""
    left, there = set(before), set(now)
    return [*(f"- {line}" for line in before if line not in there), *(f"+ {line}" for line in now if line not in left)]


def committed() -> list[str]:
    return MANIFEST.read_text().splitlines() if MANIFEST.is_file() else []


def counts(lines: Sequence[str]) -> "Counter[str]":
    """How many rows each check has, by the manifest."""
    return Counter(line[len("row "):].partition(": ")[0] for line in lines if line.startswith("row "))


def main() -> int:
    now, before = made(CHECKS), committed()
    if twice := [line for line, count in Counter(now).items() if count > 1]:
        sys.exit(f"manifest: stands twice: {twice[:5]}")
    if "--write" in sys.argv:
        MANIFEST.write_text("".join(f"{line}\n" for line in now))
    found = differences(before, now)
    print(*found[:60], f"manifest: {len(now)} lines, {len(found)} differ; make manifest writes them", sep="\n")
    return int(bool(found) and "--write" not in sys.argv)


if __name__ == "__main__":
    sys.exit(main())
