"""The tests themselves: each has to notice the wrong behaviour beside which it stands in behaviours.txt.

A library that is loaded before a program (tests/shims/wrong_behaviours.c) has it behave wrongly at calls of the C
library, in a way that the proofs do not see: below them stand the trusted files, the toolchain and the disk. A run of
the gate tries five behaviours, by the seed of the commit; with TRY_ALL in the environment, as by `make behaviours`,
each of them is tried.
"""
import os
import re
import subprocess
from functools import lru_cache
from pathlib import Path

import pytest

from lib.preload import compiled
from lib.programs import TOP, programs
from lib.sections import table
from lib.seeds import OTHERS, chosen

ROWS = table(Path(__file__).with_name("behaviours.txt"))
# those that a commit tries, and the longest time of one in seconds
CHOSEN, LIMIT = chosen(ROWS, 5), 420
# (a run of pytest of its own, without what the one around it has set, and the patience of one in which a fault is to
# be noticed)
PLAIN = {name: value for name, value in os.environ.items() if not name.startswith(("PYTEST_", "TESTS_"))}
QUICK = {"TESTS_ONCE": "1", "TESTS_PATIENCE": "15", "ASAN_OPTIONS": "detect_leaks=0"}


def ran(*words: str, **env: str) -> "subprocess.CompletedProcess[str]":
    return subprocess.run(["pytest-3", "-q", "-n0", *words], cwd=TOP, stdin=subprocess.DEVNULL, capture_output=True,
                          text=True, timeout=LIMIT, env={**PLAIN, **env})


@lru_cache(None)
def collected() -> dict[str, str]:
    """The names of all tests, by what names them for pytest."""
    return {f"tests/{line}": line.partition("::")[2] for line in ran("--collect-only", "tests").stdout.splitlines()}


def words_of(test: str) -> list[str]:
    """What names a row's test for pytest: its cases, over one server where it has several, or the tests of a file
    that have a word."""
    file, _, word = test.partition(" ")
    if file.endswith(".py"):
        return [f"tests/{file}", *(["-k", word] if word else [])]
    found = [each for each, name in collected().items() if name == test]
    found = found or [each for each, name in collected().items() if name.startswith(f"{test}[") and "[two" not in name]
    assert found, f"there is no test {test}"
    return found


@pytest.mark.parametrize("row", ROWS, ids=" ".join)
def test_is_noticed(row: list[str], tmp_path: Path) -> None:
    """The programs are in a folder, one of them with the behaviour; behind its library stands what a test preloads."""
    if row not in CHOSEN:
        pytest.skip(OTHERS)
    program, behaviour, test = row
    tmp_path.chmod(0o755)
    shim, paths = compiled(tmp_path, TOP / "tests/shims/wrong_behaviours.c"), programs(["tftp", "tftpd", "tftp-show"])
    for name in {*paths} - {program}:
        (tmp_path / name).symlink_to(paths[name])
    preload = f'LD_PRELOAD="{shim}${{LD_PRELOAD:+:$LD_PRELOAD}}"'
    (tmp_path / program).write_text(f'#!/bin/sh\n{preload} BEHAVIOUR={behaviour} exec {paths[program]} "$@"\n')
    (tmp_path / program).chmod(0o755)
    done = ran(*words_of(test), **QUICK, TFTP_PROGRAMS=str(tmp_path))
    ended = done.stdout[-200:] + done.stderr[-200:]
    said = next((line for line in done.stdout.splitlines() if re.match(r"E  |\S+: ", line)), ended)
    assert done.returncode == 1, f"it is not noticed: {said[:160]}"


@pytest.mark.parametrize("test", sorted({test for _, _, test in ROWS}))
def test_the_test_of_a_row_is_there(test: str) -> None:
    path = words_of(test)[0]
    assert "::" in path or (TOP / path).is_file()
