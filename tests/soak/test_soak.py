"""`tftp` and `tftpd` for some time against a model, a bad network and a bad host.

SOAK_SECONDS, else 30, and SOAK_SEED, else the first digits of the commit, say how many steps there are, and what each
draws, however long they take. A trial has numbers of its own from the seed. A failure shows the seed, and the last
datagrams as lines for tftp-show.
"""
import os
import random
from collections import Counter
from concurrent.futures import ProcessPoolExecutor
from multiprocessing import get_context
from pathlib import Path
from typing import Any, Callable

import pytest

import lossy
import raw
from lib.process import Failure
from lib.programs import programs
from lib.seeds import commit_seed

SECONDS, SEED = float(os.environ.get("SOAK_SECONDS", "30")), int(os.environ.get("SOAK_SEED") or commit_seed())
# Where so many transfers were opened, each ERROR of a server has to have been seen; and the raw clients open some a
# second
MANY, EACH_SECOND = 300, 1
# Servers of raw clients: with what limits each of them is started
RAW: list[dict[str, Any]] = [
    {"retries": 3}, {"retries": 1, "max_block": 512, "max_file": 600},
    {"retries": 2, "max_block": 65_464, "replaces": True}, {"retries": 2, "uploads": "sub", "max_block": 8_192},
    {"retries": 2, "is_read_only": True},
]
pytestmark = pytest.mark.timeout(SECONDS + 2_000)


def tried(run: Callable[..., "Counter[str]"], number: int, room: Path, **limits: Any) -> "Counter[str]":
    """The counts of a trial, which are printed."""
    folder = room / f"{number}"
    folder.mkdir()
    try:
        counts = run(programs(["tftp", "tftpd"]), folder, random.Random(SEED * 1_000 + number), SECONDS, **limits)
    except Failure as failure:
        seen = "\n".join(f"  {datagram.hex()}" for datagram in failure.datagrams)
        raise AssertionError(f"seed {SEED}: {failure}\n{seen}") from failure
    print(", ".join(f"{count} {what}" for what, count in counts.items() if count))
    return counts


def raw_clients(at: int, room: Path) -> "Counter[str]":
    return tried(raw.run, at, room, **RAW[at])


def test_raw_clients(tmp_path) -> None:
    """At five servers at once, each a process with a network of its own: all of a server's ERRORs are seen."""
    with ProcessPoolExecutor(len(RAW), get_context("spawn")) as pool:
        counts = sum(pool.map(raw_clients, range(len(RAW)), [tmp_path] * len(RAW)), Counter())
    unseen = sorted(raw.ERRORS - set(counts)) if counts["transfers"] >= MANY else []
    assert not unseen and counts["transfers"] >= EACH_SECOND * SECONDS, f"seed {SEED}: {dict(counts)}, without {unseen}"


def test_lossy_network(tmp_path) -> None:
    tried(lossy.run, len(RAW), tmp_path)
