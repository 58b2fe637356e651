"""The checks fail with programs that do not work: a test of the tests. Each stand-in of stand_ins/ was let through
once.

One needs a server that works: it takes the tftpd of bin/, or else that of `rt ci`, and is skipped without it.
"""
import random
import sys
from contextlib import suppress
from pathlib import Path
from typing import Any

import pytest

from lib import programs, scene
from lib.process import Failure
from lib.programs import TOP

sys.path[:0] = [str(TOP / "tests/soak")]

import lossy
import raw
from ports import Stalled

HERE = TOP / "tests/gate/stand_ins"


def stand_ins(tftp: str, tftpd: str) -> dict[str, str]:
    return {"tftp": str(HERE / tftp), "tftpd": str(HERE / tftpd)}


# What is tried, the programs, the longest wait of it, if another, and the words of the reason for which it fails
@pytest.mark.parametrize("trials, tftp, tftpd, patience, words", [
    (lossy, "giving_up_tftp", "silent_tftpd", None, "too few"),
    (lossy, "idle", "silent_tftpd", None, "get 0: status 0"),
    (lossy, "giving_up_tftp", "lying_tftpd", None, "reports a read as complete"),
    (raw, "idle", "silent_tftpd", 1, "no answer"),
    (raw, "idle", "unwilling_tftpd", None, "in place of")])
def test_a_trial_fails(trials: Any, tftp: str, tftpd: str, patience: Any, words: str, tmp_path: Path,
                       monkeypatch: Any) -> None:
    if patience:
        monkeypatch.setattr(trials, "PATIENCE", patience)
    with pytest.raises(Failure, match=words):
        trials.run(stand_ins(tftp, tftpd), tmp_path, random.Random(1), 1)


def test_every_trial_stalls(tmp_path: Path, monkeypatch: Any) -> None:
    def stalls(*_: Any, **how: Any) -> None:
        raise Stalled

    monkeypatch.setattr(raw, "PATIENCE", 0)
    monkeypatch.setattr(raw, "run_once", stalls)
    with pytest.raises(Failure, match="too few"):
        raw.run(stand_ins("idle", "silent_tftpd"), tmp_path, random.Random(1), 0)


def test_a_file_of_no_transfer(tmp_path: Path, monkeypatch: Any) -> None:
    served = programs.found("tftpd") or pytest.skip("there is no tftpd")
    monkeypatch.setenv("TFTPD", str(served))
    with pytest.raises(Failure, match="litter.* differ"):
        for at in range(9):
            # (another trial where this host stalled)
            (tmp_path / f"{at}").mkdir()
            with suppress(Stalled):
                raw.run_once(stand_ins("idle", "littering_tftpd"), tmp_path / f"{at}", random.Random(1), 1, retries=0)
                break


def test_a_server_never_listens(tmp_path: Path, monkeypatch: Any) -> None:
    monkeypatch.setattr(scene, "PATIENCE", 1)
    with scene.Scene({"tftpd": str(HERE / "mute_tftpd")}, tmp_path / "scene", "127.0.0.1") as made:
        with pytest.raises(AssertionError, match="no line after 1 seconds"):
            made.serve()
