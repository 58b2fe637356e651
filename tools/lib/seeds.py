"""The seed of tests with random numbers: another with each commit, and the same for one."""
import os
import random
import subprocess
from typing import Sequence, TypeVar

from lib.programs import TOP

# why a test is left out that the seed has not chosen, which counts apart from what is skipped
OTHERS = "at another commit"
Row = TypeVar("Row")


def commit_seed() -> int:
    """The number of the commit's first digits, or 1 where there is no commit."""
    done = subprocess.run(["git", "rev-parse", "--short=8", "HEAD"], cwd=TOP, capture_output=True, text=True)
    return int(done.stdout.strip()[:8] or "1", 16) if done.returncode == 0 else 1


def chosen(rows: Sequence[Row], count: int) -> list[Row]:
    """So many of some rows, by the seed of the commit; all with TRY_ALL in the environment."""
    is_all = "TRY_ALL" in os.environ or len(rows) < count
    return [*rows] if is_all else random.Random(commit_seed()).sample(rows, count)
