"""A test that fails runs once more only where the host stalled meanwhile, and the last line counts. A stand-in
measures stalls."""
import os
import shutil

import pytest

from lib.programs import TOP, ran

STALLS = "LIMIT = 0.5\nclass Stalls:\n    def longest_since(self, begun=0):\n        return {}\n"
FAILS_ONCE = """from pathlib import Path
def test_once():
    been = Path(__file__).with_name("been")
    assert been.exists() or been.touch()
"""


@pytest.mark.parametrize("stall, status", [(2.0, 0), (0.1, 1)], ids=["a stall", "none"])
def test_a_test_that_fails_once(tmp_path, stall, status) -> None:
    shutil.copytree(TOP / "tools/lib", tmp_path / "tools/lib", ignore=shutil.ignore_patterns("__pycache__"))
    (tmp_path / "tools/lib/stalls.py").write_text(STALLS.format(stall))
    (tmp_path / "tests").mkdir()
    for name in ["conftest.py", "pytest.ini"]:
        shutil.copy2(TOP / "tests" / name, tmp_path / "tests" / name)
    (tmp_path / "tests/test_it.py").write_text(FAILS_ONCE)
    env = {name: it for name, it in os.environ.items() if name != "TESTS_ONCE" and not name.startswith("PYTEST_XDIST")}
    done = ran("pytest-3", "-q", "-n0", "tests", cwd=tmp_path, env=env)
    assert (done.returncode, done.stdout.splitlines()[-1]) == (status, "1 run, 0 skipped"), done.stdout + done.stderr
    assert ("once more, since the host stalled for 2.0 s" in done.stdout) == (status == 0)
