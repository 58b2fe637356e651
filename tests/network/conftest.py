"""Tests of networks run apart: a pytest in namespaces of its own runs each, as root there."""
import os
import subprocess
import sys
from typing import Any, Optional

import pytest

from lib.hosts import APART, missing

TRIAL = "mount -t tmpfs none /srv && ip link add end0 type veth peer name end1 && nft -f - << 'END'\n{}END"


@pytest.hookimpl(tryfirst=True)
def pytest_pyfunc_call(pyfuncitem: Any) -> Optional[bool]:
    if "TESTS_APART" in os.environ:
        return None
    # (as root alone may a server change its user)
    apart = [word for word in APART if word != "--map-root-user" or os.geteuid() != 0]
    if why := missing(TRIAL.format(pyfuncitem.module.KERNEL), apart):
        pytest.skip(why)
    words = [*apart, sys.executable, "-m", "pytest", "-qs", "-n0", f"{pyfuncitem.path}::{pyfuncitem.name}"]
    env = {**os.environ, "TESTS_APART": "1"}
    done = subprocess.run(words, env=env, stdin=subprocess.DEVNULL, capture_output=True, text=True)
    print(done.stdout)
    if done.returncode:
        pytest.fail(done.stdout + done.stderr, pytrace=False)
    if "SKIPPED" in done.stdout:
        pytest.skip(done.stdout)
    return True
