"""What the tests share: a scene for each, and a second run of a test that failed while this host stalled.

A test that takes `scene` has a folder and an address of its own. TESTS_ONCE in the environment forbids second runs, as
where a fault is to be noticed."""
import os
import signal
import time
from pathlib import Path
from typing import Any, Iterator

import pytest
from _pytest.runner import runtestprotocol

from lib.addresses import own_network
from lib.programs import NAMES, found
from lib.scene import Scene
from lib.seeds import OTHERS
from lib.stalls import LIMIT, Stalls

# how many tests have addresses in one network, below those of second runs
IN_ONE_NETWORK = 200
# the most tests that run twice
MOST_REPEATED = 6
# one network for all processes of a run
NETWORK = os.environ.setdefault("TESTS_NETWORK", own_network())
STALLS, REPEATED = Stalls(), list[str]()


def pytest_configure() -> None:
    """What a shell in the background or nohup has ignored, the programs would ignore, too."""
    signal.pthread_sigmask(signal.SIG_SETMASK, [])
    signal.signal(signal.SIGINT, signal.default_int_handler)
    for number in (signal.SIGHUP, signal.SIGTERM):
        signal.signal(number, signal.SIG_DFL)


@pytest.fixture
def scene(request: pytest.FixtureRequest, tmp_path: Path) -> Iterator[Scene]:
    """(Its address is in the network of this run, or in those behind it.)"""
    number = request.session.items.index(request.node)
    first, second, third = map(int, NETWORK.split("."))
    address = f"{first}.{second}.{(third + number // IN_ONE_NETWORK) % 256}.{number % IN_ONE_NETWORK + 1}"
    if request.node.nodeid in REPEATED:
        address = f"{NETWORK}.{201 + number % 50}"
    paths = {name: str(path) for name in NAMES if (path := found(name))}
    with Scene(paths, tmp_path / "scene", address) as made:
        yield made


@pytest.hookimpl(tryfirst=True)
def pytest_runtest_protocol(item: Any, nextitem: Any) -> bool:
    """Runs a test, and once more if it fails while the host stalls, which is said."""
    begun, hook = time.monotonic(), item.ihook
    hook.pytest_runtest_logstart(nodeid=item.nodeid, location=item.location)
    reports = runtestprotocol(item, log=False, nextitem=nextitem)
    stall, failed = STALLS.longest_since(begun), [report for report in reports if report.failed]
    if failed and stall > LIMIT and len(REPEATED) < MOST_REPEATED and "TESTS_ONCE" not in os.environ:
        REPEATED.append(item.nodeid)
        item._initrequest()
        reports = runtestprotocol(item, log=False, nextitem=nextitem)
        why = failed[0].longreprtext.splitlines()[-1]
        said = f"{item.nodeid}: once more, since the host stalled for {stall:.1f} s: {why}"
        reports[-1].sections.append(("once more", said))
    for report in reports:
        hook.pytest_runtest_logreport(report=report)
    hook.pytest_runtest_logfinish(nodeid=item.nodeid, location=item.location)
    return True


def pytest_terminal_summary(terminalreporter: Any) -> None:
    """Says which tests ran twice."""
    reports = [report for kind in terminalreporter.stats.values() for report in kind if hasattr(report, "sections")]
    for text in dict.fromkeys(text for report in reports for title, text in report.sections if title == "once more"):
        terminalreporter.write_line(text)


def pytest_unconfigure(config: pytest.Config) -> None:
    """Ends with a count, as each check of the gate does (lib/checks.py)."""
    reporter: Any = config.pluginmanager.get_plugin("terminalreporter")
    if reporter and not config.option.collectonly and not hasattr(config, "workerinput"):
        run = sum(len(reporter.stats.get(kind, [])) for kind in ("passed", "failed", "error"))
        skipped = reporter.stats.get("skipped", [])
        left = sum(OTHERS in str(report.longrepr) for report in skipped)
        print(f"{run} run{f', {left} at other commits' if left else ''}, {len(skipped) - left} skipped")
