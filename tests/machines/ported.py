"""What the tests of other machines share: programs and the library for a processor, as `make` builds them, and the
tests of tftp and tftpd over other programs. It is a plugin of pytest for these, which leaves out the tests that
programs of a kind cannot be tried by, by what the text of a test has: the kind is PROGRAMS_ARE in the environment,
`emulated`, `static`, or nothing."""
import inspect
import os
import re
import subprocess
import sys
from functools import lru_cache
from pathlib import Path
from typing import Any

import pytest

from lib.programs import TOP

HERE = Path(__file__).resolve().parent
COMPILER, EMULATOR = "aarch64-linux-gnu-gcc", "qemu-aarch64"
# the kernel and busybox of Debian for arm64, and gnu-efi, as parts/fetch.sh fetches them
PARTS = Path("/usr/local/share/arm64-parts")
VERSION = re.findall(r"(?m)^VERSION := (\S+)$", (TOP / "Makefile").read_text())[0]
# of a file in which programs and an archive are built behind the first test that takes them
BUILDS = pytest.mark.timeout(3_000)
# the tests of the programs as processes
TESTS = ["tests/tftp", "tests/tftpd"]
PRELOADED = {r"preloaded\(|\.watch\(|\.delay\(|disk = serve\(|Disk\(": "a library is loaded before the program's own"}
LEFT_OUT = {
    "": {}, "static": PRELOADED,
    "emulated": {
        **PRELOADED,
        r"--servers|several|test_servers_at_": "servers start themselves, and this kernel does not run their file",
        r"/proc/\{|schedstat|usage_of\(|strace|valgrind|callgrind": "the process is the emulator's",
        r"limit=|closed=|few_files\(": "limits and closed streams are those of the emulator too",
    },
}


def run(*words: Any, **how: Any) -> str:
    """Runs a command of the top, and returns what it printed."""
    done = subprocess.run([*map(str, words)], **{"cwd": TOP, **how}, stdin=subprocess.DEVNULL, stdout=subprocess.PIPE,
                          stderr=subprocess.STDOUT, text=True)
    assert done.returncode == 0, f"{' '.join(map(str, words[:5]))}: status {done.returncode}: {done.stdout[-3000:]}"
    return done.stdout


def static_programs(room: Path) -> Path:
    """The programs for ARM64, with the C library in themselves."""
    run("tools/modules.py", "arm64", "link", "programs", room, env={**os.environ, "STATIC": "1"})
    return room


@lru_cache(None)
def bare_archive(arch: str) -> Path:
    """The library for machines without an operating system."""
    run("tools/modules.py", arch, "link", "bare", TOP / "out/bare" / arch)
    return TOP / "out/bare" / arch / "libtftp-bare.a"


def run_over(programs: Path, kind: str, *tests: str) -> None:
    """Runs tests over other programs, without those that such programs cannot be tried by."""
    env = {**os.environ, "TFTP_PROGRAMS": str(programs), "PROGRAMS_ARE": kind, "PYTHONPATH": f"{HERE}:{TOP / 'tools'}"}
    words = [sys.executable, "-m", "pytest", "-q", "-n", "4", "-p", "ported", *tests]
    assert subprocess.run(words, cwd=TOP, env=env, stdin=subprocess.DEVNULL).returncode == 0, f"{tests} over {programs}"


def text_of(test: Any) -> str:
    """The text of a test, and of the functions of tests that it names."""
    found, left = dict[Any, str](), [test]
    while left:
        function = left.pop()
        text = found[function] = inspect.getsource(function)
        named = [vars(inspect.getmodule(function)).get(word) for word in {*re.findall(r"\w+", text)}]
        left += [it for it in named
                 if inspect.isfunction(it) and it not in found and HERE.parent in Path(inspect.getfile(it)).parents]
    return "\n".join(found.values())


def pytest_collection_modifyitems(config: Any, items: "list[Any]") -> None:
    kept, out = [], dict[str, list[Any]]()
    for item in items:
        reasons, text = LEFT_OUT[os.environ.get("PROGRAMS_ARE", "")], text_of(item.function)
        why = next((reason for pattern, reason in reasons.items() if re.search(pattern, text)), None)
        (out.setdefault(why, []) if why else kept).append(item)
    for why, left in out.items():
        print(f"{len(left)} tests are left out: {why}")
    config.hook.pytest_deselected(items=[item for left in out.values() for item in left])
    items[:] = kept
