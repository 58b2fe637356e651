"""The programs and the library for ARM64, built as `make ARCH=arm64 programs libtftp deb` does, with and without the
C library in the programs. The static programs are run by `qemu-aarch64`: by the tests of tftp, tftpd, tftp-show and
tftp-play, but those that ported.py leaves out; and the library by its examples in C, also beside other projects'
servers."""
import os
import re
import shutil
import subprocess
from pathlib import Path

import pytest

from lib import transfers
from lib.examples import Host, in_c
from lib.needs import needs
from lib.programs import NAMES, TOP
from ported import BUILDS, COMPILER, EMULATOR, TESTS, VERSION, run, run_over, static_programs

pytestmark = BUILDS

MAKE = ["make", "--no-print-directory", "ARCH=arm64"]


@pytest.fixture(scope="module")
def library() -> Path:
    needs(COMPILER)
    run(*MAKE, "programs", "libtftp")
    return TOP / "bin/arm64/libtftp.a"


@pytest.fixture(scope="module")
def emulated(tmp_path_factory: pytest.TempPathFactory) -> Path:
    """Scripts that run the static programs."""
    needs(COMPILER, EMULATOR)
    room = tmp_path_factory.mktemp("arm64")
    programs = static_programs(room / "bin")
    for name in NAMES:
        (room / name).write_text(f'#!/bin/sh\nexec {shutil.which(EMULATOR)} {programs}/{name} "$@"\n')
        (room / name).chmod(0o755)
    return room


@pytest.mark.parametrize("name", [*NAMES, "libtftp.so.1", "libtftp.a"])
def test_what_is_built(name: str, library: Path) -> None:
    assert {*re.findall(r"Machine: +(\S+)", run("readelf", "-h", library.with_name(name)))} == {"AArch64"}
    verdict = TOP / "out/modules/arm64" / name.split(".")[0] / "verdict"
    assert " target=aarch64-unknown-linux-gnu " in verdict.read_text()


def test_packages(library: Path) -> None:
    needs("dpkg-deb")
    run(*MAKE, "deb")
    for package in ["fanjuvery", "libtftp1", "libtftp-dev"]:
        assert run("dpkg-deb", "--field", TOP / f"out/{package}_{VERSION}_arm64.deb", "Architecture") == "arm64\n"


def test_without_a_compiler(tmp_path: Path) -> None:
    """One line names the package of a compiler that is not there."""
    words = [TOP / "tools/modules.py", "arm64", "link", "programs", tmp_path]
    done = subprocess.run(words, env={**os.environ, "CC": "no-such-gcc"}, capture_output=True, text=True)
    assert (done.returncode, done.stderr.count("\n")) == (1, 1) and "gcc-aarch64-linux-gnu" in done.stderr


@pytest.mark.timeout(1_800)
@pytest.mark.parametrize("tests", [*TESTS, "tests/tftp_show", "tests/tftp_play"])
def test_the_tests_of_programs(tests: str, emulated: Path) -> None:
    run_over(emulated, "emulated", tests)


@pytest.mark.timeout(1_800)
def test_the_library(emulated: Path, library: Path, tmp_path: Path) -> None:
    """Its examples in C, at tftpd, at the example that serves and at servers of other projects."""
    place = Host(tmp_path, library)
    place.emulator = [EMULATOR]
    trials = transfers.trials_of(in_c(place, COMPILER, "static"))
    transfers.tried(trials, {name: str(emulated / name) for name in NAMES})
