"""Builds the programs and the library from the archive of assembly, as who has a C compiler alone: in a folder of this
host's packages of gcc, make, musl and a shell, which has no part of this repository and not the toolchain. `make
check` and `make install` run there with gcc, and with musl-gcc and STATIC=1, and the tests of the programs run over
what they built; the half for ARM64 is built by the cross compiler, and its `make check` run by qemu-aarch64."""
import shutil
from pathlib import Path
from typing import Iterator

import pytest

from lib.chroot import ROOM, Inside, furnish, is_possible
from lib.needs import needs
from lib.programs import NAMES, TOP
from ported import BUILDS, COMPILER, EMULATOR, TESTS, VERSION, run, run_over

pytestmark = BUILDS

PACKAGES = "coreutils dash gcc libc6-dev make musl-tools sed grep diffutils tar xz-utils".split()
PROCESSORS = ["amd64", "arm64"]
# the words of make by the compiler
WORDS = {"gcc": ["CC=gcc"], "musl-gcc": ["CC=musl-gcc", "STATIC=1"]}


@pytest.fixture(scope="module")
def archive() -> Path:
    needs("xz", "git", "gcc")
    for arch in PROCESSORS:
        run(TOP / "tools/modules.py", arch)
    first, second = [(TOP / run(TOP / "tools/archive.sh", "assembly", VERSION).strip()).read_bytes() for _ in range(2)]
    assert first == second, "the archive has other bytes when it is made again"
    return TOP / f"out/fanjuvery-{VERSION}-assembly.tar.xz"


@pytest.fixture(scope="module")
def unpacked(archive: Path, tmp_path_factory: pytest.TempPathFactory) -> Path:
    room = tmp_path_factory.mktemp("unpacked")
    run("tar", "-xf", archive, "-C", room)
    return next(room.glob("fanjuvery-*"))


@pytest.fixture(scope="module")
def inside(archive: Path, tmp_path_factory: pytest.TempPathFactory) -> Iterator[Inside]:
    root = tmp_path_factory.mktemp("root")
    if why := is_possible(root):
        pytest.skip(f"the chroot: {why}")
    furnish(root, PACKAGES)
    place = Inside(root)
    shutil.copy2(archive, place.outside("archive"))
    place.run("tar", "-xf", "archive")
    yield place
    shutil.rmtree(root)


def test_what_it_says(unpacked: Path) -> None:
    text, commit = (unpacked / "BUILT-FROM").read_text(), run("git", "rev-parse", "HEAD").strip()
    verdicts = [f"{arch}/{name}.s logic=proved " for arch in PROCESSORS for name in [*NAMES, "libtftp"]]
    assert [wanted for wanted in [f"commit {commit}", "logic ", *verdicts] if wanted not in text] == []
    assert len((unpacked / "Makefile").read_text().splitlines()) < 60


@pytest.mark.parametrize("compiler", WORDS)
def test_built_without_the_toolchain(compiler: str, inside: Inside) -> None:
    needs(compiler)
    top = f"{ROOM}/{next(inside.outside('').glob('fanjuvery-*')).name}"
    inside.run("make", "clean", at=top)
    assert "compared byte for byte" in inside.run("make", "-j2", "check", *WORDS[compiler], at=top)
    inside.run("make", "install", *WORDS[compiler], f"DESTDIR={ROOM}/{compiler}", at=top)
    inside.run("cp", "-r", "bin", f"{ROOM}/bin.{compiler}", at=top)
    run_over(inside.outside(f"bin.{compiler}"), "static" if compiler == "musl-gcc" else "", *TESTS)


def test_built_for_arm64(unpacked: Path) -> None:
    needs(COMPILER, EMULATOR)
    words = [f"CC={COMPILER}", "STATIC=1", f"EMULATOR={shutil.which(EMULATOR)}"]
    assert "compared byte for byte" in run("make", "-j2", "check", *words, cwd=unpacked)
