"""The library for C by its examples: examples/ is built for each checker that is here, in C and C++ by each compiler
with AddressSanitizer and UndefinedBehaviorSanitizer, in C for valgrind, too, over musl, and without a C library; in
Rust and Python with AddressSanitizer and for valgrind; and in Go. What each does then is told in lib/transfers.py."""
import os
import re
import subprocess
from functools import partial
from pathlib import Path
from typing import Any

import pytest

from lib import others, transfers
from lib.examples import BUILDS, FLAGS, LAYOUT, Host, archive, in_c, lacking, run
from lib.needs import needs
from lib.programs import TOP, programs

MAP, KEPT = TOP / "packaging/libtftp.map", TOP / "packaging/libtftp1.abi"
HEADER = re.sub(r"/\*.*?\*/", "", (TOP / "include/tftp.h").read_text(), flags=re.S)
NAMES = {*re.findall(r"^ +(tftp_\w+);$", MAP.read_text(), re.M)}


@pytest.fixture(scope="session")
def library(tmp_path_factory: pytest.TempPathFactory) -> Path:
    return archive(tmp_path_factory.mktemp("library"))


@pytest.mark.timeout(1_200)
@pytest.mark.parametrize("build", BUILDS)
def test_examples(build: str, library: Path, tmp_path: Path) -> None:
    if absent := lacking(build):
        pytest.skip(f"no {', no '.join(absent)}")
    transfers.tried(transfers.trials_of(BUILDS[build].make(Host(tmp_path, library))), programs(["tftp", "tftpd"]))


@pytest.mark.parametrize("peer", transfers.PEERS, ids=lambda peer: Path(peer).name)
def test_another_server_is_there(peer: str) -> None:
    """The examples get and put at it, too."""
    if peer not in transfers.peers():
        pytest.skip(f"no {Path(peer).name}, which root starts")


def test_other_clients(library: Path, tmp_path: Path) -> None:
    """Each that is installed gets from the example that serves, puts to it, and gets what it has put."""
    found = [*filter(others.is_installed, others.CLIENTS)] or pytest.skip("no client of another project")
    built = in_c(Host(tmp_path, library), "gcc", "sanitized")
    transfers.tried([(it, partial(transfers.by_others, built=built, program=it)) for it in found], {})


# ---- the interface


def exported(library: Path) -> set[str]:
    listed = run("nm", "--dynamic", "--defined-only", "--with-symbol-versions", library)
    return {*re.findall(r"(?m) (?!A )\w (\S+?)(?:@@LIBTFTP_1)?$", listed)}


def test_names_in_the_manual() -> None:
    """tftp(3) names each call, constant and field of the header."""
    calls, constants = re.findall(r"\b(tftp_\w+)\(", HEADER), re.findall(r"^ +(TFTP_\w+) = ", HEADER, re.M)
    fields = " ".join(re.findall(r"^    (?:u?int\d+_t|size_t|bool|void|struct \w+) ([^(){};]*);", HEADER, re.M))
    manual = {*re.findall(r"\w+", (TOP / "man/tftp.3").read_text())}
    assert {*calls, *constants, *re.findall(r"[a-z]\w*", fields)} <= manual


@pytest.fixture(scope="session")
def empty(tmp_path_factory: pytest.TempPathFactory) -> Path:
    """The header as a library, each declared call an empty function, with debugging information."""
    room, declared = tmp_path_factory.mktemp("abi"), r"^((?!static)\w[\w *]*\btftp_\w+\([^;{}]*\));$"
    (room / "tftp.c").write_text(re.sub(declared, r"\1 { __builtin_trap(); }", HEADER, flags=re.M))
    run("cc", "-g", "-O0", "-shared", "-fPIC", "-Wl,-soname,libtftp.so.1", f"-Wl,--version-script={MAP}", "tftp.c",
        "-o", "libtftp.so.1", cwd=room)
    return room / "libtftp.so.1"


def test_names_in_the_library(library: Path, empty: Path) -> None:
    """The map has those of the library, and the header declares each of them and no other."""
    assert exported(library.with_name("libtftp.so.1")) == exported(empty) == NAMES


def test_types(empty: Path) -> None:
    """They are those of the last release, which WRITE_ABI=1 in the environment writes anew."""
    needs("abidiff")
    if "WRITE_ABI" in os.environ:
        # (without the places of the sources, which are this clone's)
        run("abidw", "--no-corpus-path", "--no-comp-dir-path", "--no-show-locs", "--out-file", KEPT, empty)
    run("abidiff", KEPT, empty, cwd=empty.parent)


# ---- an older processor

# the first of x86-64 have no SSE3 and nothing behind it
PROCESSOR = "qemu64,-sse3,-ssse3,-sse4.1,-sse4.2,-popcnt,-cx16"


def emulated(room: Path, name: str, program: Any) -> str:
    """A script that runs a program on that processor."""
    needs("qemu-x86_64")
    (room / name).write_text(f'#!/bin/sh\nexec qemu-x86_64 -cpu {PROCESSOR} {program} "$@"\n')
    (room / name).chmod(0o755)
    return str(room / name)


def test_a_processor_without_x86_64_v2(tmp_path: Path) -> None:
    """There tftpd serves a file to tftp."""
    scripts = {name: emulated(tmp_path, name, path) for name, path in programs(["tftp", "tftpd"]).items()}

    def serves(scene: Any) -> None:
        scene.make("a", bytes(range(251)) * 9)
        scene.tftp("get", scene.serve().word, "a", "got").completes(2259)
        scene.has(a=bytes(range(251)) * 9, got=bytes(range(251)) * 9)

    transfers.tried([("a get", serves)], scripts)


@pytest.mark.parametrize("name", ["tftp-show", "tftp-play"])
def test_a_program_that_needs_more_says_so(name: str, tmp_path: Path) -> None:
    words = [emulated(tmp_path, name, programs([name])[name]), "--version"]
    done = subprocess.run(words, stdin=subprocess.DEVNULL, capture_output=True, text=True, timeout=300)
    assert (done.returncode, done.stdout, bool(done.stderr)) == (127, "", True)


def test_the_library_there(library: Path, tmp_path: Path) -> None:
    """Calls of every kind, each allocation refused in turn."""
    place = Host(tmp_path, library)
    place.run("cc", *FLAGS["valgrind"], LAYOUT, "-Wl,--wrap=malloc,--wrap=realloc", *place.library(), "-o", "layout")
    assert run(emulated(tmp_path, "there", tmp_path / "layout")) == ""
