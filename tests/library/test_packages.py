"""What is installed and packed: `make install`, `uninstall`, `dist` and `deb` in a copy of the files that they take,
with the programs of bin/; the packages below a folder, beside others, and with a linker; and in a chroot, in which an
example of each language is built from the packages' files alone and gets, puts, and is refused a file at tftpd."""
import filecmp
import os
import re
import shutil
import subprocess
from functools import partial
from pathlib import Path
from typing import Any, Iterator

import pytest

from lib import transfers
from lib.chroot import Inside, furnish, is_possible
from lib.examples import in_c, in_cpp, in_go, in_python, in_rust, run, rust_has_sanitizer
from lib.needs import needs
from lib.programs import NAMES, TOP, program, programs

WORDS = ["PREFIX=/usr", "PROGRAM_PREFIX=x-", "MANDIR=/usr/man", "UNITDIR=/usr/units"]
SHELLS = {"bash": ["-n"], "zsh": ["-f", "-n"], "fish": ["--no-execute"]}
# what is installed with these words
INSTALLED = {*Path(__file__).with_name("installed.txt").read_text().split()}
# (of a `make` around the tests)
ENV = {name: value for name, value in os.environ.items() if name not in ("MAKEFLAGS", "MAKELEVEL", "MFLAGS")}


def files_below(folder: Path) -> set[str]:
    return {str(path.relative_to(folder)) for path in folder.rglob("*") if path.is_file()}


class Copy:
    """A copy of the repository without its crates, whose kit says that it was called."""

    def __init__(self, room: Path) -> None:
        self.room, self.top = room, room / "top"
        left = ["bin", "crates", "out", "tests", ".git"]
        shutil.copytree(TOP, self.top, ignore=lambda folder, _: left if Path(folder) == TOP else [])
        for folder in ["top/bin", "top/crates", "path"]:
            (room / folder).mkdir()
        for name in NAMES:
            shutil.copy(program(name), self.top / "bin" / name)
        run(TOP / "tools/library.sh", self.top / "bin")
        (room / "path/rt").write_text(f"#!/bin/sh\ntouch '{room}/built'\nexit 1\n")
        (room / "path/rt").chmod(0o755)

    def run(self, *words: Any, folder: Any = None, status: int = 0) -> str:
        env = {**ENV, "PATH": f"{self.room}/path:{os.environ['PATH']}", "LC_ALL": "C"}
        return run(*words, cwd=folder or self.top, env=env, status=status)

    def packages(self) -> dict[str, Path]:
        """The packages for Debian by their names."""
        needs("dpkg-deb")
        if not [*self.top.glob("out/*.deb")]:
            self.run("debian/pack.sh", "9")
        return {path.name.split("_")[0]: path for path in self.top.glob("out/*_9_*.deb")}

    def libraries(self, root: Path) -> Path:
        """The packages of the library below a folder."""
        root.mkdir(parents=True, exist_ok=True)
        for package in ["libtftp1", "libtftp-dev"]:
            self.run("dpkg-deb", "-x", self.packages()[package], root)
        return root


@pytest.fixture(scope="module")
def copy(tmp_path_factory: pytest.TempPathFactory) -> Copy:
    return Copy(tmp_path_factory.mktemp("install"))


# ---- make install, uninstall and dist


def test_install(copy: Copy, tmp_path: Path) -> None:
    """Each file is there, the programs unchanged, and uninstall removes those alone."""
    root = tmp_path / "root"
    copy.run("make", "install", f"DESTDIR={root}", *WORDS)
    assert files_below(root) == INSTALLED
    for name in NAMES:
        place = root / "usr/bin" / f"x-{name}"
        assert filecmp.cmp(place, copy.top / "bin" / name, shallow=False) and place.stat().st_mode & 0o777 == 0o755
    for unit in (root / "usr/units").iterdir():
        # the file that has the server drain is in the folder of the unit at run time
        text = re.sub(r"%t/x-tftpd(-%i|-socket)?/drain|(?<=EnvironmentFile=)-", "", unit.read_text())
        own = {"/usr/bin/x-tftpd", "/etc/default/fanjuvery-x-tftpd"} if unit.suffix == ".service" else set()
        assert {*re.findall(r"[\w./-]*tftpd\b(?!\.nft)", text)} == {"x-tftpd", *own}, unit
        if own:
            assert {*re.findall(r"(?m)^#?ExecStart=(\S+)", text)} == {'"/usr/bin/x-tftpd"'}
            # standard error goes where standard output goes, unless the unit says otherwise
            assert "\nStandardError=journal\n" in text, unit
    folder = root / "usr/share/doc/fanjuvery"
    for document in folder.glob("*.md"):
        linked = re.findall(r"\]\(([^)#:]+)[^):]*\)", document.read_text())
        assert [it for it in linked if not (folder / it).exists()] == []
    named = {*re.findall(r"`(?:man \d )?([\w-]*tftp[\w-]*)`", (folder / "README.md").read_text())}
    assert named == {f"x-{name}" for name in NAMES}
    (root / "usr/bin/other").touch()
    copy.run("make", "uninstall", f"DESTDIR={root}", *WORDS)
    assert files_below(root) == {"usr/bin/other"}


def test_no_build(copy: Copy, tmp_path: Path) -> None:
    """Without a program nothing is installed, and nothing is built."""
    shutil.copytree(copy.top / "bin", tmp_path / "bin", ignore=lambda *_: ["tftp-play"])
    copy.run("make", "install", f"DESTDIR={tmp_path / 'root'}", f"BIN={tmp_path / 'bin'}", status=2)
    assert not (tmp_path / "root").exists() and not (copy.room / "built").exists()


def test_archive(copy: Copy, tmp_path: Path) -> None:
    """The archive is the same each time; its script installs the same files, and its programs run without the kit."""
    pack = partial(copy.run, "tools/archive.sh", "dist", "9")
    archive = copy.top / pack().strip()
    before = archive.read_bytes()
    pack()
    assert archive.read_bytes() == before
    copy.run("tar", "-x", "-z", "-f", archive, "-C", tmp_path)
    unpacked = next(tmp_path.glob("fanjuvery-9-*"))
    copy.run("./install.sh", "install", f"DESTDIR={tmp_path / 'root'}", *WORDS, folder=unpacked)
    assert files_below(tmp_path / "root") == INSTALLED
    check: list[Any] = ["./install.sh", "check"]
    if kit := shutil.which("rt"):
        hidden = ["unshare", "--map-root-user", "--mount", "sh", "-c", 'mount -t tmpfs none "$0" && exec "$@"',
                  Path(kit).resolve().parent.parent]
        if subprocess.run([*hidden, "true"], capture_output=True).returncode:
            pytest.skip("the kit cannot be hidden without mounts")
        check = [*hidden, *check]
    assert len(re.findall(r"(?m)^complete 236$", copy.run(*check, folder=unpacked))) == 2


@pytest.mark.parametrize("shell", SHELLS)
def test_completions_are_read(shell: str) -> None:
    needs(shell)
    for name in NAMES:
        run(shell, *SHELLS[shell], TOP / f"completions/{name}.{shell}")


# ---- the packages for Debian


def test_package(copy: Copy, tmp_path: Path) -> None:
    """It has the programs, compressed manuals, a unit, and the documents that Debian asks for; its scripts can be
    read."""
    copy.run("dpkg-deb", "--raw-extract", copy.packages()["fanjuvery"], tmp_path)
    scripts = ["postinst", "postrm", "prerm"]
    assert {it.name for it in (tmp_path / "DEBIAN").iterdir()} == {"conffiles", "control", "md5sums", *scripts}
    for name in scripts:
        run("sh", "-n", tmp_path / "DEBIAN" / name)
    assert {"usr/bin/tftpd", "usr/bin/fanjuvery-tftp", "usr/share/man/man8/fanjuvery-tftpd.8.gz",
            "usr/share/doc/fanjuvery/copyright", "usr/share/doc/fanjuvery/changelog.gz", "etc/default/fanjuvery-tftpd",
            "lib/systemd/system/tftpd.service"} <= files_below(tmp_path)


def test_lintian(copy: Copy) -> None:
    needs("lintian")
    for package in copy.packages().values():
        said = copy.run("lintian", *["--allow-root"] * (os.geteuid() == 0), "--fail-on", "none", package)
        assert re.findall("(?m)^[EW]:.*", said) == [], package.name


def dpkg(root: Path, *words: Any) -> None:
    """dpkg below a folder, where its scripts start nothing."""
    as_root = [] if os.geteuid() == 0 else ["fakeroot"]
    needs(*as_root)
    (root / "var/lib/dpkg").mkdir(parents=True, exist_ok=True)
    (root / "var/lib/dpkg/status").touch()
    run(*as_root, "dpkg", "--root", root, "--force-depends", "--force-not-root", "--force-script-chrootless", *words)


def test_removal(copy: Copy, tmp_path: Path) -> None:
    """A purge leaves nothing of the package, by which tftp is ours where nobody else has it."""
    dpkg(tmp_path, "--install", copy.packages()["fanjuvery"])
    links = [os.readlink(tmp_path / link) for link in ("usr/bin/tftp", "etc/alternatives/tftp")]
    assert links == ["/etc/alternatives/tftp", "/usr/bin/fanjuvery-tftp"] and (tmp_path / "usr/bin/tftpd").is_file()
    dpkg(tmp_path, "--purge", "fanjuvery")
    assert [name for name in files_below(tmp_path) if "tftp" in name or "fanjuvery" in name] == []


@pytest.mark.parametrize("is_first", [True, False], ids=["behind the other", "before the other"])
def test_beside_another_package(is_first: bool, copy: Copy, tmp_path: Path) -> None:
    """A client and a server of another package stay as they are, whichever was installed first, and when this one is
    purged: what is `tftp` is theirs."""
    other, built, root = tmp_path / "other", tmp_path / "other.deb", tmp_path / "root"
    for folder in ("DEBIAN", "usr/bin", "usr/share/man/man8"):
        (other / folder).mkdir(parents=True)
    (other / "usr/bin/tftp").write_text("another client")
    (other / "usr/share/man/man8/in.tftpd.8.gz").touch()
    (other / "usr/share/man/man8/tftpd.8.gz").symlink_to("in.tftpd.8.gz")
    (other / "DEBIAN/control").write_text(
        "Package: other\nVersion: 1\nArchitecture: all\nMaintainer: p <p@example.org>\nDescription: one\n of TFTP\n")
    run("dpkg-deb", "--root-owner-group", "--build", other, built)
    for each in [built, copy.packages()["fanjuvery"]][::1 if is_first else -1]:
        dpkg(root, "--install", each)
    for words in (["--purge", "fanjuvery"], []):
        client, manual = root / "usr/bin/tftp", root / "usr/share/man/man8/tftpd.8.gz"
        assert not client.is_symlink() and client.read_text() == "another client", "what the other package has"
        assert os.readlink(manual) == "in.tftpd.8.gz", "what the other package has"
        if words:
            dpkg(root, *words)


def test_linkers_find_the_library(copy: Copy, tmp_path: Path) -> None:
    """A project of cmake finds both libraries in the packages, which are below a folder here, and another linker the
    shared one; dpkg-shlibdeps finds the package that a program needs, by the symbols of libtftp1."""
    needs("cmake", "dpkg-shlibdeps")
    root = copy.libraries(tmp_path / "debian/libtftp1")
    libdir, source = next(root.rglob("libtftp.so.1")).parent, root / "usr/share/doc/libtftp-dev/examples/c/get.c"
    mode = (libdir / "libtftp.so.1").stat().st_mode & 0o777
    assert (mode, (libdir / "libtftp.so").readlink()) == (0o644, Path("libtftp.so.1"))
    (tmp_path / "CMakeLists.txt").write_text(
        "cmake_minimum_required(VERSION 3.16)\nproject(p C)\nfind_package(tftp 0.1 REQUIRED)\n"
        f"add_executable(shared {source})\ntarget_link_libraries(shared tftp::tftp)\n"
        f"add_executable(static {source})\ntarget_link_libraries(static tftp::archive)\n")
    run("cmake", "-S", tmp_path, "-B", tmp_path / "out", f"-Dtftp_DIR={libdir / 'cmake/tftp'}")
    run("cmake", "--build", tmp_path / "out")
    has_gold = bool(shutil.which("ld.gold"))
    if has_gold:
        found = ["-I", root / "usr/include", "-L", libdir, f"-Wl,-rpath,{libdir}", "-ltftp", "-fuse-ld=gold"]
        run("cc", source, *found, "-o", tmp_path / "out/gold")
    for name in ["shared", "static", *["gold"] * has_gold]:
        run(tmp_path / "out" / name, status=2)
    control = "Source: p\nMaintainer: p <p@example.org>\n\nPackage: p\nArchitecture: any\n"
    (tmp_path / "debian/control").write_text(control)
    copy.run("dpkg-deb", "-e", copy.packages()["libtftp1"], root / "DEBIAN")
    assert "libtftp1 (>= 0.1.0)" in run("dpkg-shlibdeps", "-O", "-eout/shared", "-Sdebian/libtftp1", cwd=tmp_path)


# ---- the packages in a chroot

BASE = ["coreutils", "dash", "gcc", "libc6-dev", "pkgconf", "valgrind", "g++", "python3", "golang-go"]
# each language with the command that it needs, and how its example is built there
LANGUAGES: dict[str, Any] = {
    "C, sanitized": ("gcc", partial(in_c, compiler="gcc", checker="sanitized")),
    "C, valgrind": ("valgrind", partial(in_c, compiler="gcc", checker="valgrind")),
    "C++": ("g++", partial(in_cpp, compiler="g++")), "Go": ("go", in_go),
    "Python": ("python3", partial(in_python, checker="valgrind")),
    "Rust": ("cargo", lambda place: in_rust(place, "sanitized" if rust_has_sanitizer() else "valgrind")),
}


@pytest.fixture(scope="module")
def inside(copy: Copy, tmp_path_factory: pytest.TempPathFactory) -> Iterator[Inside]:
    root = tmp_path_factory.mktemp("chroot")
    if why := is_possible(root):
        pytest.skip(why)
    furnish(copy.libraries(root), BASE, bool(shutil.which("cargo")))
    yield Inside(root)
    # (it is large)
    shutil.rmtree(root)


@pytest.mark.timeout(1_200)
@pytest.mark.parametrize("language", LANGUAGES)
def test_in_a_chroot(language: str, inside: Inside) -> None:
    command, make = LANGUAGES[language]
    needs(command)
    built, room = make(inside), inside.outside(re.sub(r"\W+", "-", language))
    room.mkdir()
    # (the scenes are below the folder, where programs in it read and write)
    transfers.tried([(f"a {'bad' if lossy else 'good'} network", partial(transfers.by_tftpd, built=built, lossy=lossy))
                     for lossy in (True, False)], programs(["tftp", "tftpd"]), room)
