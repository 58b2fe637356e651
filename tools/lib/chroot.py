"""A folder with packages of this host and what they need, file by file as the host's packages list them, as the root
of commands: no part of this repository is in it, and not the toolchain that proves."""
import os
import re
import shutil
import subprocess
from pathlib import Path
from typing import Any, Sequence

from lib.examples import run

EXAMPLES = Path("/usr/share/doc/libtftp-dev/examples")
PATH = "/opt/rust/bin:/usr/bin:/bin"
# where things are built, and transfers are tried
ROOM = "/room"
# a process of the folder sees the processes of its own mounts, and begins where it was begun outside
ENTER = 'mount -t proc proc "$0/proc" && exec chroot "$0" /usr/bin/env -C "${PWD#"$0"}" "$@"'


def closure(names: Sequence[str]) -> list[str]:
    """These packages of the host and those that they depend on, as far as they are installed."""
    known = subprocess.run(["dpkg-query", "-W", "-f", "${Package}\n", *names], capture_output=True, text=True)
    needed = run("apt-cache", "depends", "--recurse", "--installed", "--important", *known.stdout.split())
    return sorted({*re.findall(r"(?m)^(\w[^\s:]*)", needed)})


def place(root: Path, paths: Sequence[str]) -> None:
    """Files, links and folders of the host at the same paths of the folder: a file is linked, not copied, where it may
    be."""
    there = "".join(f"{path[1:]}\n" for path in paths if os.path.lexists(path) and not os.path.lexists(root / path[1:]))
    words = ["cpio", "--pass-through", "--make-directories", "--link", "--quiet", str(root)]
    subprocess.run(words, input=there, cwd="/", text=True, check=True)


def furnish(root: Path, names: Sequence[str], has_rust: bool = False) -> None:
    """These packages and what they need, devices, and a place for what is built."""
    tops = ["bin", "sbin", "lib", "lib32", "lib64", "libx32"]
    for path in [*(f"usr/{top}" for top in tops), "proc", "dev", "etc", "tmp", f"{ROOM}/home".lstrip("/")]:
        (root / path).mkdir(parents=True, exist_ok=True)
    place(root, [f"/{top}" for top in tops])
    listed = run("dpkg-query", "-L", *closure(names)).splitlines()
    place(root, [path for path in dict.fromkeys(listed) if re.match("/(usr|bin|lib|lib64|sbin)/(?!share/doc/)", path)])
    for name, like in [("cc", "gcc"), ("python3", "python3")]:
        if not os.path.lexists(root / "usr/bin" / name):
            (root / "usr/bin" / name).symlink_to(like)
    if has_rust:
        sysroot = Path(run("rustc", "--print", "sysroot").strip())
        place(root, [str(path) for path in sysroot.rglob("*") if not {"doc", "share"} & {*path.parts}])
        (root / "opt").mkdir(exist_ok=True)
        (root / "opt/rust").symlink_to(sysroot)
    for name, minor in [("null", 3), ("zero", 5), ("full", 7), ("urandom", 9)]:
        os.mknod(root / "dev" / name, 0o20666, os.makedev(1, minor))
        (root / "dev" / name).chmod(0o666)
    run("ldconfig", "-r", root)


def is_possible(root: Path) -> str:
    """Why no process can enter a folder, or nothing."""
    if os.geteuid() != 0:
        return "only root may enter a chroot"
    for program in ["apt-cache", "dpkg-query", "dpkg-deb", "ldconfig", "unshare", "gcc", "cpio"]:
        if not shutil.which(program, path=f"{os.environ['PATH']}:/usr/sbin:/sbin"):
            return f"no {program}"
    (root / "proc").mkdir()
    tried = subprocess.run(["unshare", "--mount", "mount", "-t", "proc", "proc", root / "proc"], capture_output=True, check=False)
    return "" if tried.returncode == 0 else "no mounts are allowed here"


class Inside:
    """The folder, as a place in which commands run, with the packages of the library."""

    examples, is_host, emulator = EXAMPLES, False, list[str]()
    go = rust = python = dict[str, str]()

    def __init__(self, root: Path) -> None:
        self.root = root

    def path(self, name: str) -> str:
        return f"{ROOM}/{name}"

    def outside(self, name: str) -> Path:
        return self.root / ROOM.lstrip("/") / name

    def words(self, *words: Any, **env: str) -> list[str]:
        """A command as one of the host, with just this environment."""
        env = {"PATH": PATH, "HOME": f"{ROOM}/home", "LANG": "C.UTF-8", **env}
        return ["unshare", "--mount", "sh", "-c", ENTER, str(self.root), "env", "-i",
                *[f"{name}={value}" for name, value in env.items()], *map(str, words)]

    def run(self, *words: Any, at: str = ROOM, **env: str) -> str:
        return run(*self.words(*words, **env), cwd=self.root / at.lstrip("/"))

    def library(self, is_shared: bool = False) -> list[str]:
        """What links a program to it, by pkg-config."""
        flags = self.run("pkg-config", "--cflags", *["--libs"] * is_shared, "tftp").split()
        return flags if is_shared else [*flags, self.run("pkg-config", "--variable=archive", "tftp").strip()]
