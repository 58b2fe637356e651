#!/usr/bin/env python3
"""Measures U-Boot's client beside the library for C, as run.py does: uboot.py TFTPD [FOLDER]

FOLDER is a source of U-Boot; without it apt-get fetches Debian's, of which nothing is kept. Its net/tftp.c is compiled
with U-Boot's own flags and the options that net/Kconfig has without a word, and linked to uboot.c, which is in place of
the rest of U-Boot: a socket by what the examples share, memory for the image, and nothing that is printed. The file that
it got is compared. Prints the bytes of net/tftp.c and of the client, the stack of U-Boot's handler, and the instructions of
a block of 512 bytes, of the handler and of the whole process. Needs a C compiler and valgrind.
"""
import re
import shutil
import sys
import tempfile
from pathlib import Path

from run import DEPTH, FEW, SMALL, Server, beyond_empty, of_a_block, run, serve, sizes

ARCHIVE = "http://deb.debian.org/debian bookworm main"
KEYS = "/usr/share/keyrings/debian-archive-keyring.gpg"
# The headers that net/tftp.c includes, each of which is uboot.h here
HEADERS = ["common", "command", "display_options", "efi_loader", "env", "image", "lmb", "log", "mapmem", "net", "net6",
           "asm/global_data", "net/tftp", "bootp"]
# As U-Boot's Makefile compiles it
FLAGS = ["-Os", "-std=gnu11", "-ffreestanding", "-fno-builtin", "-fno-strict-aliasing"]


def fetched(room) -> Path:
    """The source of Debian's package."""
    if not shutil.which("apt-get") or not Path(KEYS).is_file():
        sys.exit("uboot.py: no apt-get of Debian to fetch U-Boot's source with: name a folder that has it")
    (room / "list").write_text(f"deb-src [signed-by={KEYS}] {ARCHIVE}\n")
    for folder in ["state/lists/partial", "cache/archives/partial"]:
        (room / folder).mkdir(parents=True)
    own = {"Dir::Etc::sourcelist": room / "list", "Dir::Etc::sourceparts": "/dev/null", "Dir::State": room / "state",
           "Dir::Cache": room / "cache", "APT::Sandbox::User": "root"}
    apt = ["apt-get", "-q", *[f"-o{name}={value}" for name, value in own.items()]]
    run(*apt, "update", folder=room)
    run(*apt, "source", "--download-only", "u-boot", folder=room)
    run("tar", "-xf", *room.glob("u-boot_*.orig.tar.*"), "--wildcards", "*/net/tftp.c", "*/Makefile", folder=room)
    return next(room.glob("u-boot-*/"))


def version(source) -> str:
    lines = dict(re.findall(r"(?m)^(VERSION|PATCHLEVEL) = (\d+)$", (source / "Makefile").read_text()))
    return f"{lines['VERSION']}.{lines['PATCHLEVEL']}"


def compiled(source, room) -> Path:
    """The client; beside it U-Boot's part, tftp.o, and the client that measures its stack."""
    for header in HEADERS:
        path = room / "include" / f"{header}.h"
        path.parent.mkdir(parents=True, exist_ok=True)
        path.write_text('#include "uboot.h"\n')
    shutil.copy(source / "net/tftp.c", room / "tftp.c")
    here = Path(__file__).resolve().parent
    run("cc", *FLAGS, *SMALL[1:3], "-w", "-I", room / "include", "-I", here, "-c", "tftp.c", "-o", "tftp.o", folder=room)
    for name, more in [("client", []), ("deepest", ["-DDEEPEST", *DEPTH])]:
        run("cc", "-std=gnu11", "-Wall", "-Wextra", *more, *SMALL, here / "uboot.c", "tftp.o", "-o", name, folder=room)
    return room / "client"


def main() -> None:
    tftpd = Path(sys.argv[1]).resolve()
    with tempfile.TemporaryDirectory() as name:
        room = Path(name)
        source = Path(sys.argv[2]).resolve() if len(sys.argv) > 2 else fetched(room)
        serve(room)
        client = compiled(source, room)
        with Server(tftpd, room / "served") as server:
            depth = int(run(room / "deepest", server.host, server.port, f"f{FEW}", "got", folder=room).stdout)
        if (room / "got").read_bytes() != (room / "served" / f"f{FEW}").read_bytes():
            sys.exit("uboot.py: the file that it got is another")
        print(f"net/tftp.c of U-Boot {version(source)}: {sizes(room / 'tftp.o')[0]:,} bytes of code and constants")
        print(f"the client: {beyond_empty(room, client)}")

        def words(host, port, name) -> list[str]:
            return ["./client", host, port, name, "got"]

        print(f"tftp_handler: at most {depth:,} bytes of stack; "
              f"{of_a_block(tftpd, room, words, 'tftp_handler')} instructions a block")
        print(f"the client: {of_a_block(tftpd, room, words)} instructions a block")


if __name__ == "__main__":
    main()
