#!/usr/bin/env python3
"""Puts into bin/ what `make` would build, over what `rt ci` has just proved: shipped.py [FOLDER]

`make` builds tftp, tftpd and the library for C for every processor of x86-64 (tools/build.py), and `rt ci` all
programs for x86-64-v2. So these three are compiled here once more, over the libraries that `rt ci` left, by the
prover, which proves the functions of their own crates again, and none below (tools/modules.py, which keeps their
modules); tftp-show and tftp-play are those of `rt ci`. What comes out is the same, byte for byte, as what `make`
builds. Where checks of this checkout have left libraries of their own, of the same text, those are used; and where of
another, they are proved again (tools/build.py).
"""
import shutil
import subprocess
import sys
import tempfile
from pathlib import Path

import modules
from lib.programs import NAMES, TOP, of_crate

# what is for every processor of x86-64
PLAIN = ["tftp", "tftpd", modules.LIBRARY]


def main() -> None:
    folder, crate = Path(sys.argv[1] if sys.argv[1:] else TOP / "bin"), modules.crate_of(modules.LIBRARY)
    folder.mkdir(exist_ok=True)
    modules.made("amd64", PLAIN, len(PLAIN))
    with tempfile.TemporaryDirectory(prefix="shipped-") as room:
        for name in NAMES:
            place = of_crate(modules.crate_of(name).name)
            if name in PLAIN:
                place = Path(room, name)
                modules.run(modules.KIT / "bin/rattle-link", "--target", modules.TARGETS["amd64"].triple, "--toolchain",
                            modules.KIT / "toolchain", "-o", place, modules.object_of("amd64", name),
                            modules.KIT / "c/libos_c.a", modules.KIT / "c/liblibc_c.a")
            # (a program that runs is not written to)
            shutil.copy2(place, folder / f"{name}.new")
            (folder / f"{name}.new").replace(folder / name)
            (folder / name).touch()
            print(f"{name}: {'over the libraries of rt ci' if name in PLAIN else 'as rt ci built it'}", flush=True)
    # where tools/library.sh looks for it: `rt ci` proves the library, and leaves no archive
    shutil.copy2(modules.object_of("amd64", modules.LIBRARY), Path(crate.folder, "out", f"lib{crate.name}.a"))
    subprocess.run([TOP / "tools/library.sh", folder], check=True)


if __name__ == "__main__":
    main()
