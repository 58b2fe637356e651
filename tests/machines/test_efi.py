"""Boots the loader of examples/efi, built for amd64 and for ARM64, linked to libtftp-bare.a, in QEMU under OVMF and
under AAVMF. It gets a file of `tftpd` over the firmware's UDP port; the length and the SHA-256 that it prints are
those of the file."""
import hashlib
import os
import re
import shutil
from pathlib import Path
from typing import NamedTuple

import pytest

from lib.needs import needs
from lib.process import Program, Server
from lib.programs import TOP, program
from ported import BUILDS, COMPILER, PARTS, bare_archive, run

pytestmark = BUILDS

LIFE, LENGTH = 240, 1_000_003


class Firmware(NamedTuple):
    """A processor, its compiler and its EFI headers, where its firmware is, what that boots, and the words of
    QEMU."""
    arch: str
    compiler: str
    efi: Path
    place: str
    boots: str
    words: str


FIRMWARES = [
    Firmware("amd64", "gcc", Path("/usr"), "/usr/share/OVMF/OVMF", "BOOTX64.EFI", "qemu-system-x86_64 -M q35 -m 256"),
    Firmware("arm64", COMPILER, PARTS / "usr", "/usr/share/AAVMF/AAVMF", "BOOTAA64.EFI",
             "qemu-system-aarch64 -M virt -cpu cortex-a57 -m 512"),
]
# The disk of the machine is the folder, and its network reaches 127.0.0.1 of this host as 10.0.2.2
MACHINE = "-display none -serial stdio -monitor none -no-reboot -drive if=pflash,format=raw,readonly=on,file={code} " \
    "-drive if=pflash,format=raw,file={room}/variables -drive if=none,id=disk,format=raw,file=fat:rw:{room}/disk " \
    "-device virtio-blk-pci,drive=disk,bootindex=0 -netdev user,id=net -device virtio-net-pci,netdev=net,romfile="


@pytest.mark.parametrize("it", FIRMWARES, ids=lambda it: Path(it.place).name)
def test_the_loader_gets_a_file(it: Firmware, tmp_path: Path) -> None:
    needs(it.words.split()[0], it.compiler, files=(Path(f"{it.place}_CODE.fd"), it.efi / "include/efi/efi.h"))
    library, content, folder = bare_archive(it.arch), os.urandom(LENGTH), tmp_path / "disk/EFI/BOOT"
    (tmp_path / "image").write_bytes(content)
    folder.mkdir(parents=True)
    shutil.copy2(f"{it.place}_VARS.fd", tmp_path / "variables")
    # the network of QEMU reaches 127.0.0.1 of this host
    with Server(program("tftpd"), "127.0.0.1", tmp_path, ["--forever", "--read-only"], LIFE) as server:
        run("make", "-C", TOP / "examples/efi", f"ARCH={it.arch}", f"EFI={it.efi}", f"LIBRARY={library}",
            f"INCLUDE={TOP}/include", f"PORT={server.address[1]}", f"OUT={tmp_path}", "NAME=image")
        shutil.copy2(tmp_path / "loader.efi", folder / it.boots)
        words, said = f"{it.words} {MACHINE}".format(code=f"{it.place}_CODE.fd", room=tmp_path).split(), None
        with Program(words, tmp_path, LIFE) as machine:
            while machine.take(0.5) and not said:
                said = re.search(r"loader: (.*?)\r?\n", machine.text(machine.output))
            assert said, f"the loader has printed nothing: {machine.text(machine.output)[-1000:]!r}"
    # (gnu-efi prints capitals)
    assert said[1].strip().lower() == f"{LENGTH} bytes {hashlib.sha256(content).hexdigest()}"
