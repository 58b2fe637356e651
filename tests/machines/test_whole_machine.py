"""A whole ARM64 machine under QEMU, whose programs are ours. QEMU's `virt` board boots Debian's kernel for arm64 with
an initrd of busybox and of the static `tftp` and `tftpd` for ARM64 (parts/init). Over a virtio network card the
machine gets a file of the `tftpd` of this host by three block sizes and puts it back. It then serves by `--servers 2`
with `--status`: this host gets the file at eight clients at once and puts some. At last the machine drains its
servers. Files are compared by their hashes. It takes a minute or so without kvm, and three at most."""
import hashlib
import os
import re
import shutil
from concurrent.futures import ThreadPoolExecutor
from functools import partial
from pathlib import Path

import pytest

from lib.ends import free_ports
from lib.needs import needs
from lib.process import Program, Server
from lib.programs import programs
from ported import COMPILER, PARTS, run, static_programs

EMULATOR, HOST = "qemu-system-aarch64", "127.0.0.1"
LIFE, CLIENTS, PUTS = 180, 8, 3
MORE = ["--retries", "10", "--blksize", "1428"]
# A port of this host leads to the machine, which knows the one that it is served at
MACHINE = f"{EMULATOR} -M virt -cpu cortex-a57 -smp 2 -m 512 -nographic -no-reboot -kernel {PARTS}/vmlinuz " \
    "-initrd {packed} -netdev user,id=net,hostfwd=udp:127.0.0.1:{port}-10.0.2.15:69 " \
    "-device virtio-net-pci,netdev=net,romfile= -append"


def initrd(room: Path) -> Path:
    """The file system of the machine."""
    root, packed, built = room / "root", room / "initrd.gz", static_programs(room / "programs")
    for name in ["bin", "proc", "sys", "dev", "tmp", "srv"]:
        (root / name).mkdir(parents=True)
    for source in [built / "tftp", built / "tftpd", PARTS / "busybox", Path(__file__).with_name("parts") / "init"]:
        to = shutil.copy2(source, root if source.name == "init" else root / "bin")
        Path(to).chmod(0o755)
    shutil.copytree(PARTS / "modules", root / "modules")
    run("sh", "-c", f"find . | cpio -o -H newc --quiet | gzip -1 > {packed}", cwd=root)
    return packed


@pytest.mark.timeout(3_000)  # the programs are built before
def test_a_whole_machine(tmp_path: Path) -> None:
    needs(EMULATOR, COMPILER, "cpio", files=(PARTS / "vmlinuz",))
    built, packed, port, content = programs(["tftp", "tftpd"]), initrd(tmp_path), free_ports(1), os.urandom(1_000_003)
    tftp = partial(run, built["tftp"], cwd=tmp_path, timeout=LIFE)
    (tmp_path / "served").mkdir()
    (tmp_path / "served/image").write_bytes(content)
    (tmp_path / "end").write_bytes(b"end")

    def works(number: int) -> None:
        """A client gets the file, and some put it under names of their own."""
        tftp("get", f"{HOST}:{port}", "image", f"got-{number}", *MORE)
        if number < PUTS:
            tftp("put", f"{HOST}:{port}", f"got-{number}", f"put-{number}", *MORE)

    # the network of QEMU reaches 127.0.0.1 of this host, and answers come from there
    with Server(built["tftpd"], HOST, tmp_path, ["--forever", "--retries", "10"], LIFE, root="served") as server:
        appended = f"console=ttyAMA0 quiet panic=1 tftp_port={server.address[1]}"
        words = [*MACHINE.format(packed=packed, port=port).split(), appended]
        with Program(words, tmp_path, LIFE) as machine, ThreadPoolExecutor(CLIENTS) as pool:
            while "machine: serves" not in machine.text(machine.output) and machine.take(0.2):
                pass
            [*pool.map(works, range(CLIENTS))]
            tftp("put", f"{HOST}:{port}", "end", "end", *MORE)
            lines = re.findall(r"machine: (.*?)\r?\n", machine.ended(LIFE)[1])
    assert {path.read_bytes() for path in [tmp_path / "served/from-the-machine", *tmp_path.glob("got-*")]} == {content}
    assert re.match("is aarch64, tftpd ", lines[0]) and lines[-1] == "left behind 0", lines
    hashes = [line.split()[-1] for line in lines if re.match("got by|has put-", line)]
    assert hashes == [hashlib.sha256(content).hexdigest()] * (3 + PUTS), lines
    # (and the file `end`)
    counted = re.findall('(?i)counted .*outcome="complete".* (\\d+)$', "\n".join(lines), re.M)
    assert sum(map(int, counted)) == CLIENTS + PUTS + 1
