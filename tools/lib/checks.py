"""The checks of the gate, which are folders of tests/, in the order in which they run.

A check may skip a test only where the host lacks something that this check needs, by the words of .ci/packages.
"""
from typing import NamedTuple


class Check(NamedTuple):
    """How many of its tests run at a time, the longest time of all of them in seconds, and what it needs of a
    host."""
    at_once: int = 2
    limit: int = 900
    needs: str = ""


CHECKS = {
    "tests/documents": Check(4, needs="mandoc systemd-analyze gcc dnsmasq dot mypy pyflakes3 shellcheck"),
    "tests/disk": Check(4, needs="strace trace"),
    "tests/captures": Check(needs="root tcpdump tshark capture curl tftp"),
    "tests/memory": Check(),
    "tests/gate": Check(4),
    "tests/mutated": Check(),
    "tests/library": Check(4, 1_800, "root mount gcc clang valgrind objcopy musl-gcc g++ clang++ cargo go in.tftpd "
                           "atftpd dnsmasq sanitize abidiff dpkg-deb lintian dpkg-shlibdeps cmake pkg-config zsh fish "
                           "busybox qemu-x86_64 curl tftp"),
    "tests/dashboard": Check(needs="promtool"),
    "tests/tftp": Check(4),
    "tests/tftpd": Check(8, 1_500, "root valgrind strace trace mount ipv6 networks tftp"),
    "tests/tftp_show": Check(),
    "tests/tftp_play": Check(),
    "tests/behaviours": Check(3, needs="strace trace"),
    "tests/network": Check(4, needs="root ip nft unshare networks mount filter busybox tftp in.tftpd"),
    "tests/soak": Check(6, 2_400, "mount tshark"),
    "tests/machines": Check(1, 5_400, "root mount xz git make gcc musl-gcc objdump aarch64-linux-gnu-gcc qemu-aarch64 "
                            "libc6-dev-arm64-cross qemu-system-aarch64 qemu-system-x86_64 cpio arm64-parts gnu-efi "
                            "ovmf qemu-efi-aarch64 dpkg-deb in.tftpd atftpd dnsmasq curl tftp"),
}
# how a check ends: the rows that it ran, those that the seed of the commit did not choose, and those that it skipped
ENDED = r"(?P<run>\d+) run(?:, (?P<left>\d+) at other commits)?, (?P<skipped>\d+) skipped"
