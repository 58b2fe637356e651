"""Writes lines of hexadecimal digits to standard output: mixed packets, the same each time."""
import random
import sys


def text(rng, most) -> bytes:
    return bytes(rng.choice(b"abcdefghijklmnopqrstuvwxyz./_-0123456789") for _ in range(rng.randint(1, most)))


def packet(rng) -> bytes:
    kind = rng.randrange(8)
    number = rng.randint(1, 65535).to_bytes(2, "big")
    if kind < 3:
        return b"\0\3" + number + rng.randbytes(rng.randrange(513))
    if kind < 6:
        return b"\0\4" + number
    if kind == 6:
        return b"\0\1" + text(rng, 40) + b"\0octet\0blksize\x001428\0timeout\0003\0"
    return b"\0\5" + b"\0\1" + text(rng, 30) + b"\0"


rng = random.Random(1350)
lines = [packet(rng).hex() for _ in range(10_000)]
block = "\n".join(lines) + "\n"
for _ in range(int(sys.argv[1]) // len(lines)):
    sys.stdout.write(block)
