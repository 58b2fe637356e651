#!/usr/bin/env python3
"""One end against another in memory, with no socket and no world. Usage: run.py PROGRAM

Prints for each block size how many blocks a second a read of 32,000,000 bytes has, how fast that is beside a
memcpy of the same bytes, and how often memory is asked for in each further block (by valgrind, where it is
installed). The times are the least of five, without what a run of no read takes.
"""
import re
import shutil
import subprocess
import sys
import tempfile
import time
from typing import Optional

LENGTH = 32_000_000
SIZES = [512, 1428, 65464]


def seconds(program, size, rounds) -> float:
    """The least time of five runs."""
    best = float("inf")
    for _ in range(5):
        start = time.perf_counter()
        subprocess.run([program, str(size), str(LENGTH), str(rounds)], check=True, stdout=subprocess.DEVNULL)
        spent = time.perf_counter() - start
        best = min(best, spent)
    return best


def a_round(program, size, rounds=20) -> float:
    """The time of one round."""
    return (seconds(program, size, rounds) - seconds(program, size, 0)) / rounds


def allocations(program, size, blocks) -> Optional[int]:
    """How often memory is asked for in a read of so many blocks, or None where valgrind is not installed."""
    if shutil.which("valgrind") is None:
        return None
    words = [program, str(size), str(size * (blocks - 1)), "1"]
    text = subprocess.run(["valgrind", *words], capture_output=True, text=True, check=True).stderr
    return int(re.search(r"total heap usage: ([\d,]+) allocs", text).group(1).replace(",", ""))


def main() -> None:
    program = sys.argv[1]
    with tempfile.TemporaryDirectory() as folder:
        copy = folder + "/memcpy"
        subprocess.run(["gcc", "-O2", "-o", copy, sys.path[0] + "/memcpy.c"], check=True)
        for size in SIZES:
            blocks = LENGTH // size + 1
            ours, plain = a_round(program, size), a_round(copy, size)
            line = f"{size} bytes: {blocks / ours / 1e6:.2f} million blocks a second, "
            line += f"{LENGTH / ours / 1e9:.2f} GB/s (memcpy {LENGTH / plain / 1e9:.2f} GB/s)"
            few, many = allocations(program, size, 10), allocations(program, size, 110)
            if few is not None:
                line += f", {(many - few) / 100:.2f} allocations a block"
            print(line)


main()
