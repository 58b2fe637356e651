#!/usr/bin/env python3
"""Times `tftp-show --flow` over a capture of gets beside the start of tshark: flow.py TFTP_SHOW [PACKETS [ROUNDS]]

The capture lies in the page cache, and the output is dropped. `tshark -Y tftp` reads a capture without a packet, which is
its start alone. In each round each has its turn; the medians are printed, on the clock and of a processor, and where valgrind
is installed the instructions of a packet.
"""
import os
import re
import shutil
import subprocess
import sys
import tempfile
import time
from pathlib import Path
from statistics import median

import capture

FEW = 50_000


def run(words) -> tuple[float, float, int]:
    """Seconds on the clock and of a processor, and the peak of memory in KB, of a run."""
    began = time.monotonic()
    child = subprocess.Popen(words, stdout=subprocess.DEVNULL, stderr=subprocess.DEVNULL)
    _, status, used = os.wait4(child.pid, 0)
    if status:
        sys.exit(f"{' '.join(words)}: status {status}")
    return time.monotonic() - began, used.ru_utime + used.ru_stime, used.ru_maxrss


def report(name, runs) -> None:
    """Prints the medians of runs."""
    clock, used, memory = (median(part) for part in zip(*runs))
    print(f"{name:10} {clock:.2f} s, of a processor {used:.2f} s, {memory / 1000:.1f} MB")


def instructions(words) -> int:
    """The instructions of a run."""
    with tempfile.TemporaryDirectory() as room:
        tool = ["valgrind", "--tool=callgrind", f"--callgrind-out-file={room}/out"]
        told = subprocess.run([*tool, *words], capture_output=True, text=True, check=True).stderr
    return int(re.findall(r"Collected : (\d+)", told)[-1])


def main() -> None:
    """Makes the captures, and measures."""
    show = sys.argv[1]
    count = int(sys.argv[2]) if len(sys.argv) > 2 else 1_000_000
    rounds = int(sys.argv[3]) if len(sys.argv) > 3 else 3
    with tempfile.TemporaryDirectory() as room:
        files = {packets: f"{room}/{packets}.pcap" for packets in (0, FEW, 2 * FEW, count)}
        for packets, path in files.items():
            capture.write(path, packets)
        print(f"{count} packets, {Path(files[count]).stat().st_size / 1e6:.1f} MB")
        words = {"tftp-show": [show, "--flow", files[count]], "tshark": ["tshark", "-Y", "tftp", "-r", files[0]]}
        words = {name: line for name, line in words.items() if shutil.which(line[0])}
        for line in words.values():
            run(line)
        runs: dict[str, list] = {name: [] for name in words}
        for _ in range(rounds):
            for name, line in words.items():
                runs[name].append(run(line))
        for name in words:
            report(name, runs[name])
        if shutil.which("valgrind"):
            few, more = (instructions([show, "--flow", files[packets]]) for packets in (FEW, 2 * FEW))
            print(f"{(more - few) / FEW:.0f} instructions a packet")


if __name__ == "__main__":
    main()
