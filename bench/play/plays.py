"""Times settled transfers of tftp-play, and what they cost. Usage: plays.py TFTP_PLAY"""
import os
import subprocess
import sys
import tempfile
import time

# the most blocks that can be numbered, the last of them one byte short (RFC 1350, section 6)
BLOCKS = 65_535
# a play: its name, the lines before the settling, the length of the file in bytes, and the datagrams that are sent
PLAYS = [
    ("read, plain", "file a 61*{length}\nget a octet\n", BLOCKS * 512 - 1, 1 + 2 * BLOCKS),
    ("read, blocks of 8", "file a 61*{length}\nget a octet blksize=8\n", BLOCKS * 8 - 1, 3 + 2 * BLOCKS),
    ("write, plain", "put a octet 61*{length}\n", BLOCKS * 512 - 1, 2 + 2 * BLOCKS),
]
RUNS = 3


def run(program, script, trace) -> tuple[float, float, float]:
    """The seconds of a run on the clock and of processors, and its peak memory in bytes."""
    start = time.monotonic()
    child = subprocess.Popen([program, script], stdout=trace)
    _, status, used = os.wait4(child.pid, 0)
    assert os.waitstatus_to_exitcode(status) in (0, 1), status
    return time.monotonic() - start, used.ru_utime + used.ru_stime, used.ru_maxrss * 1024


def best(program, text, trace) -> list[float]:
    """The best of some runs of a script, each figure for itself."""
    with tempfile.NamedTemporaryFile("w", suffix=".script") as script:
        script.write(text)
        script.flush()
        runs = []
        for _ in range(RUNS):
            trace.seek(0)
            trace.truncate()
            runs.append(run(program, script.name, trace))
        return [min(figures) for figures in zip(*runs)]


def measure(program, name, lines, length, datagrams) -> None:
    lines = lines.format(length=length)
    with tempfile.TemporaryFile() as trace:
        _, opening, _ = best(program, lines, trace)
        clock, cpu, peak = best(program, lines + "settle 0\n", trace)
        trace.seek(0)
        printed = sum(line.startswith(b"#") for line in trace)
        assert printed == datagrams, f"{name}: {printed} datagrams"
        size = trace.tell()
    print(f"{name}: {datagrams} datagrams, a file of {length} bytes, {size} bytes printed")
    print(f"  {clock:.2f} s on the clock, {cpu:.2f} s of processor, of which {opening:.2f} s to make the file and ask")
    print(f"  {datagrams / clock:.0f} datagrams/s on the clock, {datagrams / cpu:.0f} of processor, "
          f"{datagrams / (cpu - opening):.0f} behind the opening")
    print(f"  peak memory {peak / 1e6:.1f} MB, {peak / datagrams:.0f} bytes a datagram")


for play in PLAYS:
    measure(sys.argv[1], *play)
