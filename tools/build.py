#!/usr/bin/env python3
"""Proves and builds programs and the crates below them: build.py CRATE..

Each crate is built as soon as those that it uses are, beside others that are ready. Prints a line for each crate: how
many of how many are done, its name, its functions and the seconds that it took, and the minutes since the start. The
prover's own log of a crate is out/CRATE.log, and its end is printed where it fails.
"""
import os
import re
import shutil
import subprocess
import sys
import time
from concurrent.futures import FIRST_COMPLETED, Future, ThreadPoolExecutor, wait
from graphlib import TopologicalSorter

from lib.kit import below, listed, repository_of
from lib.programs import TOP

# for every processor of x86-64, since small and emulated machines run them; the others are for x86-64-v2, the default
PLAIN = ("tftp_main", "tftpd_main", "tftp_c")
AT_ONCE = 4


def build(name: str) -> str:
    """Proves and builds a crate, in a repository of its own, and returns what is said of it."""
    room, log = (TOP / f"out/{name}.{kind}" for kind in ("room", "log"))
    folder, out, began = repository_of(name, room), TOP / f"crates/{name}/out", time.monotonic()
    # (a program runs once it is built: it only prints its help; and rt gives a second and a fourth processor to large
    # crates alone)
    is_program, plain = (folder / "src/main.rt").is_file(), ["--cpu=x86-64"] * (name in PLAIN)
    words = ["run", *plain, "--", "--help"] if is_program else ["lib", *plain, "--jobs", str(os.cpu_count())]
    done = subprocess.run(["rt", *words], cwd=folder, stdin=subprocess.DEVNULL, stdout=subprocess.PIPE,
                          stderr=subprocess.STDOUT, text=True, errors="replace")
    shutil.rmtree(out, ignore_errors=True)
    if (folder / "out").is_dir():
        (folder / "out").rename(out)
    shutil.rmtree(room)
    # (rt says little of a crate that it finds proved: the log of the proof stays)
    functions = re.findall(r"(?m)^logic=proved functions=(\d+)", done.stdout)
    if functions or done.returncode:
        log.write_text(done.stdout)
    if done.returncode:
        sys.exit("\n".join([*done.stdout.splitlines()[-40:], f"{name}: failed; the whole log is out/{name}.log"]))
    return f"{functions[-1]} functions, {time.monotonic() - began:.0f} s" if functions else "proved before"


def main() -> None:
    names, began, done = sys.argv[1:], time.monotonic(), 0
    if not names or not {*names} <= {*listed()}:
        sys.exit(__doc__)
    (TOP / "out").mkdir(exist_ok=True)
    wanted = {name: below(name) for top in names for name in (top, *below(top))}
    order, running = TopologicalSorter(wanted), dict[Future[str], str]()
    order.prepare()
    print(f"proving {len(wanted)} crates; what the prover says is in out/CRATE.log", flush=True)
    with ThreadPoolExecutor(AT_ONCE) as pool:
        while order.is_active():
            running |= {pool.submit(build, name): name for name in order.get_ready()}
            for run in wait(running, return_when=FIRST_COMPLETED).done:
                name, done = running.pop(run), done + 1
                order.done(name)
                minutes = int(time.monotonic() - began) // 60
                print(f"{done} of {len(wanted)} {name}: {run.result()}, {minutes} min gone", flush=True)


if __name__ == "__main__":
    main()
