#!/usr/bin/env python3
"""What each function and each file of proofs of a crate costs: proof_times.py CRATE [LINES]

Run `rt check --jobs 1` in the crate's folder first, without its out/incremental: the check then writes a file for each
module as soon as it has checked it, and the time between two files is what the later one took. Printed are the seconds
by kind of module (`Lts` is what the prover makes of a function's references, `Proof` its own proof, `Answers` those
that were written), and then of what costs most the seconds and what was written of it, in MB.
"""
import re
import sys
from collections import Counter
from pathlib import Path
from typing import Iterator

sys.path[:0] = [str(Path(__file__).resolve().parents[1])]
from lib.programs import TOP

# what the prover makes of a function, and the answers for it
KINDS = ("Lts", "Proof", "Answers", "Goals", "Code", "Statement", "Met", "Given", "TheLink")


def modules(folder: Path) -> Iterator[tuple[float, int, str]]:
    """The seconds, bytes and name of each module, in the order in which they were checked."""
    found = sorted((path.stat().st_mtime_ns, path.stat().st_size, path.name) for path in folder.rglob("*.oantt"))
    for (before, _, _), (after, size, name) in zip(found, found[1:]):
        yield (after - before) / 1e9, size, name


def main() -> None:
    if len(sys.argv) < 2 or sys.argv[1].startswith("-"):
        sys.exit(__doc__)
    kinds, seconds, sizes = Counter[str](), Counter[str](), Counter[str]()
    for took, size, name in modules(TOP / "crates" / sys.argv[1] / "out/incremental"):
        found = re.fullmatch(r"Rattle-\w+-(proofs|specs)\.(.+?)(?:\.decls)?\.oantt", name)
        *path, last = found[2].split(".") if found else [name]
        kind = next((part for part in path + [last] if part in KINDS), found[1] if found else "")
        of = ".".join(path + [last]).partition(f".{kind}")[0]
        kinds[kind] += took
        seconds[of] += took
        sizes[of] += size
    print(f"{sum(seconds.values()):.0f} s:", ", ".join(f"{kind} {took:.0f}" for kind, took in kinds.most_common(8)))
    for of, took in seconds.most_common(int((sys.argv[2:] or ["30"])[0])):
        print(f"{took:6.1f} s {sizes[of] / 1e6:6.2f} MB {of}")


if __name__ == "__main__":
    main()
