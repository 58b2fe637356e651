#!/usr/bin/env python3
"""Which functions of the programs no test and no row runs: coverage.py [PROGRAM..]

The tests run over the programs of bin/, before each of which a library is loaded that has a breakpoint at each
function of the repository's crates until it is entered (coverage.c); nothing is built again. Of each program, or of
those that are named, the functions that were never reached are printed, without those that the compiler has put into
their callers. docs/TESTING.md says why each is not. It takes some minutes, and is no check. A test that looks at the
memory of a program may fail under it.
"""
import os
import re
import struct
import subprocess
import sys
import tempfile
from pathlib import Path

sys.path[:0] = [str(Path(__file__).resolve().parents[1])]
from lib.preload import compiled
from lib.programs import NAMES, TOP, programs

SOURCE, LIMIT = Path(__file__).with_name("coverage.c"), 3_000
# the folders of tests/ that run each program
TESTS = {"tftp-show": ["tftp_show", "captures"], "tftp-play": ["tftp_play"], "tftp": ["tftp", "tftpd"], "tftpd": ["tftpd"]}
SHARED = ["mutated", "memory"]
# what is written in a crate of this repository, and not made by the compiler to drop values or to call closures
GIVEN = r"(?m)^([0-9a-f]+) [tT] (tftp(?!.*(?:::Destruct\+\+|\+Destruct::drop|\+Fn(?:Once|Mut)?::call)).*)$"


def functions(path: str) -> dict[int, str]:
    """The functions of the repository's crates in a program, by their places, in rising order, without what tells the
    instances of one apart."""
    text = subprocess.run(["nm", path], capture_output=True, text=True, check=True).stdout
    return dict(sorted((int(place, 16), re.sub(r"::<.*", "", name)) for place, name in re.findall(GIVEN, text)))


def main() -> None:
    if sys.argv[1:2] in (["-h"], ["--help"]):
        sys.exit(__doc__)
    paths, wanted = programs(NAMES), sys.argv[1:] or NAMES
    with tempfile.TemporaryDirectory(prefix="coverage-") as room:
        folder = Path(room)
        folder.chmod(0o755)  # (some tests run a program as another user)
        for name, path in paths.items():
            # a script that runs the program and notes what it reaches
            places, listed, seen = functions(path), folder / f"{name}.list", folder / f"{name}.seen"
            listed.write_bytes(struct.pack(f"<{len(places)}Q", *places))
            seen.write_bytes(bytes(len(places)))
            seen.chmod(0o666)
            (folder / name).write_text(f"""#!/bin/sh
export COVERAGE_OF={os.path.realpath(path)} COVERAGE_LIST={listed} COVERAGE_SEEN={seen}
LD_PRELOAD="{compiled(folder, SOURCE)}${{LD_PRELOAD:+:$LD_PRELOAD}}" exec {path} "$@"
""")
            (folder / name).chmod(0o755)
        folders = sorted({f"tests/{it}" for name in wanted for it in [*TESTS[name], *SHARED]})
        done = subprocess.run(["pytest-3", "-q", *folders], cwd=TOP, env={**os.environ, "TFTP_PROGRAMS": room},
                              stdin=subprocess.DEVNULL, capture_output=True, text=True, timeout=LIMIT)
        print(f"coverage: {' '.join(folders)}: {done.stdout.splitlines()[-1:]}", flush=True)
        for name in wanted:
            there, seen = functions(paths[name]).values(), folder / f"{name}.seen"
            reached = {function for function, is_seen in zip(there, seen.read_bytes()) if is_seen}
            missed = sorted({*there} - reached)
            print(f"{name}: {len(reached)} of {len({*there})} functions are reached; not:", *missed, sep="\n  ")


if __name__ == "__main__":
    main()
