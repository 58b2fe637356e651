#!/usr/bin/env python3
"""What a change of one crate is tried by in minutes: quick.py CRATE; or without a word, one of tools and documents

A crate: its layout, what is made from it, its proof over what earlier checks kept, the tests in Rattle of its layer
before their proof (`rt try`), and for what the loops of tftp and tftpd are made of the tests of tests/ that concern
it, over the programs that are built anew of what is kept. A tool: the manifest, the linters and the tests of the
gate.
"""
import subprocess
import sys
import time

from lib.kit import below, listed
from lib.programs import TOP

# the tests of programs as processes that try a crate, below tests/
LOOP, FOLDER = "tftpd/test_server_alone.py", "tftpd/test_served_folder.py"
DISK, SEVERAL = f"{FOLDER} tftpd/test_served_disk.py tftp", "tftpd/test_several_servers.py tftpd/test_draining.py"
PROCESSES = {
    **dict.fromkeys(["tftp_loop", "tftp_server", "tftp_store"], f"{LOOP} tftpd/test_in_quantity.py"),
    **dict.fromkeys(["tftp_sockets", "tftp_lines"], f"{LOOP} tftp"),
    **dict.fromkeys(["tftp_folder", "tftp_disk"], DISK),
    **dict.fromkeys(["tftp_supervisor", "tftp_service"], SEVERAL),
    "tftp_client": "tftp tftpd/test_both_programs.py", "tftp_status": "tftpd/test_status.py",
    "tftp_daemon": f"{LOOP} {FOLDER} tftpd/test_options.py tftpd/test_command_lines.py",
}
FAILED = list[str]()


def step(command: str, crate: str = "", is_needed: bool = True) -> None:
    """Runs a command at the top, or in the folder of a crate."""
    print(f"== {command}{f', in {crate}' if crate else ''}", flush=True)
    began = time.monotonic()
    done = subprocess.run(command.split(), cwd=TOP / "crates" / crate if crate else TOP, stdin=subprocess.DEVNULL)
    FAILED.extend([command] * (is_needed and done.returncode != 0))
    print(f"   {time.monotonic() - began:.0f} s", flush=True)


def try_crate(crate: str) -> None:
    step("rt fmt", crate)
    step(f"git --no-pager diff --stat -- crates/{crate}")
    # (what differs from the manifest is what a reviewer reads: make manifest writes it, once the change is as it
    # should be)
    step("tools/manifest.py", is_needed=False)
    step("pytest-3 -q tests/documents/test_made.py -k STATEMENT")
    step("rt check", crate)
    # (the first crate of tests that uses it is that of its layer; some tests make thousands of random events)
    for layer in [it for it in ("tests_parts", "tests_programs") if crate in [it, *listed()[it]]][:1]:
        step("rt try --test --seconds 300", layer)
    if crate in PROCESSES and not FAILED:
        # (a program that is built and does not have the crate is as it was)
        step("make --no-print-directory " + " ".join(
            it for it in ("tftp", "tftpd") if crate in below(f"{it}_main") or not (TOP / "bin" / it).is_file()))
        if not FAILED:
            step("pytest-3 -q -n 8 " + " ".join(f"tests/{path}" for path in PROCESSES[crate].split()))


def main() -> int:
    began, crate = time.monotonic(), "".join(sys.argv[1:])
    if crate and crate not in listed():
        sys.exit("quick: make quick CRATE=NAME, a crate of crates.txt; or make quick, for a tool")
    if crate:
        try_crate(crate)
    else:
        step("tools/manifest.py", is_needed=False)
        step("pytest-3 -q tests/documents/test_lint.py")
        step("pytest-3 -q -n 4 tests/gate")
    failed = f", failed: {'; '.join(FAILED)}" if FAILED else ""
    print(f"quick: {crate or 'tools'}, in {time.monotonic() - began:.0f} s{failed}. The gate is make test")
    return int(bool(FAILED))


if __name__ == "__main__":
    sys.exit(main())
