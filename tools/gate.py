#!/usr/bin/env python3
"""The gate: the manifest, `rt ci`, and then the checks of the programs: gate.py [CHECK..]

A check is a folder of tests/; without words they are those of lib/checks.py. First tools/manifest.txt is compared
with what is there (tools/manifest.py). Behind `rt ci` the programs are put into bin/ as `make` builds them
(tools/shipped.py), and each check is run over them, with a limit. Its last line counts the rows that it ran and
skipped, which are as many as the manifest has. `rt ci` tries the wrong bodies in must-fail/, and five others, which the
commit chooses. It fails here also where one is bad, where fewer were refused, or fewer crates proved, than the manifest
has. Those in each-gate/ are tried behind it (tools/wrong_bodies.py).

What was skipped, and what ran twice (tests/conftest.py), stands at the end. With REQUIRE_ALL=1 in the environment
what was skipped is a failure, but where LACKING names what this check needs and this host has not (.ci/packages). The
last line counts the proofs and edits of `rt ci` and the checks: N passed, N failed.
"""
import os
import re
import signal
import sys
import threading
import time
from contextlib import suppress
from subprocess import DEVNULL, PIPE, STDOUT, Popen
from typing import Optional, Sequence

import manifest
import wrong_bodies
from lib.checks import CHECKS, ENDED, Check
from lib.programs import TOP
from lib.seeds import OTHERS

LACKING = set(os.environ.get("LACKING", "").split())


def ran(words: Sequence[str], limit: float = threading.TIMEOUT_MAX) -> tuple[list[str], int]:
    """Runs a command at the top, shows its lines as they come, and returns them with its status. With it, or at the
    limit, ends all that it began in its session."""
    def end() -> None:
        with suppress(ProcessLookupError):
            os.killpg(process.pid, signal.SIGKILL)

    process = Popen(words, cwd=TOP, stdin=DEVNULL, stdout=PIPE, stderr=STDOUT, text=True, errors="replace",
                    start_new_session=True, env={**os.environ, "PYTHONUNBUFFERED": "1"})
    lines, timer = list[str](), threading.Timer(limit, end)
    timer.start()
    try:
        for line in process.stdout or []:
            print(line, end="", flush=True)
            lines.append(line.rstrip("\n"))
        return lines, process.wait()
    finally:
        timer.cancel()
        end()


def faults_of(lines: Sequence[str], passed: int, wanted: Sequence[str], more: int) -> list[str]:
    """What `rt ci` has said and counts as no failure: edits that are bad, and fewer that were refused than the
    manifest has and those more, or fewer crates and edits that passed."""
    crates = sum(line.startswith("crate ") for line in wanted)
    edits = more + sum(line.startswith("body ") and line.endswith(" gate") for line in wanted)
    refused = sum(map(int, re.findall(r"must-fail edits: (\d+) refused", "\n".join(lines))))
    return [*(line for line in lines if "BAD EDIT" in line or "NOT TRIED" in line),
            *[f"rt ci: {refused} of {edits} edits were refused"] * (refused < edits),
            *[f"rt ci: {passed} passed, of {crates} crates and {edits} edits"] * (passed < crates + edits)]


def fault_of(name: str, lines: Sequence[str], status: int, wanted: Optional[int]) -> str:
    """Why a command has failed, if it has: by its status, or by its last line, where so many rows are wanted."""
    if status:
        return f"{name}: status {status}; its last line: {lines[-1:]}"
    if wanted is None:
        return ""
    count = re.fullmatch(ENDED, lines[-1]) if lines else None
    if not count:
        return f"{name}: its last line does not count what it ran: {lines[-1:]}"
    total = sum(int(number or 0) for number in count.groups())
    has_none = total == 0 or count["run"] == count["skipped"] == "0"
    return f"{name}: {count[0]}, and the manifest has {wanted}" if total != wanted or has_none else ""


class Gate:
    """What came of the checks."""

    def __init__(self) -> None:
        self.passed, self.times = 0, list[str]()
        self.faults, self.skipped, self.required, self.repeated = (list[str]() for _ in range(4))

    def try_to(self, name: str, words: Sequence[str], limit: float, wanted: Optional[int] = None) -> list[str]:
        """Runs a command with its limit."""
        print(f"\n== {name}", flush=True)
        began = time.monotonic()
        lines, status = ran(words, limit)
        fault = fault_of(name, lines, status, wanted)
        self.times.append(f"{name} {time.monotonic() - began:.0f} s")
        self.faults += [fault] * bool(fault)
        self.passed += not fault
        return lines

    def skip(self, lines: list[str], needs: set[str]) -> None:
        """Notes what was skipped, which is no failure where the host lacks one of what is needed."""
        self.skipped += lines
        self.required += [] if needs & LACKING else lines

    def check(self, name: str, wanted: int) -> None:
        """Runs a check. Tests that this host has no runner for are skipped."""
        if lacks := {*manifest.runner_lacks()}:
            line = f"{name}: skipped: this host has no {', '.join(sorted(lacks))}"
            self.skip([line], lacks if lacks <= LACKING else set())
            return
        how = CHECKS.get(name, Check())
        lines = self.try_to(name, ["pytest-3", "-q", "-n", str(how.at_once), name], how.limit, wanted)
        told = [f"{name}: {line}" for line in lines if line.startswith("SKIPPED ") and not line.endswith(OTHERS)]
        count = re.search(r" (\d+) skipped$", lines[-1]) if lines and not told else None
        self.skip(told + [f"{name}: {it[1]} skipped" for it in [count] if it and it[1] != "0"], set(how.needs.split()))
        self.repeated += [f"{name}: {line}" for line in lines if re.search(r"\bonce more\b", line)]


def main() -> int:
    checks = sys.argv[1:] or [*CHECKS]
    if checks[0] in ("-h", "--help"):
        sys.exit(__doc__)
    gate, began, wanted = Gate(), time.monotonic(), manifest.committed()
    if differ := manifest.differences(wanted, manifest.made(checks)):
        more = f", and {len(differ) - 20} more" if len(differ) > 20 else ""
        gate.faults.append("\n  ".join(["tools/manifest.txt is not as the repository is:", *differ[:20]]) + more)
    few = wrong_bodies.of_this_commit()
    print("wrong bodies beside those of each gate:", *few, flush=True)
    with wrong_bodies.tried_by_the_gate(few):
        lines, status = ran(["rt", "ci"])
    gate.times.append(f"rt ci {time.monotonic() - began:.0f} s")
    # (without its last line, one has failed)
    counts = [match for line in lines if (match := re.fullmatch(r"(\d+) passed, (\d+) failed", line))]
    passed, failed = map(int, counts[-1].groups()) if counts else (0, 1)
    if not failed:
        gate.faults += faults_of(lines, passed, wanted, len(few)) + [f"rt ci: status {status}"] * bool(status)
        if wrong_bodies.bodies_in(wrong_bodies.EACH):
            gate.try_to("tools/wrong_bodies.py", ["tools/wrong_bodies.py", "--in-part"], 3_600)
        gate.try_to("tools/shipped.py", ["tools/shipped.py"], 3_600)
        for check in checks:
            gate.check(check, manifest.counts(wanted)[check])
    if os.environ.get("REQUIRE_ALL") == "1":
        gate.faults += gate.required
    print(f"\n{'; '.join(gate.times)}; {(time.monotonic() - began) / 60:.0f} min")
    for title, found in [("skipped", gate.skipped), ("repeated", gate.repeated), ("FAILED", gate.faults)]:
        print("".join(f"{title}: {line}\n" for line in found), end="")
    print(f"{passed + gate.passed} passed, {failed + len(gate.faults)} failed")
    return int(failed > 0 or len(gate.faults) > 0)


if __name__ == "__main__":
    sys.exit(main())
