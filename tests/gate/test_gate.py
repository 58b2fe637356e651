"""The gate fails where `rt ci` or a check fails, where an edit is bad or was not tried, where what has to be there is
skipped, and where anything is gone or weaker than tools/manifest.txt has it; and it ends with one line that counts
all. Stand-ins take the place of `rt` and of pytest, and of the repository one of two crates and some checks."""
import os
import re
import shutil
import sys
from pathlib import Path
from subprocess import CompletedProcess
from typing import Optional

import pytest

from lib.checks import CHECKS
from lib.programs import TOP, ran

SAID = "rt: ok; handles allowed: Net; must-fail edits: {} refused; every proof and must-fail edit was done in this run"
BAD = "rt: must-fail a/two.edit: BAD EDIT: its old text stands 0 times"
PASSED = [SAID.format(3), "5 passed, 0 failed"]
CODE = """\
pub fn stores(block: &[u8]) -> bool
    ensures whole { IsWhole block result }
    ensures order { IsInOrder block }
{
    true
}
pub fn loads(block: &[u8]) -> bool
    ensures whole { IsWhole block result }
{
    true
}
pub fn copies() {}
"""
DEFINITIONS = "-- whole\nabbrev pub IsWhole : List ℕ → Bool → Type 0\nIsWhole block result = block ≡ block\n"
# (a check here is a folder with a list of rows, and a script that takes the place of its tests)
PYTEST = """\
case "$*" in
*--collect-only*) for each; do test ! -e "$each/rows" || sed "s|^|${each#tests/}/|" "$each/rows"; done ;;
*) for check; do :; done; . "$check/run" ;;
esac"""
ROW, TWO = "test_it.py::test\n", ["tests/good", "tests/two"]
Files = dict[str, Optional[str]]
REPOSITORY: Files = {
    "crates.txt": "a:\ntests_parts: a\n", "HANDLES": "Handles allowed: Net.\n", "crates/a/src/lib.rt": CODE,
    "crates/a/specs/Blocks.antt": DEFINITIONS, "crates/a/must-fail/one.edit": "old: one\nnew: two\n",
    "crates/a/must-fail/two.edit": "old: one\nnew: two\n", "crates/a/wrong-bodies/three.edit": "old: 1\nnew: 2\n",
    "crates/tests_parts/src/lib.rt": "#[test]\nfn vectors() {}\n", "tools/shipped.py": "echo put", "pytest-3": PYTEST,
    "tests/good/rows": ROW, "tests/good/run": "echo all is well; echo '1 run, 0 skipped'",
    "tests/two/rows": "test_it.py::puts\ntest_it.py::gets\n", "tests/two/run": "echo '2 run, 0 skipped'",
    "tests/bad/rows": ROW, "tests/bad/run": "exit 3", "tests/silent/rows": ROW, "tests/silent/run": "exit 0",
    "tests/none/rows": ROW, "tests/none/run": "echo '0 run, 0 skipped'",
    "tests/some/rows": ROW,
    "tests/some/run": "echo 'SKIPPED [1] some/test_it.py:3: no such tool'; echo '0 run, 1 skipped'",
    "tests/hides/rows": ROW, "tests/hides/run": "echo '0 run, 1 skipped'",
    "tests/few/rows": "test_it.py::puts\ntest_it.py::gets\n",
    "tests/few/run": "echo 'SKIPPED [1] few/t.py:3: at another commit'; echo '1 run, 1 at other commits, 0 skipped'",
    "tests/behaviours/rows": ROW,
    "tests/behaviours/run": "echo 'SKIPPED [1] behaviours/test_it.py:3: no strace'; echo '0 run, 1 skipped'",
}
# what is changed behind the manifest, a text of none for what is removed, and what the gate finds
OTHER_CODE = CODE.replace("    ensures order { IsInOrder block }\n", "").replace("pub fn c", "pub(crate) fn c")
DAMAGES: Files = {
    "crates.txt": "a:\n", "HANDLES": "Handles allowed: Net, Files.\n",
    "crates/a/must-fail/one.edit": "old: one\nnew: three\n", "crates/a/wrong-bodies/three.edit": None,
    "crates/a/specs/Blocks.antt": DEFINITIONS.replace("block ≡ block", "true ≡ true"),
    "crates/a/src/lib.rt": re.sub(r"(fn loads.*\n)    ensures whole {", r"\1    requires { IsShort block }\n"
                                  "    ensures whole { result ≡ true →", OTHER_CODE),
    "tests/two/rows": "test_it.py::gets\n", "tests/two/run": "echo '1 run, 0 skipped'"}
FOUND = ["- handles ", "- crate tests_parts: a", "- check tests/none", "- row tests/two: test_it.py::puts",
         "- test tests_parts/vectors", "- body a/one ", "- body a/three ", "- function a copies",
         "- clause a stores ensures order", "+ clause a loads requires", "+ clause a loads ensures whole",
         "+ definition a Blocks.IsWhole", "tests/two: 1 run, 0 skipped, and the manifest has 2"]


class Repository:
    def __init__(self, top: Path) -> None:
        self.top = top
        shutil.copytree(TOP / "tools/lib", top / "tools/lib", ignore=shutil.ignore_patterns("__pycache__"))
        for name in ["gate.py", "manifest.py", "wrong_bodies.py"]:
            shutil.copy2(TOP / "tools" / name, top / "tools" / name)
        self.write(REPOSITORY)

    def write(self, files: Files) -> None:
        for path, text in files.items():
            place = self.top / path
            place.parent.mkdir(parents=True, exist_ok=True)
            if text is None:
                place.unlink()
            else:
                is_program = path in ("tools/shipped.py", "pytest-3", "rt")
                place.write_text(f"#!/bin/sh\n{text}\n" if is_program else text)
                place.chmod(0o755 if is_program else 0o644)

    def run(self, *words: object, **env: str) -> "CompletedProcess[str]":
        env = {**os.environ, "PATH": f"{self.top}:{os.environ['PATH']}", "REQUIRE_ALL": "", "LACKING": "", **env}
        return ran(*words, cwd=self.top / "tools", env=env)

    def commit(self, *checks: str) -> None:
        """Writes the manifest."""
        text = "import manifest, sys; manifest.MANIFEST.write_text('\\n'.join([*manifest.made(sys.argv[1:]), '']))"
        assert self.run(sys.executable, "-c", text, *checks).returncode == 0

    def gate(self, *checks: str, said: list[str] = PASSED, **env: str) -> list[str]:
        """The lines of the gate, where `rt ci` prints these. Its status goes with its last line."""
        lines = "".join(f"echo '{line}'\n" for line in said)
        self.write({"rt": f'{lines}test "$1" = ci && ls crates/a/must-fail; exit {int(" 0 failed" not in said[-1])}'})
        done = self.run(self.top / "tools/gate.py", *checks, **env)
        assert done.returncode == int(not done.stdout.endswith(" 0 failed\n")), done.stdout + done.stderr
        return done.stdout.splitlines()


@pytest.fixture
def repository(tmp_path: Path) -> Repository:
    return Repository(tmp_path)


ALL = "REQUIRE_ALL=1"


@pytest.mark.parametrize("checks, words, last", [
    ("good two some few", "", "10 passed, 0 failed"), ("good bad silent none", "", "7 passed, 3 failed"),
    # what the seed leaves out is not skipped, and what this check needs may be skipped; what others need may not
    ("few", ALL, "7 passed, 0 failed"), ("some", ALL, "7 passed, 1 failed"), ("hides", ALL, "7 passed, 1 failed"),
    ("behaviours", f"{ALL} LACKING=strace", "7 passed, 0 failed"),
    ("behaviours", f"{ALL} LACKING=zsh", "7 passed, 1 failed")])
def test_checks(checks: str, words: str, last: str, repository: Repository) -> None:
    names = [f"tests/{name}" for name in checks.split()]
    repository.commit(*names)
    lines = repository.gate(*names, **dict(word.split("=") for word in words.split()))
    assert lines[-1] == last
    faults = ["FAILED: tests/bad: status 3; its last line: []",
              "FAILED: tests/silent: its last line does not count what it ran: []",
              "FAILED: tests/none: 0 run, 0 skipped, and the manifest has 1"]
    assert "bad" not in checks or {*faults} <= {*lines}


@pytest.mark.parametrize("said, last", [
    (["rt: FAILED: a", "3 passed, 1 failed"], "3 passed, 1 failed"), (["rt: killed"], "0 passed, 1 failed"),
    ([BAD, SAID.format(1) + ", 1 bad", "3 passed, 0 failed"], "5 passed, 3 failed"),
    ([SAID.format(2), "5 passed, 0 failed"], "7 passed, 1 failed"),
    ([SAID.format(3), "0 passed, 0 failed"], "2 passed, 1 failed"),
    (["rt: ok; handles allowed: Net", "2 passed, 0 failed"], "4 passed, 2 failed")],
    ids=["failed", "killed", "an edit is bad", "an edit was not tried", "nothing is proved", "the edits are gone"])
def test_rt_ci(said: list[str], last: str, repository: Repository) -> None:
    repository.commit(*TWO[:1])
    assert repository.gate(*TWO[:1], said=said)[-1] == last


def test_a_wrong_body_that_the_commit_chooses(repository: Repository) -> None:
    repository.commit(*TWO[:1])
    assert "three.edit" in repository.gate(*TWO[:1])
    assert not (repository.top / "crates/a/must-fail/three.edit").exists()


def test_wrong_bodies_behind_it(repository: Repository) -> None:
    """They are tried if there are any. Here the prover is not there."""
    repository.write({"crates/a/each-gate/four.edit": "file: src/lib.rt\nold: copies\nnew: moves\n"})
    repository.commit(*TWO[:1])
    lines = repository.gate(*TWO[:1])
    assert lines[-1] == "7 passed, 1 failed"
    assert any(line.startswith("FAILED: tools/wrong_bodies.py: status 1") for line in lines)


def test_damages(repository: Repository) -> None:
    repository.commit(*TWO, "tests/none")
    repository.write(DAMAGES)
    faults = "\n".join(repository.gate(*TWO)).partition("\nFAILED: ")[2]
    assert [fault for fault in FOUND if fault not in faults] == []


def test_a_comment_and_the_layout_are_free(repository: Repository) -> None:
    repository.commit(*TWO)
    text = "// Blocks.\n" + CODE.replace("block result }", "block\n        result } // all")
    repository.write({"crates/a/src/lib.rt": text, "crates/a/specs/Blocks.antt": "-- in other words\n" + DEFINITIONS})
    assert repository.gate(*TWO)[-1] == "8 passed, 0 failed"


@pytest.mark.parametrize("lacking, last", [("pytest-3", "6 passed, 0 failed"), ("zsh", "6 passed, 1 failed")])
def test_a_host_without_the_runner(lacking: str, last: str, repository: Repository) -> None:
    """Tests that nothing can run are skipped, and with REQUIRE_ALL=1 only where .ci/packages says what is lacking."""
    repository.commit("tests/good")
    text = (TOP / "tools/manifest.py").read_text().replace('"/usr/bin/pytest-3"', '"/nowhere/pytest-3"')
    repository.write({"tools/manifest.py": text})
    lines = repository.gate("tests/good", REQUIRE_ALL="1", LACKING=lacking)
    assert "skipped: tests/good: skipped: this host has no pytest-3" in lines and lines[-1] == last


def test_what_a_check_needs_is_said_by_the_words_of_ci_packages() -> None:
    packages = (TOP / ".ci/packages").read_text()
    lists = re.findall(r"(?ms)^(?:NEEDS|SERVERS|FILES)='(.*?)'$", packages)
    known = {*" ".join(lists).split(), *re.findall(r"(?m)(?:^ *may |words\+=\(|\|\| echo )([\w-]+)", packages)}
    assert {word for check in CHECKS.values() for word in check.needs.split()} <= known


def test_each_folder_of_tests_is_a_check() -> None:
    assert {str(path.parent.relative_to(TOP)) for path in TOP.glob("tests/*/test_*.py")} == {*CHECKS}
