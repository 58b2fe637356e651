"""Tools and documents by linters: ruff or pyflakes, and mypy, look at the Python files, and shellcheck at the shell
scripts; each is skipped where it is not installed. What one finds counts where its version is Debian 12's: another
may find more, and no gate fails for what is installed on its host. Each wrong body can be applied, and has a line in
tools/wrong_bodies.txt. Specs take operators from std."""
import ast
import os
import re
import shutil
import warnings
from pathlib import Path

import wrong_bodies
from lib.needs import needs
from lib.programs import TOP, ran

PYTHON = ["tools", "tests", "docs/made", "bench", "examples"]
SHELL = ["tools/*.sh", "tests/machines/parts/*", "ports/*", ".ci/*", "debian/*.sh", "bench/*/*.sh", "examples/*.sh",
         "examples/*/*.sh"]
# the versions of Debian 12, which has no ruff
VERSIONS = {"mypy": "mypy 1.0.1", "shellcheck": "version: 0.9.0", "pyflakes3": "2.5.0", "ruff": "none"}
# types of what a file imports from others are not looked at
MYPY = ["mypy", "--explicit-package-bases", "--ignore-missing-imports", "--follow-imports=silent", "--no-error-summary"]
# the files whose functions say the types of their parameters too: those of lib/, without what tests of the programs
# are made of
TYPED = sorted(str(path.relative_to(TOP)) for name in ("lib/*", "gate", "manifest", "wrong_bodies", "version")
               for path in TOP.glob(f"tools/{name}.py")
               if path.stem not in ("scene", "ends", "proxy", "disk", "transfers"))
# and what needs the types of parameters to be known
UNKNOWN = ["arg-type", "assignment", "attr-defined", "call-overload", "dict-item", "func-returns-value", "has-type",
           "index", "list-item", "misc", "operator", "str-bytes-safe", "union-attr", "var-annotated"]


def looked(*words: str, **more: str) -> None:
    """A linter finds nothing."""
    needs(words[0])
    version, done = ran(words[0], "--version").stdout, ran(*words, env={**os.environ, **more})
    found = done.stdout + done.stderr if done.returncode else ""
    if found and VERSIONS[words[0]] not in version:
        warnings.warn(f"{words[0]} is another version than Debian 12's, and does not count: {found}")
    else:
        assert found == ""


def python_files() -> list[Path]:
    return sorted(path for folder in PYTHON for path in (TOP / folder).rglob("*.py"))


def test_names_in_python() -> None:
    if shutil.which("ruff"):
        looked("ruff", "check", "--quiet", "--select", "E9,F", *PYTHON)
    if shutil.which("pyflakes3") or not shutil.which("ruff"):
        looked("pyflakes3", *PYTHON)


def test_return_types() -> None:
    """Each function says what it returns."""
    assert [f"{path}:{node.lineno}" for path in python_files() for node in ast.walk(ast.parse(path.read_text()))
            if isinstance(node, ast.FunctionDef) and node.returns is None] == []


def test_types(tmp_path: Path) -> None:
    mypy, path = [*MYPY, f"--cache-dir={tmp_path}"], f"{TOP}/tools:{TOP}/tests/soak:{TOP}/docs/made"
    looked(*mypy, "--disallow-untyped-defs", *TYPED, MYPYPATH=path)
    # (one after another: they share a cache)
    for folder in sorted({path.parent for path in python_files()} - {TOP / "tools/lib"}):
        files = [file for file in map(str, sorted(folder.glob("*.py"))) if file.removeprefix(f"{TOP}/") not in TYPED]
        if files:
            looked(*mypy, *(f"--disable-error-code={code}" for code in UNKNOWN), *files, MYPYPATH=f"{folder}:{path}")


def test_shell() -> None:
    paths = [path for pattern in SHELL for path in TOP.glob(pattern) if path.is_file()]
    looked("shellcheck", "-x", "-S", "warning",
           *(str(path) for path in paths if re.match(rb"#!.*\b(ba)?sh\b", path.read_bytes())))


def test_wrong_bodies() -> None:
    assert wrong_bodies.not_applied() == []


def test_operators_of_specs() -> None:
    """`rt ci` refuses an operator that a specification has from a crate of this repository; `rt check` does not."""
    assert [f"{path.relative_to(TOP)}: {line}" for path in TOP.glob("crates/*/specs/**/*.antt")
            for line in path.read_text().splitlines() if re.match(r"(pub )?use Rattle\.(tftp|tests)_.*◌", line)] == []
