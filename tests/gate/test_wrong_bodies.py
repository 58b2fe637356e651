"""Which wrong bodies are tried, which of them by one check, and what the list has of them."""
import os
import re
import shutil
import sys
from pathlib import Path
from subprocess import CompletedProcess
from typing import Sequence

import pytest

import wrong_bodies
from lib import batches
from lib.programs import ran

CODE = """\
impl<'a> Counts for Port<'a> {
    fn count(&self) -> u8 {
        1
    }

    fn sent(&self) -> u8 {
        self.count() + 2 + 3
    }
}

impl<'a> fmt::Display for Port<'a> {
    fn fmt(&self, f: &mut fmt::Formatter) -> fmt::Result {
        f.write_str("port")
    }
}

fn waits() -> u8 {
    4
}

const MOST: u8 = 5;
"""


def committed(top: Path) -> str:
    """Commits all, and returns the commit."""
    for words in ["init -q", "add .", "-c user.name=a -c user.email=a@b commit -q -m it"]:
        ran("git", *words.split(), cwd=top).check_returncode()
    return ran("git", "rev-parse", "HEAD", cwd=top).stdout.strip()


def copied(crate: str, room: Path) -> Path:
    """A copy of a crate of the repository."""
    return Path(shutil.copytree(wrong_bodies.TOP / "crates" / crate, room / "crates" / crate))


@pytest.fixture
def top(tmp_path: Path, monkeypatch: pytest.MonkeyPatch) -> Path:
    """Two crates, each with one wrong body that was refused by the first commit; and then `b` changes."""
    for name in "ab":
        for part, text in [("src/lib.rt", f"fn {name}() {{\n    one\n}}\n"),
                           ("wrong-bodies/two.edit", "file: src/lib.rt\nold: one\nnew: two\n")]:
            (tmp_path / "crates" / name / part).parent.mkdir(parents=True)
            (tmp_path / "crates" / name / part).write_text(text)
    first = committed(tmp_path)
    (tmp_path / "crates/b/src/lib.rt").write_text("fn b() {\n    one;\n}\n")
    committed(tmp_path)
    monkeypatch.setattr(wrong_bodies, "TOP", tmp_path)
    monkeypatch.setattr(wrong_bodies, "RECORD", tmp_path / "wrong_bodies.txt")
    wrong_bodies.RECORD.write_text(f"a/two {first}\nb/two {first}\n")
    return tmp_path


@pytest.mark.parametrize("edit, fault", [
    ("file: src/lib.rt\nold: one\nnew: two\n", ""), ("file: src/lib.rt\nold: one\n", "it changes nothing"),
    ("file: src/lib.rt\nold: n\nnew: m\n", "its old text is in src/lib.rt 2 times"),
    ("file: src/main.rt\nold: n\nnew: m\n", "there is no src/main.rt")])
def test_what_cannot_be_applied(edit: str, fault: str, top: Path) -> None:
    (top / "crates/a/wrong-bodies/two.edit").write_text(edit)
    assert wrong_bodies.not_applied() == [f"wrong body a/two: {fault}"] * bool(fault)


@pytest.mark.parametrize("said, status", [("refused, as it must be", 0), ("NOT REFUSED", 1), ("BAD EDIT", 1)])
def test_what_rt_says(said: str, status: int, top: Path, monkeypatch: pytest.MonkeyPatch) -> None:
    """A stand-in takes the place of the prover. What it refuses is recorded with the commit."""
    (top / "rt").write_text(f"#!/bin/sh\ntest -e crates/a/must-fail/two.edit && echo 'must-fail a/two.edit: {said}'\n")
    (top / "rt").chmod(0o755)
    for name, value in [("repository_of", copied), ("below", lambda crate: set())]:
        monkeypatch.setattr(wrong_bodies, name, value)
    monkeypatch.setenv("PATH", f"{top}:{os.environ['PATH']}")
    monkeypatch.setattr(sys, "argv", ["wrong_bodies.py", "a"])
    first = wrong_bodies.recorded()["a/two"]
    assert wrong_bodies.main() == status
    assert wrong_bodies.recorded() == {"a/two": first[:10] if status == 0 else first, "b/two": first}


@pytest.mark.parametrize("said, status", [("not proved", 0), ("proved", 1)])
def test_those_of_each_gate(said: str, status: int, top: Path, monkeypatch: pytest.MonkeyPatch) -> None:
    """They are tried by a check of the functions that they change, and not beside the others."""
    asked = list[str]()

    def in_part(folder: Path, places: Sequence[batches.Place]) -> "CompletedProcess[str]":
        assert "two" in (folder / "src/lib.rt").read_text()
        asked.extend(place.path() for place in places)
        return CompletedProcess([], 1, f"fn a::lib::a: {said}\n", "")

    (top / "crates/a/wrong-bodies").rename(top / "crates/a/each-gate")
    for name, value in [("repository_of", copied), ("crates", lambda: {"a": None}), ("below", lambda crate: set()),
                        ("has_libraries", lambda crate: True), ("in_part", in_part)]:
        monkeypatch.setattr(wrong_bodies, name, value)
    monkeypatch.setattr(sys, "argv", ["wrong_bodies.py", "--in-part"])
    assert (wrong_bodies.main(), asked) == (status, ["a"])
    assert wrong_bodies.chosen_by([]) == ["b/two"]


@pytest.mark.parametrize("old, path", [
    ("1", "PortCounts::count"), ("3", "PortCounts::sent"), ('"port"', "PortDisplay::fmt"), ("4", "port::waits"),
    ("fn waits() -> u8 {", "port::waits"), ("5", None)])
def test_which_function_is_changed(old: str, path: "str | None", tmp_path: Path) -> None:
    (tmp_path / "src").mkdir()
    (tmp_path / "src/port.rt").write_text(CODE)
    place = batches.place_of(tmp_path, [batches.Change("src/port.rt", old, "0")])
    assert (place and place.path()) == path


def test_many_by_one_check(tmp_path: Path, monkeypatch: pytest.MonkeyPatch) -> None:
    """A stand-in takes the place of the prover: it refuses what is changed but in `waits`, and gives no verdict on
    what calls a changed function. Each check has a wrong body of each function; one of a constant is tried alone, and
    so is one that proves."""
    source, checks = tmp_path / "src/port.rt", list[str]()
    source.parent.mkdir()
    source.write_text(CODE)

    def check(*words: str, **how: object) -> "CompletedProcess[str]":
        text = source.read_text()
        checks.append(text)
        count, sent = ("not proved" if line not in text else "proved" for line in ["        1\n", "() + 2 + 3\n"])
        if "not" in count:
            sent = "no proof: it calls `a::port::PortCounts::count`, which is not proved"
        said = [f"fn a::port::PortCounts::count: {count}", f"fn a::port::PortCounts::sent: {sent}",
                "fn a::port::waits: proved", "logic=not-proved"]
        return CompletedProcess(words, 1, "\n".join(said), "")

    monkeypatch.setattr(batches, "ran", check)
    bodies = {name: [batches.Change("src/port.rt", old, "0")]
              for name, old in [("one", "1"), ("two", "2"), ("three", "3"), ("four", "4"), ("five", "5")]}
    assert batches.Batches(tmp_path, bodies).tried() == ({"one", "two", "three"}, ["five", "four"])
    assert ["".join(re.findall(r"\b\d\b", text)) for text in checks] == ["00305", "10345", "12045"]
    assert source.read_text() == CODE


def test_one_that_was_tried_by_the_gate(top: Path) -> None:
    body, edit = (top / "crates/a" / folder / "two.edit" for folder in (wrong_bodies.OTHERS, wrong_bodies.GATE))
    edit.parent.mkdir()
    body.rename(edit)
    commit = committed(top)
    edit.rename(body)
    assert wrong_bodies.is_fresh("a/two", commit)
    body.write_text(body.read_text().replace("two", "three"))
    assert not wrong_bodies.is_fresh("a/two", commit)


def test_which_are_chosen(top: Path) -> None:
    assert wrong_bodies.chosen_by([], is_stale=True) == ["b/two"]
    assert wrong_bodies.chosen_by(["a"]) == ["a/two"]


def test_the_list_marks_those_of_the_gate(top: Path) -> None:
    (top / "crates/a/must-fail").mkdir()
    shutil.copy2(top / "crates/a/wrong-bodies/two.edit", top / "crates/a/must-fail/three.edit")
    wrong_bodies.write(wrong_bodies.recorded())
    assert re.sub(r"[0-9a-f]{40}", "C", wrong_bodies.RECORD.read_text()) == "a/three gate\na/two C\nb/two C\n"
