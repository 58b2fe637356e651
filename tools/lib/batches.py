"""Many wrong bodies of a crate by one check, in which each changes a function of its own: the prover says of each
function whether it is proved. One whose function calls another that the same check changes waits for the next check,
and one whose function is not known, or is proved, is left to be tried alone (tools/wrong_bodies.py)."""
import re
from pathlib import Path
from subprocess import CompletedProcess
from typing import Callable, Mapping, NamedTuple, Optional, Sequence

from lib.programs import ran

FUNCTION = re.compile(r"( *)(?:pub(?:\(\w+\))? )?(?:const )?fn (\w+)")
BLOCK = re.compile(r"impl(?:<.*?>)? (?:(?:\w+::)*(\w+)(?:<[^{}]*>)? for )?&?(\w+)")
# what the prover says of a function of which some goal is open
REFUSED = re.compile(r"not proved|no proof: expected answers")


class Change(NamedTuple):
    """What a wrong body changes: a text that a file has once."""
    file: str
    old: str
    new: str


class Place(NamedTuple):
    """A function: its file, its type and that of its trait if it is a method, and its name."""
    file: str
    type_name: str
    trait_name: str
    name: str

    def path(self) -> str:
        """By which words the prover finds it: MODULE::NAME, or for a method, whose module is that of its type,
        TYPETRAIT::NAME."""
        modules = [part for part in Path(self.file).with_suffix("").parts[1:] if part not in ("lib", "main")]
        owners = [self.type_name + self.trait_name] if self.type_name else modules
        return "::".join([*owners, self.name])

    def is_called(self, path: str) -> bool:
        """Whether the prover calls it so: CRATE::MODULE::NAME or CRATE::MODULE::TYPE::NAME, where the name of a trait
        may stand behind that of the type."""
        *_, owner, name = path.split("::")
        return name == self.name and (owner.startswith(self.type_name) if self.type_name
                                      else owner == Path(self.file).stem)


def changes_of(text: str) -> list[Change]:
    """The changes that the text of a wrong body lists."""
    found, file, old = list[Change](), "", ""
    for line in text.splitlines():
        kind, _, rest = line.partition(":")
        if kind == "file":
            file = rest.strip()
        elif kind == "old":
            old = rest.removeprefix(" ")
        elif kind == "new":
            found.append(Change(file, old, rest.removeprefix(" ")))
    return found


def changed(texts: Mapping[str, str], changes: Sequence[Change]) -> Optional[dict[str, str]]:
    """Files as these change them, if each text that they change is there once."""
    made = dict(texts)
    for file, old, new in changes:
        if made.get(file, "").count(old) != 1:
            return None
        made[file] = made[file].replace(old, new)
    return made


def function_at(file: str, lines: Sequence[str], at: int) -> Optional[Place]:
    """The function in whose body a line stands, or whose body begins at its end."""
    begin = next((number for number in range(at, -1, -1) if FUNCTION.match(lines[number])), None)
    found = begin is not None and FUNCTION.match(lines[begin])
    if begin is None or not found or found[1] + "}" in lines[begin:at]:
        return None
    if not any(line.endswith("{") for line in lines[begin:at + 1]):
        return None
    owner = next((line for line in lines[begin::-1] if line.startswith("impl")), "") if found[1] else ""
    block = BLOCK.match(owner)
    owner_of = (block[2], block[1] or "") if block else ("", "")
    return Place(file, *owner_of, found[2]) if bool(block) == bool(found[1]) else None


def place_of(folder: Path, changes: Sequence[Change]) -> Optional[Place]:
    """The one function of a crate whose body these change, if there is one."""
    places = set[Optional[Place]]()
    for file, old, _ in changes:
        before, found, _ = (folder / file).read_text().partition(old)
        at = before.count("\n")
        places.add(function_at(file, (before + found).split("\n"), at) if found and file.startswith("src/") else None)
    return places.pop() if len(places) == 1 else None


def whole(folder: Path, _: Sequence[Place]) -> "CompletedProcess[str]":
    """A check of a crate, whichever functions are asked for."""
    return ran("rt", "check", cwd=folder, timeout=None)


class Batches:
    """Checks of a crate, in a folder that nobody else uses, with some of these wrong bodies at once. A check has to
    tell of the functions that they change."""

    def __init__(self, folder: Path, bodies: Mapping[str, Sequence[Change]],
                 check: "Callable[[Path, Sequence[Place]], CompletedProcess[str]]" = whole) -> None:
        self.folder, self.bodies, self.check = folder, bodies, check
        self.places = {body: place for body, changes in bodies.items() if (place := place_of(folder, changes))}
        files = {change.file for body in self.places for change in bodies[body]}
        self.texts = {file: (folder / file).read_text() for file in files}
        self.refused, self.left = set[str](), [*self.places]
        # those that are tried alone
        self.alone = [body for body in bodies if body not in self.places]

    def write(self, texts: Mapping[str, str]) -> None:
        for file, text in texts.items():
            # (the file may be a link to that of the repository)
            (self.folder / file).unlink()
            (self.folder / file).write_text(text)

    def joined(self) -> list[str]:
        """Has a wrong body change each function that has some left, and returns these."""
        chosen, texts = dict[Place, str](), self.texts
        for body in self.left:
            made = None if self.places[body] in chosen else changed(texts, self.bodies[body])
            if made:
                chosen[self.places[body]], texts = body, made
        self.write(texts)
        return [*chosen.values()]

    def turn(self) -> None:
        """One check of as many as may be."""
        now = self.joined()
        done, waiting = self.check(self.folder, [self.places[body] for body in now]), list[str]()
        said = re.findall(r"(?m)^fn (\S+): (.*)$", done.stdout + done.stderr)
        for body in now:
            states = [state for path, state in said if self.places[body].is_called(path)]
            state = states[0] if len(states) == 1 else ""
            if REFUSED.match(state):
                print(f"wrong body {body}: refused, as it must be: {state[:160]}", flush=True)
                self.refused.add(body)
            elif "it calls" in state:
                waiting.append(body)
            else:
                self.alone.append(body)
        is_stuck = len(waiting) == len(now)
        left = waiting + [body for body in self.left if body not in now]
        self.alone += left * is_stuck
        self.left = left * (not is_stuck)

    def tried(self) -> tuple[set[str], list[str]]:
        """Those that were refused, and those that are left to be tried alone. The crate is then as it was."""
        while self.left:
            self.turn()
        self.write(self.texts)
        return self.refused, self.alone
