"""Makes docs/STATEMENT.md, the theorem from disk to disk from the top down, of docs/made/statement.md and of the
definitions in `crates/*/specs`. A block of code there names what is shown in its place, as CRATE.FILE.NAME. What
stands below a heading `##`, or in a comment there, is a theorem; what stands below `###` is a word of it. What these
name beyond the page is listed with its file. A name that is not found, or that no theorem needs, ends the program."""
import re
import sys
from functools import lru_cache
from textwrap import wrap
from typing import NamedTuple, Optional

from lib.definitions import Definition, read
from lib.programs import TOP

PAGE = TOP / "docs/made/statement.md"
NAMED = re.compile(r"(?ms)^```\n((?:\w+\.\w+\.\S+\n)+)```$|^<!-- (\S+) -->\n\n")
USED = re.compile(r"(?m)^(?:pub )?use Rattle\.([\w.]+)\.\{(.*)\}")
CASE = re.compile(r"^ *([A-Z][\w']*) :")
# a definition by its crate, its file and its name
Place = tuple[str, str, str]


class File(NamedTuple):
    """A file's definitions by name, the name of the data that has each case, and for each name that it imports the
    place that it comes from and its name there."""
    definitions: dict[str, Definition]
    cases: dict[str, str]
    imports: dict[str, tuple[str, str]]


@lru_cache(None)
def file_of(crate: str, name: str) -> File:
    path, imports = TOP / f"crates/{crate}/specs/{name}.antt", dict[str, tuple[str, str]]()
    if not path.is_file():
        return File({}, {}, {})
    # (the first of a name)
    definitions = {place.split(".")[-1]: it for place, it in reversed(read(path).items())}
    for place, names in USED.findall(path.read_text()):
        for own, _, here in (name.strip().partition(" as ") for name in names.split(",")):
            imports[here or own] = (place, own)
    cases = {found[1]: name for name, it in definitions.items() if re.search(r"\bdata\b", it.lines[0])
             for found in map(CASE.match, it.lines) if found}
    return File(definitions, cases, imports)


def source_of(crate: str, file: str, word: str) -> Optional[Place]:
    """The definition that a word means in a file, or none where it is a type of the code, or of std."""
    here = file_of(crate, file)
    if word in here.definitions or word in here.cases:
        return crate, file, word if word in here.definitions else here.cases[word]
    place, own = here.imports.get(word, ("", word))
    other, _, rest = place.partition(".specs.")
    if not place.startswith("tftp_") or rest.startswith("declared."):
        return None
    # (a file may pass on what it imports)
    if not any(own in names for names in file_of(other, rest.split(".")[0])):
        sys.exit(f"{other}, {rest}: no definition of {own}")
    return source_of(other, rest.split(".")[0], own)


def definition(place: Place) -> Definition:
    crate, file, name = place
    found = file_of(crate, file).definitions.get(name)
    return found or sys.exit(f"statement.py: no {name} in {crate}, {file}")


def named_in(place: Place) -> dict[str, Place]:
    """The definitions that one names, by the words for them."""
    words = sorted(set(re.findall(r"[A-Za-z_][\w']*", "\n".join(definition(place).code()))))
    return {word: source for word in words if (source := source_of(*place[:2], word))}


def needed(roots: list[Place]) -> set[Place]:
    """All definitions that these need, themselves among them."""
    found, left = set[Place](), [*roots]
    while left:
        if (each := left.pop()) not in found:
            found.add(each)
            left += named_in(each).values()
    return found


def comment_of(it: Definition) -> list[str]:
    return [line for line in it.comment if not line.startswith("---- ")]


def text_of(it: Definition) -> str:
    """A definition with its comment, without the heads of the modules that it stands in."""
    indent = len(it.lines[0]) - len(it.lines[0].lstrip())
    lines = [*(f"-- {line}" for line in comment_of(it)), *(line[indent:] for line in it.lines)]
    return "".join(f"{line.rstrip()}\n" for line in lines)


def listed(word: str, place: Place) -> list[str]:
    """A definition that is not on the page: what it says, and its file."""
    says, (crate, file, _) = " ".join(comment_of(definition(place))), place
    text = f"- `{word}`: {says + '; ' if says else ''}[{crate}/{file}](../crates/{crate}/specs/{file}.antt)"
    return wrap(text, 120, subsequent_indent="  ", break_on_hyphens=False, break_long_words=False)


def document() -> str:
    def places_of(names: str) -> list[Place]:
        return [(crate, file, name) for crate, file, name in (place.split(".") for place in names.split())]

    def shown(names: "re.Match[str]") -> str:
        places = places_of(names[1] or "")
        if unneeded := [place for place in places if place not in left]:
            sys.exit(f"statement.py: shown twice, or not needed: {unneeded}")
        left.difference_update(places)
        on_page.extend(places)
        return "```\n" + "\n".join(text_of(definition(place)) for place in places) + "```" if places else ""

    page, on_page = PAGE.read_text(), list[Place]()
    theorems = [re.split(r"(?m)^### ", section)[0] for section in re.split(r"(?m)^## ", page)]
    left = needed([place for text in theorems for names in NAMED.findall(text) for place in places_of("".join(names))])
    text = NAMED.sub(shown, page)
    beyond = {word: place for each in on_page for word, place in named_in(each).items() if place in left}
    return "\n".join([text, *(line for word in sorted(beyond) for line in listed(word, beyond[word])), ""])
