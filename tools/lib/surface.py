"""The public surface of the crates by name: functions with their clauses, types and ghost items (`src/`), and
definitions (`specs/`), each with a hash of its text without comments and layout."""
import hashlib
import re
from collections import Counter
from pathlib import Path
from typing import Iterator, NamedTuple, Optional

from lib import definitions

PUB = r"(?m)^ *(?P<vis>pub(?:\([^)]*\))? )?"
FUNCTION = re.compile(PUB + r"(?:(?:const|unsafe) )*(?:extern \"[^\"]*\" )?fn (?P<name>\w+)")
OWNER = re.compile(PUB + r"(?:unsafe )?(?:trait (?P<trait>\w+)|impl\b(?P<impl>[^{;]*?))(?=\s*\{|[:<])")
OTHERS = {"type": re.compile(r"^pub (?:struct|enum|const|type|static) (?P<name>\w+)", re.M),
          "ghost": re.compile(r"^ *ghost (?!use\b)(?P<name>\w+)", re.M)}
CLAUSE = re.compile(r"\s*(requires|ensures)\b\s*(\w+)?\s*")
SIGNATURE = re.compile(r"\n\s*(?:requires|ensures)\b|[{;]")
# what hides a brace, or a word: a comment, a text, and a character, which a name with a prime is none of
HIDDEN = re.compile(r"//[^\n]*|/\*.*?\*/|\"(?:\\.|[^\"\\])*\"|(?<![\w'])'(?:\\[^']+|[^'\\\n])'", re.S)


# a clause, a definition or the like: what it is, where it stands by name, and the hash of its text
Item = tuple[str, str, str]


def digest_of(text: str) -> str:
    """The hash of a text: spaces count as one each."""
    return hashlib.sha256(" ".join(text.split()).encode()).hexdigest()[:8]


def behind(plain: str, at: int) -> int:
    """Behind the brace that closes the next one from this place on, or the semicolon before that."""
    depth = 0
    for found in re.compile(r"[{};]").finditer(plain, at):
        depth += {"{": 1, "}": -1, ";": 0}[found[0]]
        if depth == 0:
            return found.end()
    return len(plain)


def end_of_signature(plain: str, at: int) -> int:
    """Where the clauses, the body or the semicolon of a function begin."""
    found = SIGNATURE.search(plain, at)
    # (an array's length, as in `[u8; 4]`, is no end)
    while found and found[0] == ";" and plain.count("[", at, found.start()) > plain.count("]", at, found.start()):
        found = SIGNATURE.search(plain, found.end())
    return found.start() if found else len(plain)


class Block(NamedTuple):
    """The block of an impl or a trait, and whether what is in it is public by itself."""
    start: int
    end: int
    name: str
    is_public: bool


def blocks_of(plain: str) -> Iterator[Block]:
    for head in OWNER.finditer(plain):
        brace = plain.find("{", head.end())
        whole = " ".join(plain[head.start("impl"):brace].split()) if head["impl"] is not None else ""
        whole = re.sub(r" where .*", "", re.sub(r"^<.*?>(?= )", "", whole)).strip()
        is_public = " for " in f" {whole} " if whole else head["vis"] == "pub "
        name = head["trait"] or whole.replace(" for ", "@").replace(" ", "")
        if brace >= 0:
            yield Block(head.start(), behind(plain, brace), name, is_public)


def of_source(crate: str, path: Path, folder: Path) -> Iterator[Item]:
    """The public functions of a file of code with their clauses, its public types and constants, and the ghost items of
    impls and traits."""
    # without comments, and without texts and characters too, so that only its own braces are in it
    bare = HIDDEN.sub(lambda it: re.sub(r"[^\n]", " ", it[0]) if it[0].startswith("/") else it[0], path.read_text())
    plain = HIDDEN.sub(lambda it: re.sub(r"[^\n]", "_", it[0]), bare)
    parts, blocks = path.relative_to(folder).with_suffix("").parts, [*blocks_of(plain)]
    prefix = "".join(f"{part}::" for part in parts if part not in ("lib", "main"))

    def block_of(head: "re.Match[str]") -> Optional[Block]:
        return next((it for it in blocks if it.start < head.start() < it.end), None)

    def place_of(head: "re.Match[str]") -> str:
        block = block_of(head)
        return f"{crate} {prefix}{block.name + '::' if block else ''}{head['name']}"

    for head in FUNCTION.finditer(plain):
        block = block_of(head)
        if head["vis"] != "pub " and not (block and block.is_public):
            continue
        at, count = end_of_signature(plain, head.end()), Counter[str]()
        yield "function", place_of(head), digest_of(bare[head.start():at])
        while clause := CLAUSE.match(plain, at):
            at = behind(plain, clause.end())
            name = " ".join(filter(None, clause.groups()))
            count[name] += 1
            place = f"{place_of(head)} {name}{count[name] if count[name] > 1 else ''}"
            yield "clause", place, digest_of(bare[clause.start():at])
    for kind, heads in OTHERS.items():
        for head in heads.finditer(plain):
            yield kind, place_of(head), digest_of(bare[head.start():behind(plain, head.end())])


def of_crate(crate: str, folder: Path) -> list[str]:
    """A line for each item of a crate. Where two have one name, as in two impls, the second has a 2 behind it."""
    found = [item for path in sorted(folder.glob("src/**/*.rt")) for item in of_source(crate, path, folder / "src")]
    found += [("definition", f"{crate} {path.stem}.{name}", digest_of("\n".join(it.code())))
              for path in sorted(folder.glob("specs/**/*.antt")) for name, it in definitions.read(path).items()]
    seen, lines = Counter[tuple[str, str]](), []
    for kind, place, digest in found:
        seen[kind, place] += 1
        count = seen[kind, place]
        lines.append(f"{kind} {place} {count} {digest}" if count > 1 else f"{kind} {place} {digest}")
    return lines
