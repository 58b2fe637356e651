"""What the documents cite is there. Each path of a file in code marks is there, below the top, below crates/ or beside
the document. Each link leads to a file, and to a heading of it. Each claim that is cited by its number is a row of
docs/PROVED.md, each law there is a function of its crate's src/, and each test and each wrong body that docs/TESTING.md
names is there; so are the tests of named_tests.txt. All places that have the version have that of the Makefile. Lines
of documents, but of the READMEs of crates, are at most 120 columns wide, without those of tables and code, and no
document has a word of the project's own that its glossary replaces."""
import re
from pathlib import Path

import pytest

import version
from lib.programs import TOP
from lib.sections import table

PAGES = ["*.md", "docs/*.md", "crates/*/README.md",
         *(f"{folder}/**/*.md" for folder in ("examples", "bench", "packaging", "tools", "tests"))]
# (docs/STATEMENT.md is made from the definitions, which docs/made/statement.py looks up)
ALL = sorted({str(page.relative_to(TOP)) for pattern in PAGES for page in TOP.glob(pattern) if "out" not in page.parts}
             - {"docs/STATEMENT.md"})
READ_FIRST = re.compile(r"[^/]+$|docs/|packaging/|examples/\w+/README")
COLUMNS = 120
# Words that the glossary of docs/PROVED.md has others for; a line of a glossary has them in parentheses
OLD_WORDS = re.compile(r"(?<![/\w])(?:headlines?|strangers?|slips?|drafts?|wire text|handed over)\b", re.I)
GLOSSARY = re.compile(r"- [^:]* \([a-z ]+\): ")
PATH = re.compile(r"`((?:[\w.-]+/)+[\w.-]+\.(?:antt|c|cpp|csv|h|hpp|hex|json|md|py|rs|rt|script|sh|svg|txt|yml))`")
LINK = re.compile(r"\]\(([^)\s:]*?)(#[\w-]+)?\)")
# paths on the host of a user, and a page's patterns of names
ELSEWHERE = re.compile(r"(?:etc|run|srv|usr|var|tmp|dev|proc|out|bin|net|specs|src|proofs|must-fail|each-gate"
                       r"|wrong-bodies)/|NAME|CRATE|FILE")


def without(text: str, code: str = "^```.*?^```$") -> str:
    """A page without such code, and with as many lines."""
    return re.sub(rf"(?ms){code}", lambda found: "\n" * found[0].count("\n"), text)


PROVED = without((TOP / "docs/PROVED.md").read_text())
TESTING = without((TOP / "docs/TESTING.md").read_text())
CLAIMS = re.findall(r"(?m)^\| (\d+)\. ", PROVED)
RATTLE = "".join(path.read_text() for path in TOP.glob("crates/*/src/**/*.rt"))
PYTHON = "".join(path.read_text() for folder in ("tests", "tools") for path in TOP.glob(f"{folder}/**/*.py"))


def anchors(page: Path) -> set[str]:
    """The anchors of a page's headings."""
    return {"#" + re.sub(r"[^\w\- ]", "", title).strip().lower().replace(" ", "-")
            for title in re.findall(r"(?m)^#+ (.*)$", without(page.read_text()))}


def is_there(page: Path, path: str) -> bool:
    places = [page.parent, *(TOP / folder for folder in (".", "crates", "examples", "tools", "tests"))]
    return any((place / path).exists() for place in places) or any(TOP.glob(f"crates/*/src/{path}"))


def leads(page: Path, path: str, anchor: str) -> bool:
    place = page.parent / path if path else page
    return place.exists() and (not anchor or place.suffix != ".md" or anchor in anchors(place))


@pytest.mark.parametrize("name", ALL)
def test_a_page(name: str) -> None:
    page, text = TOP / name, without((TOP / name).read_text())
    assert [path for path in PATH.findall(text) if not ELSEWHERE.match(path) and not is_there(page, path)] == []
    # (packaging/README.md is installed in one folder with its documents)
    assert [it for it in LINK.findall(text) if name != "packaging/README.md" and not leads(page, *it)] == []
    cited = re.findall(r"\b[Cc]laims? (\d+)(?: (?:to|and) (\d+))?", text)
    assert {number for pair in cited for number in pair if number} <= {*CLAIMS}
    if READ_FIRST.match(name):
        lines = [*enumerate(text.splitlines(), 1)]
        assert [number for number, line in lines if len(line) > COLUMNS and not line.startswith(("|", "!"))] == []
        lines = [*enumerate(without(text, "`[^`]*`").splitlines(), 1)]
        assert [it for it in lines if OLD_WORDS.search(it[1]) and not GLOSSARY.match(it[1])] == []


def test_laws() -> None:
    """Names of functions in the last column of a table of claims are in a source, and so are those of the picture of a
    datagram's way."""
    known = {*re.findall(r"(?m)(?:\bfn|^\s*ensures) (\w+)", RATTLE), *(path.name for path in TOP.glob("crates/*"))}
    rows = "".join(re.findall(r"(?m)^\| \d+\. .*\| ([^|]*) \|$", PROVED))
    steps = re.findall(r">\d+ (\w+)</text>", (TOP / "docs/datagram.svg").read_text())
    assert steps and {*steps, *re.findall(r"`([a-z][a-z_]+)`", rows)} <= known


def test_tests_and_wrong_bodies() -> None:
    """Those in parentheses are there."""
    known = {*re.findall(r"def (test_\w+)\(", PYTHON), *(path.stem for path in TOP.glob("crates/*/*/*.edit"))}
    assert {*re.findall(r"\(`([a-z_]+)`\)", TESTING[TESTING.index("## What the proofs missed"):])} <= known


def test_names_of_tests() -> None:
    texts = "\n".join([PYTHON, RATTLE, (TOP / "tests/tftp_play/scripts.txt").read_text()])
    found = re.findall(r"(?m)#\[test\][^{]*?fn (\w+)|def test_(\w+)|^### (\w+)", texts)
    named = {name for row in table(Path(__file__).with_name("named_tests.txt")) for name in row[0].split()}
    assert named <= {*map("".join, found), *(path.name for path in TOP.glob("t*/*"))}


@pytest.mark.parametrize("place", version.PLACES, ids=lambda it: f"{it[0]}: {it[1].strip()}")
def test_a_place_of_the_version(place: version.Place) -> None:
    assert version.faults(place) == []
