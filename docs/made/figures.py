"""Draws docs/crates.svg, which crate uses which, and docs/ratios.svg, a bar for each row of docs/PERFORMANCE.md that
has the ratios of tftpd to the fastest other server. Counts the lines of the trusted files, for the table of
docs/PROVED.md and where other documents have their sums, and for docs/TESTING.md the lines of code, proofs and tests,
and the wrong bodies. Lines of code there are about: 5% off is no difference.

The crates are those of crates.txt, and an arrow that follows from two others is left out; graphviz draws them from
docs/crates.dot."""
import re
import shutil
import sys
from pathlib import Path

from lib.kit import below, listed
from lib.programs import TOP, ran

# how a text says a small number
NUMBERS = "no one two three four five six seven eight nine ten eleven twelve thirteen fourteen fifteen".split()
# What docs/TESTING.md says of the lines that are not empty: the beginning of a row, and the files
SIZES = {
    "definitions that clauses cite": "crates/*/specs/**/*.antt",
    "proofs that were written by hand": "crates/*/proofs/**/*.antt",
    "of these for the traces of programs": "crates/tftp_promises/proofs/**/*.antt",
    "for worlds": "crates/tftp_player/proofs/**/*.antt",
    "for the guarded machine": "crates/tftp_rules/proofs/**/*.antt",
    "tests in Rattle": "crates/tests_*/src/**/*.rt",
    "tests and tools in Python": "tools/**/*.py tests/**/*.py",
}
# what is not drawn: tests, examples, and a crate that hands out others' functions
HIDDEN = re.compile(r"tests_|memory_examples|tftp_cmd")


# the kinds of crates: what each is, its colours in the picture, and its crates
KINDS = {
    "sockets": ("uses sockets", "#ddf4ff", "#0969da",
                "tftp_sockets tftp_client tftp_loop tftp_service tftp_supervisor tftp_status"),
    "files": ("uses files", "#fff8c5", "#9a6700", "tftp_disk tftp_folder"),
    "laws": ("definitions and laws, no code that runs", "#fbefff", "#8250df", "tftp_rules tftp_promises tftp_words"),
    "program": ("a program, or the library for C", "#dafbe1", "#1a7f37",
                "tftp_show_main tftp_play_main tftp_main tftpd_main tftp_c"),
}


def crates() -> str:
    """Which crate uses which, as a graph for `dot`: each stands right of those that it uses. What follows from others
    is left out."""
    used = {name: {*words} & {*listed()} for name, words in sorted(listed().items()) if not HIDDEN.match(name)}
    colours = {name: kind[1:3] for kind in KINDS.values() for name in kind[3].split()}
    boxes = {name: (name, *colours.get(name, ("#ffffff", "#57606a"))) for name in used}
    boxes |= {f"of_{name}": kind[:3] for name, kind in KINDS.items()}
    return "\n".join([
        "digraph crates {", "  graph [rankdir=LR nodesep=0.14 ranksep=0.45 bgcolor=white fontname=monospace]",
        '  node [shape=box style="filled,rounded" height=0.3 margin="0.08,0.04" fontname=monospace fontsize=10]',
        '  edge [arrowhead=none color="#8c959f"]',
        *('  {} [label="{}" fillcolor="{}" color="{}"]'.format(name, *box) for name, box in boxes.items()),
        *(f"  {word} -> {name}" for name, words in used.items() for word in sorted(words)
          if not any(word in below(other) for other in words - {word})), "}", ""])


def filled(path: Path) -> list[str]:
    """The lines of a file that are not empty."""
    return [line.strip() for line in path.read_text().splitlines() if line.strip()]


def parts_of(lines: list[str]) -> tuple[int, int]:
    """How many lines of a file of Rattle are code, and how many are clauses and what else is ghost; comments are
    neither."""
    code, clauses, depth, is_clause = 0, 0, 0, False
    for line in lines:
        is_clause = is_clause or bool(re.match(r"(?:ensures|requires|ghost|rule)\b", line))
        if is_clause:
            clauses, depth = clauses + 1, depth + line.count("{") - line.count("}")
            is_clause = depth > 0 or not ("{" in line or line.endswith((";", "}")))
        elif not line.startswith("//"):
            code += 1
    return code, clauses


def sizes() -> dict[str, int]:
    """The lines of the parts of the repository, by the rows of docs/TESTING.md."""
    names = [name for name in listed() if not name.startswith("tests_")]
    paths = [path for name in names for path in TOP.glob(f"crates/{name}/src/**/*.rt")]
    code, clauses = map(sum, zip(*(parts_of(filled(path)) for path in paths)))
    return {f"code in {len(names)} crates": code, "clauses of its contracts": clauses,
            **{row: sum(len(filled(path)) for pattern in patterns.split() for path in TOP.glob(pattern)
                        if "out" not in path.parts) for row, patterns in SIZES.items()}}


def counted() -> dict[str, str]:
    """The documents that have numbers of lines of the trusted files, with these as they are."""
    def lines_of(path: str) -> int:
        return len((TOP / ("." if path.endswith(".c") else "crates") / path).read_text().splitlines())

    row_of, proved = re.compile(r"(?m)^\| `([^`]+\.(?:rt|c))` \| \d+ \|"), (TOP / "docs/PROVED.md").read_text()
    files = row_of.findall(proved)
    if not files:
        sys.exit("docs/PROVED.md has no table of trusted files")
    total = f"{sum(map(lines_of, files)):,}"
    marks = [line.split()[1] for line in (TOP / "tools/wrong_bodies.txt").read_text().splitlines()]
    others = [mark for mark in marks if mark != "gate"]
    places = [
        ("README.md", r"(\*\*True traces\.\*\* )\w+( \[source files\]\()", NUMBERS[len(files)].capitalize()),
        ("README.md", r"(\[source files\]\([^)]*\) \()[\d,]+( lines\))", total),
        ("docs/TESTING.md", r"(\| trusted files [^|]* \| )[\d,]+( \|)", total),
        ("docs/TESTING.md", r"(has\s+the\s+prover\s+refuse\s+)\d+( wrong bodies)", str(marks.count("gate"))),
        ("docs/TESTING.md", r"(\sOf\s+)\d+(\s+more\s+\(`wrong-bodies/`\))", str(len(others))),
        ("docs/TESTING.md", r"(tools/wrong_bodies\.txt\s+has,\s+for )\d+( of)", str(len(others) - others.count("-")))]
    found = {"docs/PROVED.md": row_of.sub(lambda row: f"| `{row[1]}` | {lines_of(row[1])} |", proved)}
    for row, number in sizes().items():
        pattern = rf"(?m)^(\| {re.escape(row)}[^|]*\| )[\d,]+( \|)$"
        said = re.search(pattern, (TOP / "docs/TESTING.md").read_text())
        if not said or abs(int(re.sub(r"\D", "", said[0].removeprefix(said[1]))) - number) > number // 20:
            places.append(("docs/TESTING.md", pattern, f"{round(number, -2 if number < 20_000 else -3):,}"))
    for name, pattern, number in places:
        found[name], count = re.subn(pattern, rf"\g<1>{number}\g<2>", found.get(name) or (TOP / name).read_text())
        if count != 1:
            sys.exit(f"{name}: {count} places have {pattern}")
    return found


def ratios() -> str:
    left, scale, height, head, page = 190, 300, 14, 30, (TOP / "docs/PERFORMANCE.md").read_text()
    rows = re.findall(r"(?m)^\| ((?:get|put), [\d,]+) \| (\d+) \| [\d,]+ \| ([\d.]+) \|", page)
    end, one, size = head + len(rows) * (height + 6) + 10, left + scale, 'font-family="sans-serif" font-size="11"'
    lines = [f'<svg xmlns="http://www.w3.org/2000/svg" width="680" height="{end}" {size}>',
             f'<rect width="680" height="{end}" fill="white"/>',
             f'<text x="{one}" y="16" text-anchor="middle">as fast as the fastest other server</text>']
    for number, (case, count, ratio) in enumerate(rows):
        y, fill = head + number * (height + 6), "#4878a8" if float(ratio) >= 1 else "#a8b8c8"
        lines += [f'<text x="{left - 8}" y="{y + 11}" text-anchor="end">{case}, {count} at once</text>',
                  f'<rect x="{left}" y="{y}" width="{round(float(ratio) * scale)}" height="{height}" fill="{fill}"/>',
                  f'<text x="660" y="{y + 11}" text-anchor="end">{float(ratio):.2f}</text>']
    line = f'<line x1="{one}" y1="22" x2="{one}" y2="{end - 6}" stroke="#404040" stroke-dasharray="3 3"/>'
    return "\n".join([*lines, line, "</svg>", ""])


def texts() -> dict[str, str]:
    """What is made, by its path; of the crates the graph alone where Debian 12's `dot` is not there, since another
    version draws it otherwise."""
    graph, has_dot = crates(), shutil.which("dot") is not None and "2.43.0" in ran("dot", "-V").stderr
    pictures = {"docs/crates.svg": ran("dot", "-Tsvg", input=graph).stdout} if has_dot else {}
    return {"docs/crates.dot": graph, **pictures, "docs/ratios.svg": ratios(), **counted()}
