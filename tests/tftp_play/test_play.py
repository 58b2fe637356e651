"""Rows of `tftp-play`: what it prints for a script, and its status. The output in scripts.txt is written by hand from
RFC 1350, sections 2 and 4 to 7, RFC 1123, section 4.2.3.1, and RFC 2347 to 2349. A row has the name of its kind, as
`play_first`."""
import hashlib
import os
import re
from pathlib import Path

import pytest

from lib import programs
from lib.ends import expect
from lib.sections import sections, table
from lib.tool import Tool, has_parts

HERE = Path(__file__).resolve().parent
SCRIPTS, FAULTS = sections(HERE / "scripts.txt"), table(HERE / "faults.txt")
# A script, its first line, and command lines with the status, how the message begins, and how the output does
READ, = [row for row in SCRIPTS if row.kind == "play_first"]
FIRST, GONE = READ.printed.splitlines(True)[0], "no such file or directory"
NAMED = {"read": READ.given, "get": "get a octet\n", "refused": "get a octet\nrefuse 1024\ntimeout 1024\n"}
STATUSES = [
    (["read.script"], 0, "", FIRST), (["/dev/null"], 0, "", ""), (["/dev/null", "--svg", "/dev/null"], 0, "", ""),
    (["get.script"], 1, "", FIRST),
    (["refused.script", "--events"], 1, "", f"{FIRST}- refuse 1024\n{FIRST.replace('#0', '#1')}"),
    *((words, 2, "error: ", "") for words in (["--svg"], ["--verbose"], ["read.script", "read.script"], [b"caf\xe9"])),
    *(([path], 2, f"script: unreadable\ntftp-play: {path}: {reason}\n", "") for path, reason in [
        ("/missing/a.script", GONE), ("missing.script", GONE), ("/", "is a directory"), (".", "is a directory")]),
    *((["--svg", to, "read.script"], 2, f"svg: unwritable\ntftp-play: {to}: {why}\n", READ.printed) for to, why in [
        ("missing/a.svg", GONE), ("/missing/a.svg", GONE), ("/dev/full", "no space left on the device")]),
]


@pytest.fixture
def play(tmp_path) -> Tool:
    return Tool(programs.program("tftp-play"), tmp_path)


@pytest.mark.parametrize("row", SCRIPTS, ids=lambda row: f"{row.kind}: {row.title}")
def test_scripts(play, row) -> None:
    status, printed, errors = play.ran(row.given)
    if row.kind == "drawn":
        # each drawn event prints a line at least
        printed = row.printed * (printed.count("\n") > 10_000)
    expect((status, printed, errors), (row.status, row.printed, ""), row.given)


@pytest.mark.parametrize("number, flaw, script", FAULTS, ids=[f"{row[2][:40]!r}" for row in FAULTS])
def test_faulty_lines(play, number, flaw, script) -> None:
    """Nothing is played of a script with a faulty line."""
    play.fails(script, f"line {number}: fault\ntftp-play: {flaw}\n")


@pytest.mark.parametrize("words, status, errors, output", STATUSES, ids=[f"{row[0]}" for row in STATUSES])
def test_statuses(scene, words, status, errors, output) -> None:
    for name, script in NAMED.items():
        scene.make(f"{name}.script", script.encode())
    scene.ends("tftp-play", words, status, errors, output, begins=output != READ.printed)


def test_help(scene) -> None:
    scene.has_help("tftp-play")


def test_nothing_is_drawn_in_a_world_without_ends(play) -> None:
    """And no drawn event is refused: each prints a line at least."""
    _, printed, errors = play.ran("random 7 5\nput n octet 414243\nrandom 7 100\n")
    assert printed.startswith("#0 10.0.0.2:1024 > 10.0.0.1:69 WRQ n octet\n") and "refused" not in printed + errors
    assert len(re.findall("(?m)^(?!end )", printed)) > 101


def test_an_output_takes_nothing(play) -> None:
    play.fails_to_print([], "get a octet\n", "output: unwritable\n")


# ---- limits


def test_many_files(play) -> None:
    """The time on a processor grows with the lines alone."""
    many, before = "".join(f"file f{number} 41\n" for number in range(20_000)), os.times()
    play.prints(many, "")
    play.fails(f"{many}file f19999 42\n", "line 20001: fault\ntftp-play: two files of this name: f19999\n")
    used = os.times()
    assert used.children_user + used.children_system - before.children_user - before.children_system < 30


def test_the_longest_content(play) -> None:
    """A file of a script has at most 100,000,000 bytes, and all together 400,000,000."""
    play.prints("file a 61*100000000\n", "")
    status, printed, errors = play.ran("file a 61*100000001\n")
    expect((status, printed, errors.splitlines()[:1]), (2, "", ["line 1: fault"]), "a byte more")
    many = "".join(f"file f{number} 41*100000000\n" for number in range(4))
    play.fails(many + "file e 41\n", "line 5: fault\ntftp-play: more than 400000000 bytes of content: 41\n")


def test_settle_is_cut(play) -> None:
    """A `settle` delivers 1,000,000 datagrams at most. Eight clients read 65,535 blocks of 8 bytes each: a request,
    an OACK, and then an ACK and a DATA of each client in turn, 125,000 for each of the eight."""
    end = rf"(?m)^end \d+ (client|server)-read peer=\d+ size=8 number={(125_000 - 2) // 2} complete=no open$"
    status, printed, errors = play.ran("file a 61*524279\n" + "get a octet blksize=8\n" * 8 + "settle 0\n")
    expect((status, errors, len(re.findall(end, printed[-4_000:]))), (1, "", 16), "the ends")
    # the answers to the last deliveries are sent, and not delivered
    assert "\n#1000007 " in printed and "\n#1000008 " not in printed


# Reads and writes in both modes, with and without options, two writes of one name, and drawn events; and the digest
# of the run on the day on which it was written, which shows that a run of one seed is the same on each day and host
DIGEST = "7a4791433036927cd41efffa6302f35a17a977853c4fe9a7042f598a93c81c18"


def test_a_random_run(play) -> None:
    """Each drawn event prints a line, and some clients are not complete."""
    status, printed, errors = play.ran((HERE / "random.script").read_text())
    expect((status, errors, printed.count("\n") > 10_000), (1, "", True), "the status")
    expect(hashlib.sha256(printed.encode()).hexdigest(), DIGEST, "the digest")


# ---- pictures


def drawn(play: Tool, script: str) -> str:
    """The picture of a script, with which the output and the status are those without it."""
    picture = play.folder / "a.svg"
    expect(play.ran(script, ["--svg", str(picture)]), play.ran(script), script)
    return picture.read_text()


@pytest.mark.parametrize("row", sections(HERE / "pictures.txt"), ids=lambda row: row.title)
def test_a_picture(play, row) -> None:
    has_parts(drawn(play, row.given), row.parts())


def test_comments(play) -> None:
    """A comment is between the events around it. It is escaped, and cut after 96 letters; an empty one is not
    drawn."""
    svg = drawn(play, "# a <&>\nfile a 41\nget a octet\n#\n# \n#b\x01\xff\nsettle 0\n# " + 97 * "c" + "\n")
    texts = ["a &lt;&amp;&gt;", "#0 RRQ a octet", "b??", "#1 DATA 1 1", "#2 ACK 1", "closed Complete", 96 * "c" + ".."]
    heights = [re.findall(rf' y="(\d+)"[^>]*>{re.escape(text)}<', svg) for text in texts]
    expect([len(found) for found in heights], [1] * len(texts), "how often each stands")
    expect(heights, sorted(heights, key=lambda found: int(found[0])), "their order")
    has_parts(svg, [('class="code quiet"', 3)])
