"""Each command line of tftp-show and tftp-play that a document or a manual shows prints what stands there, writes
nothing to standard error, and ends with the status of the manuals. Of each examples/NAME.script at least one document
shows the output. The tours of tftpd and tftp run twice in a folder, and leave nothing there. The get of README.md in
C compiles, and dnsmasq takes the settings of docs/OPERATING.md. In the commands that no check runs each name is
looked up (shown_names.py)."""
import os
import re
import shlex
from pathlib import Path
from subprocess import DEVNULL, PIPE, STDOUT, Popen, TimeoutExpired
from typing import NamedTuple

import pytest

from lib import shown_names
from lib.addresses import own_address
from lib.named_options import VERBS, known
from lib.needs import needs
from lib.programs import NAMES, TOP, program, ran
from lib.sections import table
from version import WHOLE

HERE, SECONDS = Path(__file__).parent, 120
PATTERNS = ["*.md", "docs/*.md", "crates/*/README.md", "examples/**/README.md", "bench/**/README.md", "packaging/*.md",
            "man/*.[1-8]"]
DOCUMENTS = sorted(path for pattern in PATTERNS for path in TOP.glob(pattern))
# (docs/STATEMENT.md is made, and has definitions alone)
PAGES = [path for path in DOCUMENTS if path.suffix == ".md" and path.name != "STATEMENT.md"]
BLOCK = re.compile(r"(?ms)^```(\w*)\n(.*?)^```$")
# The documents with a tour; of its lines the address that they name, and what differs from run to run
TOURS = ["README.md", "crates/tftp_main/README.md"]
ADDRESS, PORTS = "127.0.0.1:6969", re.compile(r"\d+ \d+ (?=Complete$)")
# The commands behind a `$` that `rt ci`, or the tests of the programs and of captures, run
ELSEWHERE = re.compile(r"memory_examples|tftp get [\d.:]+ greeting |tshark -r FILE ")
# What a command in a sentence begins with
COMMAND = re.compile(r"(?:apt|apt-get|boot\.sh|docker|exec|find|journalctl|make|nft|python3|rt|setcap|systemctl|tcpdump"
                     r"|tftp|tftpd|tftp-show|tftp-play|tshark|tools/\S+|\./install\.sh) ")
# One that runs one of the two programs alone
ALONE = re.compile(r"(?:(?:cat|printf|echo) .*\| *)?(?:bin/)?(tftp-show|tftp-play)\b(?!.*\bFILE\b|.*flow\.txt)")
# a line of tftp-show that makes its status 1, and one of tftp-play: a client that is not complete
FAULTS = {"tftp-show": r"(?m)^fault |^not hex$", "tftp-play": r"(?m)^end \d+ client-.* complete=no "}


class Shown(NamedTuple):
    """A command that a document shows, and what it says is printed."""
    command: str
    printed: str

    def program(self) -> str:
        """The one of the two programs that it runs alone, if it does."""
        ours = ALONE.match(self.command)
        return ours[1] if ours else ""


def shown_in(document: Path) -> list[Shown]:
    """The commands of a document behind a `$`. In a manual `\\e` is a backslash, and `\\&` nothing."""
    text = document.read_text()
    if document.suffix != ".md":
        text = text.replace("\\e", "\\").replace("\\&", "").replace("\\-", "-")
    blocks = re.findall(r"(?ms)^(?:```\w*|\.Bd[^\n]*)\n(.*?)^(?:```|\.Ed)$", text)
    shown = [run for block in blocks for run in re.findall(r"(?m)^\$ (.*)\n((?:(?!\$ ).*\n)*)", block)]
    return [Shown(command, printed.rstrip("\n")) for command, printed in shown]


def name_of(document: Path) -> str:
    return str(document.relative_to(TOP))


@pytest.fixture
def room(tmp_path: Path) -> Path:
    """A folder with the examples, and the programs in bin/."""
    (tmp_path / "examples").symlink_to(TOP / "examples")
    (tmp_path / "bin").mkdir()
    for name in NAMES:
        (tmp_path / "bin" / name).symlink_to(program(name))
    return tmp_path


COMPARED = [document for document in DOCUMENTS if any(it.program() for it in shown_in(document))]


@pytest.mark.parametrize("document", COMPARED, ids=name_of)
def test_commands_print_what_is_shown(document: Path, room: Path) -> None:
    for it in shown_in(document):
        if name := it.program():
            env = {"PATH": f"{room}/bin:{os.environ['PATH']}", "LC_ALL": "C"}
            done = ran("sh", "-c", it.command, cwd=room, env=env)
            has_fault = re.search(FAULTS[name], it.printed) and not re.search(r"\| *head\b", it.command)
            found = done.stdout.rstrip("\n"), done.stderr, done.returncode
            assert found == (it.printed, "", int(bool(has_fault))), it.command


def test_each_script_is_shown() -> None:
    commands = [it.command for page in PAGES for it in shown_in(page) if it.program() == "tftp-play"]
    shown = {Path(word).name for command in commands for word in shlex.split(command)}
    assert {path.name for path in TOP.glob("examples/*.script")} <= shown
    assert any(document.suffix != ".md" for document in COMPARED), "a manual has commands"


@pytest.mark.parametrize("document", TOURS)
def test_a_tour(document: str, room: Path) -> None:
    """It prints what it says it does, in the order of lines, and leaves nothing behind; ports are left out."""
    address, examples = f"{own_address()}:6969", sorted(os.listdir(TOP / "examples"))
    blocks = [block for language, block in BLOCK.findall((TOP / document).read_text()) if not language]
    lines = "".join(it for it in blocks if "$ bin/tftpd " in it).replace(ADDRESS, address).splitlines()
    commands = "\n".join(line[2:] for line in lines if line.startswith("$ "))
    wanted = sorted(PORTS.sub("", line) for line in lines if not line.startswith("$ "))
    assert wanted
    for _ in range(2):
        # (in a session of its own: what still runs at the end is ended)
        shell = Popen(["bash", "-c", commands], cwd=room, stdin=DEVNULL, stdout=PIPE, stderr=STDOUT, text=True,
                      env={"PATH": os.environ["PATH"], "LC_ALL": "C", "TMPDIR": str(room)}, start_new_session=True)
        try:
            printed = shell.communicate(timeout=SECONDS)[0]
        except TimeoutExpired:
            os.killpg(shell.pid, 9)
            printed = shell.communicate()[0]
        assert sorted(PORTS.sub("", line) for line in printed.splitlines()) == wanted
        assert sorted(os.listdir(room)) == ["bin", "examples"] and sorted(os.listdir(TOP / "examples")) == examples


def test_the_sample() -> None:
    """What `make run` shows of the programs of bin/."""
    needs(files=tuple(TOP / "bin" / name for name in NAMES))
    done = ran("make", "--no-print-directory", "sample")
    assert done.returncode == 0, done.stdout + done.stderr


@pytest.mark.parametrize("page", PAGES, ids=name_of)
def test_other_commands(page: Path) -> None:
    """A command behind a `$` is compared, or run by a tour or by another check. In the others the names are there."""
    left = [] if name_of(page) in TOURS else [it for it in shown_in(page) if not it.program()]
    assert [it for it in left if not ELSEWHERE.match(it.command)] == []
    text, options = page.read_text(), {name: known(name) for name in VERBS}
    commands = [line for language, piece in BLOCK.findall(text)
                if not language and shown_names.is_shell(piece) and not re.search(r"(?m)^\$ |^table ", piece)
                for line in piece.replace("\\\n", " ").splitlines()]
    commands += filter(COMMAND.match, re.findall("`([^`]+)`", " ".join(BLOCK.sub("", text).split())))
    lost = {command: shown_names.of_line(command, page.parent, options) for command in commands}
    assert {command: what for command, what in lost.items() if what} == {}


def test_the_get_of_the_readme_in_c(tmp_path: Path) -> None:
    needs("gcc")
    (piece,) = [block for language, block in BLOCK.findall((TOP / "README.md").read_text()) if language == "c"]
    (tmp_path / "readme.c").write_text((HERE / "readme.c").read_text().replace("@GET@", piece))
    words = "gcc -std=c11 -Wall -Wextra -Wpedantic -Werror -fsyntax-only -Iinclude -Iexamples/c"
    done = ran(*words.split(), tmp_path / "readme.c")
    assert done.returncode == 0, done.stderr


def test_settings_for_dnsmasq() -> None:
    needs("dnsmasq")
    pieces = [it for _, it in BLOCK.findall((TOP / "docs/OPERATING.md").read_text()) if it.startswith("dhcp-")]
    done = ran("dnsmasq", "--test", "--conf-file=/dev/stdin", input="".join(pieces))
    assert pieces and done.returncode == 0, done.stderr


@pytest.mark.parametrize("command, said", table(HERE / "shown_commands.txt"))
def test_what_is_said_of_a_name(command: str, said: str) -> None:
    options = {"tftpd": {"--listen", "--forever", "--read-only"}, "tftp": {"--blksize"}}
    assert shown_names.of_line(command.replace("@VERSION@", WHOLE), TOP, options)[:1] == [said] * bool(said)


def test_which_code_is_of_commands() -> None:
    assert shown_names.is_shell("mkdir -p /srv/tftp\naptt install x\n")
    assert not shown_names.is_shell('else { filename "pxelinux.0"; }\n')
