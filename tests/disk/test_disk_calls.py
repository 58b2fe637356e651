"""The calls of tftpd and tftp on the files of transfers, as strace shows them. Each call that touches ROOT, or the
folder of LOCAL, is one that the two trusted files of `tftp_disk` make and note (`CALLS`). Those of a get, a put, an
overwrite, puts and gets that fail, and texts are those of calls.txt, with these paths and results and in this order,
and no others; what is read and written are the bytes of the file. The last ACK is behind all that a commit does."""
import re
from pathlib import Path
from typing import NamedTuple

import pytest

from lib.packets import ack
from lib.programs import TOP
from traced import CALLS, transfer

# The trusted files, and what a function in them looks like that makes a call of its own: `make_locked` is a `make`
# and then a `try_lock`, `lock` a `try_to_write` and a `try_lock`, and `seconds` asks the clock
TRUSTED = {"system_disk.rt": r"^    fn (?!(?:view|make_locked|lock|seconds)\b)(\w+)",
           "disk_file/calls.rt": r"^    (?:pub fn|fn) (\w+)"}
# A file of three blocks, and a text of as many
FILE, TEXT = b"0123456789abcdef" * 80, b"a line of a text\n" * 60
# The functions that no case here calls: a long put is synced on its way once no datagram waits, and what no table has
UNTRIED = {"sync_data"}


class Case(NamedTuple):
    """A transfer: the words of both programs, the status of the client, the parts of `calls.txt` that are the calls
    of the server behind its start, and those of the client; what the file holds, and a limit of the server's files in
    units of 512 bytes. Paths begin with ROOT, or HERE, the folder of LOCAL; DRAFT is the server's draft."""
    server: str
    client: str
    status: int
    calls: str
    local_calls: str
    content: bytes = FILE
    limit: str = "unlimited"


# each part by its name, as the lines of its calls
PARTS = {part.split(":")[0]: part.splitlines()[1:]
         for part in Path(__file__).with_name("calls.txt").read_text().split("\n\n")}
GET, PUT = "get a HERE/got --no-dally", "put HERE/file sub/new"
CASES = {
    "get": Case("", GET, 0, "OPENED READ", "ASKED GOT PRINTED"),
    "get of a text": Case("", f"{GET} --netascii", 0, "OPENED MEASURED READ", "ASKED GOT PRINTED", TEXT),
    "get that replaces": Case("", "get a HERE/file --no-dally --replace", 0, "OPENED READ", "GOT_OVER PRINTED"),
    "get of no file": Case("", "get none HERE/got", 1, "ABSENT", "ASKED"),
    "put": Case("", PUT, 0, "BEGUN FINISHED NAMED TOLD", "OFFERED SENT PRINTED"),
    "put of a text": Case("", f"{PUT} --netascii", 0, "BEGUN FINISHED NAMED TOLD", "OFFERED SENT_TEXT PRINTED", TEXT),
    "overwrite": Case("--overwrite", "put HERE/file old", 0, "BEGUN_OVER FINISHED NAMED_OVER TOLD",
                      "OFFERED SENT PRINTED"),
    "put of a name that is there": Case("", "put HERE/file old", 1, "THERE", "OFFERED"),
    "put to a full disk": Case("", PUT, 1, "BEGUN FULL", "OFFERED SENT", limit="1"),
}


def lines_of(parts: str) -> list[str]:
    return [line for part in parts.split() for line in PARTS[part]]


@pytest.mark.parametrize("case", CASES.values(), ids=CASES)
def test_calls(case: Case, tmp_path: Path) -> None:
    done = transfer(tmp_path, case.content, case.server, case.client, ack(3), case.limit)
    assert done.status == case.status, done.printed
    for who, wanted in [("server", f"START {case.calls}"), ("client", case.local_calls)]:
        assert [line.of(case.content) for line in done.calls(who)] == lines_of(wanted), who


def test_each_trusted_function_has_its_call() -> None:
    """The functions of the trusted files are those of CALLS, and each but UNTRIED stands in a table."""
    texts = {form: (TOP / "crates/tftp_disk/src" / file).read_text() for file, form in TRUSTED.items()}
    assert {*CALLS} == {name for form, text in texts.items() for name in re.findall(form, text, re.M)}
    lines = [line for case in CASES.values() for line in lines_of(f"START {case.calls} {case.local_calls}")]
    assert {*CALLS} - {line.split()[0] for line in lines} == UNTRIED
