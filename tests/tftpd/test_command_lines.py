"""Command lines of both programs: help, what is invalid, and a `tftpd` that does not start or that cannot print."""
import re
from pathlib import Path

import pytest

from lib.ends import PATIENCE, expect, rrq
from lib.scene import written_by
from lib.sections import table

ROWS = table(Path(__file__).with_name("command_lines.txt"))
RANGES, FAULTS, STARTS = ([row[1:] for row in ROWS if row[0] == kind] for kind in ["range", "fault", "start"])
# what is said of a line that cannot be printed
UNWRITABLE = "tftpd: output fault\ntftpd: standard output: cannot be written\n"


@pytest.mark.parametrize("command, part", [("tftpd", "Examples:\n  tftpd "), ("tftp", "Examples:\n  tftp get "),
                                           ("tftp get", "--no-dally "), ("tftp put", "")])
def test_help(scene, command, part) -> None:
    expect(part in scene.has_help(*command.split()), True, f"whether {part!r} is in the help of {command}")


def is_fault(scene, command, part) -> None:
    """A command line is not understood, and what is said has this part."""
    program, *words = command.split()
    process = scene.start(program, words)
    printed, errors = written_by(process, PATIENCE)
    found = (process.returncode, printed, errors[:7], part in errors)
    expect(found, (2, "", "error: ", True), f"whether {command} has {part!r} in {errors!r}")


@pytest.mark.parametrize("command, option, numbers, below, above", RANGES)
def test_ranges(scene, command, option, numbers, below, above) -> None:
    """Each fault names the option and its range."""
    for value in [below, above, "x", ""]:
        is_fault(scene, f"{command} {option}={value}", f"'{option} {numbers}'")


def test_help_and_faults(scene) -> None:
    scene.make_all({"served/below/a": b"", "folder": None})
    for command, part in FAULTS:
        is_fault(scene, command, part)


def test_server_faults(scene) -> None:
    """Status 2, in the order command line, ROOT, port: each fault also where a later one holds, too. No file is
    made."""
    scene.make_all({"abc": b"ABC", "served/below/a": b"A", "down": "served/below", "runs": None, "same": "runs"})
    names = {"FREE": f"{scene.address}:0", "TAKEN": scene.port().word, "HERE": str(scene.folder)}
    before = sorted(scene.folder.rglob("*"))
    for row in STARTS:
        command, said = (re.sub("FREE|TAKEN|HERE", lambda found: names[found[0]], text) for text in row)
        scene.fails("tftpd", command.split(), f"tftpd: {said}\n")
        scene.fails("tftpd", [*command.split(), "--cap", "0"])
    expect(sorted(scene.folder.rglob("*")), before, "the files")
    free = ["served", "--listen", names["FREE"]]
    fault = f"tftpd: socket fault\ntftpd: {names['FREE']}: too many open files\n"
    scene.fails("tftpd", [*free, "--rounds", "1"], fault, limit="-n 4")
    fault = "tftpd: server fault\ntftpd: a server did not start: too many open files\n"
    scene.fails("tftpd", [*free, "--servers", "3", "--forever"], fault, limit="-n 6")
    with open("/dev/full", "wb") as full:
        scene.fails("tftpd", [*free, "--rounds", "1"], UNWRITABLE, stdout=full)
    # a server that nobody asks ends after its waits
    scene.ends("tftpd", [*free, "--rounds", "1"], 0, "", f"listening {scene.address}:", begins=True)


def test_unprinted_close(scene) -> None:
    """Status 2 where the line of a close cannot be printed, though `listening` was, since the reader of a pipe has
    gone. The client has its file by then; another transfer that is open is given up."""
    scene.make("served/a", b"ABC")
    server = scene.serve("--log", root="served")
    server.process.stdout.close()
    server.asked(rrq("a", timeout=200))
    scene.gets(server, "a", "got", 3)
    errors = server.process.stderr.read().decode().splitlines(True)
    # (where the host is slow the client asks again, which is ignored)
    kinds = [line.split()[0] for line in errors[:-2] if not line.startswith("ignored ")]
    found = (server.process.wait(PATIENCE), kinds, "".join(errors[-2:]))
    expect(found, (2, ["opened", "opened", "closed"], UNWRITABLE), f"how it ends, with {errors}")
