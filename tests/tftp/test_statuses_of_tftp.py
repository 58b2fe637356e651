"""The status and the messages of `tftp`, whichever way it ends."""
import os
from pathlib import Path

import pytest

from lib.ends import expect
from lib.scene import RETRIES
from lib.sections import table

NOWHERE, LONG_NAME = "127.0.0.1:9", "a" * 513
# The cause of a file that does not fit its blocks, and of what no server may send
TOO_LARGE, WRONG = "more than 65,535 blocks; try a larger --blksize\n", "ADDRESS: sent what no server may send"
ROWS = table(Path(__file__).with_name("statuses.txt"))
ANSWERS, LOCALS = ([row[1:] for row in ROWS if row[0] == kind] for kind in ["answer", "local"])
# an ERROR whose text is longer than what is shown
LONG = ["\0\5\0\0" + "A" * 600, "", "Illegal", f"{WRONG}: ERROR 0 ({'A' * 512})"]


@pytest.mark.parametrize("answer, options, outcome, cause", [*ANSWERS, LONG],
                         ids=[f"{row[0][:20]!r} {row[2]}" for row in [*ANSWERS, LONG]])
def test_answers(scene, answer, options, outcome, cause) -> None:
    requests = scene.port()
    client = scene.tftp("get", requests.word, "a", "local", *options.split())
    scene.port().send(answer.encode("latin-1"), requests.receive()[1])
    client.ends(1, "", f"tftp: {outcome}\ntftp: {cause.replace('ADDRESS', requests.word)}\n")


def test_an_output_takes_nothing(scene) -> None:
    """The file is there, though that cannot be said."""
    scene.make("served/a", b"ABC")
    server = scene.serve("--forever", root="served")
    reader, writer = os.pipe()
    os.close(reader)
    with open("/dev/full", "wb") as full, open(writer, "wb") as broken:
        for name, output, reason in [("one", full, "no space"), ("two", broken, "broken pipe")]:
            words = ["get", server.word, "a", name, "--no-dally", *RETRIES]
            scene.fails("tftp", words, f"tftp: output fault\ntftp: standard output: {reason}\n", stdout=output)
            expect(scene.content(name), b"ABC", "the file")


@pytest.mark.parametrize("program", ["tftp", "tftpd", "tftp-show", "tftp-play"])
def test_a_help_that_cannot_be_written(scene, program) -> None:
    """Status 2: the contracts do not say what became of the text."""
    with open("/dev/full", "wb") as full:
        scene.fails(program, ["--help"], "", stdout=full)


def words_of(command) -> list[str]:
    return command.replace("SERVER", NOWHERE).split(" ")


def in_a_folder(scene) -> None:
    scene.make_all({"abc": b"ABC", "long": bytes(65_535 * 8), "folder.part": None, "link": "abc",
                    "dangling": "nowhere"})
    os.mkfifo(scene.folder / "fifo")


def with_a_long_name(words) -> list:
    return [LONG_NAME if word == "a" else word for word in words]


@pytest.mark.parametrize("command, cause", LOCALS)
def test_an_unusable_local(scene, command, cause) -> None:
    """Status 2, in the order command line, LOCAL, socket, opening: also where the later hold, too. Nothing is made."""
    in_a_folder(scene)
    errors, before = f"tftp: file fault\ntftp: {cause}\n", sorted(path.name for path in scene.folder.iterdir())
    words = words_of(command)
    scene.fails("tftp", words, errors)
    scene.fails("tftp", with_a_long_name(words), errors)
    scene.fails("tftp", words, errors, limit="-n 4")
    scene.fails("tftp", [*words, "--blksize", "7"])
    expect(sorted(path.name for path in scene.folder.iterdir()), before, "what is there")


def test_no_socket(scene) -> None:
    """Standard input, output and error and LOCAL are all that may be open."""
    in_a_folder(scene)
    for words in map(words_of, ["get SERVER a fresh", "put SERVER abc a"]):
        for each in [words, with_a_long_name(words)]:
            fault = "tftp: socket fault\ntftp: no socket: too many open files\n"
            scene.fails("tftp", each, fault, limit="-n 4")
        scene.fails("tftp", [*words, "--retries", "11"], limit="-n 4")


def test_no_request(scene) -> None:
    """No name, one that no request has room for, and a file of more blocks than have numbers."""
    in_a_folder(scene)
    errors = "tftp: BadRequest\ntftp: the name is empty, or the request longer than 512 bytes\n"
    for command in ["get SERVER  fresh", f"get SERVER {LONG_NAME} fresh", f"put SERVER abc {LONG_NAME}"]:
        scene.fails("tftp", words_of(command), errors)
    scene.fails("tftp", words_of("put SERVER long n --blksize 8"), f"tftp: TooLarge\ntftp: long: {TOO_LARGE}")
