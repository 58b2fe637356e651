"""Each request for memory of a program is refused in turn, by refuse_memory.c, which is loaded before the program. It
refuses nothing of programs that `rt try` compiled with their checks. What tftp-show, tftp-play and tftp then do has a
letter, and each command has a pattern of those of all its requests. A server whose client is not answered for lack of
memory says so in its log. The program of crates/tests_memory says behind each call that all is as before."""
import re
import select
import shutil
import subprocess
from itertools import zip_longest
from pathlib import Path
from typing import Any, NamedTuple, Optional

import pytest

from lib.addresses import own_address
from lib.answerer import Answerer
from lib.ends import Port
from lib.packets import ack, data, rrq
from lib.preload import compiled
from lib.process import Program
from lib.programs import TOP, of_crate, program

HOST, PATIENCE, CONTENT = own_address(), 300, b"fortytwo"
COUNTED = re.compile(r"counted (\d+) refused (\d+)\n\Z")


class End(NamedTuple):
    """How a run ended, and how many requests for memory it made."""
    status: int
    printed: str
    errors: str
    count: int


@pytest.fixture(scope="session")
def counter(tmp_path_factory: pytest.TempPathFactory) -> str:
    return str(compiled(tmp_path_factory.mktemp("counter"), Path(__file__).with_name("refuse_memory.c")))


def ran(counter: str, words: list[Any], refused: int, *since: str, **how: Any) -> End:
    """How a program ends without that request, which is refused if it makes as many."""
    env = {"LD_PRELOAD": counter, "REFUSED": str(refused), **dict.fromkeys(since, "1")}
    done = subprocess.run([*map(str, words)], env=env, capture_output=True, timeout=PATIENCE, **how)
    errors = done.stderr.decode()
    counts = COUNTED.search(errors)
    assert counts and int(counts[2]) == (0 < refused <= int(counts[1])), f"{words}, {refused} refused: {done}"
    return End(done.returncode, done.stdout.decode(), errors[:counts.start()], int(counts[1]))


# ---- the programs of a user

LINES = b"00040000\n00030001414243\n0001612f62006f6374657400\n0\n"
FLOW = b"0\t192.0.2.2\t1024\t192.0.2.1\t69\t000161006f6374657400\n" \
    b"1\t192.0.2.1\t1025\t192.0.2.2\t1024\t00030001414243\n2\t192.0.2.2\t1024\t192.0.2.1\t1025\t00040001\n"
SCRIPT = b"file a 414243\nget a octet\nput n netascii 0D0A blksize=8\nsettle 0\n"
# The kinds of ends: a letter, the status, and what is written to standard error. NAME is the program, FILE the local
# file. Of F and T the system refused a call on the file, since the C library had no memory for it.
KINDS = [
    ("S", 2, "NAME: out of memory\n"), ("U", 2, "error: out of memory\n"), ("O", 2, "out of memory\n"),
    ("M", 2, "tftp: Memory\n"), ("F", 2, "tftp: file fault\ntftp: FILE: another error\n"),
    ("T", 1, "tftp: StoreFault\ntftp: FILE: another error\n"),
]
# and of what goes on: all as with ample memory (W), and an event or a commit that was refused, as tftp-play prints it
REFUSED = {"E": r"refused Memory", "C": r"#\d+ \S+ > \S+ ERROR 3 \(disk full\)"}
# Each command with its input, and the kinds of its refused requests, in order
COMMANDS = [
    ("tftp-show", LINES, "S+U+S+"), ("tftp-show wire.pcap", b"", "S+U+S+"), ("tftp-show --flow", FLOW, "S+U+S+"),
    ("tftp-show --flow --json", FLOW, "S+U+S+"), ("tftp-show --flow --svg picture", FLOW, "S+U+S+"),
    ("tftp-play", SCRIPT, "S+O+U+O[OWE]+[SOWEC]+"), ("tftp-play --svg picture", SCRIPT, "S+O+U+O[OWE]+[SOWEC]+"),
    ("tftp get SERVER a local --no-dally", b"", "S+U+[FMS]+T"), ("tftp put SERVER abc a", b"", "S+U+[FMS]+W?"),
]


def answer_to(datagram: bytes) -> Optional[bytes]:
    """A read is answered by the only block of a file, a write by ACK 0, and its block by ACK 1."""
    return {b"\0\1": data(1, CONTENT), b"\0\2": ack(0), b"\0\3": ack(1)}.get(datagram[:2])


def kind_of(name: str, file: str, end: End, ample: End) -> str:
    """The letter of a run, or `?`."""
    if end[:3] == ample[:3]:
        return "W"
    for kind, status, errors in KINDS:
        wanted = status, errors.replace("NAME", name).replace("FILE", file)
        if (end.status, end.errors) == wanted and ample.printed.startswith(end.printed):
            return kind
    # (one event alone: its line takes the place of those that it has with ample memory)
    lines = end.printed.splitlines()
    first = next((ours for ours, other in zip_longest(lines, ample.printed.splitlines()) if ours != other), None)
    refused = [(kind, line) for line in lines for kind, words in REFUSED.items() if re.fullmatch(words, line)]
    is_open = any(re.match(r"end \d+ client-.* complete=no ", line) for line in lines)
    is_one = name == "tftp-play" and [line for _, line in refused] == [first]
    return refused[0][0] if is_one and (end.status, end.errors) == (is_open, "") else "?"


@pytest.mark.parametrize("command, given, wanted", COMMANDS, ids=[command for command, _, _ in COMMANDS])
def test_each_request_of_a_command(command: str, given: bytes, wanted: str, counter: str, tmp_path: Path) -> None:
    (tmp_path / "abc").write_bytes(b"ABC")
    shutil.copy(TOP / "examples/wire.pcap", tmp_path)
    name, *words = command.replace("SERVER", Answerer(HOST, answer_to).word).split()

    def run(refused: int) -> End:
        for path in ["local", "local.part"]:
            (tmp_path / path).unlink(missing_ok=True)
        return ran(counter, [program(name), *words], refused, "FROM_START", "FROM_OUTPUT", input=given, cwd=tmp_path)

    ample, kinds = run(0), ""
    assert not ample.errors and ample.status < 2, ample
    if not ample.count:
        pytest.skip("it is compiled with checks")
    for refused in range(1, ample.count + 1):
        end = run(refused)
        kinds += kind_of(name, "abc" if "put" in words else "local", end, ample)
        # a local file is whole or not there, and its draft is there only where it could not be stored or named
        is_whole = not (tmp_path / "local").exists() or (tmp_path / "local").read_bytes() == CONTENT
        assert is_whole and (kinds[-1] == "T" or not (tmp_path / "local.part").exists()), f"request {refused}: {end}"
        assert kinds[-1] != "?", f"request {refused} of {ample.count}: {end}"
    assert re.fullmatch(wanted, kinds), kinds


# ---- the server


def test_each_request_of_a_servers_start(counter: str, tmp_path: Path) -> None:
    """Whichever is refused before it serves, it says that it is out of memory."""
    words = [program("tftpd"), tmp_path, "--listen", f"{HOST}:0", "--rounds", "1"]
    count = ran(counter, words, 0, "FROM_START").count
    ends = [ran(counter, words, refused, "FROM_START")[:3] for refused in range(1, count + 1)]
    # an environment that cannot be read names no journal: the server serves, its warnings without a priority
    others = [end for end in ends if end not in [(2, "", f"{name}: out of memory\n") for name in ("tftpd", "error")]]
    assert len(others) < 2, others
    assert all((end[0], end[1][:10], end[2]) == (0, "listening ", "") for end in others), others


def fetched(server: Program, port: int) -> Optional[int]:
    """How often a client asks until it has the file, or None where the server has ended. It asks again where the log
    says that its request was lost: no time passes for nothing, and a slow server is not asked twice."""
    client = Port(HOST)
    for requests in range(1, 10):
        client.send(rrq("a"), (HOST, port))
        while len(re.findall(r"(?m)^lost ", server.text(server.process.stderr))) < requests:
            if select.select([client.socket], [], [], 0.01)[0]:
                answer, peer = client.receive()
                assert answer == data(1, CONTENT)
                client.send(ack(1), peer)
                return requests
            if not server.take(0.01):
                return None
    raise AssertionError("no answer")


def served(counter: str, folder: Path, refused: int) -> tuple[Optional[int], int, int]:
    """How often the client asks, how many of its requests the log says are lost, and how many requests for memory
    were made. None in place of the first for a server that was refused its buffers and has ended."""
    words = [program("tftpd"), folder, "--listen", f"{HOST}:0", "--log", "--rounds", "2000", "--retries", "10"]
    env = {"LD_PRELOAD": counter, "REFUSED": str(refused), "FROM_OUTPUT": "1"}
    with Program(words, folder, PATIENCE, env=env) as server:
        requests = fetched(server, int(server.first_line().rpartition(":")[2]))
        status, printed, log = server.ended(PATIENCE)
    counts, lost = COUNTED.search(log), re.findall(rf"(?m)^lost {HOST}:\d+ RRQ a octet: out of memory$", log)
    has_ended = requests is None and status == 2 and not printed
    is_complete = requests and status == 0 and printed.endswith(" Complete\n")
    is_as_wanted = counts and int(counts[2]) == (refused > 0) and len(lost) <= 1 and (has_ended or is_complete)
    assert counts and is_as_wanted, f"with {refused} refused, status {status}: {printed}{log}"
    return requests, len(lost), int(counts[1])


def test_each_request_of_a_server_that_serves(counter: str, tmp_path: Path) -> None:
    """The transfer completes, and a request that is lost is a line of the log that says so."""
    (tmp_path / "a").write_bytes(CONTENT)
    count = served(counter, tmp_path, 0)[2]
    runs = [served(counter, tmp_path, request) for request in range(1, count + 1)]
    assert [run for run in runs if (run[0] or 1) > 1 + run[1]] == [] and any(lost for _, lost, _ in runs)


# ---- a world of both ends

AS_BEFORE = "= out of memory, all as before"
# Where a commit is refused its memory: no file, ERROR 3 `disk full`, and the name is free for the other write.
FULL = Path(__file__).with_name("refused_commit.txt").read_text().splitlines()


def test_memory_in_turn(counter: str) -> None:
    """Of one request one call is out of memory and left all as before, and all else is as with ample memory; or a
    commit is."""
    scenes, expected = of_crate("tests_memory"), (TOP / "crates/tests_memory/stdout").read_text().splitlines()
    assert scenes.is_file(), f"{scenes} is not there; `rt ci` builds it"
    start = expected.index("deliver 4:", expected.index("a race for a name"))
    with_full_disk = expected[:start] + FULL + expected[expected.index("a busy server"):]
    ample, calls = ran(counter, [scenes], 0, cwd=TOP), 0
    assert ample.status == 0 and ample.printed.splitlines() == expected
    for request in range(1, ample.count + 1):
        end = ran(counter, [scenes], request, cwd=TOP)
        lines = end.printed.splitlines()
        if lines.count(AS_BEFORE) == 1:
            # (the same call again: its answer stands on a line of its own, behind no `= `)
            place = lines.index(AS_BEFORE)
            lines[place:place + 2], calls = [f"= {line}" for line in lines[place + 1:place + 2]], calls + 1
            assert lines == expected, f"request {request}"
        else:
            assert lines == with_full_disk, f"request {request}"
        assert end.status == 0, end
    # each call that sends or stores asks for memory, and a commit does
    assert 15 <= calls < ample.count
