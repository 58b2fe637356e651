"""What one test has: a folder and an address of its own, the two programs, ports and proxies. All end with the
test."""
import os
import re
import select
import signal
import subprocess
from contextlib import ExitStack, closing
from pathlib import Path
from typing import Any, Optional, Sequence

from lib.ends import PATIENCE, PATIENT, End, Port, ack, data, expect, oack, rrq, wait_until, wrq
from lib.packets import line_of
from lib.preload import compiled
from lib.process import LIMITED
from lib.programs import TOP
from lib.proxy import Proxy

# The longest life of a program, in seconds: it ends before a timeout of a patient transfer is due
LIFE = 180
# How often a program sends again what is not answered, unless the test says otherwise: as often as it can
RETRIES = ["--retries", "10"]
# The words of a patient transfer. A client that ends at all in a test ends before its first timeout
PATIENTLY = ["--timeout", f"{PATIENT['timeout']}"]
# where the number of a server stands in a line, behind the priority that the journal takes
MARKED = r"server (\d+): "


def next_line(stream) -> str:
    """The next line that a program writes to this stream, or nothing at its end."""
    if not select.select([stream], [], [], PATIENCE)[0]:
        raise AssertionError(f"no line after {PATIENCE} seconds")
    return stream.readline().decode()


def written_by(process, patience=LIFE) -> tuple[str, str]:
    """What a program has printed and written as errors, once it has ended."""
    printed, errors = ((text or b"").decode(errors="replace") for text in process.communicate(timeout=patience))
    return printed, errors


def preloaded(scene, source: str, **values: Any) -> dict[str, str]:
    """The environment of a program with a library of this source of tests/shims, which reads these variables."""
    # (beside the folder of the test, which may be served)
    folder = scene.beside("libraries")
    folder.mkdir(exist_ok=True)
    library = compiled(folder, TOP / "tests/shims" / source)
    return {**os.environ, "LD_PRELOAD": str(library), **{name: str(value) for name, value in values.items()}}


def patiently(words: Sequence[Any]) -> list[Any]:
    """The words of a command line, with the most retries if they name none."""
    return [*words, *([] if "--retries" in words else RETRIES)]


class Client:
    """A tftp that was started."""

    def __init__(self, process) -> None:
        self.process = process

    def ends(self, status, printed: Optional[str] = "", errors: Optional[str] = "", life=LIFE) -> None:
        """It ends with this status, and has written exactly this; None is for a stream that the test reads."""
        wrote = [text if text is None else text.decode() for text in self.process.communicate(timeout=life)]
        expect((self.process.returncode, *wrote), (status, printed, errors), "the client")

    def completes(self, length: int, life=LIFE) -> None:
        """It reports a complete transfer of a file of this length, within so many seconds."""
        self.ends(0, f"complete {length}\n", life=life)

    def fails(self, outcome: str, cause="") -> None:
        """It reports a transfer that failed with this outcome, and its cause, in a line on standard error each."""
        printed, errors = written_by(self.process)
        pattern = rf"tftp: {re.escape(outcome)}\ntftp: {re.escape(cause) or '.+'}\n"
        found = (self.process.returncode, printed, bool(re.fullmatch(pattern, errors)))
        expect(found, (1, "", True), f"the client, and whether {pattern!r} is what it writes, {errors!r}")


class Server:
    """A tftpd that listens: its address, also as a word of a command line, and clients of it at ports of the test."""

    def __init__(self, scene, process) -> None:
        self.scene, self.process = scene, process
        line = next_line(process.stdout)
        found = re.fullmatch(r"listening ((\d+\.\d+\.\d+\.\d+):(\d+))\n", line)
        expect(bool(found), True, f"whether the first line of the server says where it listens: {line!r}")
        self.word, self.address = found[1], (found[2], int(found[3]))
        if "--log" in process.args and not {"--servers", "--log-time"} & set(process.args):
            expect(next_line(process.stderr), line, "the first line of the log")

    # ---- what clients send to it

    def asked(self, request: bytes, port: Optional[Port] = None) -> Port:
        """A port, new if none is given, that has sent this to the request port."""
        port = port or self.scene.port()
        port.send(request, self.address)
        return port

    def opens(self, request: bytes, expected: bytes, port: Optional[Port] = None) -> End:
        """Answers a request by this from a new port. Returns the end of the transfer."""
        end = self.asked(request, port).opened(expected)
        expect(end.peer != self.address, True, "whether the transfer has a port of its own")
        return end

    def reads(self, name, mode="octet", port=None, **options) -> End:
        """Opens a read of which nothing is sent again, and which has no block yet."""
        return self.opens(rrq(name, mode, **options, **PATIENT), oack(**options, **PATIENT), port)

    def writes(self, name, port=None, **options) -> End:
        """Opens a write of which nothing is sent again."""
        return self.opens(wrq(name, **options, **PATIENT), oack(**options, **PATIENT), port)

    def first_block(self, name: str, block: bytes) -> End:
        """Opens a read, and sends its first block, which is not sent again."""
        end = self.reads(name)
        end.is_answered(ack(0), data(1, block))
        return end

    def gives(self, name: str, block: bytes) -> End:
        """Serves a file of one block."""
        end = self.first_block(name, block)
        end.send(ack(1))
        return end

    def refuses(self, request: bytes, expected: bytes, why: Optional[str] = None) -> None:
        """The request port answers a request by this ERROR. With a reason, also an empty one, the next line of the
        log has it."""
        end = End(self.scene.port(), self.address)
        end.is_answered(request, expected)
        if why is not None:
            reason = f"ERROR {expected[3]} ({expected[4:-1].decode()}){', ' if why else ''}{why}"
            expect(self.log_line(), f"refused {end.port.word} {line_of(request)}: {reason}", "the line of a refusal")

    # ---- its end, and what it has written

    def ended(self) -> tuple[int, list[str], list[str]]:
        """Its status, what it printed and its log, once nobody has its pipes any more."""
        printed, log = (text.splitlines() for text in written_by(self.process))
        return self.process.returncode, printed, log

    def has_closed(self, *outcomes: str, why="") -> list[str]:
        """It ends with status 0, and has printed a line for each closed transfer, with these outcomes; the log ends
        with the last of them and this reason. Returns the log, without requests that a client repeated because the
        host is slow."""
        status, printed, log = self.ended()
        found = [re.sub(r"\d+ \d+ (\S+)", r"\1", line) for line in printed]
        expect((status, *found), (0, *outcomes), f"the status and the outcomes in {printed}, {log}")
        if why:
            expect(log[-1].endswith(f", {outcomes[-1]}, {why}"), True, f"whether the log {log} has {why}")
        return [line for at, line in enumerate(log) if not line.startswith("ignored ")
                and not (line.startswith("refused ") and line in log[:at])]

    def log_line(self) -> str:
        """The next line of its log."""
        return next_line(self.process.stderr).rstrip("\n")

    def closes(self, *reasons: str) -> None:
        """The next lines of its log are those of a transfer that opens and closes, and end with these."""
        lines = [self.log_line() for _ in range(2)]
        logs(lines, "opened .*", f"closed .*, {re.escape(', '.join(reasons))}")

    def has_logged(self, count: int) -> list[str]:
        """Waits for so many lines of its log, and kills it. Returns them, and any that came behind."""
        lines = [self.log_line() for _ in range(count)]
        self.process.kill()
        return [*lines, *written_by(self.process)[1].splitlines()]

    def has_logged_only(self, *patterns: str) -> None:
        """Its log has these lines, and is killed."""
        logs(self.has_logged(len(patterns)), *patterns)

    def stop(self) -> None:
        """Stops it until `go_on`."""
        self.process.send_signal(signal.SIGSTOP)
        wait_until(lambda: state_of(self.process.pid) in "TZX", "a server that stops")

    def go_on(self) -> None:
        """(Its `epoll_wait` ends by EINTR once, which counts as a wait.)"""
        self.process.send_signal(signal.SIGCONT)

    def kill(self) -> None:
        self.process.kill()
        self.process.wait(PATIENCE)


def children_of(process) -> list[int]:
    """The servers that a supervisor has started, in their order; none once it has ended."""
    if process.poll() is not None:
        return []
    return [int(word) for word in Path(f"/proc/{process.pid}/task/{process.pid}/children").read_text().split()]


def state_of(pid: int) -> str:
    """The letter of a process's state, `X` of one that is not there."""
    try:
        return Path(f"/proc/{pid}/stat").read_text().rsplit(")", 1)[1].split()[0]
    except OSError:
        return "X"


def are_gone(pids: Sequence[int]) -> bool:
    """Whether processes have ended."""
    return all(state_of(pid) in "ZX" for pid in pids)


def is_serving(pid: int) -> bool:
    """Whether a server waits: it has a poll of its own, not that of its supervisor."""
    try:
        fds = [os.readlink(f"/proc/{pid}/fd/{name}") for name in os.listdir(f"/proc/{pid}/fd")]
        return "anon_inode:[eventpoll]" in fds and b"\0--server=" in Path(f"/proc/{pid}/cmdline").read_bytes()
    except OSError:
        return False


def wait_for_servers(process, count: int) -> list[int]:
    """Waits until so many servers of a supervisor serve, or have ended with it, and returns them."""
    wait_until(lambda: sum(map(is_serving, children_of(process))) == count or process.poll() is not None,
               "servers that wait")
    return children_of(process)


def logs(log: Sequence[str], *patterns: str) -> None:
    """A log has exactly these lines."""
    are_so = len(log) == len(patterns) and all(map(re.fullmatch, patterns, log))
    expect(are_so, True, f"whether the lines of {log} are {patterns}")


class Scene:
    """The folder, and what runs for the test."""

    def __init__(self, programs: dict[str, str], folder: Path, address: str) -> None:
        self.programs, self.folder, self.address, self.ending = programs, folder, address, ExitStack()

    def __enter__(self) -> "Scene":
        self.folder.mkdir()
        return self

    def __exit__(self, *_: object) -> None:
        self.ending.close()

    # ---- files

    def beside(self, name: str) -> Path:
        """A path of the test beside its folder."""
        return self.folder.with_name(f"{self.folder.name}.{name}")

    def make(self, name: str, content) -> None:
        """Makes a file of bytes, a link to a path or, of None, a folder, and the folders on its path."""
        path = self.folder / name
        path.parent.mkdir(parents=True, exist_ok=True)
        match content:
            case None:
                path.mkdir()
            case str():
                path.symlink_to(content)
            case _:
                path.write_bytes(content)

    def make_all(self, contents: dict[str, Any]) -> None:
        for name, content in contents.items():
            self.make(name, content)

    def content(self, name: str) -> bytes:
        return (self.folder / name).read_bytes()

    def mode_of(self, name: str) -> int:
        return (self.folder / name).stat().st_mode & 0o7777

    def files(self) -> dict[str, bytes]:
        """The regular files in the folder and below, with their bytes."""
        paths = [path for path in self.folder.rglob("*") if path.is_file() and not path.is_symlink()]
        return {str(path.relative_to(self.folder)): path.read_bytes() for path in paths}

    def drafts(self) -> list[str]:
        """The drafts in the folder and below."""
        return sorted(str(path.relative_to(self.folder)) for path in self.folder.rglob(".tftp-*"))

    def has(self, files=(), **more: bytes) -> None:
        """The folder and those below have these regular files, with these bytes, and no other."""
        expected, found = dict(files, **more), self.files()
        expect(sorted(found), sorted(expected), "the files")
        for name, content in expected.items():
            expect(found[name], content, name)

    def lacks(self, *names: str) -> None:
        """No file has one of these names."""
        expect([name for name in names if os.path.lexists(self.folder / name)], [], f"which of {names} are there")

    # ---- programs

    def start(self, program: str, words: Sequence[Any], limit="", closed: Optional[int] = None, **how: Any) -> Any:
        """Starts a program, under a limit, or with one of the standard streams closed."""
        command = [self.programs.get(program, program), *words]
        if limit:
            command = ["sh", "-c", LIMITED, limit, *command]
        if closed is not None:
            command = ["sh", "-c", f'exec "$@" {closed}>&-', "sh", *command]
        how = {"stdin": subprocess.DEVNULL, "stdout": subprocess.PIPE, "stderr": subprocess.PIPE, **how}
        process = self.ending.enter_context(subprocess.Popen(command, cwd=self.folder, bufsize=0, **how))
        self.ending.callback(process.kill)
        return process

    def ends(self, program, words, status, errors="", printed="", begins=False, **how) -> None:
        """A program ends at once with this status, and has written exactly this, or what begins so."""
        process = self.start(program, words, **how)
        wrote = written_by(process, PATIENCE)
        found = [text[:len(wanted)] if begins else text for text, wanted in zip(wrote, [printed, errors])]
        expect((process.returncode, *found), (status, printed, errors), f"{program} {words}, which wrote {wrote}")

    def fails(self, program, words, errors="error: ", **how) -> None:
        """It ends with status 2, and has written exactly this, or is not understood."""
        self.ends(program, words, 2, errors, begins=errors == "error: ", **how)

    def has_help(self, program: str, *words: str) -> str:
        """Help and version end with 0, and write on standard output alone. Returns the help, which is the text of
        tests/help, if any."""
        process = self.start(program, [*words, "--help"])
        printed, errors = written_by(process, PATIENCE)
        text = TOP / f"tests/help/{'-'.join([program, *words])}.txt"
        expect((process.returncode, errors, "Usage:" in printed), (0, "", True), f"{program} {words} --help")
        expect(printed, text.read_text() if text.exists() else printed, "the help")
        if not words:
            version = re.findall(r"(?m)^VERSION := (.*)$", (TOP / "Makefile").read_text())[0]
            self.ends(program, ["--version"], 0, "", f"{program} {version} (logic ", begins=True)
        return printed

    def tftp(self, *words, **how) -> Client:
        """Starts a client with these words."""
        return Client(self.start("tftp", patiently(words), **how))

    def gets(self, at, name: str, local: str, length: int, *words) -> None:
        """A client gets a file of this length of a server, which is the word of its address or has one."""
        self.tftp("get", getattr(at, "word", at), name, local, "--no-dally", *words).completes(length)

    def asked(self, requests: Port, expected: bytes) -> End:
        """Receives a request at a port. Returns the server's end of the transfer."""
        request, client = requests.receive()
        expect(request, expected, "the request")
        return End(self.port(), client)

    def asks(self, verb: str, names: Sequence[str], expected: bytes, *words, **how) -> tuple[Client, End]:
        """Starts a client with these names and words, and receives its request. Returns it and the server's end,
        which has not answered."""
        requests = self.port()
        client = self.tftp(verb, requests.word, *names, *words, **how)
        return client, self.asked(requests, expected)

    def begun_get(self, *words, **how) -> tuple[Client, End]:
        """The same for a get of `a` into `local`, in which nothing is sent again."""
        return self.asks("get", ["a", "local"], rrq("a", **PATIENT), *PATIENTLY, *words, **how)

    def patient_get(self, *words, **how) -> tuple[Client, End]:
        """The same once the client has acknowledged its options."""
        client, end = self.begun_get(*words, **how)
        end.is_answered(oack(**PATIENT), ack(0))
        return client, end

    def serve(self, *words, root=".", listen="", **how) -> Server:
        """Starts a server of a folder with these words, under a limit such as `-f 8`: 8 times 512 bytes in a file."""
        return Server(self, self.start("tftpd", self.server_words(root, f"{listen or self.address}:0", words), **how))

    def serve_at(self, bound: Port, *words) -> Server:
        """Starts a server of the folder with these words, whose request port is this port of the test."""
        return Server(self, self.start("tftpd", self.server_words(".", "stdin", words), stdin=bound.socket))

    def serve_preloaded(self, source: str, *words, **values) -> Server:
        """Starts a server of the folder with a library of this source, which reads these variables."""
        return self.serve(*words, env=preloaded(self, source, **values))

    def server_words(self, root: str, address: str, words: Sequence[Any]) -> list[Any]:
        """The words of a server that ends by itself, whatever happens to the test."""
        ends = [] if {"--rounds", "--forever"} & set(words) else ["--rounds", "2000"]
        return [root, "--listen", address, *patiently(words), *ends]

    def start_several(self, count: int, *words, root=".", listen="", **how) -> Any:
        """Starts so many servers of a folder by one command."""
        command = [root, "--listen", listen or f"{self.address}:0", "--servers", f"{count}", "--forever"]
        return self.start("tftpd", [*command, *patiently(words)], **how)

    def served(self, process, count: int) -> Server:
        """Waits until each of so many servers serves, whose lines have their numbers."""
        server = Server(self, process)
        wait_for_servers(process, count)
        return server

    def serve_several(self, count: int, *words, **how) -> Server:
        """Starts so many servers of a folder, and waits until each serves."""
        return self.served(self.start_several(count, *words, **how), count)

    def port(self, number=0, address="") -> Port:
        """The UDP port of this number, which the system chooses for 0, at the address of the test or another."""
        return self.ending.enter_context(closing(Port(address or self.address, number)))

    def proxy(self, server, seed: int) -> Proxy:
        return self.ending.enter_context(closing(Proxy(server.address, seed)))
