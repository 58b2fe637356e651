"""Each call of the system that `tftp` and `tftpd` make, by strace: sockets of UDP over IPv4 alone, no path beside
their files, no read of standard input, and no process that they start; and that they end soon, and leave nothing that
runs."""
import os
import re
import time
from typing import Any, Iterator

import pytest

from lib.ends import FILE_NOT_FOUND, ILLEGAL, PATIENCE, STOP, ack, bytes_of, data, error, expect, oack, rrq, wrq
from lib.programs import may_trace
from lib.scene import Client, Server

# what a program may call, in any way: of memory, clocks, randomness and itself
FREE = set("""brk clock_gettime clock_nanosleep exit_group futex getpid getrandom getuid geteuid madvise mmap mprotect
    mremap munmap nanosleep restart_syscall rt_sigaction rt_sigprocmask sched_yield umask""".split())
# of its own descriptors, none of which is standard input; each is a file or a socket that it opened, or an output
OF_DESCRIPTORS = set("""bind close epoll_create1 epoll_ctl epoll_pwait epoll_wait fchmod fchown fcntl fdatasync flock
    fstat fsync ftruncate getdents64 getsockname getsockopt ioctl lseek newfstatat poll pread64 read recvfrom recvmsg
    sendmsg sendto setsockopt socket write writev utimensat""".split())
# of paths
OF_PATHS = set("""chmod faccessat faccessat2 link linkat lstat mkdir newfstatat open openat readlink readlinkat rename
    renameat renameat2 stat statfs statx symlink unlink unlinkat getcwd chdir""".split())
# a socket that a program may open, and the path beside its files that it may
SOCKET = re.compile(r"AF_INET, SOCK_DGRAM\|SOCK_CLOEXEC(?:\|SOCK_NONBLOCK)?, IPPROTO_(?:IP|UDP)")
OPENINGS = ("open", "openat")
OTHER_PATHS = ("/dev/null", "/proc/self/fd")
# a line of the log; and where a program begins behind its loader, which strace shows
CALL = re.compile(r"(\d+) +(\w+)\((.*)")
BEGINS = "rt_sigaction(SIGPIPE, {sa_handler=SIG_IGN"
# how long a program may take to end once all is done, in seconds
SOON = 2


@pytest.fixture
def idle() -> Iterator[int]:
    """A pipe that nobody writes to, as a terminal: a read of it would wait."""
    if not may_trace():
        pytest.skip("no strace that may trace")
    reader, writer = os.pipe()
    yield reader
    os.close(reader)
    os.close(writer)


def own_calls(log) -> list[tuple[str, str]]:
    """The calls of a program by their names and words, from where it begins."""
    lines = log.read_text(errors="replace").splitlines()
    begins = [at for at, line in enumerate(lines) if BEGINS in line]
    expect(bool(begins), True, f"whether the program begins in {len(lines)} lines of {log}")
    return [(line[2], line[3]) for line in map(CALL.match, lines[begins[-1]:]) if line]


def is_own(name, words, folder) -> bool:
    """Whether a call is one that a program may make."""
    if name == "socket" and not SOCKET.match(words) or name in OPENINGS and "O_CLOEXEC" not in words:
        return False
    if name in OF_DESCRIPTORS and words.startswith("0<"):
        return name in ("fcntl", "ioctl", "newfstatat")
    paths = re.findall(r'"((?:[^"\\]|\\.)*)"', words) if name in OF_PATHS else []
    wholes = [os.path.normpath(os.path.join(folder, path)) for path in paths]
    parents = [str(folder), *map(str, folder.parents)]
    are_own = [whole in parents or whole.startswith((f"{folder}/", *OTHER_PATHS)) for whole in wholes]
    return all(are_own) and name in FREE | OF_DESCRIPTORS | OF_PATHS


def has_own_calls_alone(scene, log, what) -> None:
    folder = scene.folder.resolve()
    wrong = [f"{name}({words[:100]}" for name, words in own_calls(log) if not is_own(name, words, folder)]
    expect(wrong[:5], [], f"the {len(wrong)} calls of {what} that are not expected")


def traced(scene, program, log, *words, **how) -> Any:
    """Starts a program below strace, in a session of its own."""
    command = ["-f", "-y", "-o", log, scene.programs[program], *words]
    return scene.start("strace", command, start_new_session=True, **how)


def has_ended(process, what) -> None:
    """It ends soon, by 0, and nothing of its group runs on."""
    begun = time.monotonic()
    status = process.wait(PATIENCE)
    expect((status, time.monotonic() - begun < SOON), (0, True), f"the status of {what}, and whether it comes soon")
    with pytest.raises(ProcessLookupError):
        os.killpg(process.pid, 0)


def test_calls_of_a_server(scene, idle) -> None:
    """Of gets and puts that are complete, refused, given up, and stopped by a client, with a log and a status."""
    content = bytes_of(1_300)
    scene.make_all({"served/a": content, "served/sub/old": b"old"})
    log = scene.folder / "server.strace"
    words = ["served", "--listen", f"{scene.address}:0", "--log", "--status", "s.prom", "--overwrite", "--drain",
             "drain.now", "--transfers", "5", "--retries", "10"]
    server = Server(scene, traced(scene, "tftpd", log, *words, stdin=idle))
    for mode in ["octet", "netascii"]:
        end = server.reads("a", mode)
        answer, number = end.answer_to(ack(0)), 1
        while len(answer) == 516:
            answer, number = end.answer_to(ack(number)), number + 1
        end.send(ack(number))
    for name in ["sub/new", "sub/old"]:
        server.opens(wrq(name, timeout=1), oack(timeout=1)).gives(content[:512], b"end")
    server.refuses(rrq("none"), FILE_NOT_FOUND)
    server.refuses(b"?", ILLEGAL)
    server.reads("a").send(STOP)
    # (the puts dally for two timeouts of a second)
    time.sleep(2)
    has_ended(server.process, "the server")
    files = sorted(name for name in scene.files() if name.startswith("served/"))
    expect(files, ["served/a", "served/sub/new", "served/sub/old"], "the files")
    has_own_calls_alone(scene, log, "a server")


def test_calls_of_a_client(scene, idle) -> None:
    """Of a get and a put that are complete, and of a get that is refused."""
    scene.make("local", b"ABC")
    requests = scene.port()
    for at, (verb, names, sent) in enumerate([("get", ["a", "got", "--no-dally"], data(1, b"ABC")),
                                              ("put", ["local", "a"], ack(1)), ("get", ["a", "none"], None)]):
        log = scene.folder / f"{at}.strace"
        words = [verb, requests.word, *names, "--timeout", "200"]
        client = traced(scene, "tftp", log, *words, stdin=idle)
        end = scene.asked(requests, (rrq if verb == "get" else wrq)("a", timeout=200))
        if sent is None:
            end.send(error(1, "file not found"))
            Client(client).fails("PeerError(1)")
        else:
            end.is_answered(oack(timeout=200), ack(0) if verb == "get" else data(1, b"ABC"))
            end.send(sent)
            has_ended(client, f"a {verb}")
        has_own_calls_alone(scene, log, f"a client that runs {words}")
    expect(sorted(name for name in scene.files() if not name.endswith(".strace")), ["got", "local"], "the files")
