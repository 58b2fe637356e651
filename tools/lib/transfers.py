"""What the examples over the library for C do at servers: each that gets or puts does so at tftpd, at the example
that serves, and at servers of other projects, through a good network and through one that loses, duplicates and
reorders datagrams; each file is compared byte for byte, and each example is refused a file that is not there. Trials
run side by side, each in a folder and at an address of its own."""
import os
import random
import re
import subprocess
import tempfile
from concurrent.futures import ThreadPoolExecutor
from dataclasses import dataclass
from functools import partial
from pathlib import Path
from types import SimpleNamespace
from typing import Any, Callable, Iterator

from lib import others
from lib.addresses import own_network
from lib.ends import expect, free_ports, is_bound, wait_until
from lib.examples import run
from lib.scene import Scene, next_line

PATIENCE = 300
# how an example runs
ALONE: dict[str, Any] = {"stdin": subprocess.DEVNULL, "capture_output": True, "timeout": PATIENCE}
# How many trials run at a time: they wait more than they compute
AT_ONCE = 10
# How often a transfer through a bad network is tried, and how an example says that it was not complete: its peer has
# not answered six times in a row, or has ended before its last ACK arrived
TRIES = 8
TIMED_OUT = re.compile(r"timed out|outcome 2 ")
# Lengths of files: none, and around blocks of 512 and of 1428 bytes; and those of a bad network or a slow checker
LENGTHS = [0, 1, 511, 512, 513, 1428, 20_000]
FEW = [513, 6_000]


def content(length) -> bytes:
    return random.Random(length).randbytes(length)


def together(jobs) -> None:
    """Runs all of these at a time; the first fault counts."""
    with ThreadPoolExecutor(max(len(jobs), 1)) as pool:
        for done in [pool.submit(job) for job in jobs]:
            done.result()


# ---- what an example does at a server

LANGUAGES = ["", " in C++", " in Rust", " in Go", " in Python"]
EXAMPLES = ["bare", *(f"{verb}{language}" for verb in ["get", "put"] for language in LANGUAGES)]


def words_of(example, built, way, name, local, blksize, *mode) -> dict[str, Any]:
    """What starts an example that gets f<length> and stores it, or puts it: its words, and its environment. A put
    takes the file that a get would ask for, and names it as that is stored."""
    if example == "bare":
        more = {"SERVER": way[0], "PORT": way[1], "NAME": name, "LOCAL": local}
        return {"args": built.command(example), "env": {**os.environ, **more}}
    names = [local, name] if puts(example) and example != "put" else [name, local]
    address = [":".join(way)] if example.endswith(" in Rust") else way
    return {"args": built.command(example, *address, *names, blksize, *mode), "env": {**os.environ}}


def puts(example) -> bool:
    return example.startswith("put")


@dataclass
class Site:
    """A server, and the network to it: each transfer through a bad one has a proxy of its own."""
    name: str
    scene: Any
    server: Any
    lossy: bool

    def way(self, seed) -> list[str]:
        """Its address as two words."""
        return (self.scene.proxy(self.server, seed) if self.lossy else self.server).word.split(":")


def transfers(site, built, example, seed, length, blksize, compare=None) -> None:
    """An example gets or puts a file of this length, which is compared. Through a bad network it has some tries: one
    that is not complete has to say so."""
    scene = site.scene
    for number in range(TRIES if site.lossy else 1):
        stored = f"{re.sub('[^a-z0-9]', '', example.lower())}{length}.{number}"
        how = words_of(example, built, site.way(seed + 100 * number), f"f{length}", stored, blksize)
        done = subprocess.run(**how, cwd=scene.folder, **ALONE, text=True)
        if done.returncode == 0:
            if site.name == "atftpd" and puts(example):
                has_written(scene.folder / stored, length)
            (compare or is_stored)(scene, stored, length, example)
            return
        said = f"{example} of {length} bytes: status {done.returncode}: {done.stdout[-2000:]}{done.stderr[-2000:]}"
        expect((done.returncode, bool(TIMED_OUT.search(done.stdout)), site.lossy), (1, True, True), said)
    raise AssertionError(f"{example} of {length} bytes was complete in none of {TRIES} tries")


def refused(site, built, example) -> None:
    """A file that the server has not: the example says that it is not complete."""
    how = words_of(example, built, site.way(0), "none.at.all", "none.got", 0)
    run(*how["args"], cwd=site.scene.folder, env=how["env"], status=1)


def has_written(path, length) -> None:
    """Waits until atftpd has written a file that was put: it acknowledges the last block before that."""
    wait_until(lambda: path.is_file() and path.stat().st_size >= length, f"{length} bytes in {path}")


def is_stored(scene, local, length, what) -> None:
    expect((scene.folder / local).read_bytes(), content(length), f"what {what} stored of {length} bytes")


def lengths(built, lossy) -> list[int]:
    return FEW if lossy or built.is_slow else LENGTHS


def at_server(site, built, put=True) -> None:
    """All that these examples do at a server, at the same time."""
    examples = [it for it in EXAMPLES if built.has(it) and (put or not puts(it))]
    jobs: list[Callable[[], None]] = [partial(refused, site, built, it) for it in examples
                                      if it.startswith("get") and not site.lossy]
    for number, length in enumerate(lengths(built, site.lossy)):
        site.scene.make(f"f{length}", content(length))
        for example in examples:
            jobs.append(partial(transfers, site, built, example, len(jobs), length, [0, 1428][number % 2]))
    together(jobs)


# ---- tftpd

def by_tftpd(scene, built, lossy) -> None:
    # (a count of transfers would have one more where an answer comes late and the request is sent again)
    server = scene.serve("--forever")
    at_server(Site("tftpd", scene, server, lossy), built)
    in_netascii(scene, built, server)


def languages(built) -> list[str]:
    """Those whose examples take both modes, as the ends of their names."""
    return [it for it in LANGUAGES if built.has(f"get{it}") and built.has(f"put{it}")]


def in_netascii(scene, built, server) -> None:
    """A text with every line end is put in netascii and read again, in both modes, and is the same."""
    text = content(2_000) + b"\n\r\r\n" * 300
    scene.make("text", text)

    def moves(verb, language, name, local, *more) -> None:
        how = words_of(f"{verb}{language}", built, server.word.split(":"), name, local, *more)
        run(*how["args"], cwd=scene.folder, env=how["env"])

    def is_same(language) -> None:
        lines = f"lines{LANGUAGES.index(language)}"
        moves("put", language, "text", lines, 512, "netascii")
        for local, mode in [(f"{lines}.text", ["netascii"]), (f"{lines}.file", [])]:
            moves("get", language, lines, local, 1428, *mode)
            expect((scene.folder / local).read_bytes(), text, f"the text that was put{language}, as {local}")

    together([partial(is_same, it) for it in languages(built)])


# ---- the example that serves files in memory

def place(host, number) -> Any:
    """Where a server is to listen."""
    return SimpleNamespace(address=(host, number), word=f"{host}:{number}")


def serves(scene, built) -> tuple[Any, Any]:
    """Starts the server of files in memory, and returns where it is, and the process."""
    for name, length in [("disk", 3_000), *((f"f{length}", length) for length in FEW)]:
        scene.make(name, content(length))
    at = place(scene.address, free_ports(1))
    words = built.command("serve", *at.address, "memory=disk", *[f"f{length}=f{length}" for length in FEW])
    process = scene.start(words[0], words[1:])
    expect(next_line(process.stdout), "serving\n", "the first line of serve")
    return at, process


def ended(process) -> None:
    """It frees all that it has when it ends, with whatever transfers are open."""
    process.terminate()
    expect(process.wait(PATIENCE), 0, "the status of serve")


def by_library(scene, built, lossy) -> None:
    """The server of files in memory against the other examples in C, which put new files, and against tftp."""
    server, process = serves(scene, built)
    site, way = Site("serve", scene, server, lossy), server.word.split(":")

    def is_read_by_tftp(_, name, length, what, seed=None) -> None:
        """What the server has under this name, through a good network or the bad one."""
        at = ":".join(way if seed is None else site.way(seed))
        scene.tftp("get", at, name, f"{name}.read", "--blksize", "1000").completes(length)
        is_stored(scene, f"{name}.read", length, f"tftp, of {what},")

    examples = [it for it in EXAMPLES if built.has(it)]
    together([partial(transfers, site, built, it, seed, FEW[seed % 2], [0, 1428][seed % 2],
                      is_read_by_tftp if puts(it) else None) for seed, it in enumerate(examples)]
             + [partial(is_read_by_tftp, scene, "memory", 3_000, "memory", 10)])
    run(*built.command("get", *way, "none", "none.got"), cwd=scene.folder, status=1)
    # of a get whose file cannot be stored, as on a disk that is full, its server has an ERROR, and ends the transfer by
    # that (outcome 3): a client that left in silence would time out (outcome 2)
    run(*built.command("get", *way, "memory", "/dev/full"), cwd=scene.folder, status=1)
    lines = iter(lambda: next_line(process.stdout), "")
    outcomes = (line.split(" outcome ")[1] for line in lines if re.search("read memory.* outcome [^1]", line))
    expect(next(outcomes, ""), "3\n", "how a get of /dev/full has ended at its server")
    # the example of the manual gets a file to its standard output
    done = subprocess.run(built.command("manual", *way, f"f{FEW[0]}"), **ALONE)
    expect((done.stderr, done.stdout), (b"complete\n", content(FEW[0])), "what the manual's example gets")
    in_netascii(scene, built, server)
    ended(process)


# ---- other projects' servers and clients

# Each server by its program: whether it takes puts, and further words of it: an atftpd repeats a block after a second
ATFTPD = os.environ.get("ATFTPD", "atftpd")
PEERS = {"in.tftpd": (True, []), ATFTPD: (True, ["--retry-timeout", "1"]), "dnsmasq": (False, list[str]())}


def peers() -> list[str]:
    """The servers of other projects that are here and may be started: only root may."""
    return [name for name in PEERS if os.geteuid() == 0 and others.is_installed(name)]


def started(scene, peer) -> Any:
    """Starts it over the folder, and returns where it is."""
    os.chmod(scene.folder, 0o777)
    at = place(scene.address, 69 if peer == "dnsmasq" else free_ports(1))
    command, *words = others.server(peer, at.address, scene.folder)
    process = scene.start(command, [*PEERS[peer][1], *words], stdout=subprocess.DEVNULL, stderr=subprocess.DEVNULL)
    is_bound(at.word, process)
    return at


def by_peer(scene, built, lossy, peer) -> None:
    """The clients against another project's server over the folder."""
    at_server(Site(Path(peer).name, scene, started(scene, peer), lossy), built, PEERS[peer][0])


# The clients whose gets go through a bad network, too, and whose puts do not. A curl (7.88) sends a DATA again after
# 72 seconds, when a server that has stored the last one has ended its dally; it takes an OACK that comes twice for a
# new one, and begins its numbers again: a get does not end, a put leaves out a block. A busybox that puts may end
# well without the ACK of its last block, and an atftp that gets gives up after some blocks that come twice.
THROUGH_LOSS = ["busybox", "tftp"]


def by_others(scene, built, program) -> None:
    """Another project's client gets from the server of files in memory, puts to it, and gets what it has put."""
    server, process = serves(scene, built)
    good = server.word.split(":")
    bad = [scene.proxy(server, 0).word.split(":")] if program in THROUGH_LOSS else []
    for way, name in [(good, "memory"), (good, program), *((way, "memory") for way in bad)]:
        if name == program:
            run(*others.command(program, "put", way, name, "disk"), cwd=scene.folder)
        run(*others.command(program, "get", way, name, "got"), cwd=scene.folder)
        is_stored(scene, "got", 3_000, program)
    ended(process)


# ---- all trials


def layout(scene, built) -> None:
    """The header is that of the library, and many transfers go on at once (tests/library/layout.c,
    examples/c/shards.c)."""
    run(*built.command("layout"))
    expect(run(*built.command("shards")), "1000 transfers at once, 1000 complete\n", "what shards prints")


def trials_of(built) -> Iterator[tuple[str, Any]]:
    """Each trial of examples by its name: those that take the longest first."""
    for lossy, network in [(True, "a bad network"), (False, "a good network")]:
        tried = [("tftpd", by_tftpd), *[("serve", by_library)] * built.has("serve")]
        tried += [(Path(peer).name, partial(by_peer, peer=peer)) for peer in peers()]
        for server, test in tried:
            yield f"{server}, {network}", partial(test, built=built, lossy=lossy)
    if built.has("serve"):
        yield "header and memory", partial(layout, built=built)


def tried(trials, programs, room=None) -> None:
    """Runs trials some at a time, each in a scene of its own, below a room; all that fail are told together."""
    network = own_network()

    def fault_of(number, what, test) -> str:
        try:
            with Scene(programs, below / f"scene{number}", f"{network}.{number}") as scene:
                test(scene)
        except Exception as fault:  # whatever happened, the others are tried
            return f"{what}: {type(fault).__name__}: {fault}"
        return ""

    with tempfile.TemporaryDirectory(prefix="trials-") as name, ThreadPoolExecutor(AT_ONCE) as pool:
        below = room or Path(name)
        below.chmod(0o755)  # some servers leave root's rights before they look
        faults = list(pool.map(lambda job: fault_of(job[0], *job[1]), enumerate(trials, 1)))
    assert not any(faults), "\n".join(filter(None, faults))
