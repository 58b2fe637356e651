"""Both programs over a network that loses, repeats and reorders datagrams (lib/proxy.py), in both modes and blocks of
every size, on a host that stops one of the two for a moment now and then.

A client completes with the whole file or times out. The line of the server is matched with what its client reports:
it reports a read as complete only if the client has the file, and a client reports a write as complete only if the
server does (RFC 1350, section 6). No other outcome is allowed, and some transfers of each kind have to be complete.
"""
import random
import signal
import time
from collections import Counter
from concurrent.futures import ThreadPoolExecutor
from contextlib import closing, suppress
from pathlib import Path

from lib.process import Failure, Program, Server
from lib.proxy import Proxy
from ports import HOST, LIFE, has_least

# So many clients run side by side, and so many for each second of a trial; in a share of their transfers one side is
# stopped, for so many seconds at most
AT_ONCE, CLIENTS_A_SECOND, STOPS, STOPPED = 6, 1.5, 0.2, 0.4
EDGES = [0, 1, 511, 512, 513, 1_023, 1_024, 1_427, 1_428, 1_429, 14_280, 65_464, 70_000]
# which share of all transfers has to be complete
SHARE = 1 / 3


def transfer(programs, folder, rng, at) -> bool:
    """A get or a put through a proxy at a server of its own. Returns whether it is complete."""
    verb, words = "put" if at % 2 else "get", ["--blksize", rng.choice(["8", "512", "1428", "65464"])]
    words = words * (rng.random() < 0.6) + ["--netascii"] * (rng.random() < 0.3) + ["--tsize"] * (rng.random() < 0.3)
    length = rng.choice(EDGES) % (200 if "8" in words else 70_001)
    content = (b"text\r\n\n\r" * (length // 8 + 1))[:length] if "--netascii" in words else rng.randbytes(length)
    given, path = folder / f"s{at}", folder / f"t{at}"
    given.write_bytes(content)
    with Server(programs["tftpd"], HOST, folder, ["--transfers", "1", "--max-block", "65464"], 2 * LIFE) as server, \
            closing(Proxy(server.address, rng.randrange(2**32))) as proxy, \
            Program([programs["tftp"], verb, proxy.word, given.name, path.name, *words], folder, LIFE) as client:
        stopped = rng.choice([server, client])
        # (one may have ended by then)
        with suppress(Failure, ProcessLookupError):
            for number in [signal.SIGSTOP, signal.SIGCONT] * (rng.random() < STOPS):
                stopped.signal(number)
                time.sleep(rng.random() * STOPPED)
        status, printed, errors = client.ended(LIFE)
        is_complete = (status, printed, errors) == (0, f"complete {length}\n", "")
        if not is_complete and (status, printed, errors.split("\n")[0]) != (1, "", "tftp: TimedOut"):
            raise Failure(f"{verb} {at}: status {status}: {printed!r} {errors!r}")
        # (it closes the transfer in time, if there was one)
        closed = server.first_line().split()[2] if proxy.transfer or is_complete else "TimedOut"
    if closed not in ("Complete", "TimedOut"):
        raise Failure(f"the server closes the transfer of a client as {closed}")
    if (is_complete or path.exists()) and path.read_bytes() != content:
        raise Failure(f"{verb} {at}: {printed!r}, and the file differs")
    if verb == "get" and closed == "Complete" and not is_complete:
        raise Failure(f"the server reports a read as complete, and its client {errors!r}")
    if verb == "put" and is_complete and closed != "Complete":
        raise Failure(f"the client reports a write as complete, and the server {closed}")
    return is_complete


def run(programs, folder: Path, rng, seconds) -> "Counter[str]":
    """Runs some clients a second, some of them side by side. Returns the counts."""
    most, seed = max(int(seconds * CLIENTS_A_SECOND), AT_ONCE), rng.random()
    with ThreadPoolExecutor(AT_ONCE) as pool:
        own = [random.Random(f"{seed} {at}") for at in range(most)]
        found = [*pool.map(transfer, [programs] * most, [folder] * most, own, range(most))]
    counts = Counter({"transfers": most, "reads complete": sum(found[::2]), "writes complete": sum(found[1::2])})
    has_least(counts)
    if sum(found) < SHARE * most:
        raise Failure(f"too few transfers are complete: {counts}")
    return counts
