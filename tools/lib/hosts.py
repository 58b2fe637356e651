"""Hosts as network namespaces, joined by links. Nothing leaves them, and nothing is left of them."""
import ctypes
import shutil
import subprocess
from contextlib import ExitStack, contextmanager
from typing import Iterator, Sequence

PATIENCE = 120
# the addresses of the tests, and the size of their blocks
SERVER, SECOND, CLIENT = "192.0.2.1", "192.0.2.9", "198.51.100.2"
MANY = [f"198.51.100.{host}" for host in range(20, 220)]
BLOCK = 1428
# a process apart from this host's networks, mounts and processes
APART = ["unshare", "--map-root-user", "--net", "--mount", "--pid", "--fork", "--kill-child", "--mount-proc"]
# the kind of a namespace of networks, of `sched.h`
CLONE_NEWNET = 0x40000000


class Host:
    """A namespace, as long as a process of its own runs in it."""

    def __init__(self, stack: ExitStack) -> None:
        # (it says that it is there: before that, its namespace is still ours)
        self.process = subprocess.Popen(["unshare", "--net", "sh", "-c", "echo; exec sleep 3600"], stdout=subprocess.PIPE)
        stack.callback(self.process.wait)
        stack.callback(self.process.kill)
        assert self.process.stdout
        self.process.stdout.readline()
        self.run("ip link set lo up")

    def words(self, *words: object) -> list[str]:
        return ["nsenter", "--target", str(self.process.pid), "--net", *map(str, words)]

    @contextmanager
    def inside(self) -> Iterator[None]:
        """The sockets that this thread makes meanwhile are of this host."""
        # (os.setns is there from Python 3.12 on)
        setns = ctypes.CDLL(None).setns
        with open("/proc/thread-self/ns/net") as own, open(f"/proc/{self.process.pid}/ns/net") as other:
            assert setns(other.fileno(), CLONE_NEWNET) == 0
            try:
                yield
            finally:
                assert setns(own.fileno(), CLONE_NEWNET) == 0

    def run(self, script: str) -> None:
        """Runs shell commands here."""
        done = subprocess.run(self.words("sh", "-e", "-c", script), capture_output=True, text=True, timeout=PATIENCE)
        if done.returncode:
            raise AssertionError(f"{script}: {done.stderr}")

    def rules(self, text: str) -> None:
        """Has these rules alone: commands, or a text for `nft -f`."""
        self.run("nft flush ruleset")
        self.run(text if text.startswith("nft ") else f"nft -f - << 'END'\n{text}\nEND")

    def link(self, other: "Host", name: str) -> None:
        """Joins this host and another by a link, of this name at both."""
        subprocess.run(["ip", "link", "add", f"{name}0", "type", "veth", "peer", "name", f"{name}1"], check=True)
        for host, end in [(self, f"{name}0"), (other, f"{name}1")]:
            subprocess.run(["ip", "link", "set", end, "netns", str(host.process.pid)], check=True)
            host.run(f"ip link set {end} name {name} up")


def missing(script: str, apart: Sequence[str] = APART) -> str:
    """Why shell commands cannot be run apart here, or nothing."""
    for name in ["ip", "nft", "unshare", "nsenter"]:
        if not shutil.which(name):
            return f"no {name}"
    done = subprocess.run([*apart, "sh", "-e", "-c", script], capture_output=True, timeout=PATIENCE)
    return "" if done.returncode == 0 else "no namespaces"
