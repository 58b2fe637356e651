"""The servers and clients that are measured: how each is started."""
import getpass
import os
import shutil
from typing import Any

USER = getpass.getuser()
HOST = "127.0.0.1"


class Server:
    """A server of the folder `root`. `port` is None where it can be told its port."""
    name = program = ""
    port = None
    writes = True

    def words(self, root, port) -> list[str]:
        raise NotImplementedError


class Tftpd(Server):
    name = "tftpd"

    def __init__(self, program) -> None:
        self.program = program

    def words(self, root, port) -> list[str]:
        forever = ["--transfers", "4294967295", "--rounds", "4294967295"]
        return [self.program, root, "--listen", f"{HOST}:{port}", "--max-block", "65464", "--cap", "64", *forever]


class TftpdHpa(Server):
    name = "tftpd-hpa"
    program = "in.tftpd"

    def words(self, root, port) -> list[str]:
        address = ["--address", f"{HOST}:{port}"]
        return [self.program, "--foreground", *address, "--create", "--user", USER, "--secure", root]


class Atftpd(Server):
    name = "atftpd"
    program = os.environ.get("ATFTPD", "atftpd")

    def words(self, root, port) -> list[str]:
        address = ["--bind-address", HOST, "--port", str(port)]
        log = ["--logfile", "/dev/null", "--verbose=0"]
        return [self.program, "--daemon", "--no-fork", *address, "--user", f"{USER}.{USER}", *log, root]


class Dnsmasq(Server):
    name = program = "dnsmasq"
    port = 69
    writes = False

    def words(self, root, port) -> list[str]:
        address = [f"--listen-address={HOST}", "--bind-interfaces", "--port=0"]
        served = ["--enable-tftp", f"--tftp-root={root}", "--tftp-max=100", "--quiet-tftp"]
        return [self.program, "--no-daemon", "--conf-file=/dev/null", f"--user={USER}", *address, *served]


class Floor(Server):
    """What only exchanges the datagrams: with a process for each transfer, or one for all. It is no peer."""

    def __init__(self, program, kind) -> None:
        self.program, self.kind, self.name = program, kind, f"floor, {kind}"

    def words(self, root, port) -> list[str]:
        return [self.program, "serve", HOST, str(port), root, self.kind]


def floors(program) -> list[Floor]:
    return [Floor(program, "each"), Floor(program, "all")]


class Client:
    """A client. `names_at_end` says that a file has its name only once it is whole."""
    name = program = ""
    names_at_end = False
    blocks = (512, 1428, 8192, 65464)

    def get(self, port, name, local, block) -> list[str]:
        raise NotImplementedError

    def put(self, port, name, local, block) -> list[str]:
        raise NotImplementedError


class Tftp(Client):
    name = "tftp"
    names_at_end = True

    def __init__(self, program) -> None:
        self.program = program

    def option(self, block) -> list[str]:
        return [] if block == 512 else ["--blksize", str(block)]

    def get(self, port, name, local, block) -> list[str]:
        return [self.program, "get", f"{HOST}:{port}", name, local, *self.option(block)]

    def put(self, port, name, local, block) -> list[str]:
        return [self.program, "put", f"{HOST}:{port}", local, name, *self.option(block)]


class TftpHpa(Client):
    name = "tftp-hpa"
    program = "tftp"
    blocks = (512,)

    def get(self, port, name, local, block) -> list[str]:
        return [self.program, "-m", "binary", HOST, str(port), "-c", "get", name, local]

    def put(self, port, name, local, block) -> list[str]:
        return [self.program, "-m", "binary", HOST, str(port), "-c", "put", local, name]


class Atftp(Client):
    name = program = "atftp"

    def words(self, way, port, name, local, block) -> list[str]:
        option = [] if block == 512 else ["--option", f"blksize {block}"]
        return [self.program, *option, way, "-r", name, "-l", local, HOST, str(port)]

    def get(self, *case) -> list[str]:
        return self.words("-g", *case)

    def put(self, *case) -> list[str]:
        return self.words("-p", *case)


class Curl(Client):
    name = program = "curl"

    def words(self, port, name, block) -> list[str]:
        return [self.program, "-s", "--tftp-blksize", str(block), f"tftp://{HOST}:{port}/{name}"]

    def get(self, port, name, local, block) -> list[str]:
        return [*self.words(port, name, block), "-o", local]

    def put(self, port, name, local, block) -> list[str]:
        return [*self.words(port, name, block), "-T", local]


class Busybox(Client):
    name = program = "busybox"

    def words(self, way, port, name, local, block) -> list[str]:
        return [self.program, "tftp", way, "-b", str(block), "-r", name, "-l", local, HOST, str(port)]

    def get(self, *case) -> list[str]:
        return self.words("-g", *case)

    def put(self, *case) -> list[str]:
        return self.words("-p", *case)


class FloorClient(Client):
    name = "floor"

    def __init__(self, program) -> None:
        self.program = program

    def get(self, port, name, local, block) -> list[str]:
        return [self.program, "get", HOST, str(port), name, local, str(block)]

    def put(self, port, name, local, block) -> list[str]:
        return [self.program, "put", HOST, str(port), name, local, str(block)]


def installed(peers) -> list[Any]:
    """Those whose program is there, and whose port may be bound."""
    return [peer for peer in peers if shutil.which(peer.program) and may_bind(peer)]


def may_bind(peer) -> bool:
    return getattr(peer, "port", None) is None or os.geteuid() == 0
