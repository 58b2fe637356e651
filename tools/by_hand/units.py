#!/usr/bin/python3
"""Tries the units of packaging/ under a systemd of their own: units.py [FOLDER]

Debian's systemd is PID 1 of a container with a network of its own, in which what `make install` installs is at
/usr/local. Its units are started, asked over a link by another host, killed, drained, handed their port, given a
folder to write to, and run with two servers each; Debian's package is installed, upgraded
and removed. It takes the four programs of bin/. FOLDER (out/debian) is where the container's files are made, once,
from Debian's archive; a run leaves no change in it. It needs root, and debootstrap, systemd-nspawn, ip, nft and
unshare. It is run by hand, and not by the gate. The last line is a count; the status is 1 if a trial failed.
"""
import os
import re
import signal
import subprocess
import sys
import time
from concurrent.futures import ThreadPoolExecutor
from contextlib import ExitStack, contextmanager
from pathlib import Path
from typing import Any, Iterator

import pytest

sys.path[:0] = [str(Path(__file__).resolve().parents[up] / name) for up, name in [(1, ""), (2, "tests/network")]]
from lib import hosts
from lib.ends import End, error, expect, oack, rrq, wait_until
from lib.hosts import BLOCK, CLIENT, PATIENCE, SERVER
from lib.programs import TOP
from lib.units import SETTINGS, settings_of
from test_networks import Network

APART = [word for word in hosts.APART if word != "--map-root-user"]
DEBIAN = ["bookworm", "http://deb.debian.org/debian"]
PACKAGES = "systemd,systemd-sysv,dbus,nftables,iproute2,util-linux"
# The longest time of a wait, and of all, in seconds
LONGEST, LIMIT = 360, 900
# CAP_NET_BIND_SERVICE alone, as /proc has it
BIND, NOTHING = f"{1 << 10:016x}", "0" * 16
# No interface has it at first
LATE = "192.0.2.10"
INSTANCE = "tftpd@6901"
DENIED = "tftp: PeerError(2)\ntftp: the server says: access violation\n"
EXISTS = "tftp: PeerError(6)\ntftp: the server says: file exists\n"


@contextmanager
def own_group() -> Iterator[None]:
    """This process has control groups of its own, below which systemd makes others. They go once all there is over."""
    tops = [Path("/sys/fs/cgroup", name) for name in ["systemd", "unified", ""]]
    groups = [top / f"units-{time.monotonic_ns()}" for top in tops if (top / "cgroup.procs").exists()]
    for group in groups:
        group.mkdir()
        (group / "cgroup.procs").write_text("0")
    yield
    for group in groups:
        (group.parent / "cgroup.procs").write_text("0")
        removed = ["find", group, "-depth", "-type", "d", "-exec", "rmdir", "{}", "+"]
        wait_until(lambda: subprocess.run(removed, stderr=subprocess.DEVNULL).returncode == 0, f"{group} is empty")


class Container(Network):
    """A network whose server is a Debian, whose systemd runs."""

    def __init__(self, folder, room, stack) -> None:
        super().__init__(stack)
        self.room, self.first, installed = Path(room), "", Path(room, "installed")
        words = [TOP / "tools/install.sh", "install", f"DESTDIR={installed}"]
        subprocess.run(words, check=True, stdout=subprocess.DEVNULL)
        packed = [subprocess.run([TOP / "debian/pack.sh", version], check=True, stdout=subprocess.PIPE, text=True)
                  for version in ["0.0.1", "0.0.2"]]
        self.packages = [(TOP / done.stdout.strip()).read_bytes() for done in packed]
        stack.enter_context(own_group())
        console = stack.enter_context(open(self.room / "console", "wb"))
        words = ["systemd-nspawn", "--directory", folder, "--volatile=overlay", "--boot", "--console=pipe",
                 "--register=no", "--keep-unit", f"--network-namespace-path=/proc/{self.server.process.pid}/ns/net",
                 "--capability=CAP_NET_ADMIN", f"--bind-ro={installed}/usr/local:/usr/local"]
        self.process = subprocess.Popen(words, stdin=subprocess.DEVNULL, stdout=console, stderr=console)
        stack.callback(self.end)
        wait_until(self.is_running, "systemd has started")

    def end(self) -> None:
        # all in the container ends with its first process
        os.kill(int(self.first or self.process.pid), signal.SIGKILL)
        self.process.wait(PATIENCE)

    def is_running(self) -> bool:
        expect(self.process.poll(), None, f"the status of the container: {(self.room / 'console').read_text()}")
        self.first = Path(f"/proc/{self.process.pid}/task/{self.process.pid}/children").read_text().strip()
        return bool(self.first) and self.told("systemctl is-system-running").strip() in ("running", "degraded")

    def ran(self, script, given=b"") -> "subprocess.CompletedProcess[bytes]":
        """Runs shell commands in the container, with this input."""
        apart = ["--mount", "--uts", "--ipc", "--net", "--pid", "--cgroup"]
        words = ["nsenter", "--target", self.first, *apart, "bash", "-ec", script]
        return subprocess.run(words, input=given, capture_output=True, timeout=3 * PATIENCE)

    def told(self, script) -> str:
        """What a shell prints in the container, whatever its status is."""
        done = self.ran(script)
        return (done.stdout + done.stderr).decode()

    def run(self, script, given=b"") -> str:
        """What commands print that succeed."""
        done = self.ran(script, given)
        expect((done.returncode, done.stderr if done.returncode else b""), (0, b""), f"the status of {script}")
        return done.stdout.decode()

    def property(self, unit, name) -> str:
        return self.run(f"systemctl show --value --property {name} {unit}").strip()

    def processes_of(self, unit) -> list[str]:
        """The process of a unit, and those of its servers, if it is their supervisor."""
        main = self.property(unit, "MainPID")
        return [main, *self.told(f"cat /proc/{main}/task/{main}/children").split()] if main != "0" else []

    def log(self, unit, *more) -> list[str]:
        """The lines in the journal of a unit's processes."""
        return self.run(f"journalctl --quiet --output=cat _SYSTEMD_UNIT={unit}.service {' '.join(more)}").splitlines()

    def begin(self, unit, change="", **settings) -> None:
        """Starts a unit, with these settings and these lines of `systemctl edit`."""
        if settings:
            text = "".join(f'{name}="{value}"\n' for name, value in settings.items())
            self.run(f"mkdir -p /etc/default; cat > {SETTINGS}", text.encode())
        if change:
            place = f"/etc/systemd/system/{unit}.service.d"
            self.run(f"mkdir -p {place}; cat > {place}/override.conf; systemctl daemon-reload", change.encode())
        # (where the program ends at once, this fails, and systemd starts it again)
        self.told(f"systemctl restart {unit}")

    def revert(self, unit) -> None:
        """Stops a unit, and forgets what was changed in it."""
        change = f"/etc/systemd/system/{unit}.service.d"
        self.run(f"systemctl disable --now {unit}; rm -rf {change} {SETTINGS}; systemctl daemon-reload")

    def install(self, package) -> None:
        self.run("cat > /it.deb; dpkg -i /it.deb", self.packages[package])

    def gets(self, address=SERVER, port=69) -> bool:
        """Whether the client gets the file."""
        return self.received(address, port, 1) == self.content

    def serves(self, address=SERVER, port=69) -> None:
        wait_until(lambda: self.gets(address, port), f"{address}:{port} is served")

    def answers_once(self) -> None:
        """A request that comes now is answered, however late, without a further one, and the file is whole."""
        self.opened(blksize=BLOCK).gets(self.content, BLOCK)

    def put(self, name, port=69) -> str:
        """What the client says that puts the file."""
        done = self.transfers("put", f"{SERVER}:{port}", self.root / "a", name, "--blksize", BLOCK)
        return done.stdout + done.stderr

    def opened(self, address=CLIENT, **options) -> End:
        """A get whose first answer is not acknowledged yet."""
        port, = self.ports(address)
        port.send(rrq("a", **options), (SERVER, 69))
        return port.opened(oack(**options))

    def may(self, unit, user, capabilities) -> None:
        """The unit's processes have this user, a dynamic one for none, these capabilities, and cannot get others."""
        names, users = ["CapEff", "CapPrm", "CapBnd", "NoNewPrivs", "Seccomp"], range(61_184, 65_520)
        for process in self.processes_of(unit):
            found = dict(re.findall(r"(?m)^(\w+):\t(\w*)", self.run(f"cat /proc/{process}/status")))
            expect([found[name] for name in names], [capabilities] * 3 + ["1", "2"], f"{names} of {unit}")
            expect(int(found["Uid"]) in ([int(self.run(f"id -u {user}"))] if user else users), True, f"the user of {found}")

    def sees(self, unit, writable) -> None:
        """The unit's process sees one folder of /srv, and can write nowhere else than there, if there."""
        inside = f"nsenter --target {self.property(unit, 'MainPID')} --mount"
        expect(self.run(f"{inside} ls /srv").split(), ["tftp"], "what is in /srv")
        tried = f"{inside} touch $it/x 2> /dev/null && {inside} rm $it/x && echo $it"
        tried = f"for it in /etc /usr /usr/local /srv /var/lib /srv/tftp; do {tried}; done; true"
        expect(self.run(tried).split(), ["/srv/tftp"] * writable, f"the folders of {unit} that are writable")

    def reads_alone(self, unit, capabilities, writers=("",)) -> None:
        """It refuses writes, has no more than it needs, and the journal has each transfer once, of several servers
        with their names. Of these lines the refused write is a warning."""
        expect(self.put("new"), DENIED, "the answer to a write")
        self.may(unit, None, capabilities)
        self.sees(unit, False)
        of_run = f"_SYSTEMD_INVOCATION_ID={self.property(unit, 'InvocationID')}"
        line = r"(?m)^(server \d: )?(listening|opened|closed|refused) "
        said, warned = (re.findall(line, "\n".join(self.log(unit, of_run, *more))) for more in [(), ("--priority=warning",)])
        expect(sorted({writer for writer, _ in said}), [*writers], f"the servers of the lines {said}")
        words = [word for _, word in said] if writers == ("",) else [*dict.fromkeys(word for _, word in said)]
        expect(words, ["listening", "opened", "closed", "refused"], "the lines of the journal")
        expect([word for _, word in warned], ["refused"], "the warnings of the journal")

    def drains(self, unit) -> None:
        """A restart finishes the get that is in flight, and ends with status 0."""
        before, since = self.property(unit, "MainPID"), self.run("date +%s").strip()
        journal = f"journalctl --quiet --output=cat --unit={unit}.service --since=@{since}"
        held = self.opened(timeout=255)
        self.run(f"systemctl --no-block restart {unit}")
        drains = r"(?m)^(server \d: )?draining: [1-9]\d* transfers open$"
        wait_until(lambda: re.search(drains, self.run(journal)), "it drains")
        expect(self.property(unit, "ActiveState"), "deactivating", f"{unit} while it drains")
        held.gets(self.content)
        wait_until(lambda: self.property(unit, "MainPID") != before, "the process has ended")
        found = [line for line in self.run(journal).splitlines() if "Main process exited" in line or "Failed" in line]
        expect(found, [], f"how {unit} ended")

    def loses_no_request(self) -> None:
        """Where systemd holds the port, a request is answered that comes while the server is away. 64 clients ask
        once each within two seconds, during a restart: each is answered, and tells the sender that it is enough."""
        for verb in ["stop", "restart"]:
            self.told(f"systemctl {verb} tftpd-socket")
            self.answers_once()
        ports = self.ports(*[CLIENT] * 64)

        def once(at) -> None:
            time.sleep(0.03 * at)
            ports[at].send(rrq("a"), (SERVER, 69))
            ports[at].send(error(0, "enough"), ports[at].receive()[1])

        with ThreadPoolExecutor(65) as pool:
            restart = pool.submit(self.told, "systemctl restart tftpd-socket")
            expect([*pool.map(once, range(64))] + [restart.result()], [None] * 64 + [""], "what a restart says")


@pytest.fixture(scope="session")
def it(tmp_path_factory) -> Iterator[Container]:
    with ExitStack() as stack:
        container = Container(os.environ["UNITS_DEBIAN"], tmp_path_factory.mktemp("units"), stack)
        print(container.run("systemctl --version").splitlines()[0])
        yield container
        print(container.told("journalctl --no-pager --lines 20"))


def test_no_folder(it) -> None:
    """Without its folder a start fails, and the journal says so."""
    for unit in ["tftpd", INSTANCE]:
        told = it.told(f"systemctl enable --now {unit} 2>&1 || echo status $?")
        expect(f"Job for {unit}.service failed" in told and told.endswith("status 1\n"), True, f"whether a start fails: {told}")
        expect("/srv/tftp: no folder" in it.log(unit), True, "whether the journal has the reason")
        it.run(f"systemctl disable --now {unit}")


def test_reading(it) -> None:
    """It is started again when it was killed."""
    it.run("mkdir /srv/tftp /srv/other; cat > /srv/tftp/a", it.content)
    it.run("systemctl enable --now tftpd")
    it.serves()
    it.reads_alone("tftpd", BIND)
    before = it.property("tftpd", "MainPID")
    it.run(f"kill -KILL {before}")
    wait_until(lambda: it.property("tftpd", "MainPID") not in ("0", before) and it.gets(), "another process serves")


def test_drain(it) -> None:
    """A stop finishes what is open, for half a minute at most; one without transfers takes no time."""
    it.drains("tftpd")
    it.serves()
    for at_least, below in [(0, 10), (25, 60)]:
        if at_least:
            it.opened(timeout=255)
        began = time.monotonic()
        it.run("systemctl restart tftpd")
        expect(at_least < time.monotonic() - began < below, True, f"whether a restart takes from {at_least} to {below} s")
        it.serves()


def test_socket(it) -> None:
    """systemd holds the port of tftpd.socket, and a request starts its server, which has no capability."""
    it.run("systemctl disable --now tftpd; systemctl enable --now tftpd.socket")
    expect(it.property("tftpd-socket", "ActiveState"), "inactive", "the server before a request")
    it.answers_once()
    it.reads_alone("tftpd-socket", NOTHING)
    before = it.property("tftpd-socket", "MainPID")
    it.run(f"kill -KILL {before}")
    it.answers_once()
    expect(it.property("tftpd-socket", "MainPID") in ("0", before), False, "whether another process serves")
    it.drains("tftpd-socket")
    it.loses_no_request()
    it.run("systemctl disable --now tftpd.socket; systemctl stop tftpd-socket")


@pytest.mark.parametrize("unit, started, capabilities", [("tftpd", "tftpd", BIND), ("tftpd-socket", "tftpd.socket", NOTHING)])
def test_several(it, unit, started, capabilities) -> None:
    """`--servers 2`: each has what one has, and no more. A kill of a server or of their supervisor starts them again, a
    stop drains both, and the journal has each line with its server."""
    it.run(f"systemctl disable --now tftpd; systemctl enable --now {started}")
    it.begin(unit, OPTIONS=settings_of(f"{unit}.service")["OPTIONS"] + " --servers 2")
    for place in [0, 1, 2, None]:
        it.serves()
        before, found = it.processes_of(unit), it.told("pidof /usr/local/bin/tftpd").split()
        expect((sorted(before), len(before)), (sorted(found), 3), f"the processes of {unit}")
        if place is not None:
            it.run(f"kill -KILL {before[place]}")
            wait_until(lambda: it.gets() and not {*before} & {*it.processes_of(unit)}, "others serve")
    it.reads_alone(unit, capabilities, ("server 1: ", "server 2: "))
    it.drains(unit)
    it.serves()
    expect(len(it.processes_of(unit)), 3, f"how many processes {unit} has")
    if unit != started:
        it.loses_no_request()
    it.run(f"systemctl disable --now {started}")
    it.revert(unit)


def test_late_address(it) -> None:
    """The file of settings names another folder, another address, and other options. The unit is started again and
    again, more often than systemd's limit of five, until the address is there."""
    it.run("mkdir -p /var/lib/other; cat > /var/lib/other/a; mv /srv/tftp/a /srv/a", it.content)
    it.begin("tftpd", ROOT="/var/lib/other", ADDRESS=LATE, OPTIONS="--cap 1 --read-only --log")
    wait_until(lambda: int(it.property("tftpd", "NRestarts")) >= 7, "it was started seven times")
    it.server.run(f"ip address add {LATE}/24 dev outer")
    it.serves(LATE)
    expect(f"tftpd: {LATE}:69: address not available" in it.log("tftpd"), True, "whether the journal has the reason")
    it.server.run(f"ip address delete {LATE}/24 dev outer")
    it.run("mv /srv/a /srv/tftp/a")
    it.revert("tftpd")


def test_writing(it) -> None:
    """With the lines of its comments, as `systemctl edit` takes them, a unit takes writes, as the user whose folder it
    is."""
    it.run("useradd --system uploader; chown uploader /srv/tftp")
    for unit, template, port, capabilities in [("tftpd", "tftpd.service", 69, BIND),
                                               (INSTANCE, "tftpd@.service", 6901, NOTHING)]:
        lines = re.search(r"(?m)^# For writes these lines .*\n((?:#\S.*\n)+)", (TOP / "packaging" / template).read_text())
        change = "[Service]\n" + lines[1].replace("#", "").replace("User=USER", "User=uploader")
        it.begin(unit, change, OPTIONS=settings_of(template)["OPTIONS"].replace(" --read-only", ""))
        it.serves(port=port)
        expect(it.put(f"new{port}", port), f"complete {len(it.content)}\n", "the answer to a write")
        expect(it.ran(f"cat /srv/tftp/new{port}").stdout, it.content, "the file that was sent")
        expect(it.run(f"stat --format '%U %a' /srv/tftp/new{port}"), "uploader 644\n", "its owner and its mode")
        expect(it.put(f"new{port}", port), EXISTS, "the answer to a second write")
        it.may(unit, "uploader", capabilities)
        it.sees(unit, True)
        it.revert(unit)


def test_package(it) -> None:
    """An installation starts nothing, an upgrade starts again what runs, a removal stops it, a purge leaves no link.
    Where systemd holds the port, an upgrade loses no request, of one server and of two."""
    units = ["tftpd", INSTANCE]
    it.run("umount /usr/local; systemctl daemon-reload")
    it.install(0)
    expect([it.property(unit, "ActiveState") for unit in units], ["inactive"] * 2, "the units after an installation")
    it.run(f"systemctl enable --now {' '.join(units)}")
    it.serves()
    before = {it.property(unit, "MainPID") for unit in units}
    it.install(1)
    it.serves()
    after = {it.property(unit, "MainPID") for unit in units}
    expect((after & {*before, "0"}, len(after)), (set(), 2), f"the processes after an upgrade, {before} before")
    it.run("systemctl disable --now tftpd; systemctl enable --now tftpd.socket")
    for count, package in [(1, 0), (3, 1)]:
        if count > 1:
            it.run("systemctl stop tftpd-socket")
            it.begin("tftpd-socket", OPTIONS=settings_of("tftpd-socket.service")["OPTIONS"] + " --servers 2")
        it.answers_once()
        before = {*it.processes_of("tftpd-socket")}
        it.install(package)
        it.answers_once()
        after = {*it.processes_of("tftpd-socket")}
        expect((len(before), len(after), after & before), (count, count, set()), f"{before} and {after}, after an upgrade")
    it.run("dpkg -r fanjuvery")
    expect(it.told("readlink /proc/[0-9]*/exe | grep tftpd"), "", "the processes that a removal leaves")
    it.run("dpkg -P fanjuvery")
    expect(it.told("find /etc /lib /usr/lib /usr/bin /usr/share -name '*tftpd*'"), "", "the files that a purge leaves")


def main() -> None:
    if sys.argv[1:2] == ["--help"]:
        sys.exit(__doc__)
    folder = Path([*sys.argv, TOP / "out/debian"][1]).resolve()
    if not (folder / "usr/lib/systemd/systemd").exists():
        folder.parent.mkdir(exist_ok=True)
        words: list[Any] = ["debootstrap", "--variant=minbase", f"--include={PACKAGES}", DEBIAN[0], folder, DEBIAN[1]]
        subprocess.run(words, check=True, stdout=subprocess.DEVNULL)
    words = ["timeout", f"{LIMIT}", *APART, sys.executable, "-m", "pytest", "-xv", "-p", "no:cacheprovider", __file__]
    env = {**os.environ, "UNITS_DEBIAN": str(folder), "TESTS_PATIENCE": f"{LONGEST}"}
    sys.exit(subprocess.run(words, env=env).returncode)


if __name__ == "__main__":
    main()
