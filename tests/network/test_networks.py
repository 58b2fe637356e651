"""What docs/OPERATING.md says of networks, in network namespaces.

Three hosts are joined by two links: a client, a router, and a server whose port 69 is redirected, filtered and
limited by the commands of the page, and that runs the command lines of the units.
"""
import os
import re
import select
import signal
import subprocess
import time
from contextlib import ExitStack
from pathlib import Path
from typing import Iterator

import pytest

from lib.ends import End, Port, ack, data, error, expect, oack, rrq, wait_until
from lib.hosts import BLOCK, CLIENT, MANY, PATIENCE, SECOND, SERVER, Host
from lib.process import Program
from lib.programs import TOP, programs
from lib.units import arguments_of

PAGE = TOP / "docs/OPERATING.md"
# The time after which a server sends again what a client has not answered, and a wait for what does not come, in
# seconds
INTERVAL, SILENCE = 20, 2
ASKED = {"blksize": BLOCK, "timeout": INTERVAL}
# What the kernel has to know for the trials: each kind of rule once
KERNEL = Path(__file__).with_name("kernel.nft").read_text()


def block_of(part) -> str:
    """The one piece of code of the page that has this part."""
    blocks = [it for _, it in re.findall(r"(?ms)^```(\w*)\n(.*?)^```$", PAGE.read_text()) if part in it]
    expect(len(blocks), 1, f"how many pieces of code of the page have {part!r}")
    return blocks[0]


class Network:
    """The three hosts, a folder to serve, and the servers that run."""

    def __init__(self, stack) -> None:
        (self.tftp, self.tftpd), self.stack, self.servers = programs(["tftp", "tftpd"]).values(), stack, []
        self.client, self.router, self.server = (Host(stack) for _ in range(3))
        self.client.link(self.router, "inner")
        self.router.link(self.server, "outer")
        self.router.run("ip address add 198.51.100.1/24 dev inner; ip address add 192.0.2.2/24 dev outer; "
                        "echo 1 > /proc/sys/net/ipv4/ip_forward")
        self.server.run(f"ip address add {SERVER}/24 dev outer; ip address add {SECOND}/24 dev outer; "
                        "ip route add default via 192.0.2.2")
        addresses = "; ".join(f"ip address add {host}/24 dev inner" for host in [CLIENT, *MANY])
        self.client.run(f"{addresses}; ip route add default via 198.51.100.1")
        # the folder of the units, in a file system of this run
        subprocess.run(["mount", "-t", "tmpfs", "none", "/srv"], check=True)
        self.root = Path("/srv/tftp")
        self.root.mkdir()
        self.content = os.urandom(12 * BLOCK + 7)
        (self.root / "a").write_bytes(self.content)

    def serve(self, *words) -> None:
        """Starts a server at the server's host, and waits until it listens."""
        self.servers.append(self.stack.enter_context(Program(self.server.words(self.tftpd, *words), self.root, 3_600)))
        expect(self.servers[-1].first_line()[:10], "listening ", f"the first word of the server {words}")

    def serve_root(self, port, *words) -> None:
        """Serves the folder at a port of the first address."""
        self.serve(self.root, "--listen", f"{SERVER}:{port}", "--forever", *words)

    def count(self, word) -> int:
        """How many lines of the logs so far begin with this word."""
        for server in self.servers:
            server.take()
        return sum(server.text(server.process.stderr).count(f"\n{word} ") for server in self.servers)

    def stop(self) -> list[list[str]]:
        """Stops the servers. Returns their logs."""
        for server in self.servers:
            server.signal(signal.SIGTERM)
        ended, self.servers = [server.ended() for server in self.servers], []
        expect({status for status, _, _ in ended} <= {-signal.SIGTERM}, True, f"how {ended} ended")
        return [errors.splitlines() for _, _, errors in ended]

    def transfers(self, *words, host=None) -> "subprocess.CompletedProcess[str]":
        """What a client says, of the client's host if none is given."""
        command = (host or self.client).words(self.tftp, *words)
        return subprocess.run(command, capture_output=True, text=True, timeout=PATIENCE)

    def received(self, address, port, retries) -> bytes:
        """What the client gets of the file from there, or nothing."""
        local, words = self.root / "local", ["--blksize", BLOCK, "--no-dally", "--retries", retries]
        done = self.transfers("get", f"{address}:{port}", "a", local, *words)
        content = local.read_bytes() if local.exists() else b""
        for left in [local, self.root / "local.part"]:
            left.unlink(missing_ok=True)
        expect(bool(content), done.returncode == 0, f"whether the file is there where {done} says so")
        return content

    def is_served(self, is_served=True, port=69, address=SERVER, content=None) -> None:
        """Whether the client gets the file, or another one, from this port. It asks once where it is to get
        nothing."""
        found = self.received(address, port, 10 if is_served else 0)
        expect(found, (content or self.content) if is_served else b"", f"what {address}:{port} serves")

    def ports(self, *addresses, number=0) -> list[Port]:
        """Ports of the client's host."""
        with self.client.inside():
            found = [Port(address, number) for address in addresses]
        for port in found:
            self.stack.callback(port.close)
        return found


def answered(ports, wanted) -> tuple[int, int]:
    """Sends a request from each port, and waits until so many are answered, and some time for one more. Returns how
    many are, and how many seconds the sending took."""
    begun, waiting = time.monotonic(), {port.socket: port for port in ports}
    for port in ports:
        port.send(rrq("a", **ASKED), (SERVER, 69))
    seconds, until = int(time.monotonic() - begun), time.monotonic() + PATIENCE
    while time.monotonic() < until and waiting:
        for ready in select.select([*waiting], [], [], 0.1)[0]:
            port = waiting.pop(ready)
            port.send(error(0, ""), port.receive()[1])
            until = time.monotonic() + SILENCE if len(ports) - len(waiting) == wanted else until
    return len(ports) - len(waiting), seconds


def chatter(port) -> int:
    """Sends a datagram that is no packet, and another to each answer, ten at most. Returns how many answers there
    are."""
    for count in range(10):
        port.send(b"ABCDEFG", (SERVER, 69))
        if not select.select([port.socket], [], [], SILENCE)[0]:
            return count
        port.receive()
    return 10


@pytest.fixture
def network() -> Iterator[Network]:
    if "TESTS_APART" not in os.environ:
        yield None
        return
    with ExitStack() as stack:
        made = Network(stack)
        yield made
        made.stop()


def test_unit(network) -> None:
    """The unit's own command line serves port 69, and refuses writes."""
    network.serve(*arguments_of("tftpd.service"))
    network.is_served()
    done = network.transfers("put", f"{SERVER}:69", __file__, "new", "--retries", "10")
    expect(done.stderr, "tftp: PeerError(2)\ntftp: the server says: access violation\n", "the answer to a write")
    # (it may come after the answer)
    wait_until(lambda: network.count("refused"), "a line of a refused request")
    # (where the host is slow a client asks again, which is ignored, or refused again in the same words)
    lines = [line for line in dict.fromkeys(network.stop()[0]) if not line.startswith("ignored ")]
    expect([line.split()[0] for line in lines], ["listening", "opened", "closed", "refused"], "the lines of the log")


def test_redirection(network) -> None:
    """The redirection serves one address of two, and with a line for each a server for each: a request to one is
    never answered for another."""
    network.serve_root(6969)
    network.is_served(False)
    rules = block_of("dnat to")
    network.server.rules(rules)
    network.is_served()
    network.is_served(False, address=SECOND)
    (network.root / "second").mkdir()
    (network.root / "second/a").write_bytes(network.content[::-1])
    network.serve(network.root / "second", "--listen", f"{SECOND}:6969", "--forever")
    network.server.rules(rules + rules.splitlines()[-1].replace(SERVER, SECOND))
    network.is_served(address=SECOND, content=network.content[::-1])
    network.is_served()


def test_firewall(network) -> None:
    """The firewall of the server, with and without the redirection."""
    network.serve_root(6969)
    both = block_of("dnat to") + f"nft -f - << 'END'\n{block_of('ct original proto-dst 69')}END"
    network.server.rules(both)
    network.is_served()
    network.is_served(False, 6969)
    network.stop()
    network.server.rules(block_of("ct original proto-dst 69"))
    network.serve_root(69)
    network.is_served()


# a router that translates addresses, and a client with a firewall of its own
HIDDEN = "table ip hidden {\nchain last {\ntype nat hook postrouting priority srcnat\noifname outer masquerade\n}\n}\n"
CLOSED = "table ip own {\nchain input {\ntype filter hook input priority filter; policy drop\n" \
    "ct state established,related accept\n}\n}\n"


def test_translation(network) -> None:
    """A client behind either is served by the help of the kernel alone."""
    network.serve_root(69)
    network.server.rules("")
    helper = block_of("ct helper set")
    for host, rules, help_ in [(network.router, HIDDEN, helper),
                               (network.client, CLOSED, helper.replace("hook prerouting", "hook output"))]:
        host.rules(rules)
        network.is_served(False)
        host.rules(rules + help_)
        network.is_served()
        host.rules("")


def test_limit(network) -> None:
    """Of 50 requests of one address 30 are answered, behind the redirection, too; another address is not limited. A
    port of system services is never answered, so that a service which answers everything is not, either."""
    network.serve_root(6969, "--cap", "64", "--retries", "0")
    network.server.rules(block_of("dnat to") + block_of("limit rate over"))
    count, seconds = answered(network.ports(*[CLIENT] * 50), 30)
    # two more a minute, if it took so long to send them
    expect(30 <= count <= 30 + seconds // 30, True, f"whether {count} of 50 requests are answered in {seconds} s")
    expect(answered(network.ports(MANY[0]), 1)[0], 1, "whether another address is answered")
    for number, count in [(1024, 10), (19, 0)]:
        expect(chatter(*network.ports(MANY[1], number=number)), count, f"how many answers port {number} gets")


def test_many(network) -> None:
    """Eight servers by the command line of their unit, and 200 clients at once, each of which asks twice: none is
    refused or opened twice, each file is whole, and each server has some of them."""
    for port in range(6901, 6909):
        network.serve(*(it.replace("%i", str(port)) for it in arguments_of("tftpd@.service")))
    network.server.rules((TOP / "packaging/tftpd.nft").read_text())
    ports = network.ports(*MANY)
    for port in ports * 2:
        port.send(rrq("a", **ASKED), (SERVER, 69))
    # each transfer is open before any goes on
    ends = [End(port, *port.receive()[::-1]) for port in ports]
    expect({end.newest for end in ends}, {oack(**ASKED)}, "the answers")
    for number in range(len(network.content) // BLOCK + 1):
        for end in ends:
            end.is_answered(ack(number), data(number + 1, network.content[number * BLOCK:(number + 1) * BLOCK]))
    for end in ends:
        end.send(ack(len(network.content) // BLOCK + 1))
    wait_until(lambda: network.count("closed") == len(MANY), "that the transfers are closed")
    logs = network.stop()
    opened = [line.split()[2].split(":")[0] for log in logs for line in log if line.startswith("opened ")]
    expect(sorted(opened), sorted(MANY), "the clients that were opened")
    others = [line for log in logs for line in log if not re.match("listening|opened|closed .* Complete$|ignored", line)]
    expect(others, [], "the other lines of the logs")
    expect([log for log in logs if len(log) < 2], [], "the logs of servers that were not asked")


def both_ways(network, host, size) -> None:
    """A client of this host gets a file in blocks of this size from port 69, and puts one."""
    content, long, local, new = os.urandom(5 * size + 7), *(network.root / name for name in ["long", "local", "new"])
    long.write_bytes(content)
    for words in [["get", f"{SERVER}:69", "long", local, "--no-dally"], ["put", f"{SERVER}:69", local, "new"]]:
        done = network.transfers(*words, "--blksize", f"{size}", "--retries", "10", host=host)
        expect((done.returncode, done.stderr), (0, ""), f"how {words[0]} in blocks of {size} ends")
    for path in [local, new]:
        expect(path.read_bytes(), content, f"the file {path}")
        path.unlink()


def test_large_blocks(network) -> None:
    """Blocks of 8,192 bytes over links of 1,500 go in parts (RFC 791, section 2.3), those of the client too."""
    network.serve_root(69, "--max-block", "65464", "--retries", "10")
    for size in [1_432, 1_468, 1_469, 8_192]:
        both_ways(network, network.client, size)


def test_three_routers(network) -> None:
    """A client behind two more routers: what either sends lives long enough to cross three."""
    hosts = [network.router, *(Host(network.stack) for _ in range(3))]
    for at, (host, other) in enumerate(zip(hosts, hosts[1:])):
        host.link(other, f"link{at}")
        host.run(f"ip address add 203.0.113.{4 * at + 1}/30 dev link{at}; echo 1 > /proc/sys/net/ipv4/ip_forward")
        other.run(f"ip address add 203.0.113.{4 * at + 2}/30 dev link{at}; ip route add default via 203.0.113.{4 * at + 1}")
    # (the way back)
    for at, host in enumerate(hosts[:-1]):
        host.run(f"ip route add 203.0.113.0/24 via 203.0.113.{4 * at + 2}")
    network.serve_root(69, "--retries", "10")
    both_ways(network, hosts[-1], BLOCK)


# an address of each block that is of no host of the internet (RFC 1918, RFC 6598, RFC 3927), at its edges, and others
# beside these
PRIVATE = ["10.0.0.1", "10.255.255.254", "172.16.0.1", "172.31.255.254", "192.168.0.1", "192.168.255.254", "100.64.0.1",
           "169.254.1.1"]
BESIDE = ["9.255.255.254", "11.0.0.1", "172.15.255.254", "172.32.0.1", "198.18.0.1", "223.255.255.254"]


def test_private_addresses(network) -> None:
    """A client of each is answered."""
    network.serve_root(69, "--cap", "64", "--retries", "0")
    for address in PRIVATE + BESIDE:
        network.client.run(f"ip address add {address}/32 dev inner")
        network.router.run(f"ip route add {address}/32 dev inner")
        expect(answered(network.ports(address), 1)[0], 1, f"whether {address} is answered")


def test_removal(network) -> None:
    """The two commands that remove what failed puts left spare what is an hour old at most, and what is not
    theirs."""
    commands = re.findall(r"`(find /srv/tftp[^`]*)`", " ".join(PAGE.read_text().split()))
    expect(len(commands), 2, "how many commands of the page remove files")
    left, kept = [".tftp-40000", "n~tftp"], [".tftp-40001", "m~tftp", "old"]
    for name in [*left, *kept]:
        (network.root / name).touch()
    for name in [*left, "old"]:
        os.utime(network.root / name, times=(0, time.time() - 2 * 3600))
    for command in commands:
        network.server.run(command)
    found = [name for name in [*left, *kept] if (network.root / name).exists()]
    expect(found, kept, "the files that are not removed")
