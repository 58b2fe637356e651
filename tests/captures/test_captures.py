"""What `tftp-show` does with captures of each format, link and fault, which are built by hand (lib/frames.py); what
is printed of them is written here. tshark reads them too, packet by packet, and transfers of `tftpd` with each client
that is installed, as tcpdump records them. Captures are mutated under a limit of memory and of time."""
import json
import os
import random
import resource
import signal
import struct
import subprocess
from contextlib import contextmanager
from functools import partial
from pathlib import Path
from typing import Any, Iterator

import pytest
from hypothesis import strategies as st

from lib import frames as f
from lib import others
from lib.addresses import own_address
from lib.ends import Port, wait_until
from lib.examples import run as run_command
from lib.mutated import many, mutated
from lib.needs import needs
from lib.packets import ack, data, error, oack, rrq, wrq
from lib.process import Program
from lib.programs import TOP, program

EXAMPLES, HERE = TOP / "examples", Path(__file__).resolve().parent
PATIENCE, MEMORY, MUTATIONS = 60, 200 << 20, 400
# what is printed of the exchange of lib/frames.py, and of a capture of other transfers
REPORT, LINES = (HERE / "report.txt").read_text(), (HERE / "lines.txt").read_text()
# and where another frame is before it
LATER = REPORT.replace("frame 7", "frame 8")
TRANSFERS = json.loads((HERE / "transfers.json").read_text())


def run(words: Any, given: bytes = b"") -> tuple[int, str, str]:
    """Status, output and messages of a run, which is out of memory where it takes more than this."""
    done = subprocess.run([program("tftp-show"), *words], input=given, capture_output=True, timeout=PATIENCE,
                          preexec_fn=partial(resource.setrlimit, resource.RLIMIT_AS, (MEMORY, MEMORY)))
    return done.returncode, done.stdout.decode(errors="replace"), done.stderr.decode(errors="replace")


def reads(name: str, capture: bytes, folder: Path, report: str = REPORT, lines: str = LINES, status: int = 0,
          errors: str = "", words: Any = ()) -> None:
    """A capture is read so, from a file and from standard input, with and without `--flow`."""
    path = folder / "read.pcap"
    path.write_bytes(capture)
    assert run(["--flow", *words, path]) == (status, report, errors), name
    assert run(["--flow", *words], capture) == (status, report, errors), name
    assert run([*words, path]) == (status, lines, errors), name


def samples() -> Iterator[tuple[str, bytes]]:
    """Captures of one exchange, each with what it is called, in each format and of each link."""
    told, has_tags = f.exchange(), (f.ETHERNET, f.COOKED, f.COOKED2)
    for kind in (*has_tags, f.RAW, f.LOOPBACK, f.LOOP, 12, 14, 228):
        for tags in [(), *[(0x8100,), (0x88A8, 0x8100)] * (kind in has_tags)]:
            seen = f.frames(told, f.RAW if kind in (12, 14, 228) else kind, tags)
            for order in "<>":
                for magic in (f.MICROS, f.NANOS):
                    yield f"classic {kind} {tags} {order} {magic:x}", f.classic(seen, kind, order=order, magic=magic)
                yield f"pcapng {kind} {tags} {order}", f.pcapng(seen, kind, order=order)
    seen = f.frames(told, f.ETHERNET)
    yield "nanoseconds", f.pcapng(seen, 1, resolution=9, per_second=10**9)
    yield "no default option", f.pcapng(seen, 1, resolution=6)
    names, statistics = f.block("<", 4, bytes(4)), f.block("<", 5, bytes(76))
    yield "other blocks", f.pcapng(seen, 1, between=names + statistics)
    yield "a long other block", f.pcapng(seen, 1, between=f.block("<", 0xBAD, bytes(300_000)))
    yield "two sections", f.pcapng(seen[:5], 1) + f.pcapng(f.frames(told, f.RAW)[5:], f.RAW, order=">")
    yield "options of IPv4", f.classic(f.frames(told, f.ETHERNET, options=bytes([1] * 8)), 1)
    yield "padded frames", f.classic([(at, frame + bytes(max(0, 60 - len(frame)))) for at, frame in seen], 1)
    yield "a sum behind each frame", f.classic([(at, frame + b"sum!") for at, frame in seen], 0x34000001)
    # the directions are of two interfaces with other links and clocks
    parts = [f.section("<"), f.interface("<", f.ETHERNET), f.interface("<", f.RAW, resolution=0x80 | 20)]
    for at, packet in f.packets(told):
        is_client = packet[12:16] == f.octets(f.CLIENT)
        parts.append(f.enhanced("<", at, f.link(f.ETHERNET, packet)) if is_client
                     else f.enhanced("<", -(-at * 2**20 // 1_000_000), packet, 1))
    yield "two interfaces", b"".join(parts)


SAMPLES = dict(samples())


def test_formats(tmp_path: Path) -> None:
    """Each format and link, and each count of what is no datagram: which frames have none is proved (tftp_capture)."""
    for name, capture in SAMPLES.items():
        reads(name, capture, tmp_path)
    tcp, fragment = f.ipv4(f.CLIENT, f.SERVER, bytes(20), kind=6), f.ipv4(f.CLIENT, f.SERVER, bytes(100), offset=185)
    for packet, said in [(tcp, "not UDP over IPv4"), (fragment, "later fragments")]:
        capture = f.classic([(1, f.link(f.ETHERNET, packet)), *f.frames(f.exchange(), f.ETHERNET)], f.ETHERNET)
        reads(said, capture, tmp_path, f"{LATER}{said}: frames 1\n")
    for name, capture in [("a link", f.classic([(1, bytes(40))], 127)),
                          ("an interface that is not described", f.section("<") + f.enhanced("<", 1, bytes(60), 3))]:
        reads(name, capture, tmp_path, "of another link type: frames 1\n", "")
    plain = [f.section("<"), f.interface("<", f.RAW), *(f.simple("<", packet) for _, packet in f.packets(f.exchange()))]
    timeless = REPORT.replace("1.004035", "0.000000").replace("1.001062", "0.000000")
    reads("simple packet blocks", b"".join(plain), tmp_path, timeless)
    reads("no frame", f.classic([], 1), tmp_path, "", "")


def test_fragments(tmp_path: Path) -> None:
    """A DATA of 1468 bytes in two fragments, and one that the capture has the beginning of."""
    client, server = (f.CLIENT, 1024), (f.SERVER, 2000)
    told = [(0, client, (f.SERVER, 69), rrq("a", blksize=1468)), (1, server, client, oack(blksize=1468)),
            (2, client, server, ack(0)), (3, server, client, data(1, bytes(1468))), (5, client, server, ack(1)),
            (6, server, client, data(2, b"end")), (7, client, server, ack(2))]
    short, whole = f.packets(told), f.udp(2000, 1024, data(1, bytes(1468)))
    parts = [*short[:3], (3, f.ipv4(f.SERVER, f.CLIENT, whole[:1400], more=True)),
             (4, f.ipv4(f.SERVER, f.CLIENT, whole[1400:], offset=175)), *short[4:]]
    report = (HERE / "fragments.txt").read_text()
    lines = "RRQ a octet blksize=1468\nOACK blksize=1468\nACK 0\nDATA 1 1468\nACK 1\nDATA 2 3\nACK 2\n"
    reads("fragments", f.classic(parts, f.RAW), tmp_path, report + "later fragments: frames 1\n", lines)
    reads("a snap length", f.classic(short, f.RAW, snap=100), tmp_path, report, lines)
    run(["--flow", "--svg", tmp_path / "cut.svg"], f.classic(parts, f.RAW))
    assert "DATA 1 1468 (its beginning)" in (tmp_path / "cut.svg").read_text()


IMPOSSIBLE = "a block with an impossible length"
# Blocks of pcapng that none may have, as numbers
BLOCK_FAULTS: list[Any] = [
    ("a block of 8", IMPOSSIBLE, 0xBAD, 8), ("a block of 13", IMPOSSIBLE, 0xBAD, 13),
    ("a frame past its block", IMPOSSIBLE, 6, 36, 0, 0, 0, 9, 9, 0, 0),
    ("a frame into its block's length", IMPOSSIBLE, 6, 36, 0, 0, 0, 5, 5, 0, 0),
    ("a frame to its block's end", IMPOSSIBLE, 6, 36, 0, 0, 0, 8, 8, 0, 0),
    ("a simple frame into its block's length", IMPOSSIBLE, 3, 20, 8, 0, 0),
    ("a frame of 4 GB", "a record is too long", 6, 36, 0, 0, 0, 2**32 - 1, 5, 0, 0),
    ("a section without an order", "not a capture", 0x0A0D0D0A, 28, 0, 0, 0, 0, 0),
]


def test_cuts(tmp_path: Path) -> None:
    """A capture that is cut at each byte, and records that no capture has."""
    told = f.frames(f.exchange(), f.RAW)
    for made, heads in [(f.classic, [24]), (f.pcapng, [28, 48])]:
        capture: bytes = made(told, f.RAW)
        # where a record ends, and where its frame does: a block of pcapng has its padding and its length behind it
        ends = [len(made(told[:count], f.RAW)) for count in range(1, len(told) + 1)]
        seen = [end - (4 + -len(frame) % 4) * (made is f.pcapng) for end, (_, frame) in zip(ends, told)]
        for cut in range(4, len(capture), 5):
            status, output, errors = run(["--flow"], capture[:cut])
            count = sum(end <= cut for end in seen)
            wanted = (0, "") if cut in (*heads, *ends) else (1, f"tftp-show: frame {count + 1}: cut short\n")
            assert (status, errors) == wanted, f"cut at {cut} of {len(capture)}"
            assert count < len(told) or output == REPORT, f"cut at {cut}"
    long = f.classic(told, f.RAW) + struct.pack("<IIII", 0, 0, 262_145, 262_145)
    reads("a long record", long, tmp_path, status=1, errors="tftp-show: frame 11: a record is too long\n")
    for name, fault, *numbers in BLOCK_FAULTS:
        bad = f.pcapng(told, f.RAW) + struct.pack(f"<{len(numbers)}I", *numbers)
        reads(name, bad, tmp_path, status=1, errors=f"tftp-show: frame 11: {fault}\n")


def raw(*told: Any) -> bytes:
    """A capture of datagrams."""
    return f.classic(f.frames(told, f.RAW), f.RAW)


def test_selection(tmp_path: Path) -> None:
    """`--port`, `--transfer`, `--json`, and what is not TFTP."""
    told = f.exchange()
    capture = raw(*((at, s, (t[0], 6969) if t[1] == 69 else t, payload) for at, s, t, payload in told))
    assert run(["--flow"], capture) == (0, "", ""), "another port"
    reads("a port", capture, tmp_path, REPORT.replace(":69\n", ":6969\n"), words=["--port", "6969"])
    name = (5, (f.CLIENT, 5353), (f.SERVER, 53), b"\0\1what\0octet\0")
    late = (9_000_000 + told[-1][0], (f.SERVER, 7), (f.CLIENT, 69), ack(7))
    stray = "frame 12: 192.0.2.1:7 > 192.0.2.2:69 ACK 7, of no transfer\n"
    assert run(["--flow"], raw(name, *told, late)) == (1, stray + LATER, ""), "a stranger at the port"
    both = raw(*sorted(told + f.exchange(1025, 2001, told[0][0] + 100, "b")))
    status, output, _ = run(["--flow", "--transfer", "2"], both)
    assert status == 0 and output.startswith("transfer 2: 192.0.2.2:1025 reads") and "transfer 1" not in output
    assert run(["--flow", "--transfer", "3"], both) == (2, "", "tftp-show: no such transfer\n")
    status, output, _ = run(["--json"], both)
    assert (status, [json.loads(line)["transfer"] for line in output.splitlines()]) == (0, [1, 2])
    quote = raw((0, (f.CLIENT, 9), (f.SERVER, 69), rrq('a"\\b')))
    assert '"' in json.loads(run(["--json"], quote)[1])["request"]


# A put, an ERROR of each side, a request that nobody answers, and one whose DATA are cut: after how many microseconds
# each begins, how many are between two datagrams, which side sends each, and the datagrams
TOLD = [
    (0, 100_000, "cscsccs", [wrq("up", blksize=8, tsize=11), oack(blksize=8, tsize=11), data(1, b"12345678"), ack(1),
                             data(2, b"ABC"), data(2, b"ABC"), ack(2)]),
    (1_000_000, 250_000, "cs", [rrq("none", "netascii"), error(1, "file not found")]),
    (2_000_000, 250_000, "csc", [rrq("full"), data(1, bytes(512)), error(3, "disk full")]),
    (3_000_000, 1_000_000, "cc", [rrq("silence"), rrq("silence")]),
    (5_000_000, 100_000, "cscscs", [rrq("long", blksize=1024), oack(blksize=1024), ack(0), data(1, bytes(1024)), ack(1),
                                    data(2, bytes(1024))]),
]


def test_json() -> None:
    """Each field of each kind of transfer as tftp-show(1) describes it, read by another parser of JSON."""
    seen = []
    for at, (after, step, sides, packets) in enumerate(TOLD, 1):
        client, server = (f.CLIENT, 2_000 + at), (f.SERVER, 3_000 + at)
        for number, (side, packet) in enumerate(zip(sides, packets)):
            ends = [client, (f.SERVER, 69) if packet[1] in (1, 2) else server][::1 if side == "c" else -1]
            seen.append((1_764_000_000_000_000 + after + number * step, *ends, packet))
    # (a datagram of 1,024 bytes is cut where a frame may have 600)
    for told, wanted in [(seen, TRANSFERS[:-1]), (f.exchange(), TRANSFERS[-1:])]:
        status, output, errors = run(["--json"], f.classic(f.frames(told, f.ETHERNET), f.ETHERNET, snap=600))
        assert (status, [json.loads(line) for line in output.splitlines()], errors) == (0, wanted, "")


def test_port_again() -> None:
    """A client asks three times from one port, of a server that answers from its own: when the second transfer is
    over, the first is known all the same."""
    client, other, server = (f.CLIENT, 2070), ("192.0.2.3", 2070), (f.SERVER, 69)
    told = [(0, client, server, rrq("a")), (1, server, client, data(1, bytes(512))), (2, client, server, rrq("b")),
            (3, client, server, rrq("c")), (4, other, server, rrq("d")), (5, server, other, data(1, bytes(512))),
            *((second * 1_000_000 + after, client, server, sent)
              for second in range(10, 60, 10) for after, sent in enumerate((ack(1), rrq("c"))))]
    status, output, _ = run(["--json"], raw(*told))
    counts = {it["request"]: (it["datagrams"], it["beside"]) for it in map(json.loads, output.splitlines())}
    assert (status, counts) == (0, {f"RRQ {name} octet": (count, 0) for name, count in zip("abcd", (7, 1, 6, 2))})


def test_lines() -> None:
    """Lines of digits: their ends, the longest and a longer one."""
    assert run([], b"00040001\r\n00040002\n00040003\r") == (0, "ACK 1\nACK 2\nACK 3\n", "")
    assert run([], b"0" * 131_014 + b"\r\n") == (1, "fault Opcode 0\n", "")
    message = "tftp-show: a line is longer than a datagram\n"
    assert run([], b"00040001\n" + b"0" * 131_016 + b"\n") == (2, "ACK 1\n", message)
    for words in [[], ["--flow"]]:
        assert run(words, b"0" * 100_000_000) == (2, "", message), "a line without an end"


@pytest.mark.parametrize("word, wanted", [
    ("--follow", [(1, "transfer 1: 192.0.2.2:54359 reads from 192.0.2.1:69: RRQ tiny octet blksize=8\n"),
                  (10, "transfer 1: complete; 3 blocks, 20 bytes in 1.004035 s, 1 sent again\n")]),
    ("--flow", [(10, REPORT)])])
def test_live(word: str, wanted: Any, tmp_path: Path) -> None:
    """What is printed while the input goes on."""
    told, sent, printed = f.exchange(), 0, ""
    with Program([program("tftp-show"), word], tmp_path, 10 * PATIENCE, stdin=subprocess.PIPE) as show:
        pipe = show.process.stdin
        pipe.write(raw())
        for count, text in wanted:
            pipe.write(raw(*told[sent:count])[24:])
            pipe.flush()
            sent, printed = count, printed + text
            wait_until(lambda: show.take() and len(show.text(show.output)) >= len(printed), text)
            assert show.text(show.output) == printed
        pipe.close()
        assert show.ended() == (0, printed, "")


def test_many() -> None:
    """Transfers by the thousand: time in proportion, and memory for the open ones alone."""
    closed = [it for n in range(20_000) for it in f.exchange(1024 + n % 60_000, 2000 + n % 60_000, n * 1_000_000)]
    requests = [(n, (f.CLIENT, 1024 + n), (f.SERVER, 69), rrq(str(n))) for n in range(10_000)]
    same = [(n, (f.CLIENT, 1024), (f.SERVER, 69), rrq(str(n))) for n in range(10_000)]
    for told, said in [(closed, "complete"), (requests, "answered by nobody"), (same, "answered by nobody")]:
        status, output, _ = run(["--flow"], raw(*told))
        assert (status, output.count(said)) == (0, 20_000 if told is closed else 10_000)


@pytest.mark.parametrize("name", ["wire", "netboot/uefi"])
def test_examples(name: str) -> None:
    """A capture of examples/ is the one in lines beside it."""
    lines = run(["--flow", EXAMPLES / f"{name}.txt"])
    status, output, errors = run(["--flow", EXAMPLES / f"{name}.pcap"])
    assert "complete" in output and (status, output.replace("frame ", "line "), errors) == lines


def by_tshark(path: Path, *words: str) -> bytes:
    """The lines of tshark for the packets of TFTP that it finds in a capture."""
    needs("tshark")
    command = ["tshark", "-r", path, "-Y", "tftp", *words]
    return subprocess.run(command, capture_output=True, timeout=PATIENCE, check=True).stdout


PAYLOADS = ["-T", "fields", "-E", "occurrence=f", "-e", "udp.payload"]


def test_tshark(tmp_path: Path) -> None:
    """What `tshark` finds in the captures, packet by packet."""
    for name, capture in [*SAMPLES.items()][::7] + [*SAMPLES.items()][-1:]:
        (tmp_path / "seen.pcap").write_bytes(capture)
        assert run([], by_tshark(tmp_path / "seen.pcap", *PAYLOADS)) == (0, LINES, ""), name
    for name in ("wire", "netboot/uefi", "netboot/bios"):
        status, output, errors = run([EXAMPLES / f"{name}.pcap"])
        assert (status, output.count("\n"), errors) == (0, by_tshark(EXAMPLES / f"{name}.pcap").count(b"\n"), ""), name


@contextmanager
def recording(where: str, host: str, path: Path) -> Iterator[None]:
    """A tcpdump records what this address sends and receives meanwhile. It begins to record behind its first line,
    and later on a busy host: what was sent before a mark that it has is there, too. A busy host may give it no
    processor for a while, so it is stopped meanwhile: the kernel keeps two thousand frames of 4 KB for it. (Without
    these words it keeps 16 frames of `lo`, since each has room for 64 KB.)"""
    needs("tcpdump")
    words = ["tcpdump", "-i", where, "--snapshot-length=4096", "--buffer-size=8192", "--immediate-mode", "-U",
             "-w", path, "-Z", "root", "udp", "and", "host", host]
    with Program(words, path.parent, 10 * PATIENCE) as dump, Port(host).socket as port:
        def has(mark: bytes) -> bool:
            # (to the port of `discard`)
            port.sendto(mark, (host, 9))
            return path.exists() and mark in path.read_bytes()

        wait_until(lambda: not dump.take() or "listening on" in dump.text(dump.process.stderr), "what tcpdump says")
        if dump.process.poll() is not None:
            pytest.skip(f"tcpdump may not capture at {where}")
        wait_until(lambda: has(b"from here on"), "that tcpdump records")
        dump.signal(signal.SIGSTOP)
        yield
        dump.signal(signal.SIGCONT)
        wait_until(lambda: has(b"up to here"), "that tcpdump has recorded all")
        dump.signal(signal.SIGTERM)
        assert "\n0 packets dropped by kernel" in dump.ended()[2]


def commands(host: str) -> Iterator[list[Any]]:
    """A get and a put at port 69 of this host by each client that is installed, in the folder of the file `boot`."""
    yield [program("tftp"), "get", f"{host}:69", "boot", "got", "--blksize", "1428", "--tsize"]
    yield [program("tftp"), "put", f"{host}:69", "boot", "ours", "--netascii"]
    for client in filter(others.is_installed, others.CLIENTS):
        yield others.command(client, "get", (host, 69), "boot", "got")
        yield others.command(client, "put", (host, 69), client, "boot")


@pytest.mark.parametrize("where", ["lo", "any"])
def test_transfers(where: str, tmp_path: Path) -> None:
    """Transfers of `tftpd` with each client that is installed, as `tcpdump` records and `tshark` reads them."""
    needs("tshark")
    if os.geteuid() != 0:
        pytest.skip("no root, which port 69 asks for")
    host, path = own_address(), tmp_path / "transfers.pcap"
    for name in ("served/boot", "here/boot"):
        (tmp_path / name).parent.mkdir()
        (tmp_path / name).write_bytes(random.Random(57).randbytes(3000))
    tftpd, all_commands = [program("tftpd"), "served", "--listen", f"{host}:69", "--forever"], [*commands(host)]
    with recording(where, host, path), Program(tftpd, tmp_path, 10 * PATIENCE) as server:
        server.first_line()
        for words in all_commands:
            run_command(*words, cwd=tmp_path / "here")
            (tmp_path / "here/got").unlink(missing_ok=True)
    assert run([path]) == (0, run([], by_tshark(path, *PAYLOADS))[1], "")
    status, output, errors = run(["--flow", path])
    # (at all interfaces each datagram is seen twice)
    assert where == "any" or (status, output.count("ended    complete"), errors) == (0, len(all_commands), "")


# ---- captures with some bytes changed, removed or repeated


@many(MUTATIONS, mutated([capture for capture in SAMPLES.values() if len(capture) < 5000], False),
      st.sampled_from(["--flow", "--json", "--follow", ""]))
def test_mutations(capture: bytes, words: str) -> None:
    """No crash, no more memory and no more time."""
    status, _, errors = run(words.split(), capture)
    assert status in (0, 1) and (status or not errors)
