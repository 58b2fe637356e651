"""Builds captures by hand, byte by byte: frames of each link, classic files and pcapng, for `captures.py`."""
import struct
from socket import inet_aton as octets
from typing import Iterable, Optional, Sequence

from .packets import ack, data, oack, rrq

Endpoint = tuple[str, int]
Datagram = tuple[int, Endpoint, Endpoint, bytes]
Timed = tuple[int, bytes]

CLIENT, SERVER = "192.0.2.2", "192.0.2.1"

ETHERNET, COOKED, COOKED2, RAW, LOOPBACK, LOOP = 1, 113, 276, 101, 0, 108
MICROS, NANOS = 0xA1B2C3D4, 0xA1B23C4D


def udp(source: int, target: int, payload: bytes, length: Optional[int] = None) -> bytes:
    """A UDP datagram (RFC 768), without a checksum; `length` is what its header says."""
    return struct.pack(">HHHH", source, target, 8 + len(payload) if length is None else length, 0) + payload


def ipv4(source: str, target: str, body: bytes, *, kind: int = 17, options: bytes = b"", offset: int = 0,
         more: bool = False, total: Optional[int] = None, version: int = 4, words: Optional[int] = None) -> bytes:
    """An IPv4 packet (RFC 791, section 3.1), without a checksum."""
    words = 5 + len(options) // 4 if words is None else words
    total = 20 + len(options) + len(body) if total is None else total
    flags = (0x2000 if more else 0) | offset
    head = struct.pack(">BBHHHBBH", version * 16 + words, 0, total, 7, flags, 64, kind, 0)
    return head + octets(source) + octets(target) + options + body


def link(kind: int, packet: bytes, *, tags: Sequence[int] = (), protocol: int = 0x0800) -> bytes:
    """A frame of a link, with VLAN tags (IEEE 802.1Q) where the link has them."""
    inner = b"".join(struct.pack(">HH", tag, 5) for tag in tags)
    typed = inner + struct.pack(">H", protocol) + packet
    if kind == ETHERNET:
        return bytes(range(12)) + typed
    if kind == COOKED:
        return struct.pack(">HHH8s", 0, 1, 6, bytes(8)) + typed
    if kind == COOKED2:
        first, rest = (tags[0], typed[2:]) if tags else (protocol, packet)
        return struct.pack(">HHIHBB8s", first, 0, 1, 1, 0, 6, bytes(8)) + rest
    # the one in the byte order of its host, the other with the highest byte first
    return {LOOPBACK: b"\2\0\0\0", LOOP: b"\0\0\0\2"}.get(kind, b"") + packet


def classic(frames: Sequence[Timed], kind: int, *, order: str = "<", magic: int = MICROS, snap: int = 262144) -> bytes:
    """A capture in the classic format: pairs of a time in microseconds and a frame."""
    unit = 1000 if magic == NANOS else 1
    heads = [(at // 1_000_000, at % 1_000_000 * unit, min(len(frame), snap), len(frame)) for at, frame in frames]
    records = [struct.pack(order + "IIII", *head) + frame[:snap] for head, (_, frame) in zip(heads, frames)]
    return struct.pack(order + "IHHiIII", magic, 2, 4, 0, 0, snap, kind) + b"".join(records)


def block(order: str, kind: int, body: bytes) -> bytes:
    """A block of pcapng."""
    body += bytes(-len(body) % 4)
    length = struct.pack(order + "I", 12 + len(body))
    return struct.pack(order + "I", kind) + length + body + length


def section(order: str) -> bytes:
    """A section header."""
    return block(order, 0x0A0D0D0A, struct.pack(order + "IHHq", 0x1A2B3C4D, 1, 0, -1))


def interface(order: str, kind: int, snap: int = 262144, resolution: Optional[int] = None) -> bytes:
    """An interface, with an option for its clock if it is not microseconds."""
    options = b"" if resolution is None else struct.pack(order + "HHB3xHH", 9, 1, resolution, 0, 0)
    return block(order, 1, struct.pack(order + "HHI", kind, 0, snap) + options)


def enhanced(order: str, ticks: int, frame: bytes, number: int = 0, options: bytes = b"") -> bytes:
    """An enhanced packet block."""
    head = struct.pack(order + "IIIII", number, ticks >> 32, ticks & 0xFFFFFFFF, len(frame), len(frame))
    return block(order, 6, head + frame + bytes(-len(frame) % 4) + options)


def simple(order: str, frame: bytes) -> bytes:
    """A simple packet block, which has no time."""
    return block(order, 3, struct.pack(order + "I", len(frame)) + frame)


def pcapng(frames: Iterable[Timed], kind: int, *, order: str = "<", resolution: Optional[int] = None,
           per_second: int = 1_000_000, between: bytes = b"") -> bytes:
    """A capture in pcapng, of one section with one interface."""
    packets = [enhanced(order, at * per_second // 1_000_000, frame) + between for at, frame in frames]
    return b"".join([section(order), interface(order, kind, resolution=resolution), *packets])


def exchange(client_port: int = 54359, server_port: int = 38225, at: int = 1_764_000_000_000_000,
             name: str = "tiny") -> list[Datagram]:
    """A get of 20 bytes in blocks of 8, DATA 2 of which is sent again after a second: (time, source, target,
    payload)."""
    client, server = (CLIENT, client_port), (SERVER, server_port)
    there = [(2718, oack(blksize=8)), (2861, data(1, b"9MjBkefw")), (2899, data(2, b"#\0vLsCL\n")),
             (1003961, data(2, b"#\0vLsCL\n")), (1004023, data(3, b"lKQN"))]
    back = [(2803, ack(0)), (2886, ack(1)), (1004008, ack(2)), (1004035, ack(3))]
    told = [(at, client, (SERVER, 69), rrq(name, blksize=8)), *((at + it, server, client, sent) for it, sent in there),
            *((at + it, client, server, sent) for it, sent in back)]
    return sorted(told)


def packets(datagrams: Iterable[Datagram], options: bytes = b"") -> list[Timed]:
    """The IPv4 packets of datagrams, with their times."""
    return [(at, ipv4(s[0], t[0], udp(s[1], t[1], payload), options=options)) for at, s, t, payload in datagrams]


def frames(datagrams: Iterable[Datagram], kind: int, tags: Sequence[int] = (), options: bytes = b"") -> list[Timed]:
    """The frames of datagrams, with their times."""
    return [(at, link(kind, packet, tags=tags)) for at, packet in packets(datagrams, options)]
