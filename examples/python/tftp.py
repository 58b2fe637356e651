"""TFTP over UDP, by the proved steps of libtftp.

    import tftp
    image = tftp.get("192.0.2.1", "boot.img")
    tftp.put("192.0.2.1", "log.txt", b"...")

`get` and `put` are whole transfers. `Client` is one step at a time, for a caller with a socket and a clock of its own. The
library is that of TFTP_LIBRARY, or libtftp.so.1. As a program: tftp.py get|put HOST PORT NAME LOCAL [BLKSIZE [netascii]]
"""
import ctypes
import os
import socket
import sys
import time
from ctypes import POINTER, byref, c_bool, c_char_p, c_size_t, c_uint8, c_uint16, c_uint32, c_uint64, c_void_p
from enum import IntEnum
from typing import Optional, Union

__all__ = ["Client", "Outcome", "TftpError", "get", "put", "to_wire"]

DEFAULT_BLOCK, HEADER, MIN_REPLY, MAX_BLOCK = 512, 4, 516, 65464
DISK_FULL = 3
FAULTS = ["success", "the handle is closed", "the request is not allowed", "out of memory", "the transfer is over",
          "the end does not go this way", "the file has more than 65,535 blocks", "the options of the request are refused",
          "the first block is not there", "no such transfer is open", "a transfer has this number",
          "the options or the info have no size", "the buffer is too short for the datagram",
          "the stated length is above the limit", "the library is older than the caller's header"]
MEMORY = 3


class Outcome(IntEnum):
    """How a transfer ended."""
    OPEN, COMPLETE, TIMED_OUT, PEER_ERROR, ILLEGAL, REFUSED = range(6)
    TOO_LARGE, STORE_FAULT, SOURCE_FAULT, NOT_NETASCII, ABORTED = range(6, 11)

    def __str__(self) -> str:
        return self.name.lower().replace("_", " ")


def _within(what, value, least, most) -> int:
    """A number for a field of C, which would else be cut to the field's bits in silence."""
    if not least <= value <= most:
        raise ValueError(f"{what} is {value}; allowed are {least} to {most}")
    return int(value)


class Endpoint(ctypes.Structure):
    _fields_ = [("ip", c_uint8 * 4), ("port", c_uint16)]

    @classmethod
    def of(cls, address) -> "Endpoint":
        return cls((c_uint8 * 4)(*socket.inet_pton(socket.AF_INET, address[0])), _within("a port", address[1], 0, 65535))

    @property
    def address(self) -> tuple[str, int]:
        return socket.inet_ntoa(bytes(self.ip)), self.port


class Options(ctypes.Structure):
    """What a request asks: 0 asks for no block size, and for no timeout."""
    _fields_ = [("size", c_size_t), ("max_file", c_uint64), ("blksize", c_uint16), ("timeout", c_uint8),
                ("retries", c_uint8), ("asks_tsize", c_bool), ("is_netascii", c_bool), ("reserved", c_uint8 * 2),
                ("backoff", c_bool), ("max_timeout", c_uint8), ("reserved_too", c_uint8 * 6)]

    def __init__(self, blksize=0, timeout=0, retries=5, max_file=2**64 - 1, asks_tsize=True, netascii=False,
                 backoff=True) -> None:
        super().__init__(size=ctypes.sizeof(type(self)), max_file=_within("max_file", max_file, 0, 2**64 - 1),
                         blksize=_within("blksize", blksize, 8, MAX_BLOCK) if blksize else 0,
                         timeout=_within("timeout", timeout, 0, 255), retries=_within("retries", retries, 0, 255),
                         asks_tsize=asks_tsize, is_netascii=netascii, backoff=backoff)


class Event(ctypes.Structure):
    """What a call did: `to_send` bytes of the client's reply are for `to`, and `file_len` bytes of the file have moved."""
    _fields_ = [("send_len", c_size_t), ("file_len", c_size_t), ("to", Endpoint), ("peer_code", c_uint16),
                ("number", c_uint16), ("block_size", c_uint16), ("interval", c_uint16), ("outcome", c_uint8),
                ("progress", c_bool), ("complete", c_bool), ("no_room", c_bool), ("reserved", c_uint8 * 6)]


class Info(ctypes.Structure):
    """What the client and its peer have agreed: `length` counts where `has_length`, and a `timeout` of 0 is none."""
    _fields_ = [("size", c_size_t), ("length", c_uint64), ("timeout", c_uint8), ("has_length", c_bool),
                ("block_size", c_uint16), ("reserved", c_uint8 * 4)]

    def __init__(self) -> None:
        super().__init__(ctypes.sizeof(type(self)))


class End(ctypes.Structure):
    _fields_ = [("is_open", c_bool), ("opaque", c_void_p)]


class Packet(ctypes.Structure):
    _fields_ = [("fault_at", c_size_t), ("name_len", c_size_t), ("body_at", c_size_t), ("body_len", c_size_t),
                ("opcode", c_uint16), ("number", c_uint16), ("mode", c_uint8), ("fault", c_uint8), ("reserved", c_uint8 * 2)]


class TftpError(OSError):
    """A transfer that is not complete. `outcome` and `code` are those of its event, where it had opened."""

    def __init__(self, text, outcome=0, code=0) -> None:
        super().__init__(text)
        self.outcome, self.code = outcome, code


def _library() -> ctypes.CDLL:
    library = ctypes.CDLL(os.environ.get("TFTP_LIBRARY", "libtftp.so.1"))
    end, at, event = POINTER(End), POINTER(Endpoint), POINTER(Event)
    read, room = [c_char_p, c_size_t], [c_void_p, c_size_t]
    for name, words in {
            "tftp_open_get": [end, at, *read, POINTER(Options), c_size_t, *room, event],
            "tftp_open_put": [end, at, *read, c_uint64, POINTER(Options), c_size_t, *room, event],
            "tftp_receive": [end, at, *read, *room, *room, event],
            "tftp_send": [end, at, *read, *read, *room, event],
            "tftp_timeout": [end, *room, event],
            "tftp_abort": [end, c_uint16, *read, *room, event],
            "tftp_end_info": [end, POINTER(Info)],
            "tftp_decode": [*read, POINTER(Packet)]}.items():
        call = getattr(library, name)
        call.argtypes, call.restype = words, c_uint8
    library.tftp_close_end.argtypes, library.tftp_close_end.restype = [end], None
    library.tftp_wire_length.argtypes, library.tftp_wire_length.restype = read, c_uint64
    library.tftp_to_wire.argtypes, library.tftp_to_wire.restype = [*read, *room], c_size_t
    library.tftp_version.restype = c_uint32
    return library


_TFTP = _library()


def to_wire(text) -> bytes:
    """A text of this host as it is sent in netascii, with CR LF for LF and CR NUL for CR."""
    wire = ctypes.create_string_buffer(_TFTP.tftp_wire_length(text, len(text)))
    if _TFTP.tftp_to_wire(text, len(text), wire, len(wire)) != len(wire):
        raise MemoryError()
    return wire.raw


class Client:
    """One transfer of a client. It owns no socket and no clock: `start` and each later call return the datagram to send to
    `event.to.address`, or nothing."""

    def __init__(self, blksize=0, **options) -> None:
        self.options = Options(blksize, **options)
        self.event, self._end = Event(), End()
        block = max(blksize, DEFAULT_BLOCK)
        self._reply = ctypes.create_string_buffer(block + HEADER)
        self._block = ctypes.create_string_buffer(block)
        self._file, self._moved = b"", 0
        self.received = bytearray()

    def __enter__(self) -> "Client":
        return self

    def __exit__(self, *_) -> None:
        self.close()

    def __del__(self) -> None:
        self.close()

    def close(self) -> None:
        _TFTP.tftp_close_end(byref(self._end))

    @property
    def is_open(self) -> bool:
        return bool(self._end.is_open) and self.event.outcome == Outcome.OPEN

    @property
    def length(self) -> Optional[int]:
        """The length of the file that the server has stated."""
        info = Info()
        fault = _TFTP.tftp_end_info(byref(self._end), byref(info))
        return info.length if not fault and info.has_length else None

    def _sent(self, fault) -> bytes:
        if fault:
            raise MemoryError() if fault == MEMORY else TftpError(FAULTS[fault])
        return self._reply.raw[:self.event.send_len]

    def _room(self) -> tuple:
        return self._reply, len(self._reply), byref(self.event)

    def start_get(self, server, name) -> bytes:
        asked = os.fsencode(name)
        return self._sent(_TFTP.tftp_open_get(byref(self._end), Endpoint.of(server), asked, len(asked),
                                              byref(self.options), self.options.size, *self._room()))

    def start_put(self, server, name, file) -> bytes:
        asked, self._file = os.fsencode(name), to_wire(bytes(file)) if self.options.is_netascii else bytes(file)
        return self._sent(_TFTP.tftp_open_put(byref(self._end), Endpoint.of(server), asked, len(asked), len(self._file),
                                              byref(self.options), self.options.size, *self._room()))

    def receive(self, peer, datagram) -> bytes:
        """Of a get: the bytes of the file that came are at the end of `received`."""
        sent = self._sent(_TFTP.tftp_receive(byref(self._end), Endpoint.of(peer), datagram, len(datagram), self._block,
                                             len(self._block), *self._room()))
        self.received += self._block.raw[:self.event.file_len]
        return sent

    def send(self, peer, datagram) -> bytes:
        """Of a put: the next bytes are those behind the ones that earlier calls have taken."""
        left = self._file[self._moved:self._moved + len(self._block)]
        sent = self._sent(_TFTP.tftp_send(byref(self._end), Endpoint.of(peer), datagram, len(datagram), left, len(left),
                                          *self._room()))
        self._moved += self.event.file_len
        return sent

    def timeout(self) -> bytes:
        return self._sent(_TFTP.tftp_timeout(byref(self._end), *self._room()))

    def abort(self, code, text) -> bytes:
        """Ends a transfer that cannot go on, and returns the ERROR that says so to its peer."""
        why = text.encode()
        return self._sent(_TFTP.tftp_abort(byref(self._end), _within("a code", code, 0, 65535), why, len(why),
                                           *self._room()))


def _text_of(datagram) -> str:
    """The text of an ERROR."""
    packet = Packet()
    if _TFTP.tftp_decode(datagram, len(datagram), byref(packet)):
        return ""
    return datagram[packet.body_at:packet.body_at + packet.body_len].decode(errors="replace")


def _run(client, udp, first, step) -> None:
    """Sends and receives until the transfer is over."""
    def send(datagram) -> None:
        if datagram:
            udp.sendto(datagram, client.event.to.address)

    datagram = b""
    try:
        send(first)
        due = time.monotonic() + client.event.interval
        while client.is_open:
            udp.settimeout(max(due - time.monotonic(), 0.001))
            try:
                datagram, peer = udp.recvfrom(HEADER + MAX_BLOCK + 1)
            except (TimeoutError, socket.timeout):
                answer, waited = client.timeout(), True
            except ConnectionError:
                continue  # an ICMP error, which anyone may send
            else:
                answer, waited = step(peer, datagram), False
            send(answer)
            if waited or client.event.progress:
                due = time.monotonic() + client.event.interval
    except BaseException:
        if client.is_open:
            send(client.abort(0, "given up"))
        raise
    event = client.event
    if not event.complete:
        code = event.peer_code
        why = f" {code}: {_text_of(datagram)}" if event.outcome == Outcome.PEER_ERROR else ""
        raise TftpError(f"{Outcome(event.outcome)}{why}", Outcome(event.outcome), code)


def get(host, name, port=69, **options) -> bytes:
    """The file of this name, as the server at `host` has it. Options: blksize, timeout, retries, max_file, asks_tsize,
    netascii (LF for CR LF), backoff. It returns two seconds after the last block, whose ACK it repeats if that was lost."""
    with Client(**options) as client, socket.socket(socket.AF_INET, socket.SOCK_DGRAM) as udp:
        _run(client, udp, client.start_get((socket.gethostbyname(host), port), name), client.receive)
        return bytes(client.received)


def put(host, name, file: Union[bytes, bytearray], port=69, **options) -> None:
    """Stores these bytes under this name at the server. Options as for get; in netascii LF is sent as CR LF."""
    with Client(**options) as client, socket.socket(socket.AF_INET, socket.SOCK_DGRAM) as udp:
        _run(client, udp, client.start_put((socket.gethostbyname(host), port), name, file), client.send)


def main(words) -> Optional[str]:
    verb, host, port, name, local, *more = words
    options = {"port": int(port), "blksize": int(more[0]) if more else 0, "netascii": len(more) > 1}
    try:
        if verb == "put":
            with open(local, "rb") as source:
                put(host, name, source.read(), **options)
        else:
            image = get(host, name, **options)
            with open(local, "wb") as stored:
                stored.write(image)
    except TftpError as error:
        print(error)
        return str(error)
    print("complete")
    return None


if __name__ == "__main__":
    sys.exit(main(sys.argv[1:]))
