"""What the ends of a transfer and a request port do, from the RFCs and docs/DECISIONS.md, and not from the code.

Bytes go in and the bytes of the answer come out: a packet or its first fault (RFC 1350, section 5), the agreement on
options (RFC 2347 to 2349), the request port, and a sender and a receiver, which never send a DATA again because of a
repeated ACK (RFC 1123, section 4.2.3.1). test_model.py tries it against worked examples.
"""
from typing import Any, Iterator, NamedTuple, Optional

from lib.packets import ack, data, pairs
from lib.packets import request as packet_of_request

MODES = (b"netascii", b"octet")
TEXTS = {
    "file too large": 0, "server busy": 0, "file changed": 0, "not netascii": 0, "file not found": 1,
    "access violation": 2, "disk full": 3, "illegal operation": 4, "unknown transfer id": 5, "file exists": 6,
    "option refused": 8,
}
PLAIN_SIZE, MOST_BLOCKS, U64 = 512, 65_535, 2**64
# the longest packets by their opcodes; of others 512 bytes
LONGEST = {3: 65_468, 4: U64}

Fault = NamedTuple("Fault", [("kind", str), ("at", int)])
# (the kind is "RRQ" or "WRQ", and the options are pairs of name and value)
Request = NamedTuple("Request", [("kind", str), ("name", bytes), ("mode", bytes), ("options", tuple)])
Data = NamedTuple("Data", [("number", int), ("block", bytes)])
Ack = NamedTuple("Ack", [("number", int)])
Error = NamedTuple("Error", [("code", int), ("text", bytes)])
Oack = NamedTuple("Oack", [("options", tuple)])


class Refused(Exception):
    """What ends the reading of a datagram by its Fault, or the opening of a transfer by the text of an ERROR."""


# ---- packets


def need(holds, kind, at) -> None:
    """A datagram has this fault, unless this holds."""
    if not holds:
        raise Refused(Fault(kind, at))


def string(datagram, start) -> tuple[bytes, int]:
    """The bytes before the next zero byte and the offset after it."""
    end = datagram.find(b"\0", start)
    need(end >= 0, "Unterminated", start)
    return datagram[start:end], end + 1


def options_from(datagram, start) -> Iterator[tuple[bytes, bytes]]:
    """The options from this offset to the end."""
    while start < len(datagram):
        name, behind = string(datagram, start)
        need(name, "EmptyOption", start)
        need(behind < len(datagram), "NoValue", behind)
        value, start = string(datagram, behind)
        yield name, value


def decode(datagram) -> Any:
    """The packet of a datagram, or its first fault from the left."""
    try:
        return packet_of(datagram)
    except Refused as refused:
        return refused.args[0]


def packet_of(datagram) -> Any:
    need(len(datagram) >= 2, "Short", 0)
    opcode, number = (int.from_bytes(datagram[at:at + 2], "big") for at in (0, 2))
    need(1 <= opcode <= 6, "Opcode", 0)
    need(len(datagram) <= LONGEST.get(opcode, 512), "TooLong", LONGEST.get(opcode, 512))
    need(len(datagram) >= 4 or opcode not in (3, 4, 5), "Short", 2)
    if opcode == 3:
        need(number, "BlockZero", 2)
        return Data(number, datagram[4:])
    if opcode == 4:
        need(len(datagram) == 4, "Trailing", 4)
        return Ack(number)
    if opcode == 5:
        text, end = string(datagram, 4)
        need(end == len(datagram), "Trailing", end)
        return Error(number, text)
    if opcode == 6:
        need(len(datagram) > 2, "EmptyOack", 2)
        return Oack(tuple(options_from(datagram, 2)))
    name, at = string(datagram, 2)
    need(name, "EmptyName", 2)
    mode, behind = string(datagram, at)
    need(mode.lower() in MODES, "Mode", at)
    return Request("RRQ" if opcode == 1 else "WRQ", name, mode.lower(), tuple(options_from(datagram, behind)))


def error(text) -> bytes:
    return b"\0\5" + TEXTS[text].to_bytes(2, "big") + text.encode() + b"\0"


def oack(agreed) -> bytes:
    return b"\0\6" + pairs(agreed)


def request(kind, name, mode, options) -> bytes:
    return packet_of_request(1 if kind == "RRQ" else 2, name, mode, options)


# ---- options

KNOWN = {b"blksize": range(8, 65_465), b"timeout": range(1, 256), b"tsize": range(U64)}


def number_of(value) -> Optional[int]:
    """The number of a canonical decimal that fits 64 bits."""
    number = int(value) if value.isdigit() else U64
    return number if number < U64 and b"%d" % number == value else None


def answer(options, kind, mode, length, max_block, max_file) -> list[tuple[bytes, int]]:
    """The list that a server agrees on."""
    names = [name.lower() for name, _ in options]
    if any(names.count(name) > 1 for name in KNOWN):
        raise Refused("option refused")
    agreed = []
    for name, value in zip(names, [number_of(value) for _, value in options]):
        is_apart = name == b"tsize" and (mode != b"octet" or kind == "RRQ" and value != 0)
        if value is None or value not in KNOWN.get(name, ()) or is_apart:
            continue
        if name == b"tsize" and kind == "WRQ" and value > max_file:
            raise Refused("disk full")
        answers = {b"blksize": min(value, max_block), b"timeout": value, b"tsize": length if kind == "RRQ" else value}
        agreed.append((name, answers[name]))
    return agreed


# ---- files


def wire_text(mode, content) -> bytes:
    """A file as it is sent (RFC 764): in netascii LF is CR LF, and CR is CR NUL."""
    return content if mode == b"octet" else content.replace(b"\r", b"\r\0").replace(b"\n", b"\r\n")


def host_text(mode, text) -> Optional[bytes]:
    """A file of its whole wire text, or None where that is not netascii."""
    content = text if mode == b"octet" else text.replace(b"\r\n", b"\n").replace(b"\r\0", b"\r")
    return content if wire_text(mode, content) == text else None


def may_go_on(text) -> bool:
    """Whether this begins the wire text of some file in netascii."""
    return host_text(b"netascii", text.removesuffix(b"\r")) is not None


SEGMENT = frozenset(b"ABCDEFGHIJKLMNOPQRSTUVWXYZabcdefghijklmnopqrstuvwxyz0123456789._-")


def path_of(name) -> Optional[bytes]:
    """The path that a name stands for, or None."""
    rest = name[1:] if name.startswith(b"/") else name
    segments = rest.split(b"/")
    good = all(1 <= len(each) <= 64 and each[:1] != b"." and SEGMENT.issuperset(each) for each in segments)
    return rest if good and len(rest) <= 255 and len(segments) <= 8 else None


# ---- ends


class End:
    """One end of a transfer. `outcome` is there once it is closed, `moved` counts its steps with progress."""
    # whether it has all or has given all, and how many timeouts it has then waited for its peer
    is_complete, silences, path = False, 0, b""

    def __init__(self, peer, agreed, retries, newest) -> None:
        self.peer, self.newest, self.retries, self.left = peer, newest, retries, retries
        self.size, self.interval = dict(agreed).get(b"blksize", PLAIN_SIZE), dict(agreed).get(b"timeout", 1)
        self.outcome, self.moved, self.number = None, 0, 0

    def close(self, outcome, text=None) -> Optional[bytes]:
        """Closes, and answers by the ERROR of this text."""
        self.outcome = outcome
        return error(text) if text else None

    def advance(self, newest) -> bytes:
        """Makes progress, which restores the retries."""
        self.newest, self.left, self.moved = newest, self.retries, self.moved + 1
        return newest

    def timeouts(self) -> int:
        """After how many timeouts it closes without progress."""
        return self.left + 1

    def on_timeout(self) -> Optional[bytes]:
        """The datagram that is sent again, if one is."""
        if self.left == 0:
            return self.close("TimedOut")
        self.left -= 1
        return self.newest

    def on_datagram(self, sender, datagram) -> Optional[bytes]:
        """The answer, which goes to the sender, if there is one."""
        is_error, packet = datagram[:2] == b"\0\5", decode(datagram)
        if self.outcome:
            return None
        if sender != self.peer:
            return None if is_error else error("unknown transfer id")
        if is_error:
            return self.close(f"PeerError({packet.code})" if isinstance(packet, Error) else "Illegal")
        return self.on_packet(packet)


class Sender(End):
    """Sends the blocks of a text. One that opened by an OACK has number 0."""

    def __init__(self, peer, agreed, retries, text, number, newest) -> None:
        super().__init__(peer, agreed, retries, newest)
        self.text, self.number, self.last = text, number, len(text) // self.size + 1

    def block(self, number) -> bytes:
        return data(number, self.text[(number - 1) * self.size:number * self.size])

    def wants(self, _) -> bytes:
        """What a right peer sends next."""
        return ack(self.number)

    def on_packet(self, packet) -> Optional[bytes]:
        if not isinstance(packet, Ack) or packet.number > self.number:
            return self.close("Illegal", "illegal operation")
        if packet.number < self.number:
            return None
        if self.number == self.last:
            self.is_complete, self.moved = True, self.moved + 1
            return self.close("Complete")
        self.number += 1
        return self.advance(self.block(self.number))


class Receiver(End):
    """Stores the blocks of a text. `commit` is called with the file, and answers the text of an ERROR or None."""

    def __init__(self, peer, agreed, retries, mode, commit, newest) -> None:
        super().__init__(peer, agreed, retries, newest)
        self.mode, self.commit, self.text = mode, commit, b""

    def wants(self, text) -> bytes:
        """What a right peer sends next of this text: where all is there, the last block once more."""
        number = self.number if self.is_complete else self.number + 1
        return data(number, text[(number - 1) * self.size:number * self.size])

    def timeouts(self) -> int:
        return 2 - self.silences if self.is_complete else super().timeouts()

    def on_timeout(self) -> Optional[bytes]:
        if not self.is_complete:
            return super().on_timeout()
        self.silences += 1
        return None if self.silences == 1 else self.close("Complete")

    def on_datagram(self, sender, datagram) -> Optional[bytes]:
        if self.is_complete and not self.outcome and sender == self.peer:
            packet = decode(datagram)
            return ack(self.number) if isinstance(packet, Data) and packet.number == self.number else None
        return super().on_datagram(sender, datagram)

    def is_last(self, packet) -> bool:
        """Whether this packet has the last block."""
        return isinstance(packet, Data) and packet.number == self.number + 1 and len(packet.block) < self.size

    def on_packet(self, packet) -> Optional[bytes]:
        if not isinstance(packet, Data) or packet.number > self.number + 1:
            return self.close("Illegal", "illegal operation")
        if packet.number <= self.number:
            return ack(self.number) if packet.number == self.number else None
        if len(packet.block) > self.size:
            return self.close("Illegal", "illegal operation")
        is_last = self.is_last(packet)
        if packet.number == MOST_BLOCKS and not is_last:
            return self.close("TooLarge", "file too large")
        # of what came before, which begins a text, only a CR at its end decides about the next byte
        more = b"\r" * self.text.endswith(b"\r") + packet.block
        if self.mode == b"netascii" and (not may_go_on(more) or (is_last and more.endswith(b"\r"))):
            return self.close("NotNetascii", "not netascii")
        self.text += packet.block
        if is_last:
            if refused := self.commit(host_text(self.mode, self.text)):
                return self.close("StoreFault", refused)
            self.is_complete = True
        self.number = packet.number
        return self.advance(ack(packet.number))


# ---- the request port


class RequestPort:
    """A server's request port: its files by path, its folders, and the transfers that it holds. With `uploads`, the
    path of a folder, files below that alone are written."""

    def __init__(self, files, folders, cap=16, retries=5, max_block=1_428, max_file=4_290_183_239, replaces=False,
                 is_read_only=False, uploads="") -> None:
        self.files, self.folders, self.cap, self.retries = files, {b"", *folders}, cap, retries
        self.max_block, self.max_file, self.replaces = max_block, max_file, replaces
        self.is_read_only, self.uploads = is_read_only, uploads.encode()
        # the open ends with the client and the packet that opened each
        self.held = []

    def on_datagram(self, client, datagram) -> tuple[Optional[bytes], Optional[Any]]:
        """The answer and the end that opens, each None where there is none."""
        if datagram[:2] == b"\0\5":
            return None, None
        packet = decode(datagram)
        if not isinstance(packet, Request):
            return error("illegal operation"), None
        if any(opened == (client, packet) and not end.outcome for end, opened in self.held):
            return None, None
        try:
            end = self.opened(client, packet, path_of(packet.name))
        except Refused as refused:
            return error(refused.args[0]), None
        self.held.append((end, (client, packet)))
        return end.newest, end

    def opened(self, client, packet, path) -> End:
        if path is None:
            raise Refused("access violation")
        if len(self.held) >= self.cap:
            raise Refused("server busy")
        end = (self.read if packet.kind == "RRQ" else self.write)(client, packet, path)
        end.path = path
        return end

    def read(self, client, packet, path) -> End:
        if path not in self.files:
            raise Refused("file not found")
        text = wire_text(packet.mode, self.files[path])
        agreed = answer(packet.options, "RRQ", packet.mode, len(text), self.max_block, self.max_file)
        end = Sender(client, agreed, self.retries, text, 0 if agreed else 1, oack(agreed))
        if end.last > MOST_BLOCKS:
            raise Refused("file too large")
        end.newest = end.newest if agreed else end.block(1)
        return end

    def write(self, client, packet, path) -> End:
        agreed = answer(packet.options, "WRQ", packet.mode, 0, self.max_block, self.max_file)
        is_outside = self.uploads and not path.startswith(self.uploads + b"/")
        if self.is_read_only or is_outside or path.rpartition(b"/")[0] not in self.folders:
            raise Refused("access violation")
        if path in self.folders or (path in self.files and not self.replaces):
            raise Refused("file exists")
        newest = oack(agreed) if agreed else ack(0)
        return Receiver(client, agreed, self.retries, packet.mode, lambda content: self.commit(path, content), newest)

    def commit(self, path, content) -> Optional[str]:
        if path in self.files and not self.replaces:
            return "file exists"
        self.files[path] = content
        return None
