"""The packets of TFTP as bytes (RFC 1350, section 5; RFC 2347), with names and texts as `str` or `bytes`."""
from typing import Iterable, Sequence, Union

Word = Union[str, bytes, int]


def string(value: Word) -> bytes:
    """A word with the zero byte behind it."""
    return (value if isinstance(value, bytes) else str(value).encode()) + b"\0"


def pairs(options: Iterable[Sequence[Word]]) -> bytes:
    return b"".join(string(word) for option in options for word in option)


def request(opcode: int, name: Word, mode: Word = "octet", options: Iterable[Sequence[Word]] = ()) -> bytes:
    return opcode.to_bytes(2, "big") + string(name) + string(mode) + pairs(options)


def request_of(line: str) -> bytes:
    """A request as a log writes it, such as `WRQ n octet tsize=9`."""
    kind, name, mode, *options = line.split()
    return request({"RRQ": 1, "WRQ": 2}[kind], name, mode, [option.split("=") for option in options])


def line_of(datagram: bytes) -> str:
    """How a log writes a request."""
    name, mode, *options = datagram[2:-1].decode().split("\0")
    asked = [f" {option}={value}" for option, value in zip(options[::2], options[1::2])]
    return f"{'RRQ' if datagram[1] == 1 else 'WRQ'} {name} {mode.lower()}{''.join(asked)}"


def rrq(name: Word, mode: Word = "octet", **options: Word) -> bytes:
    return request(1, name, mode, options.items())


def wrq(name: Word, mode: Word = "octet", **options: Word) -> bytes:
    return request(2, name, mode, options.items())


def data(number: int, block: bytes) -> bytes:
    return b"\0\3" + number.to_bytes(2, "big") + block


def ack(number: int) -> bytes:
    return b"\0\4" + number.to_bytes(2, "big")


def error(code: int, text: Word) -> bytes:
    return b"\0\5" + code.to_bytes(2, "big") + string(text)


def oack(**options: Word) -> bytes:
    return b"\0\6" + pairs(options.items())
