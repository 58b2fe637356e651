"""Datagrams of a third party to the request port of a world's server, which has the file `a` of the three bytes
`ABC`, the file `d/b` of two and the file `long`, for which 65,535 blocks of 8 bytes are one byte too few: what each
is, its bytes, and the answer. An OACK, an ACK or a DATA is from the end that it opens, an ERROR is from the request
port, and without an answer nothing opens. The answers of requests.txt are written by hand from RFC 1350, section 5
and appendix I, RFC 2347, "Negotiation Protocol", RFC 2348 and RFC 2349."""
from pathlib import Path

from lib.packets import request_of
from lib.sections import table

LONG = 524_280
FILES = f"file a 414243\nfile d/b 5859\nfile long 61*{LONG}\n"
ROWS = table(Path(__file__).with_name("requests.txt"))


def rows_of(kind: str) -> list[tuple[str, bytes, str]]:
    """The rows of a kind. What a log could not write stands there as bytes."""
    return [(what, request_of(text) if text[1:3] == "RQ" else text.encode("latin-1"), answer)
            for each, what, text, answer in ROWS if each == kind]


PORT, READS, WRITES, REPEATS, OPTIONS = map(rows_of, ["port", "read", "write", "repeat", "option"])
