"""What `tftp-show` prints beside two other readers of TFTP: the model, and for packets that are right tshark, which is
asked for opcode, number, code, name, mode and options of each. The packets, and mutated ones, are a thousand for each
second of SOAK_SECONDS, by SOAK_SEED."""
import random
import re
import subprocess
from typing import Any

import pytest

import model
from lib import frames
from lib.needs import needs
from lib.packets import ack, data, error, pairs, request
from lib.programs import program
from ports import mutated
from test_soak import SECONDS, SEED

NAMES = [b"a", b"boot.img", b"a b", b"a%=b", b"\xe4\xf6", b"x" * 200, b"d/e/f", b"-", b"\x7f\x01"]
MODES = [b"octet", b"netascii", b"OCTET", b"NetASCII", b"mail"]
OPTIONS = [(b"blksize", b"1428"), (b"BLKSIZE", b"8"), (b"timeout", b"3"), (b"tsize", b"0"), (b"windowsize", b"4"),
           (b"x", b""), (b"a=b", b"%"), (b"utimeout", b"100000")]
TEXTS = [b"", b"file not found", b"a= %\n", b"\xff" * 30]
# what tshark is asked for, and how it parts the fields, and the values of one field
FIELDS = ["tftp.opcode", "tftp.block", "tftp.error.code", "tftp.source_file", "tftp.destination_file", "tftp.type",
          "tftp.option.name", "tftp.option.value"]
BETWEEN, APART = "\x1e", "\x1f"
pytestmark = pytest.mark.timeout(SECONDS + 600)


def drawn(rng: random.Random) -> bytes:
    """A packet, in half of which something is wrong."""
    options = rng.sample(OPTIONS, rng.choice([0, 0, 1, 2, 3]))
    asked = [request(rng.randrange(1, 3), rng.choice(NAMES), rng.choice(MODES), options) for _ in range(2)]
    right = rng.choice([
        *asked, data(rng.randrange(1, 65_536), rng.randbytes(rng.choice([0, 1, 8, 511, 512, 1_428]))),
        ack(rng.randrange(65_536)), error(rng.randrange(10), rng.choice(TEXTS)),
        b"\0\6" + pairs(options or [(b"tsize", b"7")])])
    return mutated(rng, right) if rng.random() < 0.5 else right


def escaped(text: bytes, plain: bytes = rb"!-$&-<>-~") -> str:
    return re.sub(rb"[^" + plain + rb"]", lambda it: b"%%%02x" % it[0][0], text).decode()


def read(packet: Any) -> tuple[str, dict[str, str]]:
    """The line of a packet or of its first fault, and the fields of a packet as tshark has them."""
    options = getattr(packet, "options", ())
    more = "".join(f" {escaped(name)}={escaped(value)}" for name, value in options)
    names, values = (APART.join(option[at].decode("latin-1") for option in options) for at in (0, 1))
    fields = {"tftp.option.name": names, "tftp.option.value": values} if options else {}
    match packet:
        case model.Fault(kind, at):
            return f"fault {kind} {at}", {}
        case model.Request(kind, name, mode, _):
            opcode, file = ("1", "tftp.source_file") if kind == "RRQ" else ("2", "tftp.destination_file")
            fields |= {"tftp.opcode": opcode, file: name.decode("latin-1"), "tftp.type": mode.decode()}
            return f"{kind} {escaped(name)} {mode.decode()}{more}", fields
        case model.Data(number, block):
            return f"DATA {number} {len(block)}", {"tftp.opcode": "3", "tftp.block": f"{number}"}
        case model.Ack(number):
            return f"ACK {number}", {"tftp.opcode": "4", "tftp.block": f"{number}"}
        case model.Error(code, text):
            return f"ERROR {code} ({escaped(text, rb' -$&-~')})", {"tftp.opcode": "5", "tftp.error.code": f"{code}"}
    return f"OACK{more}", {**fields, "tftp.opcode": "6"}


def is_plain(packet: Any) -> bool:
    """Whether tshark writes the texts of a packet as they are, and has a meaning for its options."""
    texts = [packet.name] if isinstance(packet, model.Request) else []
    texts += [each for option in getattr(packet, "options", ()) for each in option]
    # (an empty text has no field; tshark puts numbers beside some names)
    return not isinstance(packet, model.Fault) and all(re.fullmatch(rb'[!#-\[\]-~]+', each) for each in texts)


@pytest.fixture(scope="module")
def given() -> list[tuple[bytes, Any]]:
    """Datagrams, and what the model reads of them."""
    rng = random.Random(SEED)
    return [(datagram, model.decode(datagram)) for datagram in [drawn(rng) for _ in range(int(1_000 * SECONDS))]]


def test_tftp_show(given: Any) -> None:
    text = "".join(f"{datagram.hex()}\n" for datagram, _ in given)
    done = subprocess.run([program("tftp-show")], input=text, capture_output=True, text=True)
    found = [*zip(text.splitlines(), done.stdout.splitlines(), [read(packet)[0] for _, packet in given])]
    assert (len(found), done.stderr) == (len(given), "")
    assert [it for it in found if it[1] != it[2]][:9] == []


def test_tshark(given: Any, tmp_path: Any) -> None:
    """Each packet comes to the port of requests, from an endpoint of its own: tshark puts nothing together."""
    needs("tshark")
    seen, packets = [], [(datagram, packet) for datagram, packet in given if is_plain(packet)]
    for at, (datagram, _) in enumerate(packets):
        source = f"10.{1 + (at >> 16)}.{at >> 8 & 255}.{at & 255}"
        seen.append((at * 1_000, frames.ipv4(source, "192.0.2.1", frames.udp(1_024 + at % 60_000, 69, datagram))))
    (tmp_path / "seen.pcap").write_bytes(frames.classic(seen, frames.RAW))
    words = ["tshark", "-r", tmp_path / "seen.pcap", "-T", "fields", "-E", f"separator={BETWEEN}", "-E",
             f"aggregator={APART}", *[word for field in FIELDS for word in ("-e", field)]]
    done = subprocess.run(words, capture_output=True, text=True, errors="replace")
    lines = [line.split(BETWEEN) for line in done.stdout.removesuffix("\n").split("\n")]
    assert len(lines) == len(packets), done.stderr
    for (datagram, packet), line in zip(packets, lines):
        line[FIELDS.index("tftp.type")] = line[FIELDS.index("tftp.type")].lower()
        fields = {name: value for name, value in zip(FIELDS, line) if value}
        assert fields == read(packet)[1], f"tshark and the model differ: {datagram.hex()}"
