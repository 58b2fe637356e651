"""Raw clients at one `tftpd`: each answer is compared with the model's, byte for byte.

They send valid, mutated, truncated, repeated, reordered and foreign datagrams in bursts. The model is asked at once,
and then each expected answer has to arrive. Any other datagram has to be a retransmission that is due. What closes
without a datagram has to be due, too, after all its retransmissions. At the end the folder has the files of the model
and no other, and some reads and writes have to be complete.
"""
import random
import select
import time
from collections import Counter
from contextlib import closing, suppress
from itertools import count
from typing import Any

import model
from lib import stalls
from lib.exchanges import has_checks, usage_of
from lib.process import PATIENCE, Failure, Program, Server
from ports import HOST, LAST, Port, Stalled, has_least, mutated, random_bytes

# How much earlier than the model's a timer may be, in seconds, since two clocks are read that count otherwise
EARLY = 0.05
# Nothing is sent to an end that could close within so many seconds. Where a stall of this host takes longer the trial
# begins again
STALL = stalls.LIMIT
# Of so many steps back retransmissions may be on their way
MOST_STEPS = 3
# The most transfers at once, and the most requests of a burst
CAP, MOST_ASKED = 64, 6
# The texts of a server's ERRORS; tests/tftpd has files that are cut short, and more clients than a server serves
ERRORS = {*model.TEXTS} - {"file changed", "server busy"}
# How many steps a trial makes for each second that it is given, on a host that has time
STEPS_A_SECOND = 10
# The most open files of a server at the end, and the most memory that it has asked for
MOST_FILES, MOST_KILOBYTES = 7, 12_000
SIZES = [8, 9, 100, 511, 512, 513, 1_024, 1_428, 1_468, 8_192, 65_464]
LENGTHS = [0, 1, 7, 8, 9, 511, 512, 513, 1_024, 1_427, 1_428, 1_429, 5_000, 70_000, 600_000]
# The words of a command line for what a request port of the model is made with
FLAGS = {"replaces": ["--overwrite"], "is_read_only": ["--read-only"]}


class Live:
    """A client's port, what the request port and the transfer owe it, and the model's end once a transfer opens.
    `began` is the earliest time at which the timer of the newest datagram of the transfer may have begun."""

    def __init__(self, port, request) -> None:
        self.port, self.request, self.transfer, self.text = port, request, None, b""
        self.refusals, self.expected, self.older = list[bytes](), list[bytes](), list[bytes]()
        self.end, self.began = None, 0.0

    def seconds_left(self) -> float:
        """How long it stays open without progress."""
        return self.began + self.end.timeouts() * self.end.interval - time.time()

    def repeats(self, datagram, when) -> bool:
        """Whether a datagram that arrived then is a retransmission: an older one, which may be on its way, or the
        newest, which has to be due, and is not sent again once the end has all."""
        end, due = self.end, self.began + self.end.interval - EARLY
        if datagram != end.newest or when < due or end.left == 0 or end.is_complete:
            return datagram in self.older
        end.on_timeout()
        self.began += end.interval
        return True

    def was_in_time(self) -> None:
        """Nothing can have closed the transfer before what was just sent to it was there."""
        if self.end and not self.end.outcome and self.seconds_left() < EARLY:
            raise Stalled

    def is_open(self) -> bool:
        return bool(self.end and self.transfer) and not self.end.outcome and self.seconds_left() > STALL


class Trial:
    """A server with raw clients, for some seconds."""

    def __init__(self, program, folder, rng, life, **limits) -> None:
        self.rng, self.folder, self.files, self.counts = rng, folder, dict[bytes, bytes](), Counter[str]()
        (folder / "sub").mkdir()
        for at, length in enumerate(LENGTHS):
            name = f"sub/f{length}" if at % 3 == 0 else f"f{length}"
            content = rng.randbytes(length) if at % 2 else (b"line\r\n\r" * (length // 7 + 1))[:length]
            (folder / name).write_bytes(content)
            self.files[name.encode()] = content
        self.port = model.RequestPort(dict(self.files), [b"sub"], CAP, **limits)
        words = ["--cap", f"{CAP}", "--forever"]
        for name, value in limits.items():
            words += FLAGS.get(name, [f"--{name.replace('_', '-')}", f"{value}"])
        self.server = Server(program, HOST, folder, words, life)
        # a port whose datagrams have an answer each, another for foreign ones, and what both are owed, and by whom
        self.probe, self.stranger, self.answers = Port(), Port(), list[Any]()
        self.live, self.commits = list[Live](), set[bytes]()
        # the server reads its clock once a round, and handles what came since in that round, too: what is sent now is
        # handled in a round that began after this time
        self.round = time.time()

    def close(self) -> None:
        self.server.end()
        for port in [self.probe, self.stranger, *[each.port for each in self.live]]:
            port.close()

    # ---- what is sent

    def options(self) -> list[tuple[bytes, bytes]]:
        rng = self.rng
        choices: list[Any] = [
            (b"blksize", rng.choice(SIZES + [7, 65_465])), (b"timeout", rng.choice([3, 3, 5, 0, 256])),
            (b"tsize", rng.choice([0, 0, 100, 601, 2**64 - 1, 2**64])), (b"windowsize", 4), (b"BLKSIZE", 512),
            (b"x", "")]
        return [(name, str(value).encode()) for name, value in rng.sample(choices, rng.randrange(4))]

    def request(self) -> bytes:
        rng = self.rng
        mode = rng.choice([b"octet", b"octet", b"netascii", b"NetASCII", b"OcTeT", b"mail"])
        if rng.random() < 0.03:
            return model.request("RRQ", f"f{LENGTHS[-1]}", mode, [(b"blksize", rng.choice([b"8", b"9", b"10"]))])
        names = [*self.files, *self.files, b"none", b"sub", b"../a", b"a//b", b"/f512", b"a+b", b""]
        if rng.random() < 0.5:
            return model.request("RRQ", rng.choice(names), mode, self.options())
        names = [b"n%d" % rng.randrange(10_000), b"sub/n%d" % rng.randrange(10_000), b"none/n", b"f512"]
        # one that another client writes now: who commits first has it
        written = [each.end.path for each in self.live if isinstance(each.end, model.Receiver) and not each.end.outcome]
        return model.request("WRQ", rng.choice(names + written[-2:]), mode, self.options())

    def ask(self) -> None:
        """A burst at the request port. A request may come twice, and other datagrams with it."""
        if len(self.port.held) + MOST_ASKED > CAP:
            return
        for _ in range(self.rng.randrange(1, 4)):
            request = self.request()
            live = Live(Port(), mutated(self.rng, request) if self.rng.random() < 0.3 else request)
            self.live.append(live)
            for _ in range(self.rng.choice([1, 1, 2])):
                self.ask_once(live)
            live.was_in_time()

    def ask_once(self, live) -> None:
        answer, end = self.port.on_datagram(live.port.address, live.request)
        self.sent(live.port, live.request, self.server.address)
        if not end:
            live.refusals += self.told(answer)
            return
        self.counts["transfers"] += 1
        live.end, live.began = end, self.round
        live.expected.append(end.newest)
        if isinstance(end, model.Receiver):
            # (of random bytes most are not netascii)
            content = self.rng.randbytes(self.rng.choice([0, 1, 10, 100, end.size, 3 * end.size + 5]))
            is_wrong = end.mode == b"netascii" and self.rng.random() < 0.5
            live.text = content if is_wrong else model.wire_text(end.mode, content)

    def told(self, answer) -> list[bytes]:
        """The answer of the model, if there is one. ERRORs are counted by their texts."""
        if answer and answer[:2] == b"\0\5":
            self.counts[answer[4:-1].decode()] += 1
        return [answer] if answer else []

    def sent(self, port, datagram, to) -> None:
        self.counts["datagrams"] += 1
        port.send(datagram, to)

    def datagram_for(self, live) -> bytes:
        rng, right, dice = self.rng, live.end.wants(live.text), self.rng.random()
        if dice < 0.85:
            return right
        if dice < 0.9:
            return right[:2] + (max(live.end.number - 1, 0)).to_bytes(2, "big") + right[4:]
        if dice < 0.94:
            return mutated(rng, right)
        return rng.choice([right, self.request(), model.error("disk full"), b"\0\5", b"\0\6a\0b\0", random_bytes(rng)])

    def converse(self, live) -> None:
        """A burst at the port of a transfer, at times with a stranger's datagram."""
        for _ in range(self.rng.choice([1, 1, 1, 2, 3])):
            if self.rng.random() < 0.03:
                datagram = self.rng.choice([live.end.wants(live.text), b"\0\5\0\0\0", b"\0\5", b"x"])
                self.sent(self.stranger, datagram, live.transfer)
                live.was_in_time()
                for answer in self.told(live.end.on_datagram(self.stranger.address, datagram)):
                    self.answers.append((self.stranger, live.transfer, answer))
            datagram = self.datagram_for(live)
            if isinstance(live.end, model.Receiver) and live.end.is_last(model.decode(datagram)):
                # two commits of one name in one burst have no order
                if live.end.path in self.commits:
                    return
                self.commits.add(live.end.path)
            newest, moved = live.end.newest, live.end.moved
            self.sent(live.port, datagram, live.transfer)
            live.was_in_time()
            live.expected += self.told(live.end.on_datagram(live.port.address, datagram))
            if live.end.moved > moved:
                live.older, live.began = [*live.older[-MOST_STEPS + 1:], newest], self.round
            if live.end.outcome:
                return

    # ---- what is received

    def owed(self) -> list[tuple[Port, bytes]]:
        owed = [(port, answer) for port, _, answer in self.answers]
        return owed + [(each.port, answer) for each in self.live for answer in [*each.refusals, *each.expected]]

    def take(self, seconds) -> None:
        """Receives for so long, or until all that is owed has come."""
        end = time.monotonic() + seconds
        self.look()
        while owed := self.owed():
            if time.monotonic() > end:
                raise Failure(f"no answer {owed[0][1][:60]}", owed[0][0].seen)
            self.wait(0.2)
            self.look()

    def wait(self, seconds) -> None:
        """Waits until a datagram or a line is there, or so long."""
        # (the stream may be closed)
        with suppress(ValueError):
            ports = [self.probe, self.stranger, *[each.port for each in self.live]]
            select.select([self.server.output, *ports], [], [], seconds)

    def look(self) -> None:
        for port in [self.probe, self.stranger]:
            for answer, sender, _ in port.all_arrived():
                if (port, sender, answer) not in self.answers:
                    raise Failure(f"{answer[:60]} from {sender} in place of {self.answers}", port.seen)
                self.answers.remove((port, sender, answer))
        for live in self.live:
            self.take_all_of(live)
        for line in self.server.lines():
            transfer, client, outcome = line.split()
            found = [each for each in self.live if each.port.address[1] == int(client) and each.transfer
                     and each.transfer[1] == int(transfer)]
            if not found:
                raise Failure(f"a line of no transfer: {line}")
            self.take_close(found[0], outcome, line)

    def take_all_of(self, live) -> None:
        for datagram, sender, when in live.port.all_arrived():
            if sender == self.server.address:
                if not live.refusals or datagram != live.refusals.pop(0):
                    raise Failure(f"the request port answers {datagram[:60]}", live.port.seen)
                continue
            live.transfer = live.transfer or sender
            if sender != live.transfer or not live.end:
                raise Failure(f"{datagram[:60]} from {sender} in place of {live.transfer}", live.port.seen)
            if live.expected and datagram == live.expected[0]:
                live.expected.pop(0)
            elif live.repeats(datagram, when):
                self.counts["retransmissions"] += 1
            else:
                late = f"after {when - live.began:.3f} s, of interval {live.end.interval}"
                raise Failure(f"{datagram[:60]} {late}", live.port.seen)

    def take_close(self, live, outcome, line) -> None:
        self.take_all_of(live)
        end, since = live.end, time.time() - live.began
        if not end.outcome and end.is_complete:
            end.outcome = "Complete" if since > 2 * end.interval - EARLY else "Complete too early"
        elif not end.outcome and end.left == 0 and since > end.interval - EARLY:
            end.outcome = "TimedOut"
        if end.outcome != outcome or live.expected:
            raise Failure(f"{line}; the model: {end.outcome}, {end.left} left, {since:.3f} s since its timer began",
                          live.port.seen)
        if outcome == "Complete":
            self.counts["reads complete" if isinstance(end, model.Sender) else "writes complete"] += 1
        self.port.held = [each for each in self.port.held if each[0] is not end]
        self.live.remove(live)
        live.port.close()

    def is_quiet(self) -> None:
        """Nothing else has been sent: a datagram that has one answer is handled after all before. The server handles
        one in a round, so that the second is handled in a round that began after the first was sent."""
        begun = time.time()
        for _ in range(2):
            self.sent(self.probe, b"?", self.server.address)
            self.answers.append((self.probe, self.server.address, model.error("illegal operation")))
            self.take(PATIENCE)
        self.round = begun
        self.commits.clear()
        for live in [each for each in self.live if not each.end]:
            live.port.close()
            self.live.remove(live)

    # ---- the whole

    def run(self, seconds) -> None:
        """So many steps as the seconds have, each with numbers of its own: what one draws does not depend on how many
        the one before has drawn, which follows what came by then."""
        seed = self.rng.random()
        self.is_quiet()
        for step in range(max(int(seconds * STEPS_A_SECOND), 1)):
            self.rng = random.Random(f"{seed} {step}")
            if self.rng.random() < 0.3:
                self.ask()
            else:
                for live in self.rng.sample(self.live, min(len(self.live), self.rng.randrange(1, 12))):
                    if live.is_open():
                        self.converse(live)
            self.take(PATIENCE)
            self.is_quiet()

    def finish(self, tftp) -> None:
        """Every transfer closes in time, little is left open, every file is the model's, with no other but drafts of
        transfers that failed, and a get by `tftp` has what the model says: a mutated put may have replaced a file."""
        while self.live:
            if max(each.seconds_left() for each in self.live) < -PATIENCE / 2:
                raise Failure("a transfer that does not close", self.live[0].port.seen)
            self.wait(0.5)
            self.take(0)
        files, kilobytes = usage_of(self.server.pid())
        if files > MOST_FILES or kilobytes > MOST_KILOBYTES and not has_checks(self.server.pid()):
            raise Failure(f"{files} open files and {kilobytes} KB at the end")
        paths = [path for path in self.folder.rglob("*") if not path.is_dir() and not path.name.startswith(".tftp-")]
        found = {str(path.relative_to(self.folder)).encode(): path.read_bytes() for path in paths}
        if found != self.port.files:
            wrong = [name for name in {*found, *self.port.files} if found.get(name) != self.port.files.get(name)]
            raise Failure(f"the files {sorted(wrong)[:5]} differ, or are not there, or are of no transfer")
        name = next(iter(self.files))
        with Program([tftp, "get", self.server.word, name.decode(), "got", "--no-dally"], self.folder, 60) as get:
            ended = get.ended()
        if ended[0] or (self.folder / "got").read_bytes() != self.port.files[name]:
            raise Failure(f"a get at the end: {ended}")


def run(programs, folder, rng, seconds, **limits) -> Counter[str]:
    """Runs a trial, and another where this host stalled. Returns the counts."""
    counts, end, seed = Counter[str](), time.monotonic() + seconds + PATIENCE, rng.random()
    for at in count():
        place = folder / f"{at}"
        place.mkdir()
        with suppress(Stalled):
            counts = run_once(programs, place, random.Random(f"{seed} {at}"), seconds, **limits)
        if counts or time.monotonic() > end:
            break
    has_least(counts, ["reads complete"] + ["writes complete"] * (not limits.get("is_read_only")))
    return counts


def run_once(programs, folder, rng, seconds, **limits) -> Counter[str]:
    with closing(Trial(programs["tftpd"], folder, rng, seconds + LAST, **limits)) as trial:
        trial.run(seconds)
        trial.finish(programs["tftp"])
        return trial.counts
