"""A network between one client and a server that loses, duplicates and reorders datagrams by a seed."""
import random
import select
import threading

from lib.ends import Port

# The longest wait for a datagram before the proxy looks whether it is to end, in seconds
MOMENT = 0.05


class Lane:
    """One direction. Of twenty datagrams three are lost, three duplicated, and three sent after the next one."""

    def __init__(self, seed) -> None:
        self.rng, self.late = random.Random(seed), []

    def sent_for(self, datagram) -> list[bytes]:
        """What is sent once a datagram has come in this direction."""
        number = self.rng.randrange(20)
        if number < 6:
            self.late = [datagram] if number >= 3 else self.late
            return []
        sent, self.late = [datagram] * (2 if number < 9 else 1) + self.late, []
        return sent


class Proxy:
    """Receives a client's request at `requests`, and answers from another port, in a thread until it is closed."""

    def __init__(self, server, seed) -> None:
        self.requests, self.answers, self.server_side = (Port(server[0]) for _ in range(3))
        self.word, self.server, self.client, self.transfer = self.requests.word, server, None, None
        self.to_server, self.to_client = Lane(seed), Lane(seed + 1_000)
        self.is_closed, self.thread = threading.Event(), threading.Thread(target=self.run)
        self.thread.start()

    def close(self) -> None:
        self.is_closed.set()
        self.thread.join()
        for port in (self.requests, self.answers, self.server_side):
            port.close()

    def run(self) -> None:
        ports = {port.socket: port for port in (self.requests, self.answers, self.server_side)}
        while not self.is_closed.is_set():
            for ready in select.select([*ports], [], [], MOMENT)[0]:
                self.take(ports[ready], *ready.recvfrom(65_536))

    def take(self, port, datagram, sender) -> None:
        if port is self.requests:
            # (a request is lost or sent once: a copy that is late could open a second transfer)
            self.client = sender
            if self.to_server.rng.random() >= 0.15:
                self.server_side.send(datagram, self.server)
        elif port is self.server_side:
            self.transfer = self.transfer or sender
            for each in self.to_client.sent_for(datagram) if sender == self.transfer else []:
                self.answers.send(each, self.client)
        elif self.transfer:
            for each in self.to_server.sent_for(datagram):
                self.server_side.send(each, self.transfer)
