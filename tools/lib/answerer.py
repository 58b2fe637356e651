"""A server in place of tftpd, for checks of a client: it answers each datagram by one, from the port that it came
to."""
import socket
import threading
from typing import Callable, Optional


class Answerer:
    """Answers at a port of this host, as long as its process lives. `word` names the port as a client's command line
    does; `answer` gives the answer to a datagram, or None for none."""

    def __init__(self, host: str, answer: Callable[[bytes], Optional[bytes]]) -> None:
        port = socket.socket(socket.AF_INET, socket.SOCK_DGRAM)
        port.bind((host, 0))
        self.word = f"{host}:{port.getsockname()[1]}"

        def run() -> None:
            while True:
                datagram, client = port.recvfrom(65_536)
                if (found := answer(datagram)) is not None:
                    port.sendto(found, client)

        threading.Thread(target=run, daemon=True).start()
