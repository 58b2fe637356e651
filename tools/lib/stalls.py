"""How late this host lets a process wake: a test in real time that fails while it waited for long says little."""
import threading
import time

# The longest stall beside which a test in real time still counts, in seconds
LIMIT = 0.5


class Stalls:
    """Measures until it is closed. `longest_since` is the longest stall that ended after some time."""

    def __init__(self) -> None:
        self.found, self.is_over = list[tuple[float, float]](), threading.Event()
        self.thread = threading.Thread(target=self.run, daemon=True)
        self.thread.start()

    def run(self) -> None:
        before = time.monotonic()
        while not self.is_over.wait(0.05):
            now = time.monotonic()
            if (late := now - before - 0.05) > 0.02:
                self.found.append((now, late))
            before = time.monotonic()

    def longest_since(self, begun: float = 0) -> float:
        return max((late for ended, late in list(self.found) if ended >= begun), default=0.0)

    def close(self) -> None:
        self.is_over.set()
        self.thread.join()
