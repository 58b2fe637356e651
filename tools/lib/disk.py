"""A disk that fails at a chosen call, or whose paths are exchanged just before one: tests/shims/disk_calls.c is
loaded before a program."""
import mmap
import struct
from typing import Any

from lib.ends import expect, wait_until
from lib.scene import Scene, Server, preloaded

# the parts of `struct control` in disk_calls.c: what a call fails by, whether links do, whether polls repeat what
# they found, whether a path is exchanged, how long a rename waits, which calls fail and behind how many; then the
# texts, and how many letters there are
FLAGS, TEXTS = struct.Struct("iiiiiii"), struct.Struct("256s512s512s256s256s")
COUNT, LETTERS = struct.Struct("i"), 4_000


class Disk:
    """What a test has in common with the calls of a server: its orders, and the letters of the calls."""

    def __init__(self, scene: Scene) -> None:
        self.folder, self.path = scene.folder, scene.beside("calls")
        self.path.write_bytes(bytes(FLAGS.size + TEXTS.size + COUNT.size + LETTERS))
        with open(self.path, "r+b") as file:
            self.memory = mmap.mmap(file.fileno(), 0)
        scene.ending.callback(self.memory.close)

    def orders(self, error: int = 0, lacks_links: bool = False, is_busy: bool = False, exchange: Any = None,
               is_linked: bool = False, nap: int = 0, elsewhere: str = "", only: str = "", after: int = 0) -> None:
        """From now on calls fail by this number of an error, and so on; none without words. `exchange` is the end of
        the path of a call, the path that is exchanged before it, and the target of the link that is there then; if
        the path is to be linked first, that call is another. `nap` is in milliseconds. `only` is the letter of the
        calls that fail, once there were so many `after` which they do. The calls are noted anew."""
        name, path, target = exchange or ("", "", "")
        path = self.folder / path
        exchanges = 0 if exchange is None else 2 if is_linked else 1
        texts = [name, path, f"{path}-away", target, elsewhere]
        # the order to exchange is the last that is given: the server may look at any time
        FLAGS.pack_into(self.memory, 0, *[0] * 7)
        self.forget()
        TEXTS.pack_into(self.memory, FLAGS.size, *[str(text).encode() for text in texts])
        # (and what decides about an error comes before it)
        flags = [lacks_links, is_busy, exchanges, nap, ord(only or "\0"), after]
        FLAGS.pack_into(self.memory, 0, 0, *flags)
        FLAGS.pack_into(self.memory, 0, error, *flags)

    def calls(self) -> str:
        """The letters of the calls since the last `forget`."""
        at = FLAGS.size + TEXTS.size
        count = COUNT.unpack_from(self.memory, at)[0]
        return bytes(self.memory[at + COUNT.size:at + COUNT.size + count]).decode()

    def has_made(self, calls: str, what: str) -> None:
        expect(self.calls(), calls, f"the calls of {what}")

    def forget(self) -> None:
        COUNT.pack_into(self.memory, FLAGS.size + TEXTS.size, 0)

    def has(self, letter: str) -> None:
        """Waits until there was such a call."""
        wait_until(lambda: letter in self.calls(), f"a call {letter}")


def serve_on(scene: Scene, disk: Disk, *words: Any, root: str = ".") -> Server:
    """Starts a server of a folder on this disk."""
    return scene.serve(*words, root=root, env=preloaded(scene, "disk_calls.c", CONTROL=disk.path))


def serve(scene: Scene, *words: Any, root: str = ".") -> tuple[Server, Disk]:
    """Starts a server of a folder, and returns it with its disk."""
    disk = Disk(scene)
    return serve_on(scene, disk, *words, root=root), disk
