"""What a power cut may leave of a transfer, at each of its calls on the disk. Gets, puts and overwrites are traced by
strace. After each call every state is looked at that POSIX allows the disk to have then: of the entries of a folder
that changed since its last sync any part, and of the bytes of a file since its last sync none, some or all, or only
their length. In each of them the name of the file is as before or has all bytes, and once the last block is
acknowledged, or `complete` is printed, it has all."""
import os
from pathlib import Path
from typing import Iterator, Optional

import pytest

from lib.packets import ack
from traced import PRINTED, TOLD, transfer

# lengths of no block, of a part of one, of several, and beyond what a put may have unsynced, of which it is synced on
# its way
LENGTHS = {"no byte": 0, "one block": 100, "blocks": 3_000, "a long file": 1_300_007}
# transfers of each length: more words of the server, those of the client, and the name that changes, below ROOT or HERE
KINDS = {"get": ("", "get a HERE/got", "HERE/got"), "put": ("", "put HERE/file sub/new", "ROOT/sub/new"),
         "overwrite": ("--overwrite", "put HERE/file old", "ROOT/old")}
CASES = {"get that replaces": ("", "get a HERE/old --no-dally --replace", "HERE/old", 3_000),
         **{f"{kind}, {title}": (*words, length) for title, length in LENGTHS.items() for kind, words in KINDS.items()}}


class Disk:
    """What is on the disk for certain, and what may be, of the files that are called by the first of their names."""

    def __init__(self, contents: dict[str, bytes]) -> None:
        self.synced, self.now = dict(contents), dict(contents)
        # the file of each name as programs see it, as a power cut leaves it for certain, and the changes between
        self.seen: dict[str, Optional[str]] = {name: name for name in contents}
        self.names, self.pending = dict(self.seen), list[tuple[str, Optional[str]]]()

    def set(self, name: str, file: Optional[str]) -> None:
        self.seen[name] = file
        self.pending.append((name, file))

    def apply(self, line: str, content: bytes) -> None:
        """A call, as calls.txt has it, and what it writes."""
        words, _, result = line.partition(": ")
        match words.split() if result in ("", "ok") else []:
            case ["write", path]:
                self.now[str(self.seen[path])] += content
            case ["sync_data" | "sync_all", path]:
                self.synced[str(self.seen[path])] = self.now[str(self.seen[path])]
            case ["sync_folder", folder]:
                self.names |= {name: file for name, file in self.pending if os.path.dirname(name) == folder}
                self.pending = [(name, file) for name, file in self.pending if os.path.dirname(name) != folder]
            case ["make", path]:
                self.now[path] = b""
                self.set(path, path)
            case ["link" | "rename" as call, path, name]:
                self.set(name, self.seen[path])
                if call == "rename":
                    self.set(path, None)
            case ["remove", path]:
                self.set(path, None)

    def states(self, name: str) -> Iterator[Optional[bytes]]:
        """What a name may lead to: of the changes of its folder any part is there. Pages of a file that were not
        synced are there or not, and their length may be there alone."""
        for file in [self.names.get(name), *(file for other, file in self.pending if other == name)]:
            synced, now = (self.synced.get(file, b""), self.now[file]) if file else (None, None)
            yield now
            if now is not None and synced != now:
                half, none = len(now) // 2, bytes(len(now))
                yield from [synced, now[:half], none, now[:half] + none[half:], none[:half] + now[half:]]


@pytest.mark.parametrize("server, client, name, length", CASES.values(), ids=CASES)
def test_a_cut_at_each_call(server: str, client: str, name: str, length: int, tmp_path: Path) -> None:
    content, block = bytes(at * 7 % 251 for at in range(length)), 65_464 if length > 100_000 else 512
    words = f"{client} --timeout 5" + f" --blksize {block}" * (block > 512)
    done = transfer(tmp_path, content, f"--max-block 65464 {server}", words, ack(length // block + 1), "unlimited")
    assert done.status == 0, done.printed
    disk, is_told = Disk({"ROOT/a": content, "HERE/file": content, "ROOT/old": b"old", "HERE/old": b"old"}), False
    before = disk.now.get(name)
    for line in done.calls("client" if client.startswith("get") else "server"):
        assert not line.text.startswith("no function"), line.text
        for piece in line.pieces or [b""]:
            disk.apply(line.text, piece)
            is_told = is_told or line.text in (TOLD, PRINTED)
            for left in disk.states(name):
                what = "no file" if left is None else f"{len(left)} bytes, {left[:8]!r}.."
                said = f"a cut behind `{line.text}` leaves {what}{' though it was acknowledged' * is_told}"
                assert left == content or left == before and not is_told, said
    assert is_told, "it was never acknowledged"
