"""The library for machines without an operating system, libtftp-bare.a for amd64 and arm64, by the disassembly of its
objects. It names no register of SSE, MMX or x87, of floating point or SIMD, touches nothing below the stack pointer,
is position independent, and calls memcpy, memmove, memset and the heap of tftp.h alone. Nothing calls itself and no
call is through a pointer, so the most stack that a call takes is the longest way through the calls that it makes: no
more than the table in man/tftp.3 says, which WRITE_STACK=1 in the environment makes anew. The client of examples/c is
linked to it with ports/malloc.c, and gets a file of tftpd in blocks of 1428 bytes."""
import os
import re
from functools import lru_cache
from typing import Any, Iterator, NamedTuple

import pytest

from lib.needs import needs
from lib.programs import TOP
from ported import BUILDS, COMPILER, EMULATOR, bare_archive, run

pytestmark = BUILDS

# what the archive may call
CALLS = {"memcpy", "memmove", "memset", "tftp_alloc", "tftp_realloc", "tftp_free"}
MANUAL, MAP = TOP / "man/tftp.3", TOP / "packaging/libtftp.map"


class Processor(NamedTuple):
    """How the code of a processor is read: its tools, the registers that it may not name, what is below the stack
    pointer, places that are absolute, what is taken off the stack pointer, in hexadecimal, and how it comments."""
    arch: str
    compiler: str
    emulator: str
    prefix: str
    registers: str
    below: str
    absolute: str
    takes: str
    comment: str


PROCESSORS = [
    Processor("amd64", "gcc", "", "", r"%[xyz]?mm\d|%st\b", r"-0x[0-9a-f]+\(%rsp\)", r"R_X86_64_(64|32S?|16|8)$",
              r"(?:sub\s+\$|add\s+\$-)0x(\w+),%rsp", "#"),
    Processor("arm64", COMPILER, EMULATOR, "aarch64-linux-gnu-", r"[\s,{\[](v\d+\.|[qdshbv]\d+\b)",
              r"\[sp, #-[^\]]*\](?!!)", r"R_AARCH64_(ABS|MOVW)", r"sub\s+sp, sp, #0x(\w+)", "//"),
]
EACH = pytest.mark.parametrize("processor", PROCESSORS, ids=lambda it: it.arch)


# ---- the code


class Code:
    """The functions of the archive: their instructions, what they call, and their stack."""

    def __init__(self, it: Processor) -> None:
        needs(it.compiler, f"{it.prefix}objdump")
        archive = bare_archive(it.arch)
        self.it, self.path = it, archive.with_name("joined.o")
        # one object, so that calls between its objects have their names
        run(f"{it.prefix}ld", "-r", "--whole-archive", archive, "-o", self.path)
        text = run(f"{it.prefix}objdump", "-dr", "--no-show-raw-insn", self.path)
        _, *parts = re.split(r"(?m)^[0-9a-f]+ <(.*)>:$", text)
        self.functions = {name: [line.strip() for line in lines.splitlines() if line.strip()]
                          for name, lines in zip(parts[::2], parts[1::2])}
        sizes = run(f"{it.prefix}nm", "--print-size", "--defined-only", self.path)
        self.size = sum(int(size, 16) for size in re.findall(r"(?m)^\S+ (\S+) [Tt] ", sizes))

    def faults(self) -> Iterator[str]:
        for name, lines in self.functions.items():
            for line in lines:
                # without comments, and the addresses of branches
                code = re.sub(r"\b[0-9a-f]+ <.*", "", line.partition(self.it.comment)[0])
                if re.search(f"{self.it.registers}|{self.it.below}", code):
                    yield f"{name}: {line}"
        listed = run(f"{self.it.prefix}readelf", "-rW", self.path)
        for part in re.findall(r"(?ms)^Relocation section '\.rela\.text\S*' .*?(?=^Relocation section|\Z)", listed):
            yield from (f"a place that is absolute: {line}" for line in part.splitlines()
                        if re.match(self.it.absolute, "".join(line.split()[2:3])))
        undefined = {*run(f"{self.it.prefix}nm", "--undefined-only", "--format=just-symbols", self.path).split()}
        yield from (f"it calls {name}" for name in undefined - CALLS - {"_GLOBAL_OFFSET_TABLE_"})

    def frame(self, name: str) -> int:
        """The bytes that a function takes off the stack pointer."""
        total = 0
        for line in self.functions[name]:
            code = line.partition(":\t")[2]
            taken, saved = re.match(self.it.takes, code), re.match(r"st[rp]\s.*\[sp, #-(\d+)\]!", code)
            total += 8 * code.startswith("push") + int(saved[1] if saved else 0)
            if taken:
                total += int(taken[1], 16) << (12 if "lsl" in code else 0)
        return total

    def calls(self, name: str) -> Iterator[tuple[str, bool]]:
        """What a function calls, and to what it jumps at its end."""
        lines = self.functions[name]
        for line, behind in zip(lines, [*lines[1:], ""]):
            code = line.partition(":\t")[2]
            assert not re.match(r"call\s+\*|blr\s", code), f"{name}: a call through a pointer: {line}"
            if match := re.match(r"(call|jmp|bl?)\s+(?!\*)(.*)", code):
                found = re.search(r"\sR_\w+\s+(.+?)(?:[-+]0x[0-9a-f]+)?$", behind)
                within = found or re.search(r"<(.+?)(?:\+0x[0-9a-f]+)?>$", match[2])
                target = re.sub(r"^\.text\.(unlikely\.|hot\.)?", "", within[1]) if within else ""
                if target in self.functions and target != name:
                    yield target, match[1] in ("call", "bl")
                assert not found or target in {*self.functions, *CALLS}, f"{name}: a call of {target}"

    @lru_cache(None)
    def stack(self, name: str) -> int:
        """The most stack that a call takes, with the return address on x86-64."""
        own = self.frame(name) + 8 * (self.it.arch == "amd64")
        return max([own, *(self.stack(target) + own * is_call for target, is_call in self.calls(name))])


code_of = lru_cache(None)(Code)


@EACH
def test_the_code(processor: Processor) -> None:
    assert [*code_of(processor).faults()] == []


# ---- what is said of it in the manual

# The bytes of stack that the manual states are one of these, with a tenth to spare: another compiler may take some
# more
STATED = [128, 256, 512, 1_024, 1_536, 2_048, 3_072, 4_096, 8_192]
MADE = re.compile(r'(?s)(?<=\.\\" made by tests/machines/test_bare\.py\n).*?(?=\.\\" end of what is made\n)')


def test_what_the_manual_says() -> None:
    """The size of the code and the stack of each call, the most of all processors."""
    codes, text = [code_of(it) for it in PROCESSORS], MANUAL.read_text()
    symbols = sorted({*re.findall(r"(?m)^ +(tftp_\w+);$", MAP.read_text())} - {"tftp_samples"})
    # an opening with options is an inline function over a symbol
    named = {it: it.replace("_open_", "_") for it in symbols} | {"tftp_open_server": "tftp_server_open"}
    most = {named[it]: max(code.stack(it) for code in codes) for it in symbols}
    size = max(code.size for code in codes)
    if "WRITE_STACK" in os.environ:
        stated = {name: next(it for it in STATED if it >= most[name] * 1.1) for name in most}
        rows = [f".It {it:,}\n" + " ,\n".join(f".Fn {name}" for name in most if stated[name] == it) + "\n"
                for it in sorted({*stated.values()})]
        end = f".El\n.Pp\nAll code has at most {size // 10_000 * 10 + 10} kB.\n"
        text = MADE.sub(lambda _: "".join([".Bl -tag -width 1,024 -compact\n", *rows, end]), text)
        MANUAL.write_text(text)
    _, *parts = re.split(r"(?m)^\.It ([\d,]+)\n", MADE.findall(text)[0])
    said = {name: int(it.replace(",", "")) for it, calls in zip(parts[::2], parts[1::2])
            for name in re.findall(r"\.Fn (\w+)", calls)}
    assert {name: it for name, it in most.items() if it > said.get(name, 0)} == {}
    assert size <= 1_000 * int(re.findall(r"at most (\d+) kB", parts[-1])[0])


@EACH
def test_a_get(processor: Processor, scene: Any) -> None:
    """The client of examples/c over the archive gets a file."""
    emulator, client, content = processor.emulator.split(), scene.folder / "client", os.urandom(1_000_003)
    needs(processor.compiler, *emulator)
    run(processor.compiler, "-O1", "-static", "-I", "include", "examples/c/get.c", "ports/malloc.c",
        bare_archive(processor.arch), "-o", client)
    scene.make("file", content)
    run(*emulator, client, *scene.serve().word.split(":"), "file", "got", "1428", cwd=scene.folder)
    assert (scene.folder / "got").read_bytes() == content
