"""The examples over the library for C, built for each checker that this host has: AddressSanitizer with
UndefinedBehaviorSanitizer, or valgrind; on this host, or in a chroot with the packages (lib/chroot.py)."""
import re
import shutil
import sys
from dataclasses import dataclass, field
from functools import partial
from pathlib import Path
from typing import Any, Callable, NamedTuple, Union

from lib.programs import TOP, ran

EXAMPLES, LAYOUT = TOP / "examples", TOP / "tests/library/layout.c"
WARNINGS = ["-std=c11", "-Wall", "-Wextra", "-Wpedantic", "-Werror"]
FLAGS = {
    "sanitized": ["-g", "-O1", "-fsanitize=address,undefined", "-fno-sanitize-recover=all"],
    "valgrind": ["-g", "-O2"],
    # a program that takes all of its C library into itself
    "static": ["-g", "-O2", "-static"],
}
# and one without a C library
ALONE = ["-O2", "-static", "-nostdlib", "-ffreestanding", "-fno-builtin", "-fno-stack-protector",
         "-fno-tree-loop-distribute-patterns"]
# what the archive calls and does not have: a program without a C library has these, or a heap in place of the first
# three
OF_C = {"malloc", "realloc", "free", "memcpy", "memmove", "memset", "memcmp"}
VALGRIND = ["valgrind", "-q", "--error-exitcode=99"]
LEAKS = [*VALGRIND, "--leak-check=full", "--errors-for-leak-kinds=all"]
# (the runtime of Rust still reaches a block of its own when it ends)
LOST = [*VALGRIND, "--leak-check=full", "--errors-for-leak-kinds=definite,indirect,possible"]
# (an interpreter's own code may jump by a table that valgrind takes for uninitialised; what the library does still
# counts)
INTERPRETER = "".join(f"{{\nits own\nMemcheck:{kind}\nobj:*/{name}*\n}}\n"
                      for kind in ["Cond", "Value8", "Addr4", "Addr8"] for name in ["libpython3", "python3"])
RUST_TARGET = "x86_64-unknown-linux-gnu"
# the programs in C by their sources
IN_C = {**{name: [f"{name}.c"] for name in ["get", "put", "serve", "shards"]}, "bare": ["host_machine.c", "bare.c"]}

Word = Union[str, int, Path]


def run(*command: Word, status: int = 0, **how: Any) -> str:
    """Runs a command to its end, and returns what it printed."""
    done = ran(*command, **how)
    said = f"{' '.join(done.args)}: status {done.returncode}: {done.stdout[-2000:]}{done.stderr[-2000:]}"
    assert done.returncode == status, said
    return done.stdout


@dataclass
class Built:
    """Examples beside a checker: the words before those of each example, by its name."""
    name: str
    is_slow: bool = False
    words: dict[str, list[str]] = field(default_factory=dict)

    def both(self, language: str, make: Callable[[str], list[str]]) -> "Built":
        """Has the client of a language, which gets and puts."""
        self.words |= {f"{verb} in {language}": make(verb) for verb in ("get", "put")}
        return self

    def has(self, example: str) -> bool:
        return example in self.words

    def command(self, example: str, *words: Word) -> list[str]:
        return [*self.words[example], *map(str, words)]


class Host:
    """This host as a place in which commands run, with libtftp.a and libtftp.so.1 in a folder."""

    examples, is_host, emulator = EXAMPLES, True, list[str]()

    def __init__(self, room: Path, archive: Path) -> None:
        self.room, self.archive, at = room, archive, str(archive.parent)
        self.go = {"CGO_CFLAGS": f"-I{TOP / 'include'}", "CGO_LDFLAGS": f"-L{at}", "LD_LIBRARY_PATH": at}
        self.rust, self.python = {"TFTP_LIB": at}, {"TFTP_LIBRARY": f"{at}/libtftp.so.1"}

    def path(self, name: str) -> str:
        """A path of its room, as a command has it."""
        return str(self.room / name)

    def outside(self, name: str) -> Path:
        """The same, as this host has it."""
        return self.room / name

    def words(self, *words: Word, **env: str) -> list[str]:
        """A command with this environment."""
        pairs = [f"{name}={value}" for name, value in env.items()]
        return [*(["env", *pairs] if pairs else []), *map(str, words)]

    def run(self, *words: Word, at: str = "", **env: str) -> str:
        return run(*self.words(*words, **env), cwd=at or self.room)

    def library(self, _: bool = False) -> list[str]:
        """What links a program to it."""
        return ["-I", str(TOP / "include"), str(self.archive)]


def archive(room: Path) -> Path:
    """libtftp.a and libtftp.so.1 in the folder, of what `rt lib` built."""
    if not (TOP / "crates/tftp_c/out/libtftp_c.a").is_file():
        run("rt", "lib", "--cpu=x86-64", cwd=TOP / "crates/tftp_c")
    run(TOP / "tools/library.sh", room)
    return room / "libtftp.a"


def in_c(place: Any, compiler: str, checker: str) -> Built:
    """The examples in C, by this compiler."""
    before = LEAKS if checker == "valgrind" else place.emulator
    it = Built(f"C, {compiler}, {checker}", bool(before))

    def compiled(name: str, *sources: Word) -> None:
        program = place.path(f"{name}-{compiler}-{checker}")
        words = [compiler, *WARNINGS, *FLAGS[checker], "-I", f"{place.examples}/c"]
        place.run(*words, *sources, *place.library(), "-o", program)
        it.words[name] = place.words(*before, program)

    for name in IN_C if place.is_host else ["get", "put", "serve"]:
        compiled(name, *(f"{place.examples}/c/{source}" for source in IN_C[name]))
    if place.is_host:
        shown = (TOP / "man/tftp.3").read_text().split(".Bd -literal\n")[1].split(".Ed\n")[0]
        place.outside("manual.c").write_text(shown.replace("\\e", "\\"))
        compiled("manual", place.path("manual.c"))
        compiled("layout", LAYOUT, "-Wl,--wrap=malloc,--wrap=realloc")
    return it


def in_c_alone(place: Host) -> Built:
    """The client without an operating system, linked to the library and to no C library: it has all that the library
    calls. A standard before C99, and a processor that the library is not built for, are refused by a line that says
    so."""
    others = [["gcc", "-m32"], ["gcc", "-mx32"], *[[it] for it in ["riscv64-linux-gnu-gcc"] if shutil.which(it)]]
    for words, said in [(["gcc", "-std=c89"], "needs C99"), (["gcc", "-std=gnu90"], "needs C99"),
                        *[(words, "no other processor") for words in others]]:
        done = ran(*words, "-fsyntax-only", TOP / "include/tftp.h")
        errors = [line for line in done.stderr.splitlines() if "error:" in line]
        assert done.returncode and len(errors) == 1 and said in errors[0], f"{words}: {done.stderr}"
    listed, defined = (run("nm", f"--{kind}-only", "--format=just-symbols", place.archive).split()
                       for kind in ["undefined", "defined"])
    assert {it for it in listed if not it.endswith(":")} - {*defined} <= OF_C
    program, sources = place.path("alone"), [EXAMPLES / "c/bare.c", EXAMPLES / "c/alone_machine.c"]
    place.run("gcc", *WARNINGS, *ALONE, *sources, *place.library(), "-o", program)
    return Built("C, no C library", words={"bare": [program]})


def in_cpp(place: Any, compiler: str) -> Built:
    """The example in C++, without exceptions in it."""
    client = place.path(f"client-{compiler}")
    words = [compiler, "-std=c++17", *WARNINGS[1:], *FLAGS["sanitized"]]
    if place.is_host:
        place.run(*words, "-fsyntax-only", "-I", TOP / "include", TOP / "tests/library/views.cpp")
    place.run(*words, f"{place.examples}/cpp/client.cpp", *place.library(True), "-o", client)
    return Built(f"C++, {compiler}").both("C++", partial(place.words, client))


def copied(place: Any, name: str) -> str:
    """A copy of a folder of examples, in which is built."""
    source = place.examples if place.is_host else place.root / str(place.examples).lstrip("/")
    shutil.copytree(Path(source, name), place.outside(name), ignore=shutil.ignore_patterns("target", "Cargo.lock"))
    return str(place.path(name))


def in_go(place: Any) -> Built:
    """The package's test is run, and its client is built: Go checks each pointer that is passed, and valgrind does
    not know the stacks of Go."""
    folder, client = copied(place, "go"), place.path("go-client")
    # (from 1.21 on the strictest check of pointers at run time is an experiment of the build)
    checks = "2" if re.match(r"go1\.(18|19|20)\b", run("go", "env", "GOVERSION")) else "1"
    env = {"CGO_ENABLED": "1", "GOFLAGS": "-mod=mod", "GOPROXY": "off", "GOTOOLCHAIN": "local",
           "GODEBUG": f"cgocheck={checks}", **place.go}
    for words in [["vet", "./..."], ["test", "./..."], ["build", "-o", client, "./cmd/client"]]:
        place.run("go", *words, at=folder, **env)
    return Built("Go").both("Go", lambda verb: place.words(client, verb, **env))


def in_rust(place: Any, checker: str) -> Built:
    """The tests of both crates are run, those of their documentation too, and the example is built; they are
    formatted."""
    folder, env = copied(place, "rust"), dict(place.rust)
    if checker == "sanitized":
        # a stable compiler has the sanitizer's runtime, and no stable flag for it
        env |= {"RUSTC_BOOTSTRAP": "1", "RUSTFLAGS": "-Zsanitizer=address", "RUSTDOCFLAGS": "-Zsanitizer=address"}
    for words in [["test", *["--workspace"] * place.is_host], ["build", "--examples"]]:
        place.run("cargo", "--offline", "--quiet", *words, "--target", RUST_TARGET, at=folder, **env)
    if place.is_host and shutil.which("rustfmt"):
        place.run("cargo", "fmt", "--all", "--check", at=folder, **env)
    before = LOST if checker == "valgrind" else []
    client = f"{folder}/target/{RUST_TARGET}/debug/examples/client"
    return Built(f"Rust, {checker}", bool(before)).both("Rust", partial(place.words, *before, client))


def in_python(place: Any, checker: str) -> Built:
    """The module for Python, whose tests are run, and as a program, whose buffers are blocks of malloc, with the
    library that it loads."""
    env = {"PYTHONMALLOC": "malloc", **place.python}
    python, before = sys.executable if place.is_host else "python3", list[str]()
    if checker == "sanitized":
        # (the interpreter frees not all at its end)
        env |= {"LD_PRELOAD": run("gcc", "-print-file-name=libasan.so").strip(), "ASAN_OPTIONS": "detect_leaks=0"}
    else:
        place.outside("suppressed").write_text(INTERPRETER)
        before = [*VALGRIND, f"--suppressions={place.path('suppressed')}"]
    if place.is_host:
        place.run(*before, python, "-m", "unittest", "tftp_test", at=f"{place.examples}/python", **env)
    words = [*before, python, "-S", f"{place.examples}/python/tftp.py"]
    return Built(f"Python, {checker}", bool(before)).both("Python", lambda verb: place.words(*words, verb, **env))


def rust_has_sanitizer() -> bool:
    """Whether the Rust compiler that is here has AddressSanitizer's runtime."""
    return any(Path(run("rustc", "--print", "sysroot").strip()).glob(f"lib/rustlib/{RUST_TARGET}/lib/librustc*asan*"))


class Build(NamedTuple):
    """The commands that a build needs, and what builds in a place."""
    needs: list[str]
    make: Callable[[Any], Built]


def checked_by(make: Callable[..., Built], *needs: str, **how: str) -> Build:
    return Build([*needs, *["valgrind"] * (how["checker"] == "valgrind")], partial(make, **how))


BUILDS = {
    **{f"C, {it}, sanitized": checked_by(in_c, it, compiler=it, checker="sanitized") for it in ["gcc", "clang"]},
    "C, gcc, valgrind": checked_by(in_c, "gcc", compiler="gcc", checker="valgrind"),
    "C, musl-gcc, static": checked_by(in_c, "musl-gcc", compiler="musl-gcc", checker="static"),
    "C, no C library": Build(["gcc"], in_c_alone),
    **{f"C++, {it}": Build([it], partial(in_cpp, compiler=it)) for it in ["g++", "clang++"]},
    **{f"Rust, {it}": checked_by(in_rust, "cargo", checker=it) for it in ["sanitized", "valgrind"]},
    # (these three load the shared library, which objcopy makes)
    "Go": Build(["go", "gcc", "objcopy"], in_go),
    **{f"Python, {it}": checked_by(in_python, "gcc", "objcopy", checker=it) for it in ["sanitized", "valgrind"]},
}


def lacking(build: str) -> list[str]:
    """What this host has not of what a build needs."""
    found = [it for it in BUILDS[build].needs if not shutil.which(it)]
    return found + ["Rust's AddressSanitizer"] * (not found and build == "Rust, sanitized" and not rust_has_sanitizer())
