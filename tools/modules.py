#!/usr/bin/env python3
"""Proves and compiles the programs and the library for C for a processor: modules.py ARCH [NAME..], or modules.py ARCH
link programs|libtftp|bare FOLDER

ARCH is amd64 (every processor of x86-64) or arm64, NAME a program or `libtftp`; without names it is all of them.
Libraries below that are not there are built first. The prover proves the functions of the crate itself for that target.
A folder out/modules/ARCH/NAME keeps the code (`object.o`, `archive.a`), the prover's last line (`verdict`), the module
that it hands to the compiler and how (`words`), and the assembly by the same words (`NAME.s`). `libtftp-bare` is of the
module of `libtftp`, with attributes by which its code has no register of floating point or SIMD, and on x86-64 nothing
below the stack pointer. What is there of the same text is not made again. JOBS is the processors of one proof (2).
By `link` they are then linked, by CC or the cross compiler of Debian: the programs to ports/os.c, and with STATIC=1 to
a C library of their own; the library as tools/library.sh does; and libtftp-bare.a, which has no heap, to ports/heap.c.
"""
import fcntl
import os
import re
import shutil
import subprocess
import sys
import tempfile
from concurrent.futures import ThreadPoolExecutor
from functools import partial
from pathlib import Path
from typing import Any, NamedTuple, Sequence

from lib.kit import crates, has_libraries, kit
from lib.programs import NAMES, TOP

KIT = kit()
import rtlib

LIBRARY, BARE, CLANG = "libtftp", "libtftp-bare", KIT / "toolchain/bin/clang"
# what is made, and linked together
ALL, KINDS = [*NAMES, LIBRARY, BARE], {"programs": [*NAMES], LIBRARY: [LIBRARY], "bare": [BARE]}


class Target(NamedTuple):
    """A processor: its name for the prover, and the word for every processor of its kind, where that is not the
    prover's own choice; for bare machines what is added to the attributes of each function, and the compiler's
    words."""
    triple: str
    cpu: list[str]
    attributes: str
    words: list[str]


TARGETS = {
    "amd64": Target("x86_64-unknown-linux-gnu", ["--cpu=x86-64"],
                    'noredzone noimplicitfloat "target-features"="-mmx,-sse,-sse2,-x87,+soft-float"', []),
    "arm64": Target("aarch64-unknown-linux-gnu", [], 'noimplicitfloat "target-features"="-fp-armv8,-neon"',
                    ["-march=armv8-a+nofp+nosimd"]),
}


def crate_of(name: str) -> Any:
    """The crate of a program or of the library for C, as rt has it."""
    return crates()["tftp_c" if name in (LIBRARY, BARE) else name.replace("-", "_") + "_main"]


def place_of(arch: str, name: str) -> Path:
    """The folder of what is kept."""
    return TOP / "out/modules" / arch / name


def object_of(arch: str, name: str) -> Path:
    """The compiled code."""
    return place_of(arch, name) / ("archive.a" if name == LIBRARY else "object.o")


def stamp_of(arch: str, name: str) -> str:
    """What it is made of: the text of its crate and those below, and the ways of this file."""
    return f"{crate_of(name).stamp()} {arch} 1\n"


def is_kept(arch: str, name: str) -> bool:
    stamp = place_of(arch, name) / "stamp"
    return stamp.is_file() and stamp.read_text() == stamp_of(arch, name)


def run(*words: Any, **how: Any) -> str:
    """Runs a command of the top, or stops. Returns what it printed."""
    done = subprocess.run([*map(str, words)], text=True, stdin=subprocess.DEVNULL, stdout=subprocess.PIPE,
                          stderr=subprocess.STDOUT, **{"cwd": TOP, **how})
    if done.returncode:
        sys.exit(f"modules: {' '.join(map(str, words[:3]))}: status {done.returncode}: {done.stdout[-2000:]}")
    return done.stdout


def proved(arch: str, name: str, to: Path) -> None:
    """Proves a program's own functions, or the library's, for a processor, and compiles it into a folder."""
    crate, target = crate_of(name), TARGETS[arch]
    # as rt builds over libraries of its own; over those of `rt ci` nothing is taken from an earlier check
    kept = rtlib.KEPT if all(Path(it.folder, "out/rlib/stamp").is_file() for it in crate.below()) else []
    with tempfile.TemporaryDirectory(prefix="modules-") as room:
        # a toolchain that keeps the modules which its compiler is given
        toolchain = shutil.copytree(KIT / "toolchain", Path(room, "toolchain"), copy_function=os.symlink)
        compiler = toolchain / "bin/clang"
        compiler.unlink()
        script = (TOP / "ports/keeping-clang").read_text()
        compiler.write_text(script.replace("@KEPT@", str(to)).replace("@COMPILER@", str(CLANG)))
        compiler.chmod(0o755)
        words = [*crate.words(["--jobs", os.environ.get("JOBS", "2")], keeps=False), *target.cpu, *kept]
        said = run(rtlib.RATTLE, "build", *words, f"--target={target.triple}", "--toolchain", toolchain, "--backend",
                   "llvm", "-o", to / object_of(arch, name).name, cwd=crate.folder)
    # those of the compiler's other calls
    for path in to.glob("words.*"):
        path.unlink()
    verdicts = re.findall(r"(?m)^logic=proved .*$", said)
    if not verdicts or f" target={target.triple} " not in f"{verdicts[-1]} ":
        sys.exit(f"modules: {name}: it is not proved for {target.triple}: {said[-2000:]}")
    (to / "verdict").write_text(f"{verdicts[-1]}\n")


def module_in(folder: Path) -> Path:
    """The module that was kept: large ones come as text, which is optimised already."""
    found = [*folder.glob("module.*")]
    if len(found) != 1:
        sys.exit(f"modules: {folder} has {len(found)} modules: the compiler was not called as it was known to be")
    return found[0]


def assemble(folder: Path, name: str, *more: str) -> None:
    """Makes the assembly of the module in a folder, by the words there, but those that make an object, name a module or
    are about warnings, and by more. It has no `.addrsig`, which GNU's assembler does not know."""
    to, words = folder / f"{name}.s", (folder / "words").read_text().split("\n")[:-1]
    at = words.index("-o")
    kept = [it for it in words[:at] + words[at + 2:] if not re.search(r"\.(bc|ll)$|^-(c|Werror)$", it)]
    run(CLANG, "-S", *kept, module_in(folder), "-o", to, *more)
    to.write_text(re.sub(r"(?m)^\s*\.addrsig.*\n", "", to.read_text()))


def for_bare_machines(arch: str, room: Path) -> None:
    """The library for machines without an operating system, of the module of the library."""
    module = module_in(place_of(arch, LIBRARY))
    shown = ["-S", "-emit-llvm", "-Xclang", "-disable-llvm-passes", "-Wno-override-module", "-x", "ir"]
    text = module.read_text() if module.suffix == ".ll" else run(CLANG, *shown, module, "-o", "-")
    if bad := re.findall(r"(?m)^define (?!.* #\d+ (?:.* )?\{$).*$|^attributes .*target-features.*$", text):
        sys.exit(f"modules: functions whose attributes are not as they were known to be: {bad[:3]}")
    text = re.sub(r"(?m)^(attributes #\d+ = \{.*) \}$", rf"\1 {TARGETS[arch].attributes} }}", text)
    (room / "module.ll").write_text(text)
    for name in ("words", "verdict"):
        shutil.copy2(module.with_name(name), room)
    assemble(room, BARE, *TARGETS[arch].words)


def make(arch: str, name: str) -> None:
    """Proves and compiles one where it is not kept, and puts it in its place as soon as it is whole. A second run
    waits for the first."""
    place = place_of(arch, name)
    place.parent.mkdir(parents=True, exist_ok=True)
    with place.with_name(f"{name}.lock").open("w") as lock:
        fcntl.flock(lock, fcntl.LOCK_EX)
        is_new = not is_kept(arch, name)
        if is_new:
            stamp, room = stamp_of(arch, name), place.with_name(f"{name}.new")
            shutil.rmtree(room, ignore_errors=True)
            room.mkdir()
            if name == BARE:
                make(arch, LIBRARY)
                for_bare_machines(arch, room)
            else:
                proved(arch, name, room)
                assemble(room, name)
            (room / "stamp").write_text(stamp)
            shutil.rmtree(place, ignore_errors=True)
            room.rename(place)
    print(f"{name} for {arch}: {(place / 'verdict').read_text().strip() if is_new else 'made before'}", flush=True)


def made(arch: str, names: Sequence[str], at_once: int = 1) -> None:
    """Makes these, and before them the libraries below that are not there."""
    lacking = [crate_of(name) for name in names if not is_kept(arch, LIBRARY if name == BARE else name)]
    below = {it.name for crate in lacking if not has_libraries(crate) for it in crate.below()}
    if below:
        subprocess.run([TOP / "tools/build.py", *sorted(below)], check=True)
    with ThreadPoolExecutor(at_once) as pool:
        [*pool.map(partial(make, arch), names)]


def compiler_of(arch: str) -> list[str]:
    """The C compiler for a processor. Where it is not there, one line says which packages have it."""
    machine = TARGETS[arch].triple.partition("-")[0]
    cc = os.environ.get("CC", "cc" if os.uname().machine == machine else f"{machine}-linux-gnu-gcc").split()
    if not shutil.which(cc[0]):
        sys.exit(f"modules: there is no {cc[0]}: Debian's packages gcc-{machine.replace('_', '-')}-linux-gnu and "
                 f"libc6-dev-{arch}-cross have it")
    return cc


def link(arch: str, kind: str, folder: Path) -> None:
    """Links what is kept of the programs, of the library, or of that for bare machines."""
    cc = compiler_of(arch)
    made(arch, KINDS[kind])
    if kind == LIBRARY:
        run("tools/library.sh", folder, object_of(arch, LIBRARY), env={**os.environ, "CC": " ".join(cc)})
        return
    folder.mkdir(parents=True, exist_ok=True)
    with tempfile.TemporaryDirectory(dir=folder) as room:
        def compiled(source: str, *words: str) -> str:
            to = f"{room}/{Path(source).stem}.o"
            run(*cc, "-O2", "-fPIC", "-ffunction-sections", *words, "-I", "include", "-c", source, "-o", to)
            return to

        if kind == "programs":
            how = ["-Wl,--wrap=main", "-Wl,--gc-sections", "-Wl,-z,relro,-z,now,-z,noexecstack", compiled("ports/os.c")]
            static = ["-static"] * (os.environ.get("STATIC") == "1")
            for name in NAMES:
                run(*cc, *static, object_of(arch, name), *how, "-o", f"{room}/{name}")
        else:
            plain = ["-mgeneral-regs-only", *["-mno-red-zone"] * (arch == "amd64")]
            heap = compiled("ports/heap.c", "-ffreestanding", "-fno-stack-protector", *plain)
            library = compiled(str(place_of(arch, BARE) / f"{BARE}.s"))
            ld, objcopy, ar = (run(*cc, f"-print-prog-name={tool}").strip() for tool in ("ld", "objcopy", "ar"))
            # one object, in which the names that the toolchain gives the heap are local
            run(ld, "-r", "-o", "joined", library, heap, cwd=room)
            run(objcopy, "--wildcard", "--localize-symbol=rattle_*", "joined", library, cwd=room)
            # the same bytes from the same objects
            run(ar, "rcsD", f"{BARE}.a", library, cwd=room)
        for name in [f"{BARE}.a"] if kind == "bare" else NAMES:
            Path(room, name).replace(folder / name)


def main() -> None:
    match sys.argv[1:]:
        case [arch, "link", kind, folder] if arch in TARGETS and kind in KINDS:
            link(arch, kind, Path(folder).resolve())
        case [arch, *names] if arch in TARGETS and {*names} <= {*ALL}:
            made(arch, names or ALL)
        case _:
            sys.exit(__doc__)


if __name__ == "__main__":
    main()
