"""The names in commands that documents show and that no check runs: targets of make, packages, units, files, folders
and options of the programs have to be there, and so has the command itself."""
import re
import shlex
import shutil
from contextlib import suppress
from functools import lru_cache
from pathlib import Path
from typing import Iterator, Mapping

from lib.programs import TOP
from lib.units import settings_of
from version import WHOLE

# commands whose names are looked up, others of a reader's own, which a host of the gate may lack, and scripts of this
# repository
LOOKED_UP = {"make", "systemctl", "journalctl", "apt", "nft", "mkdir", "cp", "find"}
OTHERS = {*"apt-get cd docker dpkg exec python3 setcap tcpdump tshark tftp tftpd tftp-show tftp-play".split()}
SCRIPTS = {"rt", "boot.sh", "install.sh"}
# words of systemctl, and the units of other servers, which an operator ends
OF_SYSTEMD = {*("enable disable start stop restart reload status edit daemon-reload "
                "atftpd dnsmasq inetd tftpd-hpa").split()}
# what parts two commands of a line
BETWEEN = re.compile(r" *(?:&&|\|\||[;|]) *")
# what stands for a name of the reader's
ANY_NAME = re.compile(r"^[A-Z][A-Z_:.]*$|\bNAME\b|\.\.|[*{}<>\[\]()$]")
FOLDERS = ("bench", "completions", "crates", "debian", "docs", "examples", "include", "man", "packaging", "tools")
VARIABLE = re.compile(r"^\w+=")


@lru_cache(None)
def targets() -> set[str]:
    """The targets of the Makefile, and of that of the archive of assembly."""
    text = "\n".join((TOP / place / "Makefile").read_text() for place in (".", "ports/assembly"))
    return {name for head in re.findall(r"(?m)^([\w./ -]+?)(?: &)?:(?!=)", text) for name in head.split()}


@lru_cache(None)
def packages() -> set[str]:
    """The packages for Debian, by the names of their files."""
    names = [path.suffix.lstrip(".") or "fanjuvery" for path in (TOP / "debian").glob("control*")]
    return {f"./{name}_{WHOLE}_{kind}.deb" for name in names for kind in ("amd64", "arm64")}


def is_unit(word: str) -> bool:
    name = re.sub(r"@.*", "@", word)
    return any((TOP / "packaging" / f"{name}{kind}").is_file() for kind in ("", ".service", ".socket"))


def of_word(head: str, before: str, word: str) -> Iterator[str]:
    """What is not there of the names in a word of a command, behind another word."""
    name, _, value = word.partition("=")
    is_name = not word.startswith("-") and not VARIABLE.match(word)
    match head:
        case "make" if name in ("CRATE", "CRATES"):
            yield from (f"no crate {it}" for it in value.split() if it != "NAME" and not (TOP / "crates" / it).is_dir())
        case "make" if is_name and word not in targets():
            yield f"no target {word}"
        case "systemctl" | "journalctl" if is_name and before not in ("-p", "-n", "-o", "--since"):
            if word not in OF_SYSTEMD and not word.startswith("@") and not is_unit(word):
                yield f"no unit {word}"
        case "apt" if re.match(r"\./.*\.deb$", word) and word not in packages():
            yield f"no package {word}"
        case "nft" if before == "-f" and word != "-" and not (TOP / "packaging" / Path(word).name).is_file():
            yield f"no file {word}"
        # of the folders of the system only the one that the units serve is named
        case "mkdir" | "cp" | "find" if word.startswith("/srv") and word != settings_of("tftpd.service")["ROOT"]:
            yield f"no folder {word} of the units"


def is_lost(word: str, folder: Path) -> bool:
    """Whether a word is a path of the repository, from its top or from the folder of the document, that is not
    there."""
    is_named = "/" in word and word.removeprefix("../../").split("/")[0] in FOLDERS and not ANY_NAME.search(word)
    return is_named and not any((place / word).exists() for place in [TOP, folder, folder / "any"])


def is_shell(piece: str) -> bool:
    """Whether a piece of code is of commands, since one of its lines begins by a known one."""
    return any(line.split()[0] in OTHERS | LOOKED_UP for line in piece.splitlines() if line.strip())


def of_line(line: str, folder: Path, options: Mapping[str, set[str]]) -> list[str]:
    """What is not there of the names in the commands of a line that a document of this folder shows. `options` are
    those of our programs."""
    bare = re.sub(r"(?:^| )#.*", "", line)
    commands = [bare] if re.search("['\"]", bare) else BETWEEN.split(bare)
    return [what for command in commands for what in of_command(command, folder, options)]


def of_command(command: str, folder: Path, options: Mapping[str, set[str]]) -> Iterator[str]:
    """What is not there of the names in one command."""
    words = list[str]()
    with suppress(ValueError):
        words = shlex.split(command, comments=True)
    while words and (VARIABLE.match(words[0]) or words[0] in ("exec", "sudo")):
        words = words[1:]
    if not words or ANY_NAME.search(words[0]):
        return
    head = Path(words[0]).name
    yield from (f"no file {word}" for word in words if is_lost(word, folder))
    given = {word.partition("=")[0] for word in words[1:] if re.match(r"--\w", word)}
    yield from (f"{head} has no option {option}" for option in sorted(given - options.get(head, given)))
    for before, word in zip(words, words[1:]):
        yield from of_word(head, before, word)
    if not (head in {*OTHERS, *LOOKED_UP, *SCRIPTS, *options} or "/" in words[0] or shutil.which(head)):
        yield f"no command {words[0]}"
