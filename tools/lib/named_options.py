"""The options of the four programs by their help texts."""
import re
from functools import lru_cache
from typing import NamedTuple

from lib.programs import program, ran

# the subcommands of each program, each of which has a help text of its own; "" is the program itself
VERBS = {"tftp-show": [""], "tftp-play": [""], "tftp": ["", "get", "put"], "tftpd": [""]}
# the names of an option, a value, an argument or a subcommand, and what is said of it
ENTRY = re.compile(r"(?m)^ +((?:-\w, )?--[\w-]+)? ?(?:<(.*?)>|\[(\w+)\]|([a-z]+))?  +(.*)$")


@lru_cache(None)
def printed(name: str, *words: str) -> str:
    """What a program prints on standard output."""
    return ran(program(name), *words).stdout


class Entry(NamedTuple):
    """An entry of a help text: the names of an option, its value or that of an argument, and what is said of it."""
    names: tuple[str, ...]
    value: str
    text: str


@lru_cache(None)
def of_section(name: str, verb: str, title: str) -> list[Entry]:
    """The entries of a section, as `Options`, in the help of a program or of its subcommand."""
    listed = re.search(rf"^{title}:\n((?:.+\n)+)", printed(name, *verb.split(), "--help"), re.M)
    lines = ENTRY.findall(listed[1] if listed else "")
    return [Entry(tuple(filter(None, names.split(", "))), "".join(values), text) for names, *values, text in lines]


def of_help(name: str, verb: str = "") -> set[str]:
    """The options that a help text lists."""
    return {each for it in of_section(name, verb, "Options") for each in it.names}


def known(name: str) -> set[str]:
    """Those of a program with its subcommands."""
    return set().union(*(of_help(name, verb) for verb in VERBS[name]))
