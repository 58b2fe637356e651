"""The definitions of a file of `crates/*/specs/`: their comments, their text, and where they stand."""
import re
from itertools import takewhile
from pathlib import Path
from typing import NamedTuple

COMMENT = re.compile(r"(?:^|\s)--(?:\s.*|-.*|$)")
WORDS = {*"abbrev pub record data def let unfoldable opaque infix infixl infixr private".split()}
# the head of a module, which may go over some lines
MODULE = re.compile(r"(?m)^( *)((?:pub )?module\b(?:.*\n)*?.*\bwhere)$")


class Definition(NamedTuple):
    """A definition: the comment above it, the heads of the modules that it stands in, and its lines as they are."""
    comment: list[str]
    modules: list[str]
    lines: list[str]

    def code(self) -> list[str]:
        """Its lines without comments and layout, behind the heads of its modules."""
        bare = (COMMENT.sub("", line).strip() for line in self.lines)
        return [*self.modules, *(line for line in bare if line)]


def read(path: Path) -> dict[str, Definition]:
    """The definitions of a file by their names, behind those of their modules: each goes from its head up to the next
    line as far left that does not begin by its name."""
    found, modules, levels = dict[str, Definition](), list[tuple[int, str]](), [0]
    between, own = list[str](), list[str]()
    for line in MODULE.sub(lambda head: head[1] + " ".join(COMMENT.sub("", it).strip() for it in head[2].split("\n")),
                           path.read_text()).splitlines():
        bare = COMMENT.sub("", line).rstrip()
        indent, words = len(bare) - len(bare.lstrip()), bare.split()
        if not words:
            between.append(line)
            continue
        modules = [each for each in modules if each[0] < indent]
        # how far right the heads in each module stand
        levels = [*levels, indent][:len(modules) + 1]
        if indent > levels[-1]:
            own += [*between, line]
        elif "module" in words[:2]:
            modules.append((indent, bare.strip()))
        elif "use" in words[:2]:
            own = []
        elif words[0] not in ("}", ")"):
            name = next((word for word in words if word not in WORDS), words[0]).strip(":(){}[]") or words[0]
            name = "".join(f"{module.split('module ')[-1].split()[0]}." for _, module in modules) + name
            comment = [it.strip()[3:] for it in takewhile(str.strip, reversed(between))][::-1]
            own = found.setdefault(name, Definition(comment, [module for _, module in modules], [])).lines
            own += [*(between if own else []), line]
        between = []
    return found
