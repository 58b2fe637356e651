"""The options of the four programs are the same wherever they are named: what `--help` prints is compared with the
manuals in man/, with docs/OPERATING.md and with the units; completions are made of it (docs/made/completions.py).
`--version` prints the version of the Makefile and the logic of `rt version`; mandoc finds no error in the manuals,
and systemd none in the units."""
import re
import shutil
from pathlib import Path
from typing import Iterable

import pytest

from lib.named_options import VERBS, known, of_help, printed
from lib.needs import needs
from lib.programs import TOP, ran
from lib.units import arguments_of
from version import WHOLE

UNITS = ["tftpd.service", "tftpd@.service", "tftpd-socket.service"]
OPTION = re.compile(r"(?<![\w-])--[A-Za-z][\w-]*")
# the longest command that a manual shows in 80 columns
COLUMNS = 68
# the first systemd that knows each setting of the units
SYSTEMD = 247
MANUALS = sorted(str(path.relative_to(TOP)) for path in (TOP / "man").glob("*.[1-8]"))


def long_ones(options: Iterable[str]) -> set[str]:
    return {option for option in options if option.startswith("--")}


@pytest.mark.parametrize("name", VERBS)
def test_help_and_version(name: str) -> None:
    for verb in VERBS[name]:
        assert {"-h", "--help"} <= of_help(name, verb), f"{name} {verb}: the help lists no options"
    # (a kit with the same logic proves the same under another name)
    logic = ran("rt", "version").stdout.strip().partition(" ")[2] if shutil.which("rt") else ""
    assert printed(name, "--version").startswith(f"{name} {WHOLE} ({logic})" if logic else f"{name} {WHOLE} ")


@pytest.mark.parametrize("name", VERBS)
def test_manual(name: str) -> None:
    """The manual has an item for each option and names no other anywhere. Its synopsis has each long one, unless it
    has `options` in place of them."""
    def of_mdoc(lines: Iterable[str]) -> set[str]:
        return {f"-{word}" for line in lines for word in re.findall(r"\bFl (-?[A-Za-z][\w-]*)", line)}

    text = (TOP / f"man/{name}.{8 if name == 'tftpd' else 1}").read_text()
    synopsis = re.findall(r"(?ms)^\.Sh SYNOPSIS\n(.*?)^\.Sh ", text)[0].splitlines()
    assert ".Op Ar options" in synopsis or long_ones(of_mdoc(synopsis)) == long_ones(known(name))
    lines = [line for line in text.splitlines() if re.match(r"\.[A-Z]", line)]
    assert of_mdoc(line for line in lines if line.startswith(".It Fl")) == known(name)
    assert of_mdoc(lines) <= known(name)
    shown = [line[4:] for line in lines if line.startswith(".Dl ")]
    for block in re.findall(r"(?ms)^\.Bd -literal[^\n]*\n(.*?)^\.Ed$", text):
        shown += block.replace("\\e\n", " ").splitlines()
    runs = re.findall(r"(?m)^(?:[$#] )?(?:\S*/)?(tftp(?:-show|-play|d)?) (.*)", "\n".join(shown).replace("\\&", ""))
    assert [(run, words) for run, words in runs if not {*OPTION.findall(words)} <= known(run)] == []
    # what is longer is broken at 80 columns, into what looks like two commands
    assert [line for line in re.findall(r"(?m)^(?:\.Dl )?([#$] .*)$", text) if len(line) > COLUMNS] == []


def test_operating() -> None:
    """The page for operators names each long option of tftpd but one that no operator gives, and none that no program
    of ours has. (test_commands.py looks at those in its commands.)"""
    pieces = re.findall(r"(?ms)^```.*?^```$|`[^`]+`", (TOP / "docs/OPERATING.md").read_text())
    alone = {it for piece in pieces if piece.startswith("`--") for it in OPTION.findall(piece)}
    assert alone <= set().union(*map(known, VERBS))
    given = {it for piece in pieces if "tftpd" in piece for it in OPTION.findall(piece.replace("\\\n", " "))}
    internal = set(re.findall(r"(?m)^ +(--[\w-]+).*  Internal: ", printed("tftpd", "--help")))
    assert long_ones(known("tftpd")) - internal - alone - given == set()


@pytest.mark.parametrize("unit", UNITS)
def test_a_unit_starts_tftpd(unit: str) -> None:
    given = long_ones(arguments_of(unit))
    assert given and given <= known("tftpd")


def test_systemd_finds_nothing(tmp_path: Path) -> None:
    needs("systemd-analyze")
    version = re.match(r"systemd (\d+)", ran("systemd-analyze", "--version").stdout)
    # a unit in which there is nothing to find
    (tmp_path / "sound.service").write_text("[Service]\nExecStart=/bin/sh\n")
    verify = ["systemd-analyze", "verify", "--man=no"]
    if not version or int(version[1]) < SYSTEMD or ran(*verify, tmp_path / "sound.service").returncode:
        pytest.skip(f"systemd before {SYSTEMD}, or systemd-analyze verify does not work here")
    for name in [*UNITS, "tftpd.socket"]:
        # tftpd need not be installed
        text = re.sub(r'(?m)^(ExecStart=)("[^"]*"|\S+)', r"\1/bin/sh", (TOP / "packaging" / name).read_text())
        (tmp_path / name.replace("@", "@6901")).write_text(text)
    done = ran(*verify, *tmp_path.glob("tftpd*"))
    # some of what it finds leaves the status at 0
    assert [line for line in done.stderr.splitlines() if re.search(r"\btftpd\S*\.(service|socket)", line)] == []
    assert done.returncode == 0, done.stderr


@pytest.mark.parametrize("manual", MANUALS)
def test_the_form_of_a_manual(manual: str) -> None:
    """mandoc finds no error in it, and each manual of ours that it refers to is there. Remarks below an error differ
    from one mandoc to the next, and depend on what is installed."""
    for name, section in re.findall(r"^\.Xr (tftp\S*) (\d)", (TOP / manual).read_text(), re.M):
        assert f"man/{name}.{section}" in MANUALS
    needs("mandoc")
    done = ran("mandoc", "-Tlint", "-Werror", manual)
    assert [line for line in done.stdout.splitlines() if re.search(r": (ERROR|UNSUPP|FATAL): ", line)] == []
    assert done.returncode <= 2, done.stdout + done.stderr
