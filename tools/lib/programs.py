"""The programs that the checks run: those of bin/, as `make` builds them and the gate leaves them, or else those that
`rt ci` left in crates/*/out/; before these, those of the folder that TFTP_PROGRAMS names in the environment, if it
does."""
import os
import shutil
import subprocess
import sys
from pathlib import Path
from typing import Any, Optional, Sequence

TOP = Path(__file__).resolve().parent.parent.parent
NAMES = ("tftp-show", "tftp-play", "tftp", "tftpd")


def of_crate(crate: str) -> Path:
    """What `rt ci` left of a program that is not installed."""
    return TOP / "crates" / crate / "out" / crate


def found(name: str) -> Optional[Path]:
    """The path of a program, if it is there."""
    given = [Path(folder, name) for folder in [os.environ.get("TFTP_PROGRAMS")] if folder]
    places = [*given, TOP / "bin" / name, of_crate(name.replace("-", "_") + "_main")]
    return next((path.absolute() for path in places if path.is_file()), None)


def program(name: str) -> Path:
    """The path of a program. Without it a check ends."""
    return found(name) or sys.exit(f"there is no {name} in bin/ or crates/: run `make` or `rt ci` first")


def programs(names: Sequence[str], given: Sequence[str] = ()) -> dict[str, str]:
    """The absolute paths of programs by their names: those that a command line gives in this order, or those
    found."""
    paths = {name: Path(path).absolute() for name, path in zip(names, given or [str(program(name)) for name in names])}
    if lacking := [path for path in paths.values() if not path.is_file()]:
        sys.exit(f"{lacking} is not there")
    return {name: str(path) for name, path in paths.items()}


def ran(*words: Any, **how: Any) -> "subprocess.CompletedProcess[str]":
    """Runs a command at the top to its end, and takes what it prints."""
    how = {"cwd": TOP, "stdin": None if "input" in how else subprocess.DEVNULL, "timeout": 600, **how}
    return subprocess.run([*map(str, words)], capture_output=True, text=True, errors="replace", **how)


def may_trace() -> bool:
    """Whether strace is here and may trace."""
    return shutil.which("strace") is not None and ran("strace", "-o", "/dev/null", "true").returncode == 0
