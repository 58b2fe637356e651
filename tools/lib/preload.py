"""Small C libraries that are loaded before a program's own, and that count or refuse its calls."""
import shutil
import subprocess
import sys
from pathlib import Path
from typing import Union


def compiled(folder: Union[str, Path], source: Path) -> Path:
    """A source as a library that is preloaded."""
    library, kit = Path(folder, source.stem + ".so"), shutil.which("rt")
    beside = [str(Path(kit).resolve().parent.parent / "toolchain/bin/clang")] if kit else []
    for compiler in ["cc", "clang", *beside]:
        words = [compiler, "-O1", "-shared", "-fPIC", "-nostdlib", "-o", str(library), str(source)]
        if shutil.which(compiler) and subprocess.run(words).returncode == 0:
            return library
    sys.exit("no C compiler serves here, neither cc nor clang, so nothing was refused")
