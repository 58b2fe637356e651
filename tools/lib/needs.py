"""What a host may lack."""
import shutil
from pathlib import Path

import pytest


def needs(*commands: str, files: tuple[Path, ...] = ()) -> None:
    """Skips a test where a command or a file is not there."""
    absent = [it for it in commands if not shutil.which(it)] + [str(it) for it in files if not it.exists()]
    if absent:
        pytest.skip(f"no {', no '.join(absent)}")
