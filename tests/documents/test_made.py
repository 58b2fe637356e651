"""What documents have that is made from the sources is as it is made (docs/made)."""
import sys
from functools import lru_cache

import pytest

from lib.programs import TOP

sys.path[:0] = [str(TOP / "docs/made")]
import figures
import made

texts = lru_cache(None)(figures.texts)


@pytest.mark.parametrize("path", [*made.MADE, *made.FIGURES])
def test_what_is_made(path: str) -> None:
    text = made.MADE[path]() if path in made.MADE else texts().get(path)
    if text is None:
        pytest.skip("no dot 2.43.0")
    assert (TOP / path).read_text() == text, "make docs makes it"
