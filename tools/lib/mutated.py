"""Inputs with something changed, which hypothesis draws from samples and shrinks, by the seed of the commit or MUTATED_SEED."""
import os
import struct
from typing import Any, Callable

from hypothesis import HealthCheck, given, seed, settings, strategies as st

from lib.seeds import commit_seed

SEED = int(os.environ.get("MUTATED_SEED", "0")) or commit_seed()
PIECES = [b"", b"\n", b" ", b"\t", b"0", b"f", b"*", b"-", b"99999999999999999999", b"\0", b"0003", b"0001", b"\r\n",
          b"18446744073709551615", *(struct.pack("<I", number) for number in [0, 1, 2**31, 2**32 - 1, 262_144])]


@st.composite
def mutated(draw: Any, texts: list[bytes], has_lines: bool = True) -> bytes:
    """A text with lines left out or in another order, and some bytes, words or lines changed or repeated."""
    text = draw(st.sampled_from(texts))
    lines = text.splitlines(True)
    if has_lines and draw(st.booleans()):
        lines = draw(st.permutations(lines))[draw(st.integers(0, 2)):]
        text = b"".join(lines) * draw(st.sampled_from([1, 1, 1, 3]))
    for _ in range(draw(st.integers(0, 8))):
        start = draw(st.integers(0, len(text)))
        end = min(len(text), start + draw(st.sampled_from([0, 1, 1, 2, 4, 5, 40])))
        piece = draw(st.sampled_from(PIECES) | st.binary(min_size=1, max_size=4) | st.just(text[end:end + 60])
                     | st.sampled_from([2, 3, 200]).map(lambda times: text[start:end] * times))
        text = text[:start] + piece + text[end:]
    return text[:2_000_000]


def many(count: int, *strategies: Any) -> Callable[[Callable[..., None]], Callable[..., None]]:
    """A test of so many inputs."""
    how = settings(max_examples=count, deadline=None, database=None, suppress_health_check=list(HealthCheck))
    return lambda test: seed(SEED)(how(given(*strategies)(test)))
