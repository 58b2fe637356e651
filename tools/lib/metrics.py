"""Reads a text in Prometheus' text format, strictly: each metric once, with its help and its type before its
samples."""
import re
import shutil
import subprocess
from typing import Optional

# The name and the labels of a sample, the labels by their names
Sample = tuple[str, tuple[tuple[str, str], ...]]
NAME, LABEL = r"[a-zA-Z_:][a-zA-Z0-9_:]*", r'[a-zA-Z_][a-zA-Z0-9_]*="(?:[^"\\\n]|\\[\\"n])*"'
METRIC = re.compile(rf"# HELP ({NAME}) .+\n# TYPE \1 (counter|gauge)\n((?:\1(?:\{{{LABEL}(?:,{LABEL})*\}})? \d+\n)+)")
# Comments may stand anywhere
COMMENT = re.compile(r"(?m)^# (?!HELP |TYPE ).*\n")


class MetricsFault(ValueError):
    """A text that is not as the format asks."""


def metrics(text: str) -> dict[Sample, int]:
    """The samples of a text. Its last line has its end, no metric comes twice or lacks its help, its type or a sample,
    no sample comes twice or has a label twice, and the names of counters alone have their ending."""
    plain, found, count = COMMENT.sub("", text), dict[Sample, int](), 0
    parts = [*METRIC.finditer(plain)]
    for name, kind, samples in (part.groups() for part in parts):
        for labels, number in re.findall(r"(?m)^[^ {]+(.*) (\d+)$", samples):
            pairs = sorted(pair.split("=", 1) for pair in re.findall(LABEL, labels))
            if len(dict(pairs)) != len(pairs) or (kind == "counter") != name.endswith("_total"):
                raise MetricsFault(f"a label twice, or a counter by another name: {name}{labels}")
            found[name, tuple((label, words[1:-1]) for label, words in pairs)] = int(number)
            count += 1
    names = {part[1] for part in parts}
    if not parts or "".join(part[0] for part in parts) != plain or (len(found), len(names)) != (count, len(parts)):
        raise MetricsFault(f"a metric or a sample that comes twice, or lines that are of none, in {text!r}")
    return found


def value(found: dict[Sample, int], name: str, **labels: str) -> int:
    """The sum of the samples of a metric that have these labels."""
    wanted = {*labels.items()}
    return sum(count for (metric, has), count in found.items() if metric == name and wanted <= {*has})


def promtool_says(text: str) -> Optional[str]:
    """What `promtool check metrics` says of a text; nothing where it accepts it, or is not installed."""
    # (.ci/packages puts it there)
    tool = shutil.which("promtool", path="/usr/local/sbin:/usr/bin:/bin")
    if not tool:
        return None
    done = subprocess.run([tool, "check", "metrics"], input=text, capture_output=True, text=True, timeout=60)
    return (done.stdout + done.stderr).strip() or ("" if done.returncode else None)
