"""examples/monitoring by `promtool`, of Debian's prometheus: the rules by their own tests, and each query of the
dashboard, filled in as Grafana does for one host and for all, over series whose values were chosen by hand. What
Grafana asks of the dashboard's JSON is read strictly: a kind of panel, a unit or a variable that is not known here is
a fault."""
import json
import re
import shutil
import subprocess
from itertools import combinations
from pathlib import Path
from typing import Any

import pytest

from lib.programs import TOP

MONITORING, HERE = TOP / "examples/monitoring", Path(__file__).resolve().parent
BOARD, RULES = json.loads((MONITORING / "dashboard.json").read_text()), (MONITORING / "tftpd.rules.yml").read_text()
METRIC = re.compile(r"tftpd_[a-z_]+")
# What the series are at each minute of twenty: a server at one host, and two at another
SERIES = [line.rsplit(" ", 1) for line in (HERE / "series.txt").read_text().splitlines()]
# At twenty minutes, over a page of ten and curves of four: the series of each panel by their labels, of the first
# host alone, and of both
SHOWN: dict[str, dict[str, dict[str, float]]] = json.loads((HERE / "shown.json").read_text())
# how Grafana writes a choice into a regular expression, within a string of a query
FILLED = {"boot1.lan": r"boot1\\.lan", "All": r"(boot1\\.lan|boot2\\.lan)"}
PAGE = {"__range": "10m", "__rate_interval": "4m"}
VARIABLE = re.compile(r"\$(?:\{(\w+)\}|(\w+))")
EACH_PANEL = pytest.mark.parametrize("panel", BOARD["panels"], ids=lambda panel: f"panel {panel['title']}")


def promtool(*words: str, folder: Path = MONITORING) -> str:
    """What it says against something, or nothing."""
    tool = shutil.which("promtool", path="/usr/local/sbin:/usr/bin:/bin") or pytest.skip("no promtool")
    done = subprocess.run([tool, *words], cwd=folder, capture_output=True, text=True, timeout=60)
    return done.stdout + done.stderr if done.returncode else ""


@pytest.mark.parametrize("choice", FILLED)
@EACH_PANEL
def test_a_panel_shows(panel: Any, choice: str, tmp_path: Path) -> None:
    """Its queries as Grafana asks them of a page of ten minutes."""
    samples = [{"labels": f"{{{labels}}}", "value": count} for labels, count in SHOWN[panel["title"]][choice].items()]
    asked, values = " or ".join(f"({it['expr']})" for it in panel["targets"]), {**PAGE, "instance": FILLED[choice]}
    query = VARIABLE.sub(lambda name: values[name[1] or name[2]], asked)
    # (what is JSON is YAML, too)
    tests = {"interval": "1m", "input_series": [{"series": name, "values": values} for name, values in SERIES],
             "promql_expr_test": [{"expr": query, "eval_time": "20m", "exp_samples": samples}]}
    (tmp_path / "test.yml").write_text(json.dumps({
        "rule_files": [str(MONITORING / "tftpd.rules.yml")], "evaluation_interval": "1m", "tests": [tests]}))
    assert promtool("test", "rules", "test.yml", folder=tmp_path) == ""


def test_the_rules() -> None:
    assert promtool("check", "rules", "tftpd.rules.yml") == ""
    assert promtool("test", "rules", "tftpd.rules.test.yml") == ""


@pytest.mark.parametrize("rule", re.findall(r"(?m)^ *- alert: (\S+)", RULES))
def test_a_rule_has_a_test(rule: str) -> None:
    tested = (MONITORING / "tftpd.rules.test.yml").read_text()
    assert re.search(rf"alertname: {rule}\n +exp_alerts:\n", tested), "it fires in a test"
    assert re.search(rf"alertname: {rule}\n +exp_alerts: \[\]\n", tested), "and it does not in another"


def test_the_examples_ask_for_metrics_that_are_there() -> None:
    there = {*METRIC.findall((TOP / "crates/tftp_status/specs/StatusText.antt").read_text())}
    used = {*METRIC.findall(" ".join([RULES, *(it["expr"] for panel in BOARD["panels"] for it in panel["targets"])]))}
    assert used <= there <= used | {*METRIC.findall((TOP / "man/tftpd.8").read_text())}


# ---- the form of the JSON

SOURCE = {"type": "prometheus", "uid": "${source}"}
KNOWN = {"instance", "source", "__range", "__rate_interval", "__interval"}


@EACH_PANEL
def test_what_grafana_asks_of_a_panel(panel: Any) -> None:
    place, fields, is_number = panel["gridPos"], panel["fieldConfig"], panel["type"] == "stat"
    assert isinstance(panel["id"], int) and panel["title"] and panel["datasource"] == SOURCE
    assert panel["type"] in ("stat", "timeseries", "state-timeline")
    assert {*place} == {*"xywh"} and all(isinstance(it, int) and it >= 0 for it in place.values())
    assert place["w"] > 0 and place["h"] > 0 and place["x"] + place["w"] <= 24
    assert {*fields} == {"defaults", "overrides"}
    assert fields["defaults"]["unit"] in ("short", "percentunit", "reqps", "ops", "pps", "Bps", "s")
    if is_number:
        # it has colours: the first without a value, and each next one from a larger value on
        steps = fields["defaults"]["thresholds"]["steps"]
        values = [step["value"] for step in steps[1:]]
        assert steps[0]["value"] is None and values == sorted({*values})
        assert {step["color"] for step in steps} <= {"green", "orange", "red"}
    assert panel["targets"] and len({it["refId"] for it in panel["targets"]}) == len(panel["targets"])
    for target in panel["targets"]:
        # a number is asked for once, and a curve over the time of the page
        assert target["expr"] and {one or other for one, other in VARIABLE.findall(target["expr"])} <= KNOWN
        assert re.fullmatch("[A-Z]", target["refId"])
        assert (target.get("instant", False), target.get("range", True)) == (is_number, not is_number)


@EACH_PANEL
def test_each_series_has_a_name_of_its_own(panel: Any) -> None:
    names, legends = [], [target["legendFormat"] for target in panel["targets"]]
    for series in SHOWN[panel["title"]]["All"]:
        labels = dict(re.findall(r'(\w+)="([^"]*)"', series))
        # (a single server has no label for its number)
        fitting = [it for it in legends if {*re.findall(r"\{\{(\w+)\}\}", it)} <= {*labels, "server"}]
        names.append(re.sub(r"\{\{(\w+)\}\}", lambda name: labels.get(name[1], ""), fitting[0]))
    assert len({*names}) == len(names)


def test_what_grafana_asks_of_a_dashboard() -> None:
    source, instance = BOARD["templating"]["list"]
    assert BOARD["title"] and re.fullmatch(r"[\w-]{1,40}", BOARD["uid"]) and re.fullmatch(r"\d+[smh]", BOARD["refresh"])
    # the versions of the format of Grafana 9 to 11
    assert BOARD["schemaVersion"] in range(36, 42) and {*BOARD["time"]} == {"from", "to"}
    assert (source["name"], source["type"], source["query"]) == ("source", "datasource", "prometheus")
    assert (instance["name"], instance["type"], instance["datasource"]) == ("instance", "query", SOURCE)
    assert instance["query"]["query"] == "label_values(tftpd_start_time_seconds, instance)"
    assert [panel["title"] for panel in BOARD["panels"]] == [*SHOWN]
    assert len({panel["id"] for panel in BOARD["panels"]}) == len(BOARD["panels"])
    for one, other in combinations([panel["gridPos"] for panel in BOARD["panels"]], 2):
        assert one["x"] + one["w"] <= other["x"] or other["x"] + other["w"] <= one["x"] \
            or one["y"] + one["h"] <= other["y"] or other["y"] + other["h"] <= one["y"], f"{one} and {other} overlap"
