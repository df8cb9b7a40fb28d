#!/usr/bin/env python3
"""Feeds deploy/metrics.py with logs of servers that serve, end, fail, are killed and begin again, and looks at what it says of each.

    python3 tests/program/metrics.py

The `doing: ` line is that of docs/RUNNING.md ("What it logs"), with a number for each letter, its object has the members of docs/CLI.md ("Objects of the
log"), and what is held has the form of "Objects" there; no program is run. The alerts of deploy/alerts.yml name only metrics that are written; with
promtool (Debian: prometheus) each is tried with values at which it has to come and with values at which it may not.
"""

import json
import pathlib
import re
import shutil
import subprocess
import sys
import tempfile

from lib import scenario
from lib.scenario import TOP

STARTED = "stompd: 2026-11-30T12:00:00Z started: journal of version 2, areas of 1000 bytes, 0 messages held, 9500 clients allowed, 99 bytes of memory for them"
DONE_AT, NOW, AGE = "2026-11-30T12:01:00Z", "2026-11-30T12:03:30Z", 150
# Later moments, and how many seconds after DONE_AT they are.
LATER = (("2026-11-30T12:01:00Z", 0), ("2026-12-01T12:00:59Z", 86_399), ("2026-12-01T12:01:01Z", 86_401), ("2027-11-30T12:01:02Z", 365 * 86_400 + 2))
KILLED = "stompd.service: Main process exited, code=killed, status=9/KILL"
# Promtool's rules: a name, its kind, a number.
SAMPLE = re.compile(r"[a-z_]+ \d+")


def doing():
    """The line of docs/RUNNING.md with 1, 2, 3 .. in place of its letters, and what stands after each."""
    told = re.search(r"`(doing: [^`]*)`", (TOP / "docs" / "RUNNING.md").read_text(encoding="utf-8"))[1]
    numbers = iter(range(1, 100))
    line = re.sub(r"(?<=[ ])[A-Z](?= )", lambda _: str(next(numbers)), told)
    return f"stompd: {DONE_AT} {line}", len(re.findall(r"(?<=[ ])[A-Z](?= )", told))


def object_of(kind, moment="2026-11-30T12:00:00Z", **members):
    return json.dumps({"time": moment, "kind": kind, **members})


def doing_object():
    """The object of the table in docs/CLI.md with 1, 2, 3 .. for its members, which stand in the order of the line."""
    row = re.search(r"^\| `doing` \| ([^|]*) \|", (TOP / "docs" / "CLI.md").read_text(encoding="utf-8"), re.M)[1]
    return object_of("doing", DONE_AT, **{name: number for number, name in enumerate(re.findall(r"`(\w+)`", row), 1)})


def objects(checks, words):
    """the same of a log of objects: metrics as of the line's words, and each end"""
    started = object_of("started", version=2, area_bytes=1000, messages=0, clients=9500, memory_bytes=99)
    checks.same("an object has the metrics of its line", metrics_of(started, doing_object()), words)
    for name, last in (("a fault", object_of("fault", text='J3 "device" failed')), ("its end", object_of("ending")), ("a kill", KILLED),
                       ("a full journal", object_of("reopening", seconds=4)), ("a start too full", object_of("too_full"))):
        told = metrics_of(started, doing_object(), last)
        checks.same(f"after the object of {name} it is down, and its figures age", (told.get("stompd_up"), told.get("stompd_figures_age_seconds")), (0, AGE))
        checks.same(f"after the object of {name} and a new start it is up", metrics_of(started, doing_object(), last, started), {"stompd_up": 1})
    made, opening = object_of("made", file="rooms.journal"), object_of("opening", seconds=3)
    other = object_of("gave_up", why="silent", count=3)
    # A server that was killed may have left no line of its end.
    for name, lines in (("its journal was made", [made]), ("it opens its journal", [opening]), ("it opens its journal again", [started, opening]),
                        ("its journal was made again", [started, doing_object(), made]), ("its end was logged", [started, object_of("ending")]),
                        ("another object came", [other]), ("counts came after its end", [started, object_of("ending"), other])):
        checks.same(f"one of which last {name} is not up", metrics_of(*lines)["stompd_up"], 0)
        checks.same(f"and is once it serves, after {name}", metrics_of(*lines, started), {"stompd_up": 1})
    checks.same("other objects leave it up", metrics_of(started, other), {"stompd_up": 1})
    for moment, age in LATER:
        checks.same(f"the age at {moment}", metrics_of(started, doing_object(), now=moment)["stompd_figures_age_seconds"], age)
    undated = metrics_of(started, object_of("doing", "", connections=3))
    checks.same("figures without a moment have no age", undated, {"stompd_up": 1, "stompd_connections": 3})
    for name, line in (("half an object", started[:-5]), ("a list", "[1]"), ("a number", "7"), ("an object of another program", '{"level":"info"}')):
        checks.same(f"{name} changes nothing", metrics_of(started, object_of("ending"), line), {"stompd_up": 0})


def recent(checks):
    """what was logged in the last ten minutes, of which some is no figure, in words and as objects"""
    def error(moment, code, count):
        return object_of("errors", moment, code=code, count=count), f"stompd: {moment} sent {count} ERRORs (E{code})"

    def nearly_full(moment, area):
        return object_of("journal_nearly_full", moment, used_bytes=9, area_bytes=area), f"stompd: {moment} journal nearly full: 9 of {area} bytes are used after a compaction (J4 is near)"

    def compacted(moment, slowly):
        return object_of("compacted_slowly" if slowly else "compacted", moment, won_bytes=5, millis=3), f"stompd: {moment} compacted{' slowly' * slowly}: 5 bytes won in 3 ms"

    def started(moment, area=1_000):
        words = STARTED.replace("2026-11-30T12:00:00Z", moment).replace("areas of 1000", f"areas of {area}")
        return object_of("started", moment, version=2, area_bytes=area, messages=0, clients=9500, memory_bytes=99), words

    def fault(moment, text):
        return object_of("fault", moment, text=text), f"stompd: {text}"

    # NOW is 12:03:30.
    before, since, later = "2026-11-30T11:53:30Z", "2026-11-30T11:53:31Z", "2026-11-30T12:02:00Z"
    e12, j3, j4, area, is_nearly_full = 'stompd_errors_recent{code="E12"}', 'stompd_faults_recent{code="J3"}', 'stompd_faults_recent{code="J4"}', "stompd_journal_area_bytes", "stompd_journal_nearly_full"
    nothing = {e12: 0, j3: 0, j4: 0, is_nearly_full: 0}
    tries = (
        ("no log", [], {}),
        ("a start", [started(before, 524_288)], {area: 524_288}),
        ("refused SENDs", [started(before), error(before, 12, 100), error(since, 12, 20), error(later, 12, 3), error(later, 5, 7)], {area: 1_000, e12: 23, 'stompd_errors_recent{code="E5"}': 7}),
        ("a compaction that leaves little", [compacted(later, False), nearly_full(later, 2_000)], {area: 2_000, is_nearly_full: 1}),
        ("one after it that leaves more", [nearly_full(before, 2_000), compacted(later, False)], {area: 2_000}),
        ("a slow one that leaves more", [nearly_full(before, 2_000), compacted(later, True)], {area: 2_000}),
        ("a start after it", [nearly_full(before, 2_000), started(later)], {area: 1_000}),
        ("a fault without a start since", [started(before), fault(before, "J3 device failed: the file was removed")], {area: 1_000, j3: 1}),
        ("faults with a start since", [started(before), fault(since, "J4 journal full"), started(since), fault(later, "J4 journal full"), fault(later, "J2 damaged at 4136"), started(later)],
         {area: 1_000, j4: 2, 'stompd_faults_recent{code="J2"}': 1}),
        ("old faults with a start since", [fault(before, "J4 journal full"), started(before)], {area: 1_000}),
        ("faults of no journal", [started(before), fault(later, "no memory"), fault(later, "cannot open: J3 : there is no such file")], {area: 1_000}),
    )
    for name, lines, wanted in tries:
        for form, which in (("objects", 0), ("words", 1)):
            checks.same(f"{name}, in {form}", metrics_of(*(it[which] for it in lines), wants=is_recent), {**nothing, **wanted})


def is_recent(name):
    return name.partition("{")[0] in ("stompd_errors_recent", "stompd_faults_recent", "stompd_journal_area_bytes", "stompd_journal_nearly_full")


# By the limits of docs/PROTOCOL.md: metrics, and the alerts of a server that has them for ten minutes. It reported just now, unless its age is given.
ALERTS = (
    ({"stompd_up": 1, "stompd_held_messages": 3_276, "stompd_held_bytes": 13_421_772, 'stompd_errors_recent{code="E12"}': 0, 'stompd_errors_recent{code="E5"}': 9, "stompd_journal_nearly_full": 0,
      'stompd_faults_recent{code="J3"}': 0, "stompd_figures_age_seconds": 60}, []),
    ({"stompd_up": 0}, ["StompdDown"]),
    ({}, ["StompdSilent"]),
    ({"stompd_up": 1, "stompd_figures_age_seconds": 181}, ["StompdSilent"]),
    ({"stompd_up": 1, 'node_textfile_mtime_seconds{file="/var/lib/prometheus/node-exporter/stompd.prom"}': 0}, ["StompdSilent"]),
    ({"stompd_up": 1, 'node_textfile_mtime_seconds{file="/var/lib/prometheus/node-exporter/apt.prom"}': 0}, []),
    ({"stompd_up": 1, "stompd_held_messages": 3_277, "stompd_held_bytes": 0}, ["StompdNearlyFull"]),
    ({"stompd_up": 1, "stompd_held_messages": 300, "stompd_held_bytes": 13_421_773}, ["StompdNearlyFull"]),
    ({"stompd_up": 1, "stompd_held_messages": 4_096, "stompd_held_bytes": 0}, ["StompdFull", "StompdNearlyFull"]),
    ({"stompd_up": 1, "stompd_held_messages": 300, "stompd_held_bytes": 16_777_216 - 73_728}, ["StompdFull", "StompdNearlyFull"]),
    ({"stompd_up": 1, 'stompd_errors_recent{code="E12"}': 1}, ["StompdRefusesSends"]),
    ({"stompd_up": 1, "stompd_journal_nearly_full": 1}, ["StompdJournalNearlyFull"]),
    ({"stompd_up": 1, 'stompd_faults_recent{code="J4"}': 1}, ["StompdJournalFault"]),
)


def alerts(checks, written):
    """the rules of deploy/alerts.yml, after which metrics they ask and when they come"""
    rules = TOP / "deploy" / "alerts.yml"
    text = rules.read_text(encoding="utf-8")
    names = re.findall(r"- alert: (\w+)", text)
    checks.same("each alert is tried", sorted(names), sorted({it for _, come in ALERTS for it in come}))
    asked = set(re.findall(r"\bstompd_\w+", " ".join(re.findall(r"expr: (.*)", text))))
    checks.same("they ask for metrics that are written", sorted(asked - {it.partition("{")[0] for it in written}), [])
    if shutil.which("promtool") is None:
        checks.tell("promtool is not here, so the alerts were not tried (Debian: apt-get install prometheus)")
        return
    with tempfile.TemporaryDirectory() as name:
        bare = pathlib.Path(name) / "rules.yml"
        # Whether they come is looked at here, not their texts and labels.
        bare.write_text(re.sub(r"(?m)^ +(labels|annotations): .*\n", "", text), encoding="utf-8")
        checked = subprocess.run(["promtool", "check", "rules", rules], capture_output=True, text=True)
        checks.check("promtool takes them", checked.returncode == 0, checked.stdout + checked.stderr)
        for metrics, come in ALERTS:
            series = [{"series": it, "values": f"{value}x10"} for it, value in metrics.items()]
            # An alert has the labels of the metric that it comes from, if that has some.
            labels = dict(re.findall(r'(\w+)="([^"]*)"', "".join(metrics)))
            wanted = [{"eval_time": "10m", "alertname": it, "exp_alerts": [{"exp_labels": labels}] if it in come else []} for it in names]
            file = pathlib.Path(name) / "tests.yml"
            # JSON is YAML.
            file.write_text(json.dumps({"rule_files": [str(bare)], "tests": [{"interval": "1m", "input_series": series, "alert_rule_test": wanted}]}), encoding="utf-8")
            done = subprocess.run(["promtool", "test", "rules", file], capture_output=True, text=True)
            checks.check(f"{metrics} has {come or 'no alert'}", done.returncode == 0, done.stdout + done.stderr)


HELD = {
    "messages": 7, "messages_limit": 4096, "bytes": 70, "bytes_limit": 16777216,
    "queues": [{"destination": "/queue/a b", "messages": 4, "bytes": 40}],
    "durables": [{"client-id": 'c"\\', "activemq.subscriptionName": "n\n\u00fc", "destination": "/topic/t", "messages": 2, "bytes": 20}],
    "topics": {"messages": 1, "bytes": 10},
}
# Prometheus' text format quotes \\, " and the end of a line in a label.
LABELLED = {
    'stompd_queue_messages{queue="/queue/a b"}': 4, 'stompd_queue_bytes{queue="/queue/a b"}': 40,
    'stompd_durable_messages{client_id="c\\"\\\\",name="n\\n\u00fc"}': 2, 'stompd_durable_bytes{client_id="c\\"\\\\",name="n\\n\u00fc"}': 20,
}


def metrics_of(*lines, more=(), now=NOW, wants=lambda name: not is_recent(name)):
    """The samples whose names are wanted."""
    done = subprocess.run([sys.executable, TOP / "deploy" / "metrics.py", "--now", now, *more], input="".join(f"{it}\n" for it in lines), capture_output=True, text=True)
    if done.returncode or done.stderr:
        return {"failed": done.stderr}
    samples = [it for it in done.stdout.splitlines() if not it.startswith("#")]
    return {name: int(number) if number.isdigit() else number for name, _, number in (it.rpartition(" ") for it in samples) if wants(name)}


def main():
    checks = scenario.Checks()
    line, count = doing()
    served = metrics_of(STARTED, line)
    objects(checks, dict(served))
    recent(checks)
    alerts(checks, [*metrics_of(STARTED, line), *metrics_of(STARTED, line, wants=is_recent)])
    checks.same("one that serves is up, and all its figures are there", (served.pop("stompd_up", None), served.pop("stompd_figures_age_seconds", None), sorted(served.values())),
                (1, AGE, list(range(1, count + 1))))
    checks.same("one that has told nothing is up, with no figures", metrics_of(STARTED), {"stompd_up": 1})
    checks.same("other lines leave it up", metrics_of(STARTED, "stompd: 2026-11-30T12:02:00Z compacted: 5 bytes won in 3 ms"), {"stompd_up": 1})
    for name, last in (("a fault", "stompd: J3 device failed: the file was removed"), ("its end", "stompd: 2026-11-30T12:02:00Z ending: asked to"), ("a kill", KILLED),
                       ("a full journal", "stompd: opening the journal again in 4 s, which makes room")):
        told = metrics_of(STARTED, line, last)
        checks.same(f"after {name} it is down, and its figures age", (told.get("stompd_up"), told.get("stompd_figures_age_seconds")), (0, AGE))
        checks.same(f"after {name} and a new start it is up, and old figures are gone", metrics_of(STARTED, line, last, STARTED), {"stompd_up": 1})
    with tempfile.TemporaryDirectory() as name:
        file = pathlib.Path(name) / "held.json"
        file.write_text(json.dumps(HELD, ensure_ascii=False), encoding="utf-8")
        checks.same("what is held has a metric for each queue and durable name", metrics_of(STARTED, more=["--held", file]), {"stompd_up": 1, **LABELLED})
        file.write_text(json.dumps({**HELD, "queues": [], "durables": []}), encoding="utf-8")
        checks.same("and none for nothing", metrics_of(STARTED, more=["--held", file]), {"stompd_up": 1})
        file.write_text("", encoding="utf-8")
        checks.check("no object is a fault", "failed" in metrics_of(STARTED, more=["--held", file]))
    for name, last in (("journal's making", "stompd: made the journal rooms.journal"), ("opening", "stompd: opening the journal, 3 s so far"), ("end", "stompd: 2026-11-30T12:02:00Z ending: asked to")):
        checks.same(f"one of which last its {name} was logged is not up", metrics_of(STARTED, "serve: stompd 0.2.0, proved", last, "stompd: 2026-11-30T12:02:00Z gave up 3 clients"), {"stompd_up": 0})
    for moment, age in LATER:
        checks.same(f"the age at {moment}", metrics_of(STARTED, line, now=moment)["stompd_figures_age_seconds"], age)
    with tempfile.TemporaryDirectory() as name:
        file = pathlib.Path(name) / "stompd.prom"
        for lines, is_up in (([STARTED], 1), ([STARTED, KILLED], 0)):
            checks.same("with --into nothing is printed", metrics_of(*lines, more=["--into", file]), {})
            checks.check("and the file has the metrics", f"\nstompd_up {is_up}\n" in file.read_text(encoding="utf-8"), file.read_text(encoding="utf-8"))
        checks.same("and nothing else is left", list(file.parent.iterdir()), [file])
    checks.same("no log is no server", metrics_of(), {"stompd_up": 0})
    checks.same("a foreign line changes nothing", metrics_of(STARTED, "Started stompd.service - stompd."), {"stompd_up": 1})
    return checks.status()


if __name__ == "__main__":
    sys.exit(main())
