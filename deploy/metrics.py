#!/usr/bin/env python3
"""Metrics of a stompd server for Prometheus' node_exporter, out of the server's log (docs/RUNNING.md, "Metrics").

    journalctl -u stompd -o cat --since -1d | deploy/metrics.py [--held FILE] [--now MOMENT] [--into FILE]

It reads the log on standard input, the objects of `stompd serve --json` or the lines without it, with systemd's lines if there are any, and needs Python 3
only. `stompd_up` is 1 from the line on that a server has started, and 0 after a fault, an end or a kill. The figures are those of the last `doing` since the
last start, and `stompd_figures_age_seconds` is their age: over 120 the server doesn't report, or the end of this log is missing. The metrics in `_recent`
count what was logged in the last ten minutes; faults also if no server has started since. --held has what `stompd held JOURNAL --json` prints
(docs/CLI.md, "Objects"): then each queue and durable name has its messages and bytes. MOMENT is the time of the call, in place of the clock's (RFC 3339,
in UTC). The metrics are printed, or with --into replace that file, in one step.
"""

import argparse
import datetime
import json
import pathlib
import re
import sys

MOMENT = "%Y-%m-%dT%H:%M:%SZ"
LINE = re.compile(r"stompd: (?:(\d{4}-\d\d-\d\dT\d\d:\d\d:\d\dZ) )?(.*)")
# What systemd logs of a server that is gone.
GONE = re.compile(r"\S+\.service: (Main process exited|Failed with result|Deactivated successfully|Killing process).*")
# Only a server that serves writes these.
SERVING = ("started", "doing")
# One that writes these doesn't serve yet, or no more. A journal that is full is opened again, and then `started` comes.
NOT_SERVING = ("opening", "made", "reopening", "too_full", "fault", "ending")
# The kinds of objects by the lines without --json, and their members.
WORDS = tuple((re.compile(line), kind) for line, kind in (
    (r"started: .* areas of (?P<area_bytes>\d+) bytes,.*", "started"),
    (r"compacted(?: slowly)?: .*", "compacted"),
    (r"journal nearly full: \d+ of (?P<area_bytes>\d+) bytes .*", "journal_nearly_full"),
    (r"sent (?P<count>\d+) ERRORs \(E(?P<code>\d+)\)", "errors"),
    (r"ending: .*", "ending"),
))
# A fault of the journal.
FAULT = re.compile(r"(J\d) ")
RECENT = datetime.timedelta(minutes=10)
# The member of a `doing` object, what stands after the figure in a line without --json, and the metric's name, its kind, and what it means.
FIGURES = (
    ("connections", "connections", "stompd_connections", "gauge", "clients that are there"),
    ("memory_bytes", "bytes of memory for them", "stompd_client_bytes", "gauge", "bytes that clients hold"),
    ("commands", "commands", "stompd_commands_total", "counter", "commands in the journal since it was made"),
    ("frames", "frames out", "stompd_frames_total", "counter", "frames for clients since the start"),
    ("errors", "ERRORs", "stompd_errors_total", "counter", "ERRORs among these"),
    ("messages", "messages held", "stompd_held_messages", "gauge", "messages that are held, of 4096"),
    ("bytes", "bytes held", "stompd_held_bytes", "gauge", "bytes that these count for, of 16777216"),
    ("dead_letters", "dead letters", "stompd_dead_letters", "gauge", "messages in /queue/dead"),
    ("used_bytes", "bytes used", "stompd_journal_used_bytes", "gauge", "bytes of the journal's live area that are used"),
    ("commands_to_repeat", "commands to repeat", "stompd_commands_to_repeat", "gauge", "commands that a start would repeat"),
)
# What the object of `stompd held --json` lists, the labels of each item, and the front of its metrics' names.
PLACES = (("queues", {"queue": "destination"}, "stompd_queue"), ("durables", {"client_id": "client-id", "name": "activemq.subscriptionName"}, "stompd_durable"))
AMOUNTS = (("messages", "messages that wait there, or are not acknowledged"), ("bytes", "bytes that these count for"))


def label_of(text):
    """The value of a label, as Prometheus' text format quotes it."""
    return '"' + text.replace("\\", "\\\\").replace('"', '\\"').replace("\n", "\\n") + '"'


def places_of(held):
    """Each metric of what `stompd held --json` printed: its name, its kind, what it means, and its samples."""
    for places, labels, front in PLACES:
        for amount, meaning in AMOUNTS:
            samples = [(",".join(f"{label}={label_of(it[member])}" for label, member in labels.items()), it[amount]) for it in held[places]]
            yield f"{front}_{amount}", "gauge", meaning, samples


def moment_of(text):
    return datetime.datetime.strptime(text, MOMENT).replace(tzinfo=datetime.timezone.utc)


def object_of(line):
    """The object of a line of `serve --json`, or nothing if it is none."""
    try:
        found = json.loads(line)
    except ValueError:
        return None
    return found if isinstance(found, dict) and "kind" in found else None


def object_of_words(moment, told):
    """The same of a line without --json: a fault, and a word of a start, have no moment."""
    if moment is None:
        return {"kind": "fault", "text": told}
    if told.startswith("doing: "):
        numbers = {name: int(number) for number, _, name in (part.strip().partition(" ") for part in told.removeprefix("doing: ").split(","))}
        return {"kind": "doing", "time": moment, **{member: numbers[name] for member, name, *_ in FIGURES if name in numbers}}
    for line, kind in WORDS:
        if found := line.fullmatch(told):
            return {"kind": kind, "time": moment, **{name: int(number) for name, number in found.groupdict().items()}}
    return {"kind": "other", "time": moment}


class Log:
    """What a log says of the server that wrote its last line."""

    def __init__(self, lines):
        self.is_up, self.figures, self.told = False, None, None
        self.area, self.is_nearly_full = None, False
        # What was logged with a moment and a count; the faults since the last start, and the last moment.
        self.counts, self.faults, self.last = [], [], None
        for line in (it.rstrip("\n") for it in lines):
            found, words = object_of(line), LINE.fullmatch(line)
            if found or words:
                self.take(found or object_of_words(*words.groups()))
            elif GONE.fullmatch(line):
                self.is_up = False

    def take(self, found):
        kind = found["kind"]
        # A moment is empty if there was no memory for it.
        moment = moment_of(found["time"]) if found.get("time") else None
        self.last = moment or self.last
        if kind in (*SERVING, *NOT_SERVING):
            self.is_up = kind in SERVING
        self.area = found.get("area_bytes", self.area)
        if kind == "started":
            self.figures, self.told, self.is_nearly_full = None, None, False
            self.counts += [("fault", it, self.last, 1) for it in self.faults]
            self.faults = []
        elif kind == "doing":
            self.figures, self.told = found, moment
        elif kind in ("compacted", "compacted_slowly", "journal_nearly_full"):
            self.is_nearly_full = kind == "journal_nearly_full"
        elif kind == "errors":
            self.counts.append(("error", f"E{found['code']}", self.last, found["count"]))
        elif kind == "fault" and (fault := FAULT.match(found["text"])):
            self.faults.append(fault[1])

    def recent(self, what, codes, now):
        """A sample of each code that was logged in the last ten minutes, and of these codes in any case."""
        counts = [*self.counts, *(("fault", it, now, 1) for it in self.faults)]
        sums = dict.fromkeys(codes, 0)
        for it, code, moment, count in counts:
            if it == what and (moment is None or now - moment < RECENT):
                sums[code] = sums.get(code, 0) + count
        return [(f'code="{code}"', number) for code, number in sorted(sums.items())]

    def metrics(self, now):
        yield "stompd_up", "gauge", "whether the log's last server serves", [("", int(self.is_up))]
        yield "stompd_errors_recent", "gauge", "ERRORs of the last ten minutes; E12 are refused SENDs", self.recent("error", ["E12"], now)
        yield "stompd_faults_recent", "gauge", "faults of the journal, of the last ten minutes or with no start since", self.recent("fault", ["J3", "J4"], now)
        if self.area is not None:
            yield "stompd_journal_area_bytes", "gauge", "bytes of an area of the journal", [("", self.area)]
        yield "stompd_journal_nearly_full", "gauge", "whether the last compaction has left less than a quarter of an area", [("", int(self.is_nearly_full))]
        if self.figures is None:
            return
        if self.told:
            yield "stompd_figures_age_seconds", "gauge", "seconds since the figures were reported", [("", max(0, int((now - self.told).total_seconds())))]
        for member, _, metric, kind, meaning in FIGURES:
            if member in self.figures:
                yield metric, kind, meaning, [("", self.figures[member])]


def text_of(metrics):
    for metric, kind, meaning, samples in metrics:
        yield f"# HELP {metric} {meaning}\n# TYPE {metric} {kind}\n"
        for labels, value in samples:
            yield f"{metric}{{{labels}}} {value}\n" if labels else f"{metric} {value}\n"


def main():
    parser = argparse.ArgumentParser(description=__doc__, formatter_class=argparse.RawDescriptionHelpFormatter)
    parser.add_argument("--held", type=argparse.FileType(encoding="utf-8"), metavar="FILE")
    parser.add_argument("--now", type=moment_of, metavar="MOMENT")
    parser.add_argument("--into", type=pathlib.Path, metavar="FILE")
    words = parser.parse_args()
    now = words.now or datetime.datetime.now(datetime.timezone.utc)
    text = "".join(text_of([*Log(sys.stdin).metrics(now), *(places_of(json.load(words.held)) if words.held else ())]))
    if words.into is None:
        sys.stdout.write(text)
        return
    # node_exporter reads only files whose names end in .prom.
    new = words.into.with_name(f"{words.into.name}.new")
    new.write_text(text, encoding="utf-8")
    new.replace(words.into)


if __name__ == "__main__":
    main()
