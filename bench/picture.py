#!/usr/bin/env python3
"""Draws what bench/beside_rabbitmq.py has measured as one picture.

    python3 bench/picture.py JSON OUT.svg --build TEXT [--folder disk|memory]

JSON is what that wrote with --json; the best run counts. TEXT says which build of stompd it was, as `a051ec24, unproved`. Each workload has a bar of
stompd and one of RabbitMQ, with their figures, and how many times as good as RabbitMQ's stompd's is. Both bars have the same scale, and each workload
its own. The same words give the same bytes. If JSON lacks a figure, a line says which, OUT.svg is left as it was, and the status is 2.
"""

import argparse
import json
import pathlib
import sys
from xml.sax.saxutils import escape

# Of each case the figure that is drawn, and what it is of.
LONE = "latency"
WORKLOADS = {
    LONE: ("receipt_median_us", "one SEND after another; here a shorter bar is better"),
    "one": ("receipts_a_second", "one connection, 8 SENDs under way"),
    "many": ("receipts_a_second", "31 connections, 8 SENDs under way on each"),
    "jobs": ("jobs_a_second", "SEND, MESSAGE and ACK, 4 senders, 4 workers"),
    "fanout": ("messages_a_second", "from one sender to 16 subscribers"),
    "hall": ("messages_a_second", "from one sender to 250 subscribers"),
    "room": ("messages_a_second", "from one sender to 1,000 subscribers"),
}
# What is counted, if the figure's name doesn't say it well.
HEADS = {"receipt_median_us": "Microseconds until a receipt"}
STOMPD = "stompd"
# Each with the class of its bars.
BROKERS = {STOMPD: "stompd", "RabbitMQ": "rabbitmq"}
PLACES = {"disk": "on the disk", "memory": "in memory"}

WIDTH, MARGIN, BARS, LONGEST, THICK, GAP = 680, 24, 104, 400, 18, 4
TOP, EACH, FOOT = 80, 80, 96
# There is room for figures under this one.
MOST = 1_000_000_000

STYLE = """
text { font: 13px system-ui, "Segoe UI", "DejaVu Sans", sans-serif; fill: #1f2328; }
.head { font-size: 18px; }
.head, .what, .factor { font-weight: bold; }
.more { fill: #59636e; font-weight: normal; }
.page { fill: #ffffff; }
.stompd { fill: #0969da; }
.rabbitmq { fill: #818b98; }
@media (prefers-color-scheme: dark) {
text { fill: #e6edf3; }
.more { fill: #9198a1; }
.page { fill: #0d1117; }
.stompd { fill: #4493f8; }
.rabbitmq { fill: #767e89; }
}
"""


class Lacks(Exception):
    """What was read lacks what is drawn; the text says what."""


def part(whole, name, where):
    if not isinstance(whole, dict) or name not in whole:
        raise Lacks(f"{where} has no {name!r}")
    return whole[name]


def figures(measured, kind):
    """Of each workload stompd's figure and RabbitMQ's."""
    folders, place = part(measured, "folders", "the file"), f"what was measured {PLACES[kind]}"
    of_kind = [it for it in folders if isinstance(it, dict) and it.get("kind") == kind] if isinstance(folders, list) else []
    if not of_kind:
        raise Lacks(f"nothing was measured {PLACES[kind]}")
    for case, (name, _) in WORKLOADS.items():
        told = part(part(part(of_kind[0], "cases", place), case, place), "brokers", f"case {case!r}")
        yield case, [figure_of(part(told, broker, f"case {case!r}"), name, f"{broker} in case {case!r}") for broker in BROKERS]


def figure_of(told, name, where):
    figure = part(part(told, "best", where), name, where)
    if type(figure) not in (int, float) or not 0 < figure < MOST:
        raise Lacks(f"{where} has {figure!r} for {name!r}, which is no number over 0 and under {MOST:,}")
    return figure


def text(name, x, y, *parts):
    return f'<text class="{name}" x="{x:g}" y="{y:g}">{"".join(parts)}</text>'


def span(name, words):
    return f' <tspan class="{name}" dx="4">{escape(words)}</tspan>'


def counted(case):
    """What is counted, as a workload's head has it."""
    name = WORKLOADS[case][0]
    return HEADS.get(name) or name.replace("_", " ").capitalize()


def factor_of(case, pair):
    return f"{pair[1] / pair[0] if case == LONE else pair[0] / pair[1]:.1f} x"


def bars(case, pair, top):
    """A workload's head and its two bars."""
    yield f'<g id="{case}">'
    yield text("what", MARGIN, top + 14, counted(case), span("more", WORKLOADS[case][1]))
    for place, (broker, figure) in enumerate(zip(BROKERS, pair)):
        y, length = top + 22 + place * (THICK + GAP), LONGEST * figure / max(pair)
        yield text("broker", MARGIN, y + 13, broker)
        yield f'<rect class="{BROKERS[broker]}" x="{BARS}" y="{y}" width="{length:.1f}" height="{THICK}"/>'
        yield text("figure", round(BARS + length + 8, 1), y + 13, f"{figure:,.0f}", span("factor", factor_of(case, pair)) if broker == STOMPD else "")
    yield "</g>"


def described(pairs):
    """The picture in words."""
    for case, pair in pairs.items():
        told = ", ".join(f"{broker} {figure:,.0f}" for broker, figure in zip(BROKERS, pair))
        yield f"{counted(case)}, {WORKLOADS[case][1]}: {told}, {factor_of(case, pair)}."


def drawn(measured, kind, build):
    """The picture of what was measured."""
    pairs = dict(figures(measured, kind))
    machine, date, rabbitmq, runs, seconds = (part(measured, it, "the file") for it in ("machine", "date", "rabbitmq", "runs", "seconds"))
    title, foot = f"stompd beside RabbitMQ, {PLACES[kind]}", TOP + EACH * len(pairs)
    size = f'width="{WIDTH}" height="{foot + FOOT}"'
    yield f'<svg xmlns="http://www.w3.org/2000/svg" viewBox="0 0 {WIDTH} {foot + FOOT}" {size} role="img" aria-labelledby="title desc">'
    yield f'<title id="title">{title}</title>'
    yield f'<desc id="desc">{escape(" ".join(described(pairs)))}</desc>'
    yield f"<style>{STYLE}</style>"
    yield f'<rect class="page" {size}/>'
    yield text("head", MARGIN, 36, title)
    yield text("more", MARGIN, 58, "Each workload has its own scale; a longer bar is better, but for the first.")
    for place, (case, pair) in enumerate(pairs.items()):
        yield from bars(case, pair, TOP + EACH * place)
    yield text("more", MARGIN, foot + 16, escape(f"{rabbitmq}; the best run of {runs}, {seconds} s each; {date}"))
    yield text("more", MARGIN, foot + 36, escape(f"stompd: {build}"))
    yield text("more", MARGIN, foot + 56, "RabbitMQ has a topic's messages in memory only; stompd syncs each before its MESSAGE goes out")
    yield text("more", MARGIN, foot + 76, escape(str(machine)))
    yield "</svg>"


def main():
    parser = argparse.ArgumentParser(description=__doc__, formatter_class=argparse.RawDescriptionHelpFormatter)
    parser.add_argument("measured", type=pathlib.Path, metavar="JSON")
    parser.add_argument("out", type=pathlib.Path, metavar="OUT.svg")
    parser.add_argument("--build", required=True, metavar="TEXT", help="which build of stompd it was, and whether proved")
    parser.add_argument("--folder", choices=PLACES, default="disk", help="what was measured there, in the first folder of that kind (disk)")
    words = parser.parse_args()
    try:
        picture = "\n".join(drawn(json.loads(words.measured.read_text(encoding="utf-8")), words.folder, words.build))
        words.out.write_text(picture + "\n", encoding="utf-8")
    except OSError as error:
        print(f"picture: {error}", file=sys.stderr)
        return 2
    except (Lacks, ValueError) as error:
        print(f"picture: {words.measured}: {error}", file=sys.stderr)
        return 2
    return 0


if __name__ == "__main__":
    sys.exit(main())
