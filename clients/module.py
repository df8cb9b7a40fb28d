#!/usr/bin/env python3
"""examples/stompd.mjs in Node and in headless Chromium, over a broker that is killed and started again under load, and over a fake one.

    python3 clients/module.py [PROGRAM] [--kills N] [--only fake|real] [--trial WORD] [--engine Node|Chromium] [--module PATH] [--ws PATH]

What a promise says is held against what comes: what has resolved is there, what was refused is not, and what is unknown may be. Needs Node 20 with
Debian's node-ws or Node's own experimental WebSocket, and for the second part Chromium; what is missing is told at the end, with status 2 if there is
no Node. --module takes another folder for examples/, as one with an error in it that has to be found, --ws another index.js of node-ws.
"""

import functools
import http.server
import json
import pathlib
import random
import re
import select
import shutil
import subprocess
import sys
import tempfile
import threading
import time
import traceback

import module_faults
import module_limits
import module_pages
import module_waits
from chromium import BROWSERS, Browser
from fake_broker import Relay
from lib import scenario
from lib.stomp_client import Client

HERE = pathlib.Path(__file__).resolve().parent
WS = pathlib.Path("/usr/share/nodejs/ws/index.js")
# The longest wait for an answer of an engine.
MOST_SECONDS = 90

# What each trial begins with: how a promise ends, in a word, and a wait for what comes.
WORDS = """
const late = () => new Promise(resolve => setTimeout(resolve, 20000, "nothing in 20 s"));
globalThis.outcome = promise => Promise.race([promise.then(() => "resolved", error => error.kind ?? error.message), late()]);
globalThis.how = promise => promise.then(() => "taken", ({ kind, code, message }) => [kind, code, message.startsWith(`${code} `)]);
globalThis.soon = async (holds, seconds = 15) => {
  for (const end = Date.now() + 1000 * seconds; Date.now() < end && !holds();) await new Promise(resolve => setTimeout(resolve, 10));
  return holds();
};
globalThis.open = (options = {}, url = URL_) => {
  const states = [], errors = [], onstate = (state, { pause, reason }) => states.push([state, pause, reason]);
  const fulls = [], onfull = (full, pause) => fulls.push([full, pause ?? null]);
  const client = connect(url, { onstate, onfull, onerror: (...told) => errors.push(told), ...options });
  return Object.assign(client, { states, errors, fulls });
};
globalThis.unhandled = [];
globalThis.process?.on("unhandledRejection", error => unhandled.push(String(error)));
globalThis.addEventListener?.("unhandledrejection", event => unhandled.push(String(event.reason)));
"""


def node_words(ws=WS):
    """How Node is called with a WebSocket: its words, and what a script is told of the package."""
    return (["node"], [ws]) if ws.exists() else (["node", "--experimental-websocket"], [])


class Node:
    """Node with the module, asked by lines."""

    name = "Node"

    def __init__(self, folder, ws):
        copy = folder / "node"
        (copy / "clients").mkdir(parents=True)
        shutil.copytree(folder / "examples", copy / "examples")
        shutil.copy(HERE / "module.mjs", copy / "clients")
        node, package = node_words(ws)
        self.process = subprocess.Popen([*node, copy / "clients" / "module.mjs", *package], stdin=subprocess.PIPE, stdout=subprocess.PIPE, text=True)

    def value(self, code):
        self.process.stdin.write(json.dumps(code) + "\n")
        self.process.stdin.flush()
        # One line answers each.
        assert select.select([self.process.stdout], [], [], MOST_SECONDS)[0], f"no answer within {MOST_SECONDS} s"
        answer = json.loads(self.process.stdout.readline())
        assert "error" not in answer, answer["error"]
        return answer["value"]

    def close(self):
        self.process.stdin.close()
        try:
            self.process.wait(timeout=20)
        except subprocess.TimeoutExpired:
            self.process.kill()
            self.process.wait()
        self.process.stdout.close()


class QuietHandler(http.server.SimpleHTTPRequestHandler):
    def log_message(self, *_):
        pass


class Chromium:
    """A page that has imported the module."""

    name = "Chromium"

    def __init__(self, folder, _):
        # A page with nothing in it.
        (folder / "examples" / "nothing.html").write_text("<!doctype html><title>nothing</title>")
        self.server = http.server.ThreadingHTTPServer(("127.0.0.1", 0), functools.partial(QuietHandler, directory=folder / "examples"))
        threading.Thread(target=self.server.serve_forever, daemon=True).start()
        self.browser = Browser(next(filter(None, map(shutil.which, BROWSERS))), str(folder))
        self.page = self.browser.open(f"http://127.0.0.1:{self.server.server_address[1]}/nothing.html")
        self.value("Object.assign(globalThis, await import('/stompd.mjs'))")

    def value(self, code):
        return self.page.value(f"(async () => {{ {code} }})()")

    def leave(self):
        """The page is left for another one, and the browser keeps it."""
        self.page.call("Page.navigate", url=f"http://127.0.0.1:{self.server.server_address[1]}/nothing.html?another")
        assert self.page.comes("document.readyState == 'complete' && location.search"), "the page is not left"

    def back(self):
        entries = self.page.call("Page.getNavigationHistory")
        self.page.call("Page.navigateToHistoryEntry", entryId=entries["entries"][entries["currentIndex"] - 1]["id"])
        assert self.page.comes("document.readyState == 'complete' && !location.search"), "the page is not back"
        assert self.page.value("typeof connect") == "function", "the browser has not kept the page"

    def freeze(self):
        self.page.call("Page.setWebLifecycleState", state="frozen")

    def thaw(self):
        self.page.call("Page.setWebLifecycleState", state="active")

    def close(self):
        self.server.shutdown()
        self.browser.close()


def start_again(engine, broker, *clients):
    """Kills the broker and serves its journal again, and waits until these clients have another session."""
    engine.value(f"globalThis.again = [{', '.join(clients)}].map(client => [client, client.session])")
    broker.again()
    assert engine.value("return soon(() => again.every(([client, session]) => client.session && client.session != session))"), "a client has not come back"


def what_promises_say(engine, broker, checks):
    """each promise ends as it should"""
    run = engine.value
    run("globalThis.one = open(); globalThis.heard = []; one.subscribe('/topic/room', it => heard.push(it)); ")
    text = "ö\\0\\n\\nx: \\\\"
    checks.same("a SEND resolves", run(f"return outcome(one.send('/topic/room', '{text}', {{ 'said:by': 'a\\\\b\\nc' }}))"), "resolved")
    checks.check("and is heard, body and headers", run(f"return await soon(() => heard.length == 1) && heard[0].body == '{text}' && heard[0].headers['said:by'] == 'a\\\\b\\nc'"))
    checks.same("one that the broker would refuse is rejected as refused", run("return outcome(one.send('nowhere', 'x'))"), "refused")
    checks.check("the next one is heard", run("await one.send('/topic/room', 'again'); return await soon(() => heard.length == 2)"))
    order = "const ends = [1, 2, 3].map(it => outcome(one.send('/topic/room', it))); ends.push(outcome(one.send('/topic/room', 'x', { long: 'x'.repeat(9000) }))); return Promise.all(ends)"
    checks.same("one with too long a header too, and those before it resolve", run(order), ["resolved", "resolved", "resolved", "refused"])
    checks.same("a subscription that is refused is told so", run("return outcome(one.subscribe('/topic/room', () => {}, { durable: 'd' }).ready)"), "refused")
    checks.check("and does not come back", run("await one.send('/topic/room', 'on'); const many = one.states.length; await soon(() => false, 1.5); return one.state == 'open' && one.states.length == many"))
    checks.same("one without a receipt is heard", run("const told = one.tell('/topic/room', 'told'); return [told, await soon(() => heard.at(-1).body == 'told')]"), [True, True])
    run("one.send('/topic/room', new Uint8Array([104, 0, 255]))")
    checks.same("bytes come as such", run("await soon(() => heard.at(-1).bytes.length == 3); return [[...heard.at(-1).bytes], heard.at(-1).body]"), [[104, 0, 255], "h\0\ufffd"])
    checks.same("while it connects nothing is told", run("const early = open(), told = early.tell('/topic/room', 'x'); await early.close(); return [told, early.state]"), [False, "closed"])
    checks.same("after the end a SEND is unsent", run("const other = open(); await other.close(); return [other.state, await outcome(other.send('/topic/room', 'x'))]"), ["closed", "unsent"])


def around_refusals(engine, broker, checks):
    """what is asked after something that is refused is carried out once, in order"""
    run = engine.value
    module_limits.fill(engine, "/queue/full")
    run("globalThis.ear = open({ clientId: 'order' }); globalThis.words = []; await ear.subscribe('/topic/order', it => words.push(it.body), { durable: 'd' }).ready")
    run("globalThis.many = open({ clientId: 'order', longestPause: 500, nameTimeout: 0 }); await many.send('/topic/order', 'begin'); globalThis.asked = []; globalThis.number = 0")
    run("globalThis.send = count => { for (; count > 0; count--) asked.push(outcome(many.send('/topic/order', ++number))); }; globalThis.large = ['/queue/full', 'x'.repeat(65536)]")
    # The name is in use, and there is no room for what is large.
    run("send(30); globalThis.bad = many.subscribe('/topic/order', () => {}, { durable: 'd' }); send(30); globalThis.worse = many.send(...large); send(30)")
    run("globalThis.ended = many.subscribe('/topic/other', () => {}); ended.end(); send(30); globalThis.job = many.transaction(tx => { tx.send('/topic/order', 'never'); tx.send(...large); }); send(30)")
    run("await outcome(job); await soon(() => many.session); send(30)")
    checks.same("each SEND resolves", run("return [...new Set(await Promise.all(asked))]"), ["resolved"])
    checks.same("what was refused is told so", run("return [await outcome(bad.ready), await outcome(worse), await outcome(job)]"), ["refused"] * 3)
    checks.same("and each is heard, once", run("await soon(() => words.length > 180); return words"), ["begin", *map(str, range(1, 181))])
    checks.same("by code", run("return many.errors.map(([error, it]) => [error.code, it === bad])"), [["E14", True]])
    run("await many.close(); await ear.close()")
    module_limits.drain(engine, "/queue/full")


def silences(engine, broker, checks):
    """a silent connection is told from an idle one, and its durable name waits"""
    run = engine.value
    run("globalThis.idle = open({ answerTimeout: 300 }); await idle.send('/topic/room', 'x'); globalThis.session = idle.session; await soon(() => false, 2)")
    checks.same("an idle connection stays", run("return [idle.session == session, idle.states.map(([state]) => state)]"), [True, ["connecting", "open"]])
    run("idle.close()")
    with Relay(broker.port) as relay:
        run(f"globalThis.direct = URL_; globalThis.URL_ = 'ws://127.0.0.1:{relay.port}/'; globalThis.tidings = []")
        run("globalThis.kiosk = open({ clientId: 'silent', answerTimeout: 300, longestPause: 500 }); globalThis.URL_ = direct")
        run("await kiosk.subscribe('/topic/news', it => tidings.push(it.body), { durable: 'd', ack: 'client' }).ready")
        relay.cut()
        checks.check("one that fell silent is left", run("return soon(() => kiosk.states.some(([state, , reason]) => state == 'lost' && /within 300 ms/.test(reason)))"))
        checks.check("the broker holds its name still, and it is told so", run("return soon(() => kiosk.errors.length > 1 && kiosk.errors.every(([error]) => /^E14 /.test(error.message)))"))
        checks.same("meanwhile a SEND resolves", run("return outcome(kiosk.send('/topic/news', 'meanwhile'))"), "resolved")
        relay.end()
        checks.same("once it does not, what waited comes", run("return [await soon(() => tidings.length), tidings]"), [True, ["meanwhile"]])
        run("await kiosk.close()")


def work_is_done(engine, broker, checks):
    """transactions, acknowledgements and refusals"""
    run = engine.value
    run("globalThis.jobs = []; globalThis.worker = open(); globalThis.hand = worker.subscribe('/queue/jobs', it => jobs.push(it), { ack: 'client-individual' }); await hand.ready")
    checks.same("a transaction that throws leaves nothing", run("return outcome(one.transaction(tx => { tx.send('/queue/jobs', 'lost'); throw new Error('no'); }))"), "no")
    checks.same("one that does not resolves", run("return outcome(one.transaction(async tx => { tx.send('/queue/jobs', 'a'); await null; tx.send('/queue/jobs', 'b'); tx.send('/queue/jobs', 'c'); }))"), "resolved")
    checks.same("and all of it comes, in order", run("await soon(() => jobs.length >= 3); return jobs.map(it => it.body)"), ["a", "b", "c"])
    checks.same("a refused transaction is told so", run("return outcome(one.transaction(tx => { tx.send('/queue/jobs', 'd'); tx.send('nowhere', 'x'); }))"), "refused")
    run("globalThis.two = open(); globalThis.twice = []; await two.subscribe('/queue/twice', it => twice.push(it), { ack: 'client' }).ready; await one.send('/queue/twice', 'x')")
    checks.same("also where only its COMMIT is", run("await soon(() => twice.length); return outcome(two.transaction(tx => { tx.ack(twice[0]); tx.ack(twice[0]); }))"), "refused")
    checks.same("an ACK and a NACK resolve", run("return [await outcome(jobs[0].ack()), await outcome(jobs[1].nack())]"), ["resolved", "resolved"])
    start_again(engine, broker, "one", "worker")
    checks.same("an ACK of a session that is over is unsent", run("await soon(() => jobs.length == 4); return outcome(jobs[2].ack())"), "unsent")
    checks.same("its message has come again, and nothing else", run("return jobs.slice(3).map(it => it.body)"), ["c"])
    checks.same("in a transaction too, of which nothing is sent", run("return outcome(worker.transaction(tx => { tx.send('/queue/jobs', 'e'); tx.ack(jobs[2]); }))"), "unsent")
    checks.same("an ACK in a transaction resolves", run("return outcome(worker.transaction(tx => { tx.ack(jobs[3]); }))"), "resolved")
    checks.same("a subscription that is ended resolves", run("return outcome(hand.end())"), "resolved")
    reader = Client(broker.port).connect()
    frames = reader.subscribe("r", "/queue/jobs") + reader.subscribe("d", "/queue/dead")
    checks.same("what was refused is in /queue/dead, and nothing is left", [frame.body for frame in frames], ["b"])
    reader.disconnect()


def durable_ones(engine, broker, checks):
    """a durable subscription comes back under its name"""
    run = engine.value
    run("globalThis.news = []; globalThis.who = { clientId: 'kiosk' }; globalThis.kiosk = open(who); await kiosk.subscribe('/topic/news', it => news.push(it.body), { durable: 'd' }).ready")
    run("await kiosk.close(); await one.send('/topic/news', 'while away')")
    run("globalThis.kiosk = open(who); globalThis.paper = kiosk.subscribe('/topic/news', it => news.push(it.body), { durable: 'd' }); await paper.ready")
    checks.same("what was sent while it was away comes", run("await soon(() => news.length); return news"), ["while away"])
    start_again(engine, broker, "one", "kiosk")
    checks.same("after a kill it is there by itself", run("await one.send('/topic/news', 'after'); await soon(() => news.length > 1); return news"), ["while away", "after"])
    checks.same("it is given up", run("return outcome(paper.giveUp())"), "resolved")
    run("await one.send('/topic/news', 'unread')")
    checks.check("and nothing waits under its name any more", b"kiosk" not in subprocess.run([broker.program, "held", broker.journal], capture_output=True, check=True).stdout)
    checks.same("nor is anything heard", run("await kiosk.close(); return [kiosk.state, news.length]"), ["closed", 2])


def a_lost_one_is_unknown(engine, broker, checks):
    """a SEND whose receipt had not come is unknown, and pauses grow"""
    run = engine.value
    run("globalThis.one = open(); await one.send('/queue/doubt', 'first'); one.states.length = 0")
    with broker.standing_still():
        run("globalThis.doubt = [outcome(one.send('/queue/doubt', 'x')), outcome(one.transaction(tx => tx.send('/queue/doubt', 'y')))]")
        broker.kill()
    checks.same("it is told apart from one that is refused", run("return Promise.all(doubt)"), ["unknown", "unknown"])
    checks.same("without a connection nothing is told", run("return one.tell('/topic/room', 'x')"), False)
    run("globalThis.late = one.send('/queue/late', 'late')")
    run("return soon(() => one.states.filter(([state]) => state == 'lost').length >= 4, 40)")
    pauses = [pause for state, pause, _ in run("return one.states") if state == "lost"]
    expected = [500 * 2**number for number in range(len(pauses))]
    checks.check("the pauses grow twofold", len(pauses) >= 4 and all(0.75 * it <= pause <= 1.25 * it for pause, it in zip(pauses, expected)), pauses)
    checks.check("with jitter", len({round(pause / it, 3) for pause, it in zip(pauses, expected)}) > 1, pauses)
    broker.serve()
    checks.same("what was sent meanwhile waited, and resolves", run("return outcome(late)"), "resolved")
    checks.same("the state says how it went", run("return [...new Set(one.states.map(it => it[0]))].sort()"), ["connecting", "lost", "open"])


def page_says_why(engine, broker, checks):
    """what examples/rooms.html says where it gets no connection"""
    page = (HERE.parent / "examples" / "rooms.html").read_text(encoding="utf-8")
    engine.value(re.search(r"^async function whyNot.*?^}$", page, re.M | re.S)[0] + "\nglobalThis.self ??= { origin: 'null' }; globalThis.why = whyNot;")
    why = lambda port: engine.value(f"return why('ws://127.0.0.1:{port}/')")
    port = scenario.free_port()
    checks.check("that no server is there", why(port).startswith(f"No server answers at 127.0.0.1:{port}."), why(port))
    origin = engine.value("return self.origin")
    said = why(broker.port)
    checks.check("or that one is, and which origin it has to serve", "No server" not in said and f"--origin, it has to name {origin}." in said, said)


LOAD = """
globalThis.going = true;
globalThis.seen = [];
globalThis.pairs = [];
globalThis.ends = { send: {}, pair: {} };
const receiving = { ack: 'client-individual' };
// Pauses stay short, so that readers come back before too much waits for them, and senders wait for readers that are slow.
const short = { longestPause: 500 };
globalThis.reader = open({ clientId: 'reader', ...short });
await reader.subscribe('/topic/load', it => { seen.push(it.body); outcome(it.ack()); }, { ...receiving, durable: 'load' }).ready;
globalThis.taker = open(short);
await taker.subscribe('/queue/pairs', it => { pairs.push(it.body); outcome(it.ack()); }, receiving).ready;
globalThis.sender = open(short);
globalThis.resolved = 0;
let sent = 0;
const loop = async (name, act) => {
  for (let number = 0; going; number++) {
    const end = await outcome(act(`${name} ${number}`));
    ends[name.split(' ')[0]][`${name} ${number}`] = end;
    if (name != 'pair' && end == 'resolved') resolved++;
    sent += name == 'pair' ? 2 : 1;
    await soon(() => sent < seen.length + pairs.length + 1000, 20);
  }
};
globalThis.loops = [0, 1, 2, 3].map(it => loop(`send ${it}`, text => sender.send('/topic/load', text)));
loops.push(loop('pair', text => sender.transaction(tx => { tx.send('/queue/pairs', `${text} a`); tx.send('/queue/pairs', `${text} b`); })));
"""


def under_way(engine, checks):
    """Waits until a further fifty SENDs have resolved."""
    if not engine.value("const before = resolved; return soon(() => resolved > before + 50, 60)"):
        checks.check("the load goes on", False, engine.value("return [sender.state, resolved, seen.length, pairs.length]"))


def kills_under_load(engine, broker, kills, checks):
    """what a promise said is so, after many kills"""
    run = engine.value
    run(LOAD)
    for _ in range(kills):
        under_way(engine, checks)
        time.sleep(random.uniform(0, 0.5))
        broker.kill()
        time.sleep(random.uniform(0, 0.5))
        broker.serve()
    under_way(engine, checks)
    run("going = false; await Promise.all(loops); await sender.send('/topic/load', 'end'); await sender.send('/queue/pairs', 'end')")
    checks.check("both readers come to the end", run("return soon(() => seen.includes('end') && pairs.includes('end'), 60)"))
    ends, seen, pairs = run("return [ends, seen, pairs]")
    by = {kind: {text for text, end in ends["send"].items() if end == kind} for kind in ("resolved", "unknown")}
    checks.tell(f"{kills} kills: {len(by['resolved'])} SENDs resolved, {len(by['unknown'])} unknown, {len(ends['pair'])} transactions")
    checks.check("there was a load, and kills within it", len(by["resolved"]) > 50 * kills and by["unknown"], by["unknown"])
    checks.same("none was told anything else", set(ends["send"].values()) | set(ends["pair"].values()), {"resolved", "unknown"})
    checks.check("each that has resolved is there", by["resolved"] <= set(seen), len(by["resolved"] - set(seen)))
    checks.check("and none that was not sent", set(seen) <= {*ends["send"], "end"})
    whole = {text for text in ends["pair"] if {f"{text} a", f"{text} b"} <= set(pairs)}
    halves = {text[:-2] for text in pairs if text != "end"} - whole
    checks.same("each transaction is there wholly or not at all", halves, set())
    checks.check("and each that has resolved", {text for text, end in ends["pair"].items() if end == "resolved"} <= whole)


def lines_with_node_ws(program, folder, ws, checks):
    """The lines of docs/CLIENTS.md that load Debian's package are run in a program of their own."""
    if not ws.exists():
        checks.tell("the lines for node-ws were not tried: it is not here")
        return
    text = (HERE.parent / "docs" / "CLIENTS.md").read_text(encoding="utf-8")
    (lines,) = (it.split("```")[0] for it in text.split("```js\n")[1:] if str(WS) in it.split("```")[0])
    with scenario.serving(program) as broker:
        ear = Client(broker.port).connect()
        ear.subscribe("r", "/topic/room")
        script = folder / "node" / "examples" / "lines.mjs"
        script.write_text(lines.replace(":8080", f":{broker.port}").replace(str(WS), str(ws)) + "await client.close();\n", encoding="utf-8")
        ended = subprocess.run(["node", script], capture_output=True, text=True, timeout=60)
        checks.same("the lines for node-ws run in Node", (ended.returncode, ended.stderr), (0, ""))
        checks.same("and send what they say", ear.receive().body, "hello")


# How a client may be closed, all of whose waits are longer than this script waits for its program.
LASTS = """
import { connect } from "./stompd.mjs";
const [ws] = WS;
if (ws) globalThis.WebSocket = (await import(ws)).default;
const long = { answerTimeout: 3600000, waitTimeout: 3600000, closeTimeout: 3600000, onerror() {} };
const lost = async client => { while (client.state != "lost") await new Promise(resolve => setTimeout(resolve, 10)); };
const ends = { close: async (url) => { const client = connect(url, long); await client.send("/topic/room", "x"); await client.close(); },
  waits: async (_, nobody) => {
    const client = connect(nobody, { ...long, shortestPause: 3600000, longestPause: 3600000 });
    client.send("/topic/room", "x"); await lost(client); await client.close();
  },
  early: async (url) => { const client = connect(url, long); client.send("/topic/room", "x"); await client.close(); },
  asks: async () => { const client = connect(() => new Promise(() => {}), long); client.subscribe("/topic/room", () => {}); await client.close(); },
  late: async (url) => {
    const client = connect(url, { ...long, answerTimeout: 100 });
    await client.send("/topic/room", "x"); await new Promise(resolve => setTimeout(resolve, 300)); await client.close();
  } };
await ends[KIND](...URLS);
"""


def a_program_ends(program, folder, ws, checks):
    """A program in Node ends once its client is closed, since no timer is left: with a session, while it waits for one, and after."""
    node, package = node_words(ws)
    with scenario.serving(program) as broker:
        urls, running = [f"ws://127.0.0.1:{port}/" for port in (broker.port, scenario.free_port())], {}
        for kind in ("close", "waits", "early", "asks", "late"):
            script = folder / "node" / "examples" / f"{kind}.mjs"
            words = {"WS": list(map(str, package)), "KIND": kind, "URLS": urls}
            script.write_text(re.sub(r"\b(WS|KIND|URLS)\b", lambda it: json.dumps(words[it[1]]), LASTS), encoding="utf-8")
            running[kind] = subprocess.Popen([*node, script], stdin=subprocess.DEVNULL, stderr=subprocess.PIPE, text=True)
        end = time.monotonic() + MOST_SECONDS
        for kind, process in running.items():
            try:
                _, told = process.communicate(timeout=max(0, end - time.monotonic()))
            except subprocess.TimeoutExpired:
                process.kill()
                _, told = process.communicate()
            checks.check(f"a program ends with its client: {kind}", process.returncode == 0, (process.returncode, told[-300:]))


TRIALS = [what_promises_say, *module_limits.TRIALS, *module_pages.REAL, *module_waits.REAL, around_refusals, silences, work_is_done, durable_ones, a_lost_one_is_unknown, page_says_why, kills_under_load]


def run_trial(trial, engine, *more):
    """Runs a trial. What it raises is a failed check."""
    *_, checks = more
    print(f"{engine.name}: {trial.__doc__}", flush=True)
    try:
        trial(engine, *more)
    except Exception as error:
        traceback.print_exc()
        checks.check(f"{trial.__name__} runs to its end", False, error)


def chosen(words, trials):
    return [it for it in trials if words.trial in it.__name__]


def try_over_the_broker(engine, words, checks):
    with scenario.serving(words.program) as broker:
        engine.value(f"globalThis.URL_ = 'ws://127.0.0.1:{broker.port}/'")
        for trial in chosen(words, TRIALS + (module_pages.REAL_OF_PAGES if engine.name == "Chromium" else [])):
            run_trial(trial, engine, broker, *([words.kills] if trial is kills_under_load else []), checks)
            if not broker.is_running():
                broker.serve()


def try_engine(kind, folder, words, checks):
    engine = kind(folder, words.ws)
    try:
        engine.value(WORDS)
        if words.only != "real":
            for trial in chosen(words, module_faults.TRIALS + module_waits.FAKE + module_pages.FAKE + (module_pages.FAKE_OF_PAGES if kind is Chromium else [])):
                run_trial(trial, engine, checks)
        if words.only != "fake":
            try_over_the_broker(engine, words, checks)
            if kind is Node and not words.trial:
                lines_with_node_ws(words.program, folder, words.ws, checks)
                a_program_ends(words.program, folder, words.ws, checks)
    finally:
        engine.close()


def main():
    parser = scenario.words_of(__doc__)
    parser.add_argument("--kills", type=int, default=20)
    parser.add_argument("--only", choices=["fake", "real"], help="the trials over a fake broker, or over the real one")
    parser.add_argument("--trial", default="", metavar="WORD", help="those alone that have it in their name")
    parser.add_argument("--engine", choices=["Node", "Chromium"], help="in this one alone")
    parser.add_argument("--module", type=pathlib.Path, default=HERE.parent / "examples")
    parser.add_argument("--ws", type=pathlib.Path, default=WS)
    words = parser.parse_args()
    engines = [kind for kind, is_there in ((Node, shutil.which("node")), (Chromium, any(map(shutil.which, BROWSERS)))) if is_there and words.engine in (None, kind.name)]
    checks = scenario.Checks()
    for kind in engines:
        with tempfile.TemporaryDirectory(prefix="stompd-module-", ignore_cleanup_errors=True) as folder:
            shutil.copytree(words.module, pathlib.Path(folder) / "examples")
            try_engine(kind, pathlib.Path(folder), words, checks)
    print(f"tried in {' and '.join(kind.name for kind in engines) or 'none of them'}")
    if checks.failed:
        return 1
    return 0 if Node in engines or (engines and words.engine) else 2


if __name__ == "__main__":
    sys.exit(main())
