#!/usr/bin/env python3
"""Tries examples/rooms.html in headless Chromium, over a broker that is killed and started again, and the lines of JavaScript in
README.md and docs/CLIENTS.md.

    python3 clients/browser.py [PROGRAM] [--browser CHROMIUM] [--stomp-js PATH]
    python3 clients/browser.py [PROGRAM] --picture docs/rooms.png

With --picture it tries nothing, and makes the README's picture of a room. It needs Chromium (Debian: apt-get install chromium) and nothing else: it speaks to it by the DevTools protocol.
"""

import functools
import http.server
import json
import pathlib
import shutil
import signal
import sys
import tempfile
import threading
import time
import urllib.parse

from chromium import BROWSERS, DOWN, ENTER, TAB, UP, Browser
from fake_broker import Relay
from lib import scenario
from lib.stomp_client import Client

TOP = pathlib.Path(__file__).resolve().parent.parent
PAGE = TOP / "examples" / "rooms.html"

# Where RabbitMQ's examples have stomp.js 2.3.3.
STOMP_JS = "lib/rabbitmq_server-*/plugins/rabbitmq_web_stomp_examples-*/priv/stomp.js"

DEAD = "/queue/dead"
# How many messages a subscription that acknowledges has at most.
IN_HAND = 16
# How many messages a broker holds at most.
HELD = 4_096


class QuietHandler(http.server.SimpleHTTPRequestHandler):
    def log_message(self, *_):
        pass


def serving_files(folder=PAGE.parent):
    """A server of a folder, by plain HTTP."""
    handler = functools.partial(QuietHandler, directory=folder)
    server = http.server.ThreadingHTTPServer(("127.0.0.1", 0), handler)
    threading.Thread(target=server.serve_forever, daemon=True).start()
    return server


def fragment(broker, name):
    return "#" + urllib.parse.urlencode({"port": broker.port, "name": name, "room": "lobby"})


def they_talk(broker, checks, anna, ben):
    checks.check("both pages are connected, one by file://, one by http://", anna.is_in("open") and ben.is_in("open"), (anna.state(), ben.state()))
    # So that nothing is said before the other listens.
    time.sleep(0.3)
    anna.write("words", "hello from anna")
    checks.check("the sender sees it sent, receipted and received", anna.rows_come("hello from anna", ["sent", "received", "receipted"]), anna.states_of("hello from anna"))
    checks.check("the other sees it received", ben.rows_come("hello from anna", ["received"]), ben.states_of("hello from anna"))
    text = "<b>öäü</b> \\ : 'quoted'"
    ben.write("words", text)
    checks.check("whatever is said", anna.rows_come(text, ["received"]), anna.states_of(text))


def they_work(broker, checks, anna, ben):
    anna.write("job", "alone")
    checks.check("a job is sent and receipted", anna.rows_come("alone", ["sent", "receipted"]), anna.states_of("alone"))
    ben.toggle("work")
    checks.check("the worker has received it, and done it", ben.rows_come("alone", ["received", "done"]), ben.states_of("alone"))
    checks.check("the other hears that it is done", anna.rows_come("alone", ["sent", "receipted", "done"]), anna.states_of("alone"))
    anna.toggle("work")
    anna.value("document.getElementById('ten').click()")
    done = "[...document.querySelectorAll('#jobs li')].filter(row => row.querySelector('[data-state=done]')).length"
    checks.check("ten jobs of one transaction are done by two workers", anna.comes(f"{done} == 11", 20), anna.value(done))
    checks.check("by both of them", anna.value("['anna', 'ben'].every(name => document.getElementById('jobs').textContent.includes('done by ' + name))"))
    anna.toggle("work")


def refuse_elsewhere(broker, count, headers):
    """A worker that is no page refuses jobs of another room; their texts."""
    worker, texts = Client(broker.port).connect(), [f"{count} elsewhere {number}" for number in range(count)]
    worker.subscribe("w", "/queue/rooms.kitchen.jobs", "client")
    for text in texts:
        (frame,) = worker.publish("/queue/rooms.kitchen.jobs", text, headers)
        worker.send("NACK", [("id", frame.headers["ack"]), ("receipt", text)])
        worker.receipt(text)
    worker.disconnect()
    return texts


def take_dead(broker):
    """All that waits in /queue/dead, acknowledged: each message's text and its `room`."""
    operator, found = Client(broker.port).connect(), []
    waiting = operator.subscribe("o", DEAD, "client-individual")
    operator.send("SEND", [("destination", DEAD)], "the last one")
    while not found or found[-1][0] != "the last one":
        frame = waiting.pop(0) if waiting else operator.receive()
        found.append((frame.body, frame.headers.get("room")))
        operator.send("ACK", [("id", frame.headers["ack"])])
    operator.disconnect()
    return found[:-1]


def a_worker_refuses(broker, checks, anna, ben):
    ben.choose("pace", DOWN)
    checks.same("a worker does its jobs by hand", ben.value("document.getElementById('pace').value"), "hand")
    for job in ("a good one", "a broken one", "a bad one", "a late one"):
        anna.write("job", job)
    checks.check("it has them in hand", ben.comes("inHand.length == 4"), ben.value("inHand.length"))
    checks.same("each with two buttons", ben.buttons_of("a broken one", "jobs"), ["Done", "Refuse"])
    checks.check("it refuses two, by keyboard", ben.act("jobs", "Refuse: a broken one") and ben.act("jobs", "Refuse: a bad one"))
    checks.check("who refuses sees so", ben.rows_come("a broken one", ["received", "rejected"]), ben.states_of("a broken one"))
    checks.check("and so does who has added the job", anna.rows_come("a broken one", ["sent", "receipted", "rejected"]), anna.states_of("a broken one"))
    checks.check("by whom", anna.value("document.getElementById('jobs').textContent.includes('refused by ben')"))
    checks.check("the next one is done by keyboard", ben.act("jobs", "Done: a good one"))
    checks.check("and the other hears it", anna.rows_come("a good one", ["sent", "receipted", "done"]), anna.states_of("a good one"))
    checks.same("and a job that is neither stays in hand", ben.value("inHand.length"), 1)


def an_operator_looks(broker, checks, anna, ben):
    others = refuse_elsewhere(broker, 1, [("room", "kitchen")]) + refuse_elsewhere(broker, 2, [])
    anna.toggle("look")
    expected = ["a broken one", "a bad one", *others]
    checks.check("who looks sees refused jobs of all rooms", anna.comes(f"document.querySelectorAll('#refused li').length == {len(expected)}"), anna.refused())
    checks.same("in their order", anna.refused(), expected)
    checks.same("those of its room with two buttons", anna.buttons_of("a broken one", "refused"), ["Put back", "Discard"])
    checks.same("those of others with none", [anna.buttons_of(text, "refused") for text in others], [[]] * 3)
    told = anna.value("document.getElementById('refused').textContent")
    checks.check("and with their room", "of room kitchen" in told and "of no room" in told, told)
    checks.check("it puts one back, by keyboard", anna.act("refused", "Put back: a broken one"))
    checks.check("all hear it", anna.rows_come("a broken one", ["sent", "receipted", "back"]), anna.states_of("a broken one"))
    checks.check("it is in the worker's hand again", ben.comes("inHand.length == 2"), ben.value("inHand.length"))
    checks.check("and is done this time", ben.act("jobs", "Done: a broken one"))
    checks.check("as all hear", anna.rows_come("a broken one", ["sent", "receipted", "done"]), anna.states_of("a broken one"))
    checks.check("it discards the other", anna.act("refused", "Discard: a bad one"))
    checks.check("all hear it", ben.rows_come("a bad one", ["received", "discarded"]), ben.states_of("a bad one"))
    checks.check("one that is refused meanwhile comes", ben.act("jobs", "Refuse: a late one") and anna.rows_come("a late one", [], "refused"), anna.refused())
    broker.again()
    checks.check("after a kill the same ones come again", anna.is_in("open") and anna.comes(f"document.querySelectorAll('#refused li').length == {len(others) + 1}"), anna.refused())
    checks.same("once", anna.refused(), [*others, "a late one"])
    anna.toggle("look")
    checks.same("who stops looking has none", anna.refused(), [])
    left = [(others[0], "kitchen"), *((text, None) for text in others[1:]), ("a late one", "lobby")]
    checks.same("and those that it left alone are there, once", take_dead(broker), left)


def what_is_put_back_is_as_it_was(broker, checks, anna, ben):
    sent = {"room": "lobby", "key": "k", "colour": "red:green\\"}
    client = Client(broker.port).connect()
    client.publish("/queue/rooms.lobby.jobs", "of no page", list(sent.items()))
    checks.check("a page refuses a job that no page has sent", ben.act_soon("jobs", "Refuse: of no page"))
    ben.toggle("work")
    anna.toggle("look")
    checks.check("another puts it back", anna.act_soon("refused", "Put back: of no page"))
    checks.check("and sees it no more", anna.comes("document.querySelectorAll('#refused li').length == 0"), anna.refused())
    (job,) = client.subscribe("w", "/queue/rooms.lobby.jobs", "client-individual")
    added = {"subscription", "message-id", "destination", "ack", "content-length"}
    headers = {name: value for name, value in job.headers.items() if name not in added}
    checks.same("it has all that it was sent with, and nothing else", (job.body, headers), ("of no page", sent))
    client.send("ACK", [("id", job.headers["ack"])])
    client.disconnect()
    anna.toggle("look")
    ben.toggle("work")


def a_job_comes_twice(broker, checks, anna, ben):
    client, job = Client(broker.port).connect(), [("room", "lobby"), ("key", "twice")]
    for _ in range(2):
        client.publish("/queue/rooms.lobby.jobs", "sent twice", job)
    checks.check("a worker has both in hand", ben.comes("inHand.length == 2"), ben.value("inHand.length"))
    checks.same("in one row", ben.states_of("sent twice"), [["received"]])
    checks.check("it refuses it", ben.act_soon("jobs", "Refuse: sent twice") and ben.rows_come("sent twice", ["received", "rejected"]))
    checks.same("and has none in hand", ben.value("inHand.length"), 0)
    checks.same("it is among the refused ones, once", take_dead(broker), [("sent twice", "lobby")])
    client.publish("/queue/rooms.lobby.jobs", "sent twice", job)
    checks.check("one that comes again is done", ben.act_soon("jobs", "Done: sent twice") and ben.comes("done.has('twice')"))
    client.publish("/queue/rooms.lobby.jobs", "sent twice", job)
    time.sleep(0.3)
    checks.same("and one that comes after that is acknowledged at once", ben.value("inHand.length"), 0)
    ben.toggle("work")
    checks.same("none is left in the queue", client.subscribe("w", "/queue/rooms.lobby.jobs", "client"), [])
    client.disconnect()
    ben.toggle("work")


def an_operator_has_sixteen(broker, checks, anna, ben):
    others = refuse_elsewhere(broker, IN_HAND + 1, [("room", "kitchen")])
    anna.toggle("look")
    checks.check("who looks has 16", anna.comes(f"document.querySelectorAll('#refused li').length == {IN_HAND}"), anna.refused())
    time.sleep(0.3)
    checks.same("the oldest, and no more", anna.refused(), others[:IN_HAND])
    anna.toggle("look")
    time.sleep(0.3)
    checks.same("and all are there, in their order, once it stops", [text for text, _ in take_dead(broker)], others)
    ben.choose("pace", UP)
    checks.same("the worker is at a second a job again", ben.value("document.getElementById('pace').value"), "timed")
    anna.write("job", "refused in time")
    checks.check("where a job may be refused too", ben.act_soon("jobs", "Refuse: refused in time"))
    checks.check("and is not done then", anna.rows_come("refused in time", ["sent", "receipted", "rejected"]), anna.states_of("refused in time"))
    time.sleep(1.5)
    checks.same("nor later", anna.states_of("refused in time"), [["sent", "receipted", "rejected"]])
    checks.same("but waits", take_dead(broker), [("refused in time", "lobby")])


def they_watch(broker, checks, anna, ben):
    anna.toggle("feed")
    checks.check("numbers are drawn in both pages", all(page.comes("numbers.length > 20") for page in (anna, ben)))
    checks.check("some five a second", ben.comes("/ [456]\\.\\d a second/.test(document.getElementById('summary').textContent)"), ben.value("summary()"))
    drawn = "[...document.getElementById('bars').getContext('2d').getImageData(0, 0, 9999, 999).data].some(byte => byte)"
    checks.check("as bars", ben.value(drawn))


SAID = "document.getElementById('state').textContent"


def says(text):
    return f"{SAID}.includes({json.dumps(text)})"


def the_broker_is_killed(broker, checks, anna, ben):
    start = time.monotonic()
    broker.kill()
    checks.check("both pages see it gone", anna.is_in("lost") and ben.is_in("lost"), (anna.state(), ben.state()))
    anna.write("words", "said while away")
    checks.check("what is said meanwhile waits", anna.rows_come("said while away", ["waits"]), anna.states_of("said while away"))
    gone = says(f"No server answers at 127.0.0.1:{broker.port}.")
    checks.check("both say that no server is there", anna.comes(gone) and ben.comes(gone), (anna.value(SAID), ben.value(SAID)))
    time.sleep(2)
    broker.serve()
    served = time.monotonic()
    checks.check("both come back by themselves", anna.is_in("open") and ben.is_in("open"), (anna.state(), ben.state()))
    checks.check("and say so", anna.value(says("Connected as anna")) and not anna.value(says("No server")), anna.value(SAID))
    checks.tell(f"the broker was away for {served - start:.1f} s, and both were back {time.monotonic() - served:.1f} s later")
    checks.check("what was said meanwhile goes out", anna.rows_come("said while away", ["sent", "received", "receipted"]), anna.states_of("said while away"))
    ben.write("words", "and a further one")
    checks.check("a further message goes through", anna.rows_come("and a further one", ["received"]), anna.states_of("and a further one"))


def it_is_sent_again(broker, checks, anna, ben):
    # The broker stands still, so that nothing is receipted, and is then killed.
    broker.process.send_signal(signal.SIGSTOP)
    anna.write("words", "in doubt")
    checks.check("what has no receipt is shown as sent", anna.rows_come("in doubt", ["sent"]), anna.states_of("in doubt"))
    broker.again()
    checks.check("it is sent again and receipted", anna.rows_come("in doubt", ["sent", "again", "received", "receipted"]), anna.states_of("in doubt"))


def a_job_is_handed_out_again(broker, checks, anna, ben):
    anna.write("job", "interrupted")
    checks.check("the worker has a job in hand", ben.comes("inHand.length == 1"))
    broker.again()
    checks.check("after the kill it comes again, and is done", ben.rows_come("interrupted", ["received", "done"]), ben.states_of("interrupted"))
    checks.check("the other sees it done", anna.rows_come("interrupted", ["sent", "receipted", "done"]), anna.states_of("interrupted"))
    ben.toggle("work")
    anna.write("job", "done while away")
    checks.check("a job waits", anna.rows_come("done while away", ["sent", "receipted"]), anna.states_of("done while away"))
    anna.value("document.getElementById('leave').click()")
    checks.check("who added it leaves", anna.is_in("left"), anna.state())
    ben.toggle("work")
    checks.check("it is done meanwhile", ben.rows_come("done while away", ["received", "done"]), ben.states_of("done while away"))
    broker.again()
    anna.value("document.getElementById('port').focus()")
    anna.press(ENTER)
    checks.check("and seen so by who is back after that", anna.rows_come("done while away", ["sent", "receipted", "done"]), anna.states_of("done while away"))


def a_keyboard_is_enough(broker, checks, anna, ben):
    anna.value("document.activeElement.blur()")
    reached = []
    for _ in range(30):
        anna.press(TAB)
        reached.append(anna.value("document.activeElement.id"))
    expected = ["port", "name", "room", "go", "leave", "chat", "words", "feed", "rate", "jobs", "job", "ten", "work", "pace", "refused", "look"]
    checks.check("each field and button is reached by Tab", set(expected) <= set(reached), reached)
    named = "[...document.querySelectorAll('input, select, button')].every(one => one.ariaLabel || one.labels?.length || one.textContent.trim())"
    checks.check("and has a name", anna.value(named))


def an_error_is_shown(broker, checks, anna, ben):
    anna.value("const row = chat.row('bad', 'anna', 'to nowhere'); post(client => client.send('/nowhere', 'x'), (state, why) => chat.mark(row, state, why))")
    checks.check("what the broker refuses is shown as refused", anna.rows_come("to nowhere", ["sent", "refused"]), anna.states_of("to nowhere"))
    told = anna.value("document.getElementById('chat').textContent.includes('E8 bad destination')")
    checks.check("with the broker's words", told)
    secure = "addressOf({ protocol: 'https:', hostname: 'chat.example' }, 443, '/rooms/red')"
    checks.same("a page that came by https takes wss, at its own host", anna.value(secure), "wss://chat.example:443/rooms/red")
    checks.check("and the page comes back", anna.is_in("open"), anna.state())


def a_line_is_refused(broker, checks, anna, ben):
    filler = Client(broker.port, timeout=60).connect()
    filler.publish_all("/queue/filled", HELD * ["x"])
    for part, field, text in (("chat", "words", "a line without room"), ("jobs", "job", "a job without room")):
        anna.write(field, text)
        checks.check("a full broker refuses it", anna.rows_come(text, ["sent", "refused"], part), anna.states_of(text, part))
        checks.same("it stands in its field again", anna.value(f"document.getElementById('{field}').value"), text)
        checks.check("the page says that the broker is full", anna.comes(says("The broker is full")), anna.value(SAID))
    # The first is sent from its field, and another one from its row.
    anna.value("say('from its row')")
    checks.check("one whose field has another text is refused too", anna.comes("document.querySelector('#chat [aria-label=\"Send again: from its row\"]') != null"), anna.states_of("from its row"))
    filler.subscribe("f", "/queue/filled")
    filler.disconnect()
    anna.value("document.getElementById('words').focus()")
    anna.press(ENTER)
    checks.check("once there is room it is sent from its field", anna.comes("chat.list.lastChild.textContent.startsWith('anna: a line without room') && chat.list.lastChild.textContent.includes('receipted')"), anna.states_of("a line without room"))
    checks.same("which is empty then", anna.value("document.getElementById('words').value"), "")
    checks.check("or from its row", anna.act("chat", "Send again: from its row") and anna.comes("chat.list.lastChild.textContent.includes('receipted')"), anna.states_of("from its row"))
    for text in ("a line without room", "from its row"):
        checks.check("the other hears it once", ben.rows_come(text, ["received"]), ben.states_of(text))


def it_is_easy_to_use(broker, checks, anna, ben):
    names = anna.value("[...document.querySelectorAll('#chat li')].map(row => row.textContent)")
    checks.check("a name and a text are read apart", names and all(": " in it for it in names), names)
    sizes = anna.value("[...document.querySelectorAll('input[type=checkbox]')].map(it => { const { width, height } = it.getBoundingClientRect(); return Math.min(width, height); })")
    checks.check("boxes have 24 pixels", sizes and min(sizes) >= 24, sizes)


def its_origin_is_not_served(broker, checks, anna, ben):
    broker.kill()
    broker.more = ("--origin", "https://chat.example")
    broker.serve()
    # A page from a file has no origin.
    origins = "null", ben.value("location.origin")
    for page, origin in zip((anna, ben), origins):
        checks.check(f"a page is told that {origin} has to be named", page.comes(says(f"--origin, it has to name {origin}."), 20), page.value(SAID))
    broker.kill()
    broker.more = [word for origin in origins for word in ("--origin", origin)]
    broker.serve()
    checks.check("and comes back once it is", anna.is_in("open") and ben.is_in("open"), (anna.state(), ben.state()))


def a_page_leaves(broker, checks, anna, ben):
    ben.value("document.getElementById('leave').click()")
    checks.check("a page that leaves stays away", ben.is_in("left") and not ben.is_in("open", 2), ben.state())
    ben.value("document.getElementById('port').focus()")
    ben.press(ENTER)
    checks.check("and comes back when it is asked to", ben.is_in("open"), ben.state())


STEPS = [
    they_talk,
    they_work,
    a_worker_refuses,
    an_operator_looks,
    what_is_put_back_is_as_it_was,
    a_job_comes_twice,
    an_operator_has_sixteen,
    they_watch,
    the_broker_is_killed,
    it_is_sent_again,
    a_job_is_handed_out_again,
    a_keyboard_is_enough,
    an_error_is_shown,
    a_line_is_refused,
    it_is_easy_to_use,
    its_origin_is_not_served,
    a_page_leaves,
]


def lines_below(document, heading, number=1):
    """The first block of JavaScript below that heading of a document, or another one by its number."""
    return (TOP / document).read_text(encoding="utf-8").split(f"\n## {heading}\n")[1].split("```js\n")[number].split("```")[0]


def lines_with_no_library(broker, checks, browser):
    """They do what they say, in a page of their own."""
    lines = lines_below("docs/CLIENTS.md", "With no library")
    page = browser.open("about:blank")
    run = f"var heard = []; console.log = frame => heard.push(frame); (0, eval)({json.dumps(lines.replace(':8080', f':{broker.port}'))}); 0"
    page.value(run)
    page.comes("heard.length == 3")
    heard = page.value("heard.map(frame => frame.split('\\n')[0])")
    checks.same("the lines with no library hear what they say", heard, ["CONNECTED", "MESSAGE", "RECEIPT"])
    checks.check("and the message that they have sent", page.value("heard[1].endsWith('hello\\0')"), page.value("heard"))
    checks.same("no exception was thrown", page.exceptions, [])


def lines_with_the_module(broker, checks, browser, server):
    """The README's lines, and those of CLIENTS.md, do what they say, in a page of their own beside the module."""
    heard = ["somebody said: hello", "it is on disk"]
    for document, heading, expected in (("README.md", "Connect", heard), ("docs/CLIENTS.md", "With stompd.mjs", [*heard, "somebody said: done: sweep"])):
        lines = lines_below(document, heading).replace(":8080", f":{broker.port}")
        page = browser.open(f"http://127.0.0.1:{server.server_address[1]}/{PAGE.name}")
        begin = "globalThis.heard = []; console.log = (...words) => heard.push(words.join(' ')); "
        page.value(begin + f"document.body.append(Object.assign(document.createElement('script'), {{ type: 'module', textContent: {json.dumps(lines)} }})); 0")
        page.comes(f"heard.length == {len(expected)}")
        checks.same(f"the lines of {document} with the module hear what they say", page.value("heard"), expected)
        checks.same("no exception was thrown", page.exceptions, [])


def lines_with_stomp_js(broker, checks, browser, library):
    """The README's lines, and those of CLIENTS.md, do what they say."""
    if library is None:
        checks.tell("the lines for stomp.js were not tried: it is not here (Debian has it in rabbitmq-server)")
        return
    page = browser.open("about:blank")
    page.value(f"(0, eval)({json.dumps(library.read_text(encoding='utf-8'))}); 0")
    lines = lines_below("README.md", "Connect", 2).replace(":8080", f":{broker.port}") + "\nvar stomp = client;"
    # The library logs each frame too.
    told = "const line = words.join(' '); if (/^(somebody said|it is on disk):/.test(line)) heard.push(line);"
    page.value(f"var heard = []; console.log = (...words) => {{ {told} }}; (0, eval)({json.dumps(lines)}); 0")
    page.comes("heard.length == 2")
    checks.same("the README's lines for stomp.js hear what they say", page.value("heard"), ["somebody said: hello", "it is on disk: first"])
    # The page of the module has a worker at its queue.
    works = (lines_below("docs/CLIENTS.md", "With stomp.js") + "\nclient.send('/queue/jobs', {}, 'sweep');").replace("/queue/jobs", "/queue/other-jobs")
    page.value(f"((client) => {{ {works} }})(stomp); 0")
    page.comes("heard.length == 3")
    checks.same("a worker's line for stomp.js acknowledges", page.value("heard[2]"), "it is on disk: done")
    with Relay(broker.port) as relay:
        lost = lines.replace(f":{broker.port}", f":{relay.port}").replace("\n});", "\n}, () => heard.push('lost'));", 1)
        # The lines' pauses are longer than a trial.
        alive = lines_below("docs/CLIENTS.md", "With stomp.js", 2).replace("15_000", "300").replace("5_000", "3_000")
        page.value(f"heard.length = 0; (() => {{ {lost}; {alive}; globalThis.alive = alive; }})(); 0")
        checks.check("the lines for a dead network leave a living one alone", page.comes("heard.length >= 1") and not page.comes("heard.includes('lost')", 4), page.value("heard"))
        relay.cut()
        checks.check("and end a dead one", page.comes("heard.includes('lost')", 20), page.value("clearInterval(alive); heard"))
    checks.same("no exception was thrown", page.exceptions, [])


TALK = [
    ("anna", "Who takes the release notes?"),
    ("ben", "I do. Is the journal's page done?"),
    ("anna", "Since this morning: every byte of it."),
    ("ben", "Then I read that first."),
    ("anna", "The broker was away for a moment. Did you see this line?"),
    ("ben", "Yes, once."),
]


def draw_a_room(broker, checks, browser, path):
    """Two people talk in a room, one of them while the broker is away, and work off ten jobs, of which two are refused."""
    pages = {name: browser.open(PAGE.as_uri() + fragment(broker, name)) for name in ("anna", "ben")}
    for page in pages.values():
        page.call("Emulation.setEmulatedMedia", features=[{"name": "prefers-color-scheme", "value": "light"}])
    checks.check("both are connected", all(page.is_in("open") for page in pages.values()))
    time.sleep(0.3)
    pages["ben"].toggle("feed")
    for number, (name, words) in enumerate(TALK):
        if number == 4:
            broker.kill()
            checks.check("both see it gone", all(page.is_in("lost") for page in pages.values()))
        pages[name].write("words", words)
        if number == 4:
            broker.serve()
            checks.check("both are back", all(page.is_in("open") for page in pages.values()))
        checks.check(words, pages["anna"].comes(f"document.getElementById('chat').textContent.includes({words!r})"))
        time.sleep(0.5)
    pages["anna"].value("document.getElementById('ten').click()")
    for page in pages.values():
        page.toggle("work")
    for words in ("Refuse: job 9 of ten", "Refuse: job 10 of ten"):
        button = f"document.querySelector('#jobs [aria-label=\"{words}\"]')"
        checks.check(words, any(page.comes(f"{button} && ({button}.click(), true)", 0.5) for page in pages.values()))
    pages["anna"].toggle("look")
    checks.check("the refused ones are seen", pages["anna"].comes("document.querySelectorAll('#refused li').length == 2"), pages["anna"].refused())
    done = "[...document.querySelectorAll('#jobs li')].filter(row => row.querySelector('[data-state=done]')).length"
    checks.check("five jobs are done", pages["anna"].comes(f"{done} >= 5", 20))
    checks.check("and numbers drawn", pages["anna"].comes("numbers.length > 50", 30))
    pages["anna"].value("document.activeElement.blur(); scrollTo(0, 0)")
    pages["anna"].look(path, 1200, 1170)
    checks.tell(f"{path} has {path.stat().st_size} bytes")


def try_page(broker, checks, browser, server, pictures):
    anna = browser.open(PAGE.as_uri() + fragment(broker, "anna"))
    ben = browser.open(f"http://127.0.0.1:{server.server_address[1]}/{PAGE.name}" + fragment(broker, "ben"))
    for step in STEPS:
        print(f"{step.__name__.replace('_', ' ')}", flush=True)
        step(broker, checks, anna, ben)
    for page, name, width, height in ((anna, "wide", 1280, 800), (ben, "narrow", 390, 1400)):
        page.look(pictures / f"rooms-{name}.png", width, height)
        checks.same(f"no exception was thrown in the page of {name}", page.exceptions, [])
    checks.tell(f"pictures of the pages are in {pictures}")


def main():
    parser = scenario.words_of(__doc__)
    parser.add_argument("--browser", default=next(filter(None, map(shutil.which, BROWSERS)), None))
    parser.add_argument("--stomp-js", type=pathlib.Path, metavar="PATH", default=next(iter(sorted(pathlib.Path("/usr/lib/rabbitmq").glob(STOMP_JS))), None))
    parser.add_argument("--picture", type=pathlib.Path, metavar="PATH", help="make the README's picture, and try nothing")
    words = parser.parse_args()
    if not words.browser:
        print("browser.py needs Chromium, which is not on the path (Debian: apt-get install chromium)", file=sys.stderr)
        return 2
    checks = scenario.Checks()
    pictures = None if words.picture else pathlib.Path(tempfile.mkdtemp(prefix="rooms-"))
    with scenario.serving(words.program) as broker, tempfile.TemporaryDirectory(ignore_cleanup_errors=True) as folder:
        browser, server = Browser(words.browser, folder), serving_files()
        try:
            if words.picture:
                draw_a_room(broker, checks, browser, words.picture)
            else:
                try_page(broker, checks, browser, server, pictures)
                lines_with_no_library(broker, checks, browser)
                lines_with_the_module(broker, checks, browser, server)
                lines_with_stomp_js(broker, checks, browser, words.stomp_js)
        finally:
            server.shutdown()
            browser.close()
    if checks.failed:
        return 1
    return 2 if words.stomp_js is None and not words.picture else 0


if __name__ == "__main__":
    sys.exit(main())
