"""What clients/module.py tries over a fake broker: losses, refusals and silences that a real one seldom has at the right moment."""

import contextlib
import re

from fake_broker import FakeBroker
from lib.stomp_client import BINARY, TEXT

# The shortest pause of a trial in which refusals follow each other, which a slow machine has to keep up with.
LONGER = 300
# A refusal that the client does nothing more about.
REFUSAL = "E20 bad header value"
# Times with which others are short, of which the last ones are never met.
QUICK = "shortestPause: 20, longestPause: 4000, answerTimeout: 10000, waitTimeout: 10000, closeTimeout: 10000"


@contextlib.contextmanager
def opened(engine, options="", name="it", session="7"):
    """A client of a fake broker, which it begins a session with: the broker and the connection."""
    with FakeBroker() as fake:
        engine.value(f"globalThis.URL_ = 'ws://127.0.0.1:{fake.port}/'; globalThis.{name} = open({{ {QUICK}, {options} }});")
        link = fake.take(session)
        engine.value(f"return soon(() => {name}.state == 'open')")
        yield fake, link
        engine.value(f"{name}.close()")


def pauses_of(engine):
    return [pause for _, pause, _ in engine.value("return it.states") if pause]


def grows(pauses, first=20):
    """Whether each is twice the one before, a quarter shorter or longer."""
    return all(0.75 * first * 2**number <= pause <= 1.25 * first * 2**number for number, pause in enumerate(pauses))


def has_left(link):
    """Whether the client closes the connection, or ends it."""
    with contextlib.suppress(TimeoutError):
        try:
            while True:
                link.take()
        except ConnectionError:
            return True
    return False


def promises_left_alone(engine, checks):
    """a promise that nobody awaits ends nothing"""
    run = engine.value
    with opened(engine) as (fake, link):
        run("it.subscribe('/queue/jobs', async job => { await it.transaction(tx => { tx.ack(job); tx.send('/topic/room', 'done'); }); }, { ack: 'client-individual' })")
        run("it.subscribe('/queue/acks', job => { job.ack(); }, { ack: 'client-individual', id: 'acks' })")
        jobs, acks = link.accept_next(), link.accept_next()
        link.message(jobs.headers["id"], "sweep", [("ack", "1")])
        link.message(acks.headers["id"], "sweep", [("ack", "2")])
        run("it.send('/topic/room', 'x'); it.transaction(tx => tx.send('/topic/room', 'x')); it.transaction(() => { throw new Error('mine'); })")
        run("it.subscribe('/topic/bad', () => {}).end()")
        link.take()
        link.drop()
        checks.check("all are lost", run("return soon(() => it.state == 'lost' || it.state == 'connecting')"))
        fake.take()
        run("return soon(() => it.state == 'open')")
        checks.same("and none is an unhandled rejection", run("await soon(() => false, 0.1); return unhandled"), [])
        checks.same("what a listener awaits is told", run("return it.errors.map(([error]) => error.kind)"), ["unknown"])


def refusals(engine, checks):
    """a refusal is of what was refused, and of nothing else"""
    run = engine.value
    # A refusal comes just after another if twice the pause has not passed, however slow this machine is.
    with opened(engine, f"shortestPause: {LONGER}") as (fake, link):
        for number in range(4):
            run(f"globalThis.full = outcome(it.send('/topic/room', '{number}'))")
            link.refuse(REFUSAL, link.take())
            checks.same("a refused SEND is told so", run("return full"), "refused")
            link = fake.take()
        pauses = run("return it.states.filter(([state]) => state == 'refused').map(([, pause]) => pause)")
        checks.check("the first is followed by no pause, and those just after it by pauses that grow", len(pauses) == 4 and pauses[0] == 0 and grows(pauses[1:], LONGER), pauses)
        run("await soon(() => it.state == 'open'); it.tell('/topic/full', 'told'); globalThis.after = outcome(it.send('/topic/room', 'after'))")
        link.take_all(2)
        link.refuse(REFUSAL)
        link = fake.take()
        checks.same("what was asked after a refused one without a receipt is carried out", (link.accept_next().body, run("return after")), (b"after", "resolved"))
        checks.same("and the refusal is told", run("return it.errors.map(([error]) => error.message)"), [REFUSAL])
        run("globalThis.ends = ['first', 'large', 'last'].map(text => outcome(it.send('/topic/room', text)))")
        first = link.take()
        link.take_all(2)
        link.accept(first)
        link.refuse("E2 frame too large")
        link = fake.take()
        checks.same("a frame that can't be read is the first without an answer", (link.accept_next().body, run("return Promise.all(ends)")), (b"last", ["resolved", "refused", "resolved"]))
        run("it.tell('/topic/room', 'told'); globalThis.ends = [outcome(it.send('/topic/room', 'a'))]; it.tell('/topic/full', 'told'); ends.push(outcome(it.send('/topic/room', 'b')))")
        frames = link.take_all(4)
        link.accept(frames[1])
        link.refuse(REFUSAL)
        link = fake.take()
        checks.same("also between others", (link.accept_next().body, run("return Promise.all(ends)")), (b"b", ["resolved", "resolved"]))
        run("it.tell('/topic/room', 'told'); globalThis.ends = [outcome(it.send('/topic/room', 'a')), outcome(it.send('/topic/room', 'large'))]; globalThis.told = it.errors.length")
        link.accept(link.take_all(3)[1])
        link.refuse("E2 frame too large")
        checks.same("what was told before one that is accepted was accepted too", run("return [await Promise.all(ends), it.errors.length - told]"), [["resolved", "refused"], 0])
        link = fake.take()
    with opened(engine, "longestPause: 200") as (fake, link):
        run("await soon(() => false, 0.3)")
        for _ in range(3):
            link.drop()
            link = fake.take()
        pauses = pauses_of(engine)
        run("await soon(() => false, 0.3)")
        link.drop()
        link = fake.take()
        checks.check("a session that lasted brings back the shortest pause", grows(pauses[:3]) and grows(pauses_of(engine)[3:]), pauses_of(engine))
    with opened(engine, "longestPause: 20000") as (fake, link):
        for _ in range(3):
            run("await soon(() => false, 0.3)")
            link.drop()
            link = fake.take()
        checks.check("one that lasted for less than the longest pause doesn't", len(pauses_of(engine)) == 3 and grows(pauses_of(engine)), pauses_of(engine))
    with opened(engine, "longestPause: 60000") as (fake, link):
        for _ in range(2):
            run("await soon(() => false, 0.5); it.send('/topic/room', 'x')")
            link.refuse(REFUSAL, link.take())
            link = fake.take()
        run("await soon(() => it.state == 'open')")
        link.drop()
        fake.take()
        seen = run("return it.states.map(([state, pause, reason]) => [state, pause > 0, Boolean(reason)]).filter(([state]) => ['refused', 'lost'].includes(state))")
        checks.same("refusals long after each other have no pause, and a loss after them is none", seen, [["refused", False, True], ["refused", False, True], ["lost", True, False]])
    with opened(engine, f"shortestPause: {10 * LONGER}, longestPause: 60000") as (fake, link):
        run("it.send('/topic/room', 'x')")
        link.refuse(REFUSAL, link.take())
        link = fake.take()
        run(f"await soon(() => false, {1.25 * 10 * LONGER / 1000}); it.send('/topic/room', 'x')")
        link.refuse(REFUSAL, link.take())
        checks.check("one within twice the pause is just after another", run("return soon(() => it.states.filter(([state]) => state == 'refused').length == 2)") and grows(pauses_of(engine), 10 * LONGER), pauses_of(engine))
        checks.same("and has a pause", len(pauses_of(engine)), 1)


def what_a_refusal_ends(engine, checks):
    """what belongs to a session that was refused is rejected at once, and what had been ended is no one's fault"""
    run = engine.value
    with opened(engine) as (fake, link):
        run("globalThis.paper = it.subscribe('/queue/news', message => { globalThis.last = message; }, { ack: 'client-individual' })")
        link.message(link.accept_next().headers["id"], "news", [("ack", "1")])
        run("await soon(() => globalThis.last); globalThis.other = it.subscribe('/topic/other', () => {}); outcome(other.end())")
        link.take()
        # The connection stays for a moment after the ERROR.
        link.say("ERROR", [("message", "E14 durable subscription unknown, in use or of another topic")])
        checks.check("the session is over", run("return soon(() => it.session === null)"))
        late = "new Promise(resolve => setTimeout(() => resolve('late'), 1000))"
        checks.same("a message of it is acknowledged no more", run(f"return Promise.race([outcome(last.ack()), {late}])"), "unsent")
        checks.same("and the refusal of what had been ended is reported to nobody", run("return it.errors.map(([error]) => error.message)"), [])
        link.close(1002)
        run("outcome(it.send('/topic/room', 'next'))")
        checks.same("nor is its end asked for in the next session", [frame.command for frame in fake.take().take_all(2)], ["SUBSCRIBE", "SEND"])


def what_is_left_at_a_close(engine, checks):
    """a client that is closed between two connections stays closed; its state is told as it is; and transactions wait as SENDs do"""
    run = engine.value
    with opened(engine, f"shortestPause: {LONGER}, onstate: state => globalThis.told?.push([state, it.state])") as (fake, link):
        run("globalThis.told = []")
        link.drop()
        run("await soon(() => it.state == 'lost'); await it.close()")
        checks.same("it connects no more", run(f"return [await soon(() => it.state != 'closed', {3 * LONGER / 1000}), it.state]"), [False, "closed"])
        checks.same("and each state was its own when it was told", run("return told"), [["lost", "lost"], ["closed", "closed"]])
    with FakeBroker() as fake:
        run(f"globalThis.URL_ = 'ws://127.0.0.1:{fake.port}/'; globalThis.it = open({{ {QUICK}, mostWaiting: 2 }})")
        run("globalThis.waiting = [1, 2, 3].map(() => outcome(it.transaction(tx => tx.send('/topic/room', 'x'))))")
        late = "new Promise(resolve => setTimeout(() => resolve('waits'), 200))"
        checks.same("a transaction over the most is not sent", run(f"return Promise.all(waiting.map(it => Promise.race([it, {late}])))"), ["waits", "waits", "unsent"])
        run("it.close()")


def what_is_over_stays_so(engine, checks):
    """what was unsent in time is not sent later, and a client that is closed as it is told to connect again does not"""
    run = engine.value
    with opened(engine, "waitTimeout: 100") as (fake, link):
        link.drop()
        run("await soon(() => it.state == 'lost'); globalThis.late = outcome(it.send('/topic/room', 'late'))")
        silent = fake.take_silent()
        checks.same("what waited too long is unsent", run("return late"), "unsent")
        link = silent.shake_hands().open("8")
        run("await soon(() => it.state == 'open'); it.send('/topic/room', 'next')")
        checks.same("and is not sent once there is a session", link.accept_next().body, b"next")
    with opened(engine, "onstate: state => { globalThis.it?.states.push([state]); if (globalThis.closes && state == 'connecting') it.close(); }") as (fake, link):
        run("globalThis.closes = true")
        link.drop()
        checks.same("it is closed", run("return [await soon(() => it.state == 'closed'), closes = false]"), [True, False])
        fake.listener.settimeout(0.3)
        try:
            fake.take_silent()
            came = True
        except TimeoutError:
            came = False
        checks.check("and connects no more", not came)


def a_refusal_by_its_receipt(engine, checks):
    """an ERROR that names a receipt is of that frame alone; and an open session is there when it is told"""
    run = engine.value
    with opened(engine) as (fake, link):
        run("it.tell('/topic/room', 'told'); globalThis.ends = ['first', 'refused', 'later'].map(text => outcome(it.send('/topic/room', text)))")
        frames = link.take_all(4)
        link.refuse(REFUSAL, frames[2])
        link = fake.take()
        checks.same("what is asked after it is asked again", link.accept_next().body, b"later")
        checks.same("and what had no answer before it is unknown", run("return Promise.all(ends)"), ["unknown", "refused", "resolved"])
    with FakeBroker() as fake:
        run(f"globalThis.URL_ = 'ws://127.0.0.1:{fake.port}/'; globalThis.greeted = null")
        run(f"globalThis.it = open({{ {QUICK}, onstate: state => {{ if (state == 'open') greeted = [it.session, outcome(it.send('/topic/room', 'hello'))]; }} }})")
        checks.same("what is sent at once is sent in it", fake.take("seven").accept_next().body, b"hello")
        checks.same("and is accepted", run("return Promise.all(greeted)"), ["seven", "resolved"])
        run("it.close()")


def waits_end(engine, checks):
    """no wait is without an end"""
    run = engine.value
    with FakeBroker() as fake:
        run(f"globalThis.URL_ = 'ws://127.0.0.1:{fake.port}/'; globalThis.it = open({{ answerTimeout: 200, waitTimeout: 400, shortestPause: 20 }})")
        fake.take_silent()
        checks.same("a SEND without a connection is unsent in time", run("return outcome(it.send('/topic/room', 'x'))"), "unsent")
        checks.check("a handshake without an answer is left, and told", run("return soon(() => it.states.some(([state, , reason]) => state == 'lost' && /within 200 ms/.test(reason)))"))
        checks.same("a client that connects closes at once", run("return outcome(it.close())"), "resolved")
    run("globalThis.it = open({ answerTimeout: Infinity })")
    checks.check("where nobody listens the connection is lost at once", run("return soon(() => it.states.some(([state]) => state == 'lost'), 5)"))
    checks.same("what waits at a close is unsent", run("const waits = outcome(it.send('/topic/room', 'x')); await it.close(); return waits"), "unsent")
    with opened(engine, "answerTimeout: 300") as (fake, link):
        checks.same("an idle link is asked", [frame.command for frame in link.take_all(2)], ["BEGIN", "ABORT"])
        link.say("RECEIPT", [("receipt-id", link.head.decode().partition("receipt:")[2].partition("\n")[0])])
        frames = link.take_all(2)
        checks.same("and again", [(frame.command, frame.headers["transaction"]) for frame in frames], [("BEGIN", "probe"), ("ABORT", "probe")])
        checks.check("one that doesn't answer is lost", run("return soon(() => it.states.some(([state, , reason]) => state == 'lost' && /within 300 ms/.test(reason)))"))
        link = fake.take()
        run("await soon(() => it.state == 'open'); globalThis.silent = it.send('/topic/room', 'x').catch(({ kind, message }) => [kind, message])")
        link.take()
        lost = "the connection was lost ({}) before the receipt"
        checks.same("a SEND without an answer is unknown in time", run("return silent"), ["unknown", lost.format("no answer within 300 ms")])
        checks.check("and its connection is closed", has_left(link))
        link = fake.take()
        run("await soon(() => it.state == 'open'); globalThis.cut = it.send('/topic/room', 'x').catch(({ kind, message }) => [kind, message])")
        link.take()
        link.close(1001)
        checks.same("so is one whose connection is closed", run("return cut"), ["unknown", lost.format(1001)])
    with opened(engine, "waitTimeout: 300") as (fake, link):
        link.drop()
        run("await soon(() => !it.session); globalThis.late = outcome(it.send('/topic/room', 'once'))")
        link = fake.take()
        frame = link.take()
        run("await soon(() => false, 0.6)")
        link.accept(frame)
        run("globalThis.next = outcome(it.send('/topic/room', 'next'))")
        checks.same("what waited and was sent then is waited for, and not sent again", (frame.body, link.accept_next().body, run("return [await late, await next]")), (b"once", b"next", ["resolved", "resolved"]))
    with opened(engine, "closeTimeout: 200, answerTimeout: Infinity") as (fake, link):
        run("globalThis.doubt = outcome(it.send('/topic/room', 'x')); globalThis.sub = it.subscribe('/topic/room', () => {})")
        checks.same("a close of a dead link ends, and what had no answer is unknown", run("return [await outcome(it.close()), it.state, await doubt, await outcome(sub.ready)]"), ["resolved", "closed", "unknown", "unsent"])
        checks.same("afterwards nothing is begun", run("return outcome(it.subscribe('/topic/room', () => {}).ready)"), "unsent")
    with opened(engine) as (fake, link):
        checks.same("what is ended is never ready", run("const sub = it.subscribe('/topic/room', () => {}); sub.end(); return outcome(sub.ready)"), "unsent")
        link.take_all(2)
        link.drop()
        checks.check("nor does it come back", fake.take() and run("return soon(() => it.state == 'open')"))


def frames_are_right(engine, checks):
    """bodies and headers are sent as they are, or not at all"""
    run = engine.value
    with opened(engine) as (fake, link):
        for what, body in (("the bytes of a Uint8Array", "new Uint8Array([0, 255, 10])"), ("those of a buffer", "new Uint8Array([0, 255, 10]).buffer"), ("of a view", "new DataView(new Uint8Array([9, 0, 255, 10]).buffer, 1)")):
            run(f"it.send('/topic/room', {body})")
            checks.same(f"{what} are sent as such", (link.accept_next().body, link.kind), (b"\x00\xff\n", BINARY))
        run("it.send('/topic/room', null)")
        checks.same("no body is an empty one", link.accept_next().body, b"")
        checks.check("without a length", b"content-length" not in link.head, link.head)
        checks.same("an object is none", run("return outcome(it.send('/topic/room', { a: 1 }))"), "unsent")
        run("it.send('/topic/room', 'äb', { 'content-length': 1, receipt: 'mine', transaction: 't', none: undefined, key: 'k' })")
        frame = link.accept_next()
        checks.same("the module counts the body itself", (link.head.count(b"content-length"), frame.headers["content-length"], link.kind), (1, "3", TEXT))
        checks.check("and sets its own headers", "transaction" not in frame.headers and "none" not in frame.headers and frame.headers["receipt"] != "mine" and frame.headers["key"] == "k", frame.headers)
        checks.same("a NUL in a header is not sent", run("return outcome(it.send('/topic/room', 'x', { key: 'a\\0b' }))"), "unsent")
        checks.check("nor an end of a line in a clientId", "clientId" in (run("try { open({ clientId: 'a\\nb:c' }).close(); } catch (error) { return error.message; }") or ""))
        run("globalThis.heard = []; globalThis.sub = it.subscribe('/topic/room', it => heard.push(it), { id: 's' })")
        link.accept_next()
        link.say_bytes("MESSAGE", [("subscription", "s"), ("message-id", "1.0"), ("constructor", "c"), ("__proto__", "p"), ("toString", "t")], b"\n\n\xff\x00")
        link.say_bytes("MESSAGE", [("subscription", "s"), ("message-id", "2.0")], "\ufefföx".encode())
        link.message("s", "öx", number=3)
        told = run("await soon(() => heard.length == 3); return heard.map(it => [it.body, [...it.bytes]])")
        expected = [["\n\n\ufffd\0", [10, 10, 255, 0]], ["\ufefföx", [239, 187, 191, 195, 182, 120]], ["öx", [195, 182, 120]]]
        checks.same("bodies come as text, and their bytes as they are", told, expected)
        run("globalThis.raw = []; it.subscribe('/topic/raw', it => raw.push(it), { id: 'r', body: 'bytes' })")
        link.accept_next()
        link.say_bytes("MESSAGE", [("subscription", "r"), ("message-id", "1.0")], b"\n\n\xff\x00")
        link.message("r", "öx", number=2)
        told = run("await soon(() => raw.length == 2); return raw.map(it => [it.body instanceof Uint8Array, [...it.body], [...it.bytes]])")
        checks.same("or as bytes, if these are asked for", told, [[True, *2 * [[10, 10, 255, 0]]], [True, *2 * [[195, 182, 120]]]])
        checks.same("and as nothing else", run("return outcome(it.subscribe('/topic/raw', () => {}, { body: 'json' }).ready)"), "unsent")
        odd = "a\r\n:\\b"
        run("globalThis.spelled = outcome(it.send('/topic/room', 'x', { 'k\\r\\n:\\\\': 'a\\r\\n:\\\\b' }))")
        frame = link.accept_next()
        checks.same("returns, ends of lines, colons and backslashes are escaped", (frame.headers.get("k\r\n:\\"), link.head.count(b"\r"), run("return spelled")), (odd, 0, "resolved"))
        link.message("s", "twice", [("key", odd), ("key", "second")], number=4)
        checks.same("and read again, and of a repeated header the first counts", run("await soon(() => heard.length == 4); return heard[3].headers.key"), odd)
        checks.same("headers have any name", run("return ['constructor', '__proto__', 'toString'].map(it => heard[0].headers[it])"), ["c", "p", "t"])
        checks.same("what is taken by itself isn't acknowledged", run("return outcome(heard[0].ack())"), "unsent")
        checks.same("a plain subscription has no name to give up", run("return outcome(sub.giveUp())"), "unsent")
        run("globalThis.done = outcome(it.send('/topic/room', 'last'))")
        checks.same("and nothing of these was sent", link.accept_next().body, b"last")
        link.drop()
        run("await done; await soon(() => !it.session); const text = new Uint8Array([97, 98]); it.send('/topic/room', text); it.send('/topic/room', text.buffer); text[0] = 0")
        link = fake.take()
        checks.same("bytes that wait stay what they were", [link.accept_next().body for _ in range(4)], [b"", b"", b"ab", b"ab"])
    words = run("try { open({ WebSocket: undefined }); } catch (error) { return error.message; }")
    checks.check("a Node without WebSocket is told what to do", "--experimental-websocket" in (words or ""), words)


def nothing_breaks(engine, checks):
    """listeners that throw, messages on their way, and many that wait"""
    run = engine.value
    with opened(engine, "mostWaiting: 3, onstate(state) { it?.states.push([state]); throw new Error('of the state'); }") as (fake, link):
        run("globalThis.heard = []; globalThis.sub = it.subscribe('/topic/room', ({ body }) => { heard.push(body); throw new Error(body); }, { id: 's' })")
        link.accept_next()
        link.message("s", "a")
        link.message("s", "b")
        checks.same("a listener that throws hears on", run("await soon(() => heard.length == 2); return [heard, it.errors.slice(-2).map(([error, it]) => [error.message, it === sub])]"), [["a", "b"], [["a", True], ["b", True]]])
        run("globalThis.ended = outcome(sub.end())")
        end = link.take()
        link.message("s", "on its way")
        link.accept(end)
        link.message("s", "too late")
        checks.same("what was on its way is heard", run("return [await ended, await soon(() => heard.length > 2), heard]"), ["resolved", True, ["a", "b", "on its way"]])
        run("globalThis.jobs = []; globalThis.hand = it.subscribe('/queue/jobs', job => jobs.push(job), { id: 'h', ack: 'client' })")
        link.accept_next()
        link.message("h", "in hand", [("ack", "1")])
        run("await soon(() => jobs.length); globalThis.ended = outcome(hand.end()); globalThis.acked = outcome(jobs[0].ack())")
        end = link.take()
        link.message("h", "comes again", [("ack", "2")])
        link.accept(end)
        checks.same("what must be acknowledged isn't, nor can it be", run("return [await ended, await acked, jobs.length]"), ["resolved", "unsent", 1])
        ends = "globalThis.ends = [1, 2, 3, 4].map(number => outcome(it.send('/topic/room', number)))"
        run(ends)
        frames = link.take_all(3)
        for frame in frames:
            link.accept(frame)
        checks.same("so many wait, and no more", run("return Promise.all(ends)"), ["resolved"] * 3 + ["unsent"])
    with opened(engine):
        checks.check("nothing is told to a broker that doesn't read", run("let count = 0; while (count < 500 && it.tell('/topic/room', 'x'.repeat(65536))) count++; return count < 500"))
    with opened(engine, name="it") as (_, link), opened(engine, name="two", session="7") as (_, other):
        run("globalThis.jobs = []; it.subscribe('/queue/jobs', job => jobs.push(job), { id: 'h', ack: 'client' })")
        link.accept_next()
        link.message("h", "mine", [("ack", "1")])
        checks.same("an acknowledgement is of one connection", run("await soon(() => jobs.length); return outcome(two.transaction(tx => tx.ack(jobs[0])))"), "unsent")


def an_id_is_used_again(engine, checks):
    """a subscription with the id of one that was ended has its own messages alone"""
    run = engine.value
    with opened(engine, "clientId: 'kiosk'") as (fake, link):
        for mode, first in (("auto", ["of the first"]), ("client", [])):
            begin = f"(place, name) => {{ globalThis[name] = []; return it.subscribe(place, ({{ body }}) => globalThis[name].push(body), {{ id: 'same', ack: '{mode}', durable: place == '/topic/a' ? 'd' : undefined }}); }}"
            run(f"globalThis.begin = {begin}; globalThis.one = begin('/topic/a', 'first')")
            link.accept_next()
            run("globalThis.ended = outcome(one.end()); globalThis.two = begin('/topic/b', 'second')")
            end, begins = link.take_all(2)
            settled = [("ack", "1")] if mode == "client" else []
            link.message("same", "of the first", settled)
            link.accept(end)
            # A command's messages come before its receipt.
            link.message("same", "of the second", settled, 2)
            link.accept(begins)
            checks.same(f"each hears its own in the mode {mode}", run("return [await ended, await outcome(two.ready), await soon(() => second.length), first, second]"), ["resolved", "resolved", True, first, ["of the second"]])
            run("globalThis.given = outcome(one.giveUp())")
            frame = link.accept_next()
            checks.same("the name of the first is given up without the id that is the other's", (sorted(frame.headers), run("return given")), (["activemq.subscriptionName", "receipt"], "resolved"))
            run("outcome(two.end())")
            link.accept_next()


def offered(link):
    """The path and the subprotocols of its request, and the further headers of its CONNECT."""
    path, protocols = link.request.split()[1].decode(), re.search(rb"(?im)^sec-websocket-protocol: *(.*?)\r?$", link.request)[1].decode()
    return path, [it.strip() for it in protocols.split(",")], {name: value for name, value in link.connect.headers.items() if name != "accept-version"}


def asked_anew(engine, checks):
    """what connect was given as functions is asked for anew with each connection"""
    run = engine.value
    with FakeBroker() as fake:
        address = f"ws://127.0.0.1:{fake.port}"
        run(f"globalThis.number = 0; globalThis.options = {{ {QUICK}, clientId: 'kiosk', headers: () => ({{ token: `t${{number}}`, none: null }}), protocols: async () => [`token.${{number}}`] }}")
        run(f"globalThis.it = open(options, async () => {{ await null; return `{address}/room?token=${{++number}}`; }})")
        link = fake.take()
        checks.same("a function may promise its answer", offered(link), ("/room?token=1", ["v12.stomp", "token.0"], {"token": "t0", "client-id": "kiosk"}))
        link.drop()
        checks.same("and is asked with each connection", offered(fake.take()), ("/room?token=2", ["v12.stomp", "token.1"], {"token": "t1", "client-id": "kiosk"}))
        run("await soon(() => it.session); it.close()")
        run(f"globalThis.it = open({{ {QUICK}, headers: {{ 'accept-version': '1.0', 'client-id': 'b', host: 'a:b' }}, protocols: ['one', 'two'] }}, '{address}/')")
        checks.same("values are given too, of which the module keeps its own", offered(fake.take()), ("/", ["v12.stomp", "one", "two"], {"host": "a:b"}))
        run("await soon(() => it.session); it.close()")
        run(f"globalThis.number = 0; globalThis.ways = [() => {{ throw new Error('thrown'); }}, () => Promise.reject(new Error('rejected')), () => 'ws://', () => '{address}/']; globalThis.it = open({{ {QUICK} }}, () => ways[number++]())")
        link = fake.take()
        run("await soon(() => it.session)")
        checks.same("a failure is told, and asked again after a pause", run("return it.states.map(([state]) => state)"), [*["connecting", "lost"] * 3, "connecting", "open"])
        checks.check("the pauses grow", grows(pauses_of(engine)), pauses_of(engine))
        told = run("return [it.errors.map(([error]) => error.message), it.states.filter(([state]) => state == 'lost').map(it => it[2])]")
        checks.same("with the reason", (told[0], told[0][:2], len(told[0])), (told[1], ["thrown", "rejected"], 3))
        run("it.close()")
        run(f"globalThis.it = open({{ {QUICK}, answerTimeout: 100 }}, () => new Promise(() => {{}}))")
        checks.check("one that never answers is given up in time", run("return soon(() => it.states.some(([state, , reason]) => state == 'lost' && /within 100 ms/.test(reason)))"))
        run("await it.close()")
        run(f"globalThis.it = open({{ {QUICK} }}, () => new Promise(resolve => globalThis.answer = resolve))")
        checks.same("a client that asks closes at once", run("return [await outcome(it.close()), it.state]"), ["resolved", "closed"])
        run(f"answer('{address}/closed'); await new Promise(resolve => setTimeout(resolve, 100)); globalThis.it = open({{ {QUICK} }}, '{address}/next')")
        checks.same("and connects no more", offered(fake.take())[0], "/next")
        run("await soon(() => it.session); it.close()")
        run(f"globalThis.it = open({{ {QUICK} }}, () => new Promise((_, reject) => globalThis.fail = reject)); await it.close(); fail(new Error('late'))")
        checks.same("a failure after that is no one's", run("await new Promise(resolve => setTimeout(resolve, 100)); return [it.errors.length, it.states.map(([state]) => state)]"), [0, ["connecting", "closed"]])
        for what, options in (("an end of a line in a header of CONNECT", "{ headers: { a: 'b\\nc:d' } }"), ("one in its name", "{ headers: { 'a\\r': 'b' } }"), ("too long a one", "{ headers: { a: 'b'.repeat(8192) } }")):
            checks.check(f"{what} is not sent", run(f"try {{ open({options}, '{address}/').close(); }} catch (error) {{ return error.kind; }}") in ("unsent", "refused"))
        run(f"globalThis.it = open({{ {QUICK}, headers: () => ({{ a: 'b\\nc' }}) }}, '{address}/'); await soon(() => it.errors.length); await it.close()")
        checks.same("nor one that a function answers", run("return it.errors.map(([error]) => error.kind)"), ["unsent"])


TRIALS = [promises_left_alone, refusals, what_a_refusal_ends, what_is_left_at_a_close, what_is_over_stays_so, a_refusal_by_its_receipt, waits_end, frames_are_right, nothing_breaks, an_id_is_used_again, asked_anew]
