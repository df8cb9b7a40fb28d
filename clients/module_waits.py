"""What clients/module.py tries of a broker that has no room, and of durable names that are in use: what waits, for how long, and what goes on meanwhile."""

from fake_broker import Relay
from module_faults import LONGER, grows, opened
from lib import scenario
from lib.stomp_client import Client

NO_ROOM, IN_USE = "E12 no room for the message", "E14 durable subscription unknown, in use or of another topic"
REFUSED = ["refused", "E12", True]
# Long enough for a slow machine to look meanwhile.
LONG = 2_000
# The messages that a broker holds at most (docs/PROTOCOL.md, "Limits").
HELD = 4_096


def sends(name, to, *texts):
    """Asks for these, and keeps how they end."""
    return f"globalThis.{name} = {list(texts)}.map(text => how(it.send('{to}', text)));"


def no_room(engine, checks):
    """sends to a destination without room are rejected together, and nothing else waits for that"""
    run = engine.value
    with opened(engine, f"shortestPause: {LONG}, longestPause: {4 * LONG}") as (fake, link):
        run("globalThis.heard = []; it.subscribe('/topic/room', it => heard.push(it.body), { id: 's' })")
        link.accept_next()
        run(sends("full", "/topic/full", "a", "b", "c", "d") + sends("other", "/topic/other", "e") + "globalThis.both = how(it.transaction(tx => { tx.send('/topic/other', 'x'); tx.send('/topic/full', 'y'); }));")
        frames = link.take_all(9)
        link.accept(frames[0])
        link.refuse(NO_ROOM, frames[1])
        checks.same("that which was refused, and those after it", run("return Promise.all(full)"), ["taken", REFUSED, REFUSED, REFUSED])
        checks.same("a transaction with such a member too", run("return both"), REFUSED)
        link = fake.take()
        checks.same("the client is back at once, and listens", [link.accept_next().command, run("return it.states.filter(([state]) => state == 'refused').map(it => it[1])")], ["SUBSCRIBE", [0]])
        checks.same("it carries out what goes elsewhere", (link.accept_next().body, run("return Promise.all(other)")), (b"e", ["taken"]))
        run(sends("late", "/topic/full", "late") + "globalThis.told = it.tell('/topic/full', 'told');" + sends("more", "/topic/other", "f"))
        checks.same("what goes there waits, and nothing is told there", (link.accept_next().body, run("return [told, it.full]")), (b"f", [False, ["/topic/full"]]))
        link.message("s", "meanwhile")
        checks.check("messages come meanwhile", run("return soon(() => heard.length)"))
        checks.same("after a pause it is sent", (link.accept_next().body, run("return [await Promise.all(late), it.full]")), (b"late", [["taken"], []]))
        checks.same("the client has reported when", run("return it.fulls.map(it => it[0])"), [["/topic/full"], []])
    with opened(engine, "shortestPause: 100") as (fake, link):
        for _ in range(3):
            run(sends("full", "/topic/full", "x"))
            link.refuse(NO_ROOM, link.take())
            link = fake.take()
        run(sends("full", "/topic/full", "x") + "globalThis.fulls = it.fulls.length")
        link.accept_next()
        run("await Promise.all(full);" + sends("full", "/topic/full", "x"))
        link.refuse(NO_ROOM, link.take())
        fake.take()
        pauses = [pause for full, pause in run("await Promise.all(full); return it.fulls") if full]
        checks.check("the pauses grow, and are short again after one that was taken", len(pauses) == 4 and grows(pauses[:3], 100) and grows(pauses[3:], 100), pauses)


def much_has_no_room(engine, checks):
    """if several destinations have no room, all sends wait, but acknowledgements don't"""
    run = engine.value
    with opened(engine, f"shortestPause: {LONG}, longestPause: {4 * LONG}") as (fake, link):
        run("globalThis.jobs = []; it.subscribe('/queue/jobs', job => jobs.push(job), { id: 's', ack: 'client-individual' })")
        link.accept_next()
        for number, place in enumerate(("one", "two"), 1):
            run(sends("full", f"/topic/{place}", "x"))
            link.refuse(NO_ROOM, link.take())
            link = fake.take()
            link.accept_next()
            run("await soon(() => it.session)")
        checks.same("both are reported", run("return it.full"), ["/topic/one", "/topic/two"])
        link.message("s", "sweep", [("ack", "1")])
        run(sends("third", "/topic/three", "x") + "await soon(() => jobs.length); globalThis.done = how(it.transaction(tx => { tx.ack(jobs[0]); tx.send('/topic/one', 'done'); }))")
        checks.same("a transaction that acknowledges goes at once", [link.take().command for _ in range(3)], ["BEGIN", "ACK", "SEND"])
        link.accept_next()
        checks.same("and is accepted", run("return done"), "taken")
        checks.same("a third destination is sent to once both have rested", (link.accept_next().body, run("return [it.full, await Promise.all(third)]")), (b"x", [[], ["taken"]]))
        link.message("s", "again", [("ack", "2")])
        run("await soon(() => jobs.length == 2); globalThis.refusal = how(jobs[1].nack())")
        link.refuse(NO_ROOM, link.take())
        checks.same("a refusal without room is one of the queue for these", run("return [await refusal, it.full]"), [REFUSED, ["/queue/dead"]])
        link = fake.take()
        id_ = link.accept_next().headers["id"]
        link.message(id_, "again", [("ack", "3")])
        run(f"await soon(() => jobs.length == 3); globalThis.refusal = how(jobs[2].nack()); {sends('third', '/topic/three', 'y')}")
        checks.same("and waits, while others go", (link.accept_next().body, link.accept_next().command, run("return refusal")), (b"y", "NACK", "taken"))
    with opened(engine, f"shortestPause: {LONG}") as (fake, link):
        run(f"it.tell('/topic/one', 'a'); it.tell('/topic/two', 'b'); {sends('full', '/topic/two', 'c')}")
        link.take_all(3)
        link.refuse(NO_ROOM)
        link = fake.take()
        checks.same("after one that was told, each place that it may be of rests", run("return it.full"), ["/topic/one", "/topic/two"])
        checks.same("and what was asked there waits", (link.accept_next().body, run("return Promise.all(full)")), (b"c", ["taken"]))


def waits_are_counted(engine, checks):
    """a wait counts from the call, whatever it is for"""
    run = engine.value
    with opened(engine, f"shortestPause: {10 * LONG}, longestPause: {40 * LONG}, waitTimeout: 300") as (fake, link):
        run(sends("full", "/topic/full", "x"))
        link.refuse(NO_ROOM, link.take())
        fake.take()
        told = "it.send('/topic/full', 'y').catch(({ kind, message }) => [kind, message])"
        checks.same("what waits for room is unsent in time", run(f"await soon(() => it.session); return {told}"), ["unsent", "no room within 300 ms"])
    with opened(engine, f"shortestPause: {10 * LONG}, longestPause: {40 * LONG}") as (fake, link):
        run(sends("full", "/topic/full", "x"))
        link.refuse(NO_ROOM, link.take())
        link = fake.take()
        run(f"await soon(() => it.session); globalThis.late = {told}; globalThis.closed = it.close()")
        link.take()
        link.close(1000)
        checks.same("a close ends such waits", run("await closed; return [await late, it.full]"), [["unsent", "the client is closed"], []])
    with opened(engine, "waitTimeout: 2000") as (fake, link):
        run("globalThis.ends = ['bad', 'late'].map(text => outcome(it.send(`/topic/${text}`, text)))")
        bad, _ = link.take_all(2)
        run("await soon(() => false, 2.5)")
        link.refuse("E20 bad header value", bad)
        fake.take_silent()
        checks.same("what was dropped with another's refusal waits no longer than that", run("return Promise.race([ends[1], new Promise(resolve => setTimeout(resolve, 1000, 'waits'))])"), "unsent")


def a_bulk_without_room(engine, broker, checks):
    """a bulk of sends to a full broker is refused, and listening goes on"""
    with scenario.serving(broker.program) as full:
        a_bulk_at(engine, full, checks)


def a_bulk_at(engine, broker, checks):
    run = engine.value
    filler = Client(broker.port, timeout=60).connect()
    filler.publish_all("/queue/full", HELD * ["x"])
    run(f"globalThis.words = []; globalThis.bulk = open({{}}, 'ws://127.0.0.1:{broker.port}/'); await bulk.subscribe('/topic/words', it => words.push(it.body)).ready")
    ends = run("return Promise.all(Array.from({ length: 300 }, () => how(bulk.send('/queue/full', 'x'))))")
    checks.same("each is refused, with the broker's code", [it for it in ends if it != REFUSED], [])
    checks.same("with one session", run("const refusals = () => bulk.states.filter(([state]) => state == 'refused').length; await soon(() => refusals() && bulk.session); return [bulk.full, refusals()]"), [["/queue/full"], 1])
    run("globalThis.later = how(bulk.send('/queue/full', 'later'))")
    filler.subscribe("f", "/queue/full")
    checks.same("what is sent later is taken once there is room", run("return later"), "taken")
    filler.publish("/topic/words", "heard")
    checks.same("and the client hears", run("await soon(() => words.length); await bulk.close(); return words"), ["heard"])
    filler.disconnect()


def it_is_sent_in_the_end(engine, checks):
    """what is sent with retry is sent again as long as it certainly is not there, and a sender may wait for answers"""
    run = engine.value
    with opened(engine, "shortestPause: 100, waitTimeout: 300, mostWaiting: 3") as (fake, link):
        run("globalThis.end = how(it.sendWithRetry('/topic/full', 'x'))")
        link.refuse(NO_ROOM, link.take())
        link = fake.take()
        checks.same("it is sent again after E12", (link.accept_next().body, run("return end")), (b"x", "taken"))
        link.drop()
        run("await soon(() => it.state == 'lost'); globalThis.end = how(it.sendWithRetry('/topic/room', 'y')); globalThis.once = how(it.send('/topic/room', 'z'))")
        silent = fake.take_silent()
        checks.same("one that is sent once is unsent in time", run("return once"), ["unsent", None, False])
        link = silent.shake_hands().open("9")
        checks.same("the other goes on waiting", (link.accept_next().body, run("return end")), (b"y", "taken"))
        run("globalThis.lost = how(it.sendWithRetry('/topic/room', 'doubt'))")
        link.take()
        link.drop()
        checks.same("what is unknown is not sent again", run("return lost"), ["unknown", None, False])
        link = fake.take()
        for what, wrong in (("a body that is an object", "'/topic/room', {}"), ("a bad destination", "'nowhere', 'x'")):
            checks.check(f"{what} ends it", run(f"return outcome(it.sendWithRetry({wrong}))") in ("unsent", "refused"))
        run("globalThis.ends = [1, 2, 3, 4, 5].map(number => how(it.sendWithRetry('/topic/room', number)))")
        run("globalThis.waited = 'waits'; it.drain(1).then(() => { waited = 'went on'; })")
        frames = link.take_all(3)
        checks.same("only as many are under way as may be", run("return [it.underWay, waited]"), [3, "waits"])
        for frame in frames:
            link.accept(frame)
        for _ in range(2):
            link.accept_next()
        checks.same("and then the others", run("return Promise.all(ends)"), ["taken"] * 5)
        checks.same("who waits for few goes on", run("await it.drain(0); return [it.underWay, waited]"), [0, "went on"])
        run("globalThis.end = how(it.sendWithRetry('/topic/room', 'last')); globalThis.closed = it.close()")
        link.take_all(2)
        link.close(1000)
        checks.same("and ends with its client", run("await closed; return [await end, await how(it.sendWithRetry('/topic/room', 'x'))]"), [["unknown", None, False], ["unsent", None, False]])


def a_name_in_use(engine, checks):
    """a durable name that a lost session still holds is asked for again, while all else goes on"""
    run = engine.value
    with opened(engine, f"clientId: 'kiosk', shortestPause: {LONGER}") as (fake, link):
        run("globalThis.heard = []; globalThis.paper = it.subscribe('/topic/news', it => heard.push(it.body), { durable: 'd' })")
        for _ in range(2):
            link.refuse(IN_USE, link.take())
            link = fake.take()
        told = run("return it.errors.map(([error, it]) => [error.kind, error.code, /tried again/.test(error.message), it === paper])")
        checks.same("each refusal is told, with its subscription, and that it is tried again", told, [["refused", "E14", True, True]] * 2)
        checks.same("the subscription says so", run("return paper.isContested"), True)
        checks.same("its sessions follow each other at once", run("return it.states.filter(([state]) => state == 'refused').map(it => it[1])"), [0, 0])
        run("await soon(() => it.session); globalThis.other = it.subscribe('/topic/other', () => {}); globalThis.late = outcome(it.send('/topic/room', 'late'))")
        frames = [link.accept_next() for _ in range(3)]
        checks.same("what else is asked goes before it", [(frame.command, frame.headers["destination"]) for frame in frames], [("SUBSCRIBE", "/topic/other"), ("SEND", "/topic/room"), ("SUBSCRIBE", "/topic/news")])
        link.message(frames[2].headers["id"], "at last")
        checks.same("and it is ready", run("return [await outcome(paper.ready), paper.isContested, await soon(() => heard.length), heard, await late]"), ["resolved", False, True, ["at last"], "resolved"])
        link.drop()
        link = fake.take()
        first, second = link.take(), link.take()
        checks.same("in the next session it is asked for at once", {first.headers["destination"], second.headers["destination"]}, {"/topic/other", "/topic/news"})
        paper = first if first.headers["destination"] == "/topic/news" else second
        if paper is second:
            link.accept(first)
        link.refuse(IN_USE, paper)
        link = fake.take()
        checks.same("one that was ready is contested again", (link.accept_next().headers["destination"], run("return paper.isContested")), ("/topic/other", True))
        run("globalThis.ended = outcome(paper.end()); globalThis.next = outcome(it.send('/topic/room', 'next'))")
        checks.same("its end needs no broker", (link.accept_next().body, run("return [await ended, await next]")), (b"next", ["resolved", "resolved"]))
    with opened(engine, f"clientId: 'kiosk', shortestPause: {LONGER}, nameTimeout: {3 * LONGER}") as (fake, link):
        run("globalThis.paper = it.subscribe('/topic/news', () => {}, { durable: 'd' }); globalThis.end = how(paper.ready)")
        count = 0
        while not run("return paper.isEnded"):
            link.refuse(IN_USE, link.take())
            link, count = fake.take(), count + 1
            run("await soon(() => it.errors.length == %d)" % count)
        checks.same("one that was never ready is refused once its time is over", (run("return end"), count > 2), (["refused", "E14", True], True))
        run("outcome(it.send('/topic/room', 'next'))")
        checks.same("and is not asked for any more", link.accept_next().body, b"next")
    with opened(engine, f"clientId: 'kiosk', shortestPause: {LONGER}") as (fake, link):
        run("globalThis.papers = ['a', 'b', 'c'].map(durable => it.subscribe(`/topic/${durable}`, () => {}, { durable }))")
        frames = link.take_all(3)
        link.refuse(IN_USE, frames[0])
        link = fake.take()
        asked = [link.accept_next().headers["activemq.subscriptionName"] for _ in range(3)]
        checks.same("the names of one session are asked for one after another", (asked, run("await Promise.all(papers.map(it => it.ready)); return it.states.filter(([state]) => state == 'refused').length")), (["b", "c", "a"], 1))
        for what, ask, headers in (("the end of one", "papers[0].end()", ["id", "receipt"]), ("and to give it up", "papers[1].giveUp()", ["activemq.subscriptionName", "id", "receipt"])):
            run(f"globalThis.asked = outcome({ask})")
            frame = link.accept_next()
            checks.same(f"{what} has these headers", (frame.command, sorted(frame.headers), run("return asked")), ("UNSUBSCRIBE", headers, "resolved"))


def a_name_of_a_dead_session(engine, broker, checks):
    """a client that starts while a dead session holds its durable name gets it once the broker has given that up"""
    run = engine.value
    with Relay(broker.port) as relay:
        run(f"globalThis.direct = URL_; globalThis.URL_ = 'ws://127.0.0.1:{relay.port}/'; globalThis.dead = open({{ clientId: 'dead' }}); globalThis.URL_ = direct")
        run("await dead.subscribe('/topic/dead', () => {}, { durable: 'd', ack: 'client' }).ready")
        relay.cut()
        run("await dead.close(); globalThis.heard = []; globalThis.alive = open({ clientId: 'dead', longestPause: 1000 }); globalThis.paper = alive.subscribe('/topic/dead', it => heard.push(it.body), { durable: 'd', ack: 'client' })")
        checks.check("it waits", run("return await soon(() => alive.errors.length > 1) && paper.isContested"))
        checks.same("meanwhile a SEND resolves", run("return outcome(alive.send('/topic/dead', 'meanwhile'))"), "resolved")
        relay.end()
        checks.same("and then has what came", run("return [await outcome(paper.ready), await soon(() => heard.length), heard]"), ["resolved", True, ["meanwhile"]])
        run("await paper.giveUp(); await alive.close()")


FAKE = [no_room, much_has_no_room, waits_are_counted, it_is_sent_in_the_end, a_name_in_use]
REAL = [a_bulk_without_room, a_name_of_a_dead_session]
