"""What clients/module.py tries of pages that are left, frozen or asleep, in Chromium; and of messages that nobody acknowledges, in Node too."""

from module_faults import has_left, opened
from lib.stomp_client import Client

INDIVIDUAL = "{ ack: 'client-individual' }"


def comes_within(fake, seconds):
    """Whether a client connects within that time."""
    fake.listener.settimeout(seconds)
    try:
        fake.take_silent()
        return True
    except TimeoutError:
        return False
    finally:
        fake.listener.settimeout(fake.seconds)


def a_page_is_away(engine, checks):
    """a page that is left or frozen has no connection, and comes back once it is shown"""
    run = engine.value
    for what, go, come in (("left", engine.leave, engine.back), ("frozen", engine.freeze, engine.thaw)):
        with opened(engine) as (fake, link):
            run("globalThis.same = 'same'; it.subscribe('/topic/room', () => {}); globalThis.doubt = outcome(it.send('/topic/room', 'x'))")
            link.take_all(2)
            go()
            checks.check(f"a page that is {what} closes its connection", has_left(link))
            checks.check(f"one that is {what} connects no more", not comes_within(fake, 0.5))
            come()
            link = fake.take("8")
            checks.same(f"one that was {what} comes back, with its subscription", link.accept_next().command, "SUBSCRIBE")
            checks.same("it is the same page, and what had no receipt is unknown", run("return [same, await doubt]"), ["same", "unknown"])
            lost = run("return it.states.filter(([state]) => state == 'lost').map(([, pause, reason]) => [pause ?? null, reason])")
            checks.same("the state says why, and names no pause", lost, [[None, "the page was left"]])
        with opened(engine) as (fake, link):
            link.drop()
            run("await soon(() => it.state == 'lost'); globalThis.late = outcome(it.send('/topic/room', 'late'))")
            fake.take_silent()
            go()
            come()
            checks.same(f"one that is {what} while it connects does so anew", (fake.take("8").accept_next().body, run("return late")), (b"late", "resolved"))
        with opened(engine) as (fake, link):
            run("it.close()")
            has_left(link)
            run("await soon(() => it.state == 'closed')")
            go()
            come()
            checks.same(f"a client that was closed does not come back after its page was {what}", (comes_within(fake, 0.5), run("return it.state")), (False, "closed"))


def acknowledged_in_time(engine, checks):
    """a message that is not acknowledged in time ends its connection"""
    run = engine.value
    within = lambda milliseconds, mode="client-individual": f"{{ ack: '{mode}', id: 's', ackWithin: {milliseconds} }}"
    with opened(engine) as (fake, link):
        run(f"globalThis.jobs = []; it.subscribe('/queue/jobs', job => jobs.push(job), {within(500)})")
        link.accept_next()
        for number in range(3):
            link.message("s", str(number), [("ack", str(number))], number)
        run("await soon(() => jobs.length == 3); it.transaction(tx => tx.ack(jobs[0])); jobs[1].nack()")
        checks.same("an acknowledgement and a refusal are sent", {frame.command for frame in link.take_all(4)}, {"BEGIN", "ACK", "COMMIT", "NACK"})
        checks.check("the third ends it", has_left(link))
        reason = "a message was not acknowledged within 500 ms"
        checks.same("and the state says so", run("return it.states.filter(([state]) => state == 'lost').map(it => it[2])"), [reason])
        link = fake.take("8")
        checks.same("the client is back, and asks for it again", link.accept_next().headers["id"], "s")
        checks.same("it can't be acknowledged any more", run("return outcome(jobs[2].ack())"), "unsent")
        for number in range(3, 6):
            link.message("s", str(number), [("ack", str(number))], number)
        run("await soon(() => jobs.length == 6); for (const job of jobs.slice(3)) job.ack()")
        for frame in link.take_all(3):
            link.accept(frame)
        run("await soon(() => false, 1)")
        checks.same("one whose messages are acknowledged stays", run("return it.states.filter(([state]) => state == 'lost').length"), 1)
        run("globalThis.failed = outcome(it.transaction(tx => { tx.ack(jobs[6]); throw new Error('mine'); }))")
        link.message("s", "6", [("ack", "6")], 6)
        run("await soon(() => jobs.length == 7); outcome(it.transaction(tx => { tx.ack(jobs[6]); throw new Error('mine'); }))")
        checks.check("a transaction that is not sent acknowledges nothing", has_left(link))
    with opened(engine) as (fake, link):
        run(f"globalThis.jobs = []; it.subscribe('/queue/jobs', job => jobs.push(job), {within(500, 'client')})")
        link.accept_next()
        for number in range(3):
            link.message("s", str(number), [("ack", str(number))], number)
        run("await soon(() => jobs.length == 3); jobs[2].ack(); await soon(() => false, 1)")
        checks.same("in the mode client the last acknowledges all", run("return it.state"), "open")
        link.accept_next()
        link.message("s", "3", [("ack", "3")], 3)
        run("await soon(() => jobs.length == 4); globalThis.ended = it.close()")
        checks.same("and a close ends the wait", [link.take().command, run("return it.state")], ["DISCONNECT", "open"])
    with opened(engine) as (fake, link):
        told = run(f"return [await outcome(it.subscribe('/topic/room', () => {{}}, {within(500, 'auto')}).ready), it.errors.at(-1)?.[0].message]")
        checks.check("one that acknowledges by itself has no such time", told[0] == "unsent" and "client-individual" in told[1], told)


# What wakes a client: an event of the page, or a clock that jumped.
JUMP = "const clock = Date.now; Date.now = () => clock() + 3600000; globalThis.setBack = () => { Date.now = clock; }"
EVENTS = {"the network is back": "dispatchEvent(new Event('online'))", "the page is looked at": "document.dispatchEvent(new Event('visibilitychange'))"}
# The times at which an idle connection is probed anyway are longer than a trial.
IDLE = "answerTimeout: 600000, probeTimeout: 1000"


def wakes_of(engine):
    return {"the clock jumped": JUMP, **(EVENTS if engine.name == "Chromium" else {})}


def it_wakes(engine, checks):
    """a client that wakes probes its connection at once, and renews a lost one"""
    run = engine.value
    for what, wake in wakes_of(engine).items():
        for answers in (True, False):
            with opened(engine, IDLE) as (fake, link):
                run(f"globalThis.setBack = () => {{}}; {wake}")
                checks.same(f"{what}: it is probed", [frame.command for frame in link.take_all(2)], ["BEGIN", "ABORT"])
                if answers:
                    link.say("RECEIPT", [("receipt-id", link.head.decode().partition("receipt:")[2].partition("\n")[0])])
                    checks.same("one that answers stays", run("await soon(() => false, 1.5); setBack(); return it.states.map(([state]) => state)"), ["connecting", "open"])
                else:
                    checks.check("one that doesn't is lost in time", run("return soon(() => it.states.some(([state, , reason]) => state == 'lost' && /within 1000 ms/.test(reason)), 10)"))
                    fake.take()
                    run("setBack(); await soon(() => it.session)")
        with opened(engine, f"{IDLE}, shortestPause: 600000, longestPause: 600000") as (fake, link):
            link.drop()
            run(f"await soon(() => it.state == 'lost'); globalThis.setBack = () => {{}}; {wake}")
            fake.take()
            checks.check(f"{what}: a lost one is renewed without a pause", run("setBack(); return soon(() => it.session)"))
    with opened(engine, IDLE) as (fake, link):
        run("it.subscribe('/topic/room', () => {}, { id: 's' })")
        link.accept_next()
        run(f"globalThis.slow = outcome(it.send('/topic/room', 'x')); {JUMP}")
        send = link.take()
        link.take_all(2)
        run("await soon(() => false, 1.5); setBack()")
        link.accept(send)
        checks.same("one that owes an answer has the time for it", run("return [await slow, it.state]"), ["resolved", "open"])
    with opened(engine, f"{IDLE}, answerTimeout: Infinity, probeTimeout: Infinity") as (fake, link):
        run(f"{JUMP}; await soon(() => false, 0.5); setBack(); it.send('/topic/room', 'x')")
        checks.same("a probe that is turned off is none", link.accept_next().command, "SEND")


def jobs_are_free(engine, broker, checks):
    """what a page that was left had in hand, and its durable name, are free at once"""
    run = engine.value
    run(f"globalThis.jobs = []; globalThis.it = open({{ clientId: 'left' }}); it.subscribe('/queue/left', job => jobs.push(job), {INDIVIDUAL})")
    run("await it.subscribe('/topic/left', () => {}, { durable: 'd' }).ready")
    run("for (let number = 0; number < 5; number++) it.send('/queue/left', number); await soon(() => jobs.length == 5)")
    engine.leave()
    # A broker that was not told keeps them for minutes. It pings each 20 seconds, which a shorter timeout doesn't wait for.
    other = Client(broker.port, timeout=15).connect("left")
    frames = other.subscribe("q", "/queue/left", "client-individual")
    while len(frames) < 5:
        frames.append(other.receive())
    checks.same("another worker has the jobs", [frame.body for frame in frames], ["0", "1", "2", "3", "4"])
    checks.same("and another client its name", other.subscribe("d", "/topic/left", headers=[("activemq.subscriptionName", "d")]), [])
    other.disconnect()
    engine.back()
    checks.check("the page is back, and has the jobs again", run("return soon(() => it.state == 'open' && jobs.length == 10)"))
    run("await Promise.all(jobs.slice(5).map(job => job.ack())); await it.close()")


def a_hung_worker(engine, broker, checks):
    """a job that is not acknowledged in time is another worker's"""
    run = engine.value
    run("globalThis.hung = []; globalThis.it = open(); it.subscribe('/queue/hung', job => { hung.push(job); }, { ack: 'client-individual', ackWithin: 1000 })")
    run("await it.send('/queue/hung', 'sweep'); await soon(() => hung.length)")
    other = Client(broker.port, timeout=15).connect()
    frames = other.subscribe("q", "/queue/hung", "client-individual")
    (job,) = frames or [other.receive()]
    checks.same("it gets it", job.body, "sweep")
    other.send("ACK", [("id", job.headers["ack"])])
    other.disconnect()
    run("await it.close()")


FAKE = [acknowledged_in_time, it_wakes]
FAKE_OF_PAGES = [a_page_is_away]
REAL = [a_hung_worker]
REAL_OF_PAGES = [jobs_are_free]
