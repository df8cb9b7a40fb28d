"""What clients/module.py tries of the broker's limits: a call that passes one is refused at once, with nothing sent, and one at the limit is taken. The
limits are read from docs/PROTOCOL.md, and what a member of a transaction takes from docs/JOURNAL.md."""

import json
import re
import time

from fake_broker import FakeBroker, Relay
from lib import scenario
from lib.stomp_client import Client

PROTOCOL = (scenario.TOP / "docs" / "PROTOCOL.md").read_text(encoding="utf-8")


def stated(what):
    """The number that the protocol's table has for this."""
    found = re.search(rf"^\| {re.escape(what)} \| ([\d,]+)", PROTOCOL, re.M)
    assert found, f"docs/PROTOCOL.md has no limit of {what}"
    return int(found[1].replace(",", ""))


HEADERS, HEAD, BODY = (stated(it) for it in ("headers", "bytes of command and headers", "bytes of the body"))
SUBSCRIPTIONS, MEMBERS, MEMBERS_BYTES = (stated(it) for it in ("subscriptions", "members of a transaction", "bytes of their operations"))
# The operation of an ACK: a byte, and the number of the delivery in eight.
ACK_BYTES = 9
SHORTEST, LONGEST = 1, stated("characters of a destination after `/topic/` or `/queue/`")
HELD_BYTES = stated("their bytes")


def refused(code):
    return ["refused", code, True]


def of_repeated(text, count):
    """A text of JavaScript."""
    return f"{json.dumps(text)}.repeat({count})"


def head_of(engine, ask):
    """How many headers, and how many bytes of a head, the frame has that this sends."""
    with FakeBroker() as fake:
        engine.value(f"globalThis.URL_ = 'ws://127.0.0.1:{fake.port}/'; globalThis.it = open({{ closeTimeout: 100 }})")
        link = fake.take()
        engine.value(f"await soon(() => it.session); {ask}")
        while not link.take().command == "SEND":
            pass
        engine.value("await it.close()")
        # With the empty line.
        return link.head.count(b"\n"), len(link.head) + 2


def member(destination, body, headers=()):
    """How many bytes the operation of a SEND takes: a byte, texts and bytes with their lengths in four, and two for the count of headers."""
    return 1 + 4 + len(destination) + 2 + sum(8 + len(name) + len(value) for name, value in headers) + 4 + body


class Limits:
    """A client of a broker by a relay, which counts what it sends."""

    def __init__(self, engine, relay, checks):
        self.run, self.relay, self.checks = engine.value, relay, checks
        self.run(f"globalThis.URL_ = 'ws://127.0.0.1:{relay.port}/'; globalThis.limited = open()")
        # A receipt of a later frame may not make it longer.
        self.run("await Promise.all(Array.from({ length: 100 }, () => limited.send('/topic/none', 'x')))")
        self.run("globalThis.session = limited.session")

    def taken(self, what, ask):
        self.checks.same(f"{what} is taken", self.run(f"return [await how({ask}), limited.session == session]"), ["taken", True])

    def refused(self, what, code, ask):
        before = self.relay.asked
        seen = self.run(f"return how({ask})")
        time.sleep(0.02)
        self.checks.same(f"{what} is refused, and nothing is sent", (seen, self.relay.asked - before, self.run("return limited.session == session")), (refused(code), 0, True))

    def both(self, what, code, ask, most):
        """What is taken with so much, and refused with one more."""
        self.taken(f"{what} of {most}", ask(most))
        self.refused(f"one of {most + 1}", code, ask(most + 1))


def of_frames(engine, limits):
    send = lambda body="'x'", headers="{}", to="'/topic/none'": f"limited.send({to}, {body}, {headers})"
    limits.both("a text", "E2", lambda count: send(of_repeated("x", count)), BODY)
    limits.both("a body of bytes", "E2", lambda count: send(f"new Uint8Array({count})"), BODY)
    limits.taken("a text of letters of two bytes", send(of_repeated("ö", BODY // 2)))
    limits.refused("one with a letter more", "E2", send(f"{of_repeated('ö', BODY // 2)} + 'x'"))
    count, size = head_of(engine, "it.send('/topic/none', 'x', { x: '' })")
    limits.run(f"globalThis.URL_ = 'ws://127.0.0.1:{limits.relay.port}/'")
    limits.both("so many headers", "E2", lambda more: send(headers=f"Object.fromEntries(Array.from({{ length: {more} }}, (_, place) => [`h${{place}}`, '']))"), HEADERS - count + 1)
    limits.both("a header", "E2", lambda more: send(headers=f"{{ x: {of_repeated('x', more)} }}"), HEAD - size)
    # An escape takes two bytes.
    odd = (HEAD - size) % 2
    limits.taken("one with escapes", send(headers=f"{{ x: {of_repeated(':', (HEAD - size) // 2)} + {of_repeated('x', odd)} }}"))
    limits.refused("one with a byte more", "E2", send(headers=f"{{ x: {of_repeated(':', (HEAD - size) // 2)} + {of_repeated('x', odd + 1)} }}"))
    limits.taken("one of letters of two bytes", send(headers=f"{{ x: {of_repeated('ö', (HEAD - size) // 2)} + {of_repeated('x', odd)} }}"))
    limits.refused("one with a byte more", "E2", send(headers=f"{{ x: {of_repeated('ö', (HEAD - size) // 2)} + {of_repeated('x', odd + 1)} }}"))
    limits.refused("a header without a name", "E1", send(headers="{ '': 'x' }"))


def of_destinations(limits):
    for kind in ("topic", "queue"):
        send = lambda count: f"limited.send({json.dumps(f'/{kind}/')} + {of_repeated('a', count)}, '')"
        limits.both(f"a destination with {kind} and a name", "E8", send, LONGEST)
        limits.taken("one with the shortest", send(SHORTEST))
        limits.refused("one without a name", "E8", send(SHORTEST - 1))
    limits.taken("each letter that it may have", "limited.send('/topic/aZ09.-_/', '')")
    for it in ("nowhere", "/topics/a", "topic/a", "/topic/a b", "/topic/ä", "/topic/a\n", "/Topic/a"):
        limits.refused(json.dumps(it), "E8", f"limited.send({json.dumps(it)}, '')")
    limits.refused("no destination", "E8", "limited.send()")


def of_transactions(engine, limits):
    whole = lambda acts: f"limited.transaction(tx => {{ {acts} }})"
    many = lambda count: whole(f"for (let place = 0; place < {count}; place++) tx.send('/topic/none', 'x')")
    limits.both("a transaction", "E17", many, MEMBERS)
    large = member("/topic/none", BODY)
    rest = MEMBERS_BYTES - 3 * large - member("/topic/none", 0, [("key", "value")])
    heavy = lambda count: whole(f"for (const it of [{BODY}, {BODY}, {BODY}]) tx.send('/topic/none', 'x'.repeat(it)); tx.send('/topic/none', 'x'.repeat({count}), {{ key: 'value', ack: 'not kept' }})")
    limits.both("one whose last body fills it,", "E17", heavy, rest)
    limits.run("globalThis.acking = limited.subscribe('/queue/acked', it => { globalThis.acked = it; }, { ack: 'client-individual' })")
    limits.run("globalThis.acked = null; await limited.send('/queue/acked', 'x'); await soon(() => acked)")
    with_ack = lambda count: heavy(count).replace("{ ", "{ tx.ack(acked); ", 1)
    limits.refused("one with an acknowledgement, whose last body is too large,", "E17", with_ack(rest - ACK_BYTES + 1))
    limits.taken("one whose last body fills it", with_ack(rest - ACK_BYTES))
    limits.run("await acking.end()")
    _, size = head_of(engine, "it.transaction(tx => tx.send('/topic/none', 'x', { x: '' }))")
    limits.run(f"globalThis.URL_ = 'ws://127.0.0.1:{limits.relay.port}/'")
    limits.both("a member with a header", "E2", lambda count: whole(f"tx.send('/topic/none', 'x', {{ x: 'x'.repeat({count}) }})"), HEAD - size)
    limits.both("a member with a body", "E2", lambda count: whole(f"tx.send('/topic/none', 'x'.repeat({count}))"), BODY)
    limits.refused("one of whose members has a bad destination", "E8", whole("tx.send('/topic/none', 'x'); tx.send('nowhere', 'x')"))


def of_subscriptions(limits):
    subscribe = lambda to, options="{}": f"limited.subscribe({json.dumps(to)}, () => {{}}, {options})"
    limits.refused("a subscription of no destination", "E8", subscribe("nowhere") + ".ready")
    limits.refused("one of no known mode", "E20", subscribe("/topic/none", "{ ack: 'individual' }") + ".ready")
    limits.refused("a durable one without a clientId", "E13", subscribe("/topic/none", "{ durable: 'd' }") + ".ready")
    limits.refused("to give up its name", "E13", subscribe("/topic/none", "{ durable: 'd' }") + ".giveUp()")
    limits.refused("one with an id that is taken again", "E8", subscribe("nowhere", "{ id: 'again' }") + ".ready")
    limits.taken("which then has it", "(globalThis.own = limited.subscribe('/topic/own', it => heardAgain.push(it.body), { id: 'again' }), globalThis.heardAgain = [], own.ready)")
    limits.checks.same("and hears", limits.run("await limited.send('/topic/own', 'x'); await soon(() => heardAgain.length); await own.end(); return heardAgain"), ["x"])
    limits.taken("one of a queue, which has none,", subscribe("/queue/none", "{ durable: 'd', id: 'plain' }") + ".ready")
    limits.refused("one with a long id", "E2", subscribe("/topic/none", f"{{ id: 'i'.repeat({HEAD}) }}") + ".ready")
    limits.run("limited.errors.length = 0; globalThis.last = null")
    limits.taken("each of the most", f"Promise.all(Array.from({{ length: {SUBSCRIPTIONS - 1} }}, () => (last = {subscribe('/topic/none')}).ready))")
    limits.refused("one more", "E18", f"(globalThis.over = {subscribe('/topic/none')}).ready")
    limits.checks.same("and is told, with its subscription", limits.run("await soon(() => limited.errors.length); return limited.errors.map(([error, it]) => [error.code, it === over])"), [["E18", True]])
    limits.taken("the end of one that was refused", "over.end()")
    limits.taken("one in the place of one that ended", f"(last.end(), {subscribe('/topic/none')}.ready)")


def of_forms(limits):
    """Arguments of a wrong form are not sent, and the error names the right one."""
    subscribe = lambda *words: f"limited.subscribe({', '.join(words)}).ready"
    shows = [
        ("a subscription without a function", subscribe("'/topic/none'"), "unsent", "message =>"),
        ("one with its options in that place", subscribe("'/topic/none'", "{ ack: 'client' }"), "unsent", "message =>"),
        ("one whose header is an object", subscribe("'/topic/none'", "() => {}", "{ headers: { key: {} } }"), "unsent", '{ key: "text" }'),
        ("a header that is an object", "limited.send('/topic/none', 'x', { key: {} })", "unsent", '{ key: "text" }'),
        ("one that is a list", "limited.send('/topic/none', 'x', { key: ['a'] })", "unsent", '{ key: "text" }'),
        ("one that is a function", "limited.send('/topic/none', 'x', { key: () => 'a' })", "unsent", '{ key: "text" }'),
        ("a text for all headers", "limited.send('/topic/none', 'x', 'text')", "unsent", '{ key: "text" }'),
        ("null for them", "limited.send('/topic/none', 'x', null)", "unsent", '{ key: "text" }'),
        ("an object as a body", "limited.send('/topic/none', { a: 1 })", "unsent", "JSON.stringify"),
        ("a queue without its slash", "limited.send('queue/a', 'x')", "refused", '"/queue/a"'),
        ("one that is subscribed to", subscribe("'queue/a'", "() => {}"), "refused", '"/queue/a"'),
        ("another destination", "limited.send('nowhere', 'x')", "refused", "/topic/ or /queue/"),
    ]
    for what, ask, kind, form in shows:
        before = limits.relay.asked
        seen = limits.run(f"return {ask}.then(() => ['taken', ''], error => [error.kind, error.message])")
        limits.checks.check(f"{what} is not sent, and the right form is named", seen[0] == kind and form in seen[1] and limits.relay.asked == before, seen)
    limits.taken("headers of texts and numbers", "limited.send('/topic/none', 'x', { a: 'x', b: 1, c: true, d: null, e: undefined })")
    limits.taken("a subscription whose id is a number", "(globalThis.heardByNumber = 0, globalThis.numbered = limited.subscribe('/topic/number', () => heardByNumber++, { id: 7 })).ready")
    limits.checks.check("and hears", limits.run("await limited.send('/topic/number', 'x'); await soon(() => heardByNumber == 1, 2); await numbered.end(); return heardByNumber == 1"))


def of_acknowledgements(limits):
    """A message is acknowledged once."""
    for mode, other in (("client-individual", "taken"), ("client", refused("E11"))):
        limits.run(f"globalThis.twice = []; globalThis.hand = limited.subscribe('/queue/twice', it => twice.push(it), {{ ack: '{mode}' }}); await hand.ready")
        limits.run("for (let count = 0; count < 4; count++) limited.send('/queue/twice', count); await soon(() => twice.length == 4)")
        limits.taken(f"an acknowledgement in the mode {mode}", "twice[1].ack()")
        for act in ("ack", "nack"):
            limits.refused(f"{act} of one that is acknowledged", "E11", f"twice[1].{act}()")
        limits.checks.same(f"an earlier message is acknowledged, unless that was done with it: {mode}", limits.run("return how(twice[0].ack())"), other)
        limits.refused("a transaction that does so twice", "E11", "limited.transaction(tx => { tx.ack(twice[3]); tx.nack(twice[3]); })")
        limits.taken("one that does so once", "limited.transaction(tx => { tx.ack(twice[2]); tx.nack(twice[3]); })")
        limits.refused("an acknowledgement after that", "E11", "twice[2].ack()")
        limits.run("await hand.end(); globalThis.gone = 0; const dead = limited.subscribe('/queue/dead', () => gone++); await soon(() => gone); await dead.end()")
    limits.checks.same("and the session went on", limits.run("return limited.session == session"), True)


def of_what_is_told(limits):
    before = limits.relay.asked
    seen = limits.run(f"limited.errors.length = 0; const told = limited.tell('/topic/none', 'x'.repeat({BODY + 1})); await soon(() => limited.errors.length); return [told, limited.errors.map(([error]) => [error.kind, error.code])]")
    limits.checks.same("what is only told is refused too", (seen, limits.relay.asked - before), ([False, [["refused", "E2"]]], 0))


def at_the_limits(engine, broker, checks):
    """what the broker would refuse is refused at once, and nothing is sent"""
    run = engine.value
    run("globalThis.direct = URL_")
    with Relay(broker.port) as relay:
        limits = Limits(engine, relay, checks)
        of_frames(engine, limits)
        of_destinations(limits)
        of_transactions(engine, limits)
        of_forms(limits)
        of_acknowledgements(limits)
        of_subscriptions(limits)
        of_what_is_told(limits)
        checks.same("the session was one", run("return [limited.session == session, limited.states.map(([state]) => state)]"), [True, ["connecting", "open"]])
        run("await limited.close(); globalThis.URL_ = direct")
    checks.same("without a connection too", run(f"globalThis.early = open(); return [await how(early.send('/topic/none', 'x'.repeat({BODY + 1}))), early.state]"), [refused("E2"), "connecting"])
    run("globalThis.offering = open({ protocols: ['token.1'] })")
    checks.same("another subprotocol beside the broker's is no hindrance", run("return how(offering.send('/topic/none', 'x'))"), "taken")
    run("await offering.close()")
    checks.check("a clientId has a limit", "E2" in (run(f"try {{ open({{ clientId: 'x'.repeat({HEAD}) }}).close(); }} catch (error) {{ return error.code; }}") or ""))
    run("await early.close()")


def a_long_text_is_pasted(engine, broker, checks):
    """who sends what is too large misses nothing of others"""
    run = engine.value
    run(f"globalThis.lines = []; globalThis.page = open(); await page.subscribe('/topic/lines', it => lines.push(it.body)).ready")
    other = Client(broker.port).connect()
    for number in range(100):
        other.publish("/topic/lines", str(number))
        if number % 25 == 0:
            checks.same("it is refused", run(f"return how(page.send('/topic/lines', 'x'.repeat({BODY + 1})))"), refused("E2"))
    other.disconnect()
    checks.same("all is heard", run("await soon(() => lines.length >= 100); await page.close(); return lines"), [str(it) for it in range(100)])


def fill(engine, to):
    """Holds so much that the largest message has no room."""
    count = HELD_BYTES // (BODY + len(to))
    assert HELD_BYTES - count * (BODY + len(to)) < BODY
    engine.value(f"globalThis.filling = open(); await Promise.all(Array.from({{ length: {count} }}, () => filling.send('{to}', 'x'.repeat({BODY})))); await filling.close()")


def drain(engine, from_):
    count = HELD_BYTES // (BODY + len(from_))
    engine.value(f"globalThis.drained = 0; globalThis.filling = open(); filling.subscribe('{from_}', () => drained++); await soon(() => drained >= {count}, 60); await filling.close()")


def after_a_refusal(engine, broker, checks):
    """the broker's refusal has its code, and no pause after it, while sending there rests"""
    run = engine.value
    fill(engine, "/queue/full")
    large = f"pushed.send('/queue/full', 'x'.repeat({BODY}))"
    run(f"globalThis.pushed = open(); await pushed.send('/topic/none', 'x'); globalThis.before = pushed.session")
    checks.same("a SEND without room is refused, with its code", run(f"return how({large})"), refused("E12"))
    checks.same("the client is back at once", run("await soon(() => pushed.session && pushed.session != before); return pushed.states.map(([state, pause]) => [state, pause ?? null])"), [["connecting", None], ["open", None], ["refused", 0], ["connecting", None], ["open", None]])
    run(f"for (let count = 0; count < 2; count++) {{ await how({large}); await soon(() => pushed.session); }}")
    checks.same("so it is after each that follows", run("return pushed.states.filter(([state]) => state == 'refused').map(it => it[1])"), [0, 0, 0])
    pauses = run("return pushed.fulls.filter(([full]) => full.length).map(it => it[1])")
    checks.check("and sending there rests for growing pauses", len(pauses) == 3 and all(0.75 * 500 * 2**number <= pause <= 1.25 * 500 * 2**number for number, pause in enumerate(pauses)), pauses)
    drain(engine, "/queue/full")
    checks.same("once there is room it is taken", run(f"return how({large})"), "taken")
    run("await pushed.close()")
    run("globalThis.rest = open(); globalThis.left = 0; rest.subscribe('/queue/full', () => left++); await soon(() => left); await rest.close()")


TRIALS = [at_the_limits, a_long_text_is_pasted, after_a_refusal]
