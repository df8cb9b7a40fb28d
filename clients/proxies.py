#!/usr/bin/env python3
"""The recipes of deploy/, tried with the proxies that are there: nginx, HAProxy, Caddy and Apache, side by side, each before a broker of its own.

    python3 clients/proxies.py [PROGRAM] [--only WORD] [--instead FILE OLD NEW]

Over wss, 200 clients connect to each, hear what one sends, say nothing for 90 seconds, and come back after the broker was killed and started again.
Who has no login, comes from a foreign page, or comes too often is refused, and so is everybody while there is no broker. nginx is also tried with a
login by cookie, and with 1,000 rooms on four brokers, and then on five; HAProxy also with a check by a handshake, and with one by `stompd ping`. It
takes some three minutes.

Needs Debian's packages: apt-get install nginx-light haproxy caddy apache2 openssl. What is missing is counted and told at the end; with none of them
the status is 2. --instead writes NEW for OLD in a recipe first, as a trial of what is checked here: it has to fail with a wrong one.
"""

import os
import pathlib
import resource
import selectors
import shutil
import signal
import socket
import subprocess
import sys
import tempfile
import threading
import time
import traceback
import urllib.parse

from lanes import HERE, PAGE, Lane, SecureClient, login, make_certificate, nginx_places, start_cookie, start_nginx
from lib import scenario
from lib.stomp_client import PING, PONG, Client, Closed, Refused

CROWD, IDLE_SECONDS, MOST_OF_AN_ADDRESS = 200, 90, 250
FOREIGN = "https://elsewhere.example"
# Other addresses of the same machine.
THERE, GUESSER = "127.0.0.2", "127.0.0.3"
# How many handshakes an address has at once, and how many more a second.
HANDSHAKES, EACH_SECOND = 400, 20
ENDED = "ended"


def answer(port, *words, **more):
    """The status with which a handshake is answered; 101 if it is accepted."""
    try:
        SecureClient(port, *words, **more).close()
        return "101"
    except Refused as refused:
        return refused.status
    except Closed:
        return "closed"


def nginx(lane, instead):
    start_nginx(lane, "nginx.conf", instead, [("127.0.0.1:8080", f"{HERE}:{lane.brokers[0].port}")])


def haproxy_places(lane):
    sum_ = subprocess.run(["openssl", "passwd", "-5", "secret"], check=True, capture_output=True, text=True).stdout.strip()
    places = [("bind :443", f"bind {HERE}:{lane.port}"), ("/etc/stompd/", f"{lane.folder.parent}/"), ("HASH-OF-ALICE", sum_)]
    places += [("127.0.0.1:8080", f"{HERE}:{lane.brokers[0].port}"), ("log /dev/log local0", "log stdout format raw local0")]
    # The trial may not have 33,000 descriptors.
    return places + [("maxconn 16500", "maxconn 2000")]


def haproxy(lane, instead):
    process = lane.start("haproxy", "-f", lane.recipe("haproxy.cfg", [*haproxy_places(lane), *instead]))
    lane.wait_for(lane.port)
    return process


def caddy(lane, instead):
    hashing = ["caddy", "hash-password", "--plaintext", "secret"]
    sum_ = subprocess.run(hashing, check=True, capture_output=True, text=True, cwd=lane.folder, env={**os.environ, "HOME": str(lane.folder)}).stdout.strip()
    places = [("\nchat.example {", f"\nhttps://localhost:{lane.port} {{\n\tbind {HERE}"), ("/etc/stompd/", f"{lane.folder.parent}/")]
    places += [("alice HASH-OF-ALICE", f"alice {sum_}"), ("127.0.0.1:8080", f"{HERE}:{lane.brokers[0].port}"), ("/var/log/caddy/", f"{lane.folder}/")]
    lane.start("caddy", "run", "--adapter", "caddyfile", "--config", lane.recipe("Caddyfile", [*places, *instead]))
    lane.wait_for(lane.port)


def apache(lane, instead):
    places = [("Listen 443", f"Listen {HERE}:{lane.port}"), ("*:443", f"{HERE}:{lane.port}"), ("/etc/stompd/", f"{lane.folder.parent}/")]
    places += [('"/etc/stompd"', f'"{lane.folder}"'), ("/run/", f"{lane.folder}/"), ("/var/log/apache2/", f"{lane.folder}/")]
    places += [("127.0.0.1:8080", f"{HERE}:{lane.brokers[0].port}")]
    lane.start("apache2", "-d", lane.folder, "-f", lane.recipe("apache.conf", [*places, *instead]), "-DFOREGROUND")
    lane.wait_for(lane.port)


def subscribed(lane, count=CROWD):
    """So many clients in one room."""
    clients = []
    for number in range(count):
        clients.append(SecureClient(lane.port).connect())
        clients[-1].subscribe("me", "/topic/room")
    return clients


def hear(lane, clients, text):
    """One of them says something, and all hear it."""
    clients[0].send("SEND", [("destination", "/topic/room")], text)
    heard = [client.receive().body for client in clients]
    lane.check(f"what one says is heard by all {len(clients)} ({text[:20]})", heard == [text] * len(clients), f"{heard.count(text)} heard it")


def try_refusals(lane):
    lane.same("without a login: 401", answer(lane.port, [("Origin", PAGE)]), "401")
    lane.same("with a wrong password: 401", answer(lane.port, [login(password="guess"), ("Origin", PAGE)]), "401")
    lane.same("from a foreign page: 403", answer(lane.port, [login(), ("Origin", FOREIGN)]), "403")
    lane.same("from the page: accepted", answer(lane.port), "101")


def try_order(lane):
    client = SecureClient(lane.port).connect()
    client.subscribe("q", "/queue/order")
    texts = [f"{number} {'x' * 90}" for number in range(1000)]
    for text in texts:
        client.send("SEND", [("destination", "/queue/order")], text)
    lane.check("1,000 messages come in order", [client.receive().body for _ in texts] == texts)
    long = "ä" * 32_000
    client.send("SEND", [("destination", "/queue/order")], long)
    lane.check("and one of 64,000 bytes, whole", client.receive().body == long)
    lane.same("who says DISCONNECT is told 1000", client.disconnect(), ([], 1000))
    client = SecureClient(lane.port).connect()
    client.send("SEND", [("destination", "nowhere")])
    heard, code = client.to_the_end()
    lane.same("an ERROR of the broker and its close code are passed on", ([frame.command for frame in heard], code), (["ERROR"], 1002))
    client.close()


def try_limits(lane, clients):
    """Where a proxy limits the connections of an address, the last one that is let in is the 250th."""
    more = []
    try:
        while len(clients) + len(more) < MOST_OF_AN_ADDRESS + 20:
            more.append(SecureClient(lane.port))
        status = "all were accepted"
    except Refused as refused:
        status = refused.status
    lane.same("an address has 250 connections, and the next one is answered 429", (len(clients) + len(more), status), (MOST_OF_AN_ADDRESS, "429"))
    lane.same("another address is served meanwhile", answer(lane.port, address=THERE), "101")
    for client in more:
        client.close()


def try_guesses(lane):
    """One that tries passwords is answered 401, and 429 once it has tried too often."""
    statuses, start = [], time.monotonic()
    while len(statuses) < 3 * HANDSHAKES and (not statuses or statuses[-1] == "401"):
        statuses.append(answer(lane.port, [login(password=f"guess {len(statuses)}")], address=GUESSER))
    most = HANDSHAKES + EACH_SECOND * (time.monotonic() - start) + 2
    lane.check("who guesses has some 400 handshakes, and then 429", HANDSHAKES <= len(statuses) <= most and statuses[-1] == "429", (len(statuses), most, statuses[-1]))


def pings_of(clients, seconds):
    """They only answer pings for so long; how many pings each was sent, or that it was ended."""
    pings, end = dict.fromkeys(clients, 0), time.monotonic() + seconds
    with selectors.DefaultSelector() as selector:
        for client in clients:
            selector.register(client.socket, selectors.EVENT_READ, client)
        while (left := end - time.monotonic()) > 0:
            for key, _ in selector.select(left):
                client = key.data
                try:
                    _, kind, piece = client.take_frame()
                except Closed:
                    kind, piece = None, b""
                if kind != PING:
                    selector.unregister(client.socket)
                    pings[client] = ENDED
                    continue
                pings[client] += 1
                client.send_message(PONG, piece)
    return list(pings.values())


def try_quiet(lane, clients):
    counts = set(pings_of(clients, IDLE_SECONDS))
    # One every 20 seconds; a client that was quiet before has its first one sooner.
    lane.check(f"{len(clients)} clients say nothing for {IDLE_SECONDS} s, and each is sent four or five pings", counts <= {4, 5}, counts)


def try_restart(lane, clients):
    keeper = SecureClient(lane.port).connect()
    keeper.publish("/queue/kept", "kept")
    lane.brokers[0].kill()
    codes = [client.to_the_end()[1] for client in [*clients, keeper]]
    lane.same("all clients hear that the broker is gone, with no close", set(codes), {0})
    for client in [*clients, keeper]:
        client.close()
    lane.same("while it is gone: 503", answer(lane.port), "503")
    lane.brokers[0].serve()
    lane.same("it is back, and the next one is served at once", answer(lane.port), "101")
    clients = subscribed(lane)
    hear(lane, clients, "we are back")
    clients[1].send("SUBSCRIBE", [("id", "kept"), ("destination", "/queue/kept")])
    lane.same("what had a receipt is there", clients[1].receive().body, "kept")
    for client in clients:
        client.close()


def try_log(lane):
    deadline = time.monotonic() + 10
    while FOREIGN not in lane.told() and time.monotonic() < deadline:
        time.sleep(0.2)
    told = lane.told()
    lines = [line for line in told.splitlines() if FOREIGN in line and "403" in line]
    lane.check("the log has the foreign page, and that it was refused", len(lines) == 1, lines)
    lane.check("and the page that is served", any(PAGE in line and "101" in line for line in told.splitlines()), told[-500:])


def try_proxy(lane, start, has_limits, instead):
    lane.add_broker()
    start(lane, instead)
    try_refusals(lane)
    clients = subscribed(lane)
    hear(lane, clients, "hello")
    try_order(lane)
    if has_limits:
        try_limits(lane, clients)
        try_guesses(lane)
    try_quiet(lane, clients)
    hear(lane, clients, "still here")
    try_restart(lane, clients)
    try_log(lane)


def cookie_of(port, name, password):
    """What a login is answered with: its status, and its cookie."""
    form = urllib.parse.urlencode({"name": name, "password": password}).encode()
    head = f"POST /login HTTP/1.0\r\nHost: localhost\r\nOrigin: {PAGE}\r\nContent-Type: application/x-www-form-urlencoded\r\nContent-Length: {len(form)}\r\n\r\n"
    with socket.create_connection((HERE, port), 30) as plain, SecureClient.context.wrap_socket(plain, server_hostname="localhost") as stream:
        stream.sendall(head.encode() + form)
        heard = b""
        while more := stream.recv(65_536):
            heard += more
    lines = heard.decode().split("\r\n")
    cookies = [line.split(": ", 1)[1] for line in lines if line.lower().startswith("set-cookie:")]
    return lines[0].split()[1], cookies[0] if cookies else ""


def try_cookie(lane, instead):
    """A login by cookie, and a broker for each of two groups."""
    red, blue = start_cookie(lane, instead)
    lane.same("a wrong password has no cookie", cookie_of(lane.port, "alice", "hidden"), ("401", ""))
    status, cookie = cookie_of(lane.port, "alice", "secret")
    lane.same("a login is answered with one that no script reads and no other page sends", (status, cookie.split("; ")[-3:]), ("303", ["HttpOnly", "Secure", "SameSite=Strict"]))
    alice = [("Cookie", cookie.split(";")[0]), ("Origin", PAGE)]
    bob = [("Cookie", cookie_of(lane.port, "bob", "hidden")[1].split(";")[0]), ("Origin", PAGE)]
    name, until, sum_ = alice[0][1].split("=")[1].split(".")
    later = [("Cookie", f"__Host-rooms={name}.{int(until) + 1}.{sum_}"), ("Origin", PAGE)]
    another = [("Cookie", f"__Host-rooms={b'bob'.hex()}.{until}.{sum_}"), ("Origin", PAGE)]
    for what, headers, path, expected in [
        ("without a cookie: 401", [("Origin", PAGE)], "/rooms/red", "401"),
        ("with one that was made to last longer: 401", later, "/rooms/red", "401"),
        ("with one that was made to name another: 401", another, "/rooms/blue", "401"),
        ("in the user's group: accepted", alice, "/rooms/red", "101"),
        ("in another group: 403", alice, "/rooms/blue", "403"),
        ("with a cookie, from a foreign page: 403", [alice[0], ("Origin", FOREIGN)], "/rooms/red", "403"),
        ("who is in both groups: accepted", bob, "/rooms/blue", "101"),
        ("what nginx asks the login is no page: 404", bob, "/may", "404"),
    ]:
        lane.same(what, answer(lane.port, headers, path), expected)
    for headers, path, texts in [(alice, "/rooms/red", ["of red"]), (bob, "/rooms/blue", ["of blue", "another"])]:
        client = SecureClient(lane.port, headers, path).connect()
        for text in texts:
            client.publish("/queue/jobs", text)
        client.disconnect()
    lane.same("what a group holds is in its own journal alone", [held(lane, it) for it in (red, blue)], [{"/queue/jobs": 1}, {"/queue/jobs": 2}])


def held(lane, broker):
    """How many messages the journal of a broker has in each queue."""
    lines = subprocess.run([lane.program, "held", broker.journal], check=True, capture_output=True, text=True).stdout.splitlines()
    return {line.split(" queue ")[1]: int(line.split()[0]) for line in lines if " queue " in line}


ROOMS = [f"room-{number}" for number in range(1000)]


def send_to_all(lane, rooms=ROOMS):
    for room in rooms:
        client = SecureClient(lane.port, [("Origin", PAGE)], f"/rooms/{room}").connect()
        client.publish(f"/queue/{room}", "held")
        client.close()


def drain(lane, source, target, room):
    """What the recipe of a move does: what the old broker holds of a room is sent to the new one, and then acknowledged."""
    reader, writer = Client(source.port).connect(), Client(target.port).connect()
    frames = reader.subscribe("drain", f"/queue/{room}", "client-individual")
    for _ in range(held(lane, source)[f"/queue/{room}"]):
        frame = frames.pop(0) if frames else reader.receive()
        writer.publish(f"/queue/{room}", frame.body)
        reader.send("ACK", [("id", frame.headers["ack"]), ("receipt", "ack")])
        frames += reader.receipt("ack")
    reader.disconnect()
    writer.disconnect()


def try_rooms(lane, instead):
    """1,000 rooms on four brokers, and on a fifth."""
    brokers = [lane.add_broker() for _ in range(5)]
    places = [(f"127.0.0.1:{8081 + number}", f"{HERE}:{broker.port}") for number, broker in enumerate(brokers[:4])]
    process = start_nginx(lane, "rooms.conf", instead, places)
    send_to_all(lane)
    # In another order, so that brokers in turn are found out.
    send_to_all(lane, ROOMS[::-1])
    of_four = [held(lane, it) for it in brokers]
    lane.check("each of 1,000 rooms has one broker, also the second time", sorted(room for it in of_four for room in it) == sorted(f"/queue/{it}" for it in ROOMS))
    lane.same("and all that was sent to it", {count for it in of_four for count in it.values()}, {2})
    shares = [len(it) for it in of_four]
    lane.check("each of four has from 150 to 350 rooms", all(150 <= it <= 350 for it in shares[:4]) and shares[4] == 0, shares)

    gone = brokers[0]
    room = next(iter(of_four[0])).removeprefix("/queue/")
    gone.kill()
    lane.same("a room whose broker is away is answered 503, and by no other", answer(lane.port, [("Origin", PAGE)], f"/rooms/{room}"), "503")
    gone.serve()
    lane.same("and is served once it is back", answer(lane.port, [("Origin", PAGE)], f"/rooms/{room}"), "101")

    stays = SecureClient(lane.port, [("Origin", PAGE)], f"/rooms/{ROOMS[0]}").connect()
    fifth = (f"server {HERE}:{brokers[3].port} max_fails=0;", f"server {HERE}:{brokers[3].port} max_fails=0; server {HERE}:{brokers[4].port} max_fails=0;")
    lane.recipe("rooms.conf", [*places, *nginx_places(lane), *instead, fifth])
    process.send_signal(signal.SIGHUP)
    lane.same("after a reload a connection ends within 15 s, so that nobody stays at a broker that has the room no more", pings_of([stays], 15), [ENDED])
    send_to_all(lane)
    of_five = [held(lane, it) for it in brokers]
    moved = list(of_five[4])
    lane.check("a fifth broker has from 100 to 300 of them", 100 <= len(moved) <= 300, len(moved))
    stayed = all(of_five[number][room] == (2 if room in of_five[4] else 3) for number in range(4) for room in of_four[number])
    lane.check("the others stay where they were", stayed and not any(set(of_five[it]) - set(of_four[it]) for it in range(4)))
    lane.tell(f"rooms of each: {shares[:4]}, then {[len(it) - sum(room in of_five[4] for room in it) for it in of_five[:4]] + [len(moved)]}")
    for number in range(4):
        for room in of_four[number]:
            if room in of_five[4]:
                drain(lane, brokers[number], brokers[4], room.removeprefix("/queue/"))
    after = [held(lane, it) for it in brokers]
    lane.check("drained, each room has all that was sent to it, at one broker", {count for it in after for count in it.values()} == {3} and sum(map(len, after)) == 1000)


# What the comments of haproxy.cfg have for a check by a handshake.
CHECK_LINES = ("option httpchk\n", "http-check send ", "http-check expect ", "default-server ")
IS_DOWN, IS_UP = "Server stompd/broker is DOWN", "Server stompd/broker is UP"


def tells(lane, text, act):
    """Whether a proxy comes to tell that within 20 seconds after this is done."""
    before, end = lane.told().count(text), time.monotonic() + 20
    act()
    while lane.told().count(text) == before and time.monotonic() < end:
        time.sleep(0.2)
    return lane.told().count(text) > before


def try_a_check(lane, what):
    """A check finds out when a broker stands still, and when it goes on."""
    process = lane.brokers[0].process
    before = lane.told().count(IS_DOWN)
    time.sleep(8)
    lane.same(f"{what}: a broker that answers is up", (answer(lane.port), lane.told().count(IS_DOWN)), ("101", before))
    lane.check(f"{what}: one that stands still is down", tells(lane, IS_DOWN, lambda: process.send_signal(signal.SIGSTOP)), lane.told()[-500:])
    lane.same(f"{what}: and who comes then is answered 503", answer(lane.port), "503")
    lane.check(f"{what}: one that goes on is up", tells(lane, IS_UP, lambda: process.send_signal(signal.SIGCONT)), lane.told()[-500:])
    lane.same(f"{what}: and who comes then is served", answer(lane.port), "101")


def try_checks(lane, instead):
    """HAProxy's checks: by a handshake, and by a ping."""
    at = f"{HERE}:{lane.add_broker().port}"
    checked = (f"server broker {at}\n", f"server broker {at} check\n")
    process = haproxy(lane, [*instead, *((f"    # {line}", f"    {line}") for line in CHECK_LINES), checked])
    try_a_check(lane, "by a handshake")
    process.terminate()
    process.wait()
    script = lane.folder / "ping"
    script.write_text(f'#!/bin/sh\nexec {lane.program} ping "$4"\n')
    script.chmod(0o755)
    by_ping = ["option external-check", "external-check path /usr/bin:/bin", f"external-check command {script}", "default-server inter 6s fall 1 rise 1"]
    leave = ("    maxconn 2000\n", "    maxconn 2000\n    external-check\n    insecure-fork-wanted\n")
    haproxy(lane, [*instead, leave, ("\nbackend stompd\n", "\nbackend stompd\n" + "".join(f"    {line}\n" for line in by_ping)), checked])
    try_a_check(lane, "by a ping")


# Each recipe: its program, its file, and how it is tried.
RECIPES = {
    "nginx": ("nginx", "nginx.conf", lambda lane, instead: try_proxy(lane, nginx, True, instead)),
    "haproxy": ("haproxy", "haproxy.cfg", lambda lane, instead: try_proxy(lane, haproxy, True, instead)),
    "checks": ("haproxy", "haproxy.cfg", try_checks),
    "caddy": ("caddy", "Caddyfile", lambda lane, instead: try_proxy(lane, caddy, False, instead)),
    "apache": ("apache2", "apache.conf", lambda lane, instead: try_proxy(lane, apache, False, instead)),
    "cookie": ("nginx", "nginx-cookie.conf", try_cookie),
    "rooms": ("nginx", "rooms.conf", try_rooms),
}


def run_lane(lane, trial, instead):
    try:
        trial(lane, instead)
    except Exception as error:
        traceback.print_exc()
        lane.check("runs to its end", False, error)
        print(lane.told()[-3000:], file=sys.stderr)
    finally:
        lane.end()


def main():
    parser = scenario.words_of(__doc__)
    parser.add_argument("--only", default="", metavar="WORD", help="only the recipes with this word in their name: " + ", ".join(RECIPES))
    parser.add_argument("--instead", nargs=3, action="append", default=[], metavar=("FILE", "OLD", "NEW"), help="a change of a recipe")
    words = parser.parse_args()
    # Debian has them in /usr/sbin, which is not on everybody's path.
    os.environ["PATH"] += ":/usr/sbin:/sbin"
    wanted = {name: recipe for name, recipe in RECIPES.items() if words.only in name}
    there = {name: recipe for name, recipe in wanted.items() if shutil.which("openssl") and shutil.which(recipe[0])}
    hard = resource.getrlimit(resource.RLIMIT_NOFILE)[1]
    resource.setrlimit(resource.RLIMIT_NOFILE, (hard, hard))
    start, lanes = time.monotonic(), []
    with tempfile.TemporaryDirectory(prefix="stompd-proxies-") as folder:
        base = pathlib.Path(folder)
        # The proxies' own users look for the users' file.
        base.chmod(0o755)
        if there:
            make_certificate(base)
        threads = []
        for name, (_, file, trial) in there.items():
            lanes.append(Lane(name, base, pathlib.Path(words.program).resolve()))
            instead = [(old, new) for place, old, new in words.instead if place == file]
            threads.append(threading.Thread(target=run_lane, args=(lanes[-1], trial, instead)))
            threads[-1].start()
        for thread in threads:
            thread.join()
    for lane in lanes:
        print(f"{lane.name}: {f'{lane.failed} checks FAILED' if lane.failed else 'ok'}")
    for name in wanted.keys() - there.keys():
        print(f"{name}: skipped, since {wanted[name][0]} or openssl is missing")
    print(f"{len(lanes)} recipes tried, {len(wanted) - len(there)} skipped; {time.monotonic() - start:.0f} s")
    return 1 if any(lane.failed for lane in lanes) else 2 if len(lanes) < len(wanted) or not wanted else 0


if __name__ == "__main__":
    sys.exit(main())
