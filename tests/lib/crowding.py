"""A topic with many readers, clients that send transactions to it as fast as they can, and what a neighbour's receipts take meanwhile."""

import contextlib
import multiprocessing
import select
import subprocess
import threading
import time

from .stomp_client import Client, stomp_message

# A COMMIT of 16 SENDs to so many readers hands out nearly as many messages as may be held.
TOPIC, READERS = "/topic/many", 255
# How long a receipt is waited for, in seconds: then the measurement ends.
LONGEST = 60
# How often a ping is tried, in seconds.
BETWEEN_PINGS = 0.5
PIECE = 1 << 18


def transaction(members):
    """The frames of a transaction of so many SENDs."""
    begun, among = stomp_message("BEGIN", [("transaction", "t")]), [("destination", TOPIC), ("transaction", "t")]
    return begun + members * stomp_message("SEND", among, "x") + stomp_message("COMMIT", [("transaction", "t")])


def listen(port, topic, readers, pipe):
    """A process with all subscribers of a topic: it tells that they are there, and drops what comes until the server is gone."""
    poll, sockets = select.epoll(), {}
    for _ in range(readers):
        one = Client(port, timeout=LONGEST).connect()
        one.subscribe("a", topic)
        one.socket.setblocking(False)
        sockets[one.socket.fileno()] = one.socket
        poll.register(one.socket, select.EPOLLIN)
    pipe.send(len(sockets))
    while not pipe.poll():
        for number, _ in poll.poll(0.2):
            with contextlib.suppress(BlockingIOError):
                if not sockets[number].recv(PIECE):
                    poll.unregister(number)
                    del sockets[number]
    pipe.send(len(sockets))


def flood(port, clients, data, pipe):
    """A process with all that send: it tells that they are there, and sends until it is told to end."""
    poll, sockets, rests = select.epoll(), {}, {}
    for _ in range(clients):
        one = Client(port, timeout=LONGEST).connect()
        one.socket.setblocking(False)
        number = one.socket.fileno()
        sockets[number], rests[number] = one.socket, data
        poll.register(one.socket, select.EPOLLOUT | select.EPOLLIN)
    pipe.send(len(sockets))
    while not pipe.poll():
        for number, event in poll.poll(0.2):
            try:
                if event & select.EPOLLIN and not sockets[number].recv(PIECE):
                    raise ConnectionResetError
                if event & select.EPOLLOUT:
                    rests[number] = rests[number][sockets[number].send(rests[number]) :] or data
            except BlockingIOError:
                pass
            except OSError:
                poll.unregister(number)
                del sockets[number]
    pipe.send(len(sockets))


@contextlib.contextmanager
def at_work(target, *words):
    """A process that does this, with a pipe to it, once it has begun."""
    # It is spawned, and not forked: it must not have the broker's input too.
    context = multiprocessing.get_context("spawn")
    here, there = context.Pipe()
    process = context.Process(target=target, args=(*words, there), daemon=True)
    process.start()
    here.recv()
    try:
        yield here
    finally:
        process.kill()
        process.join()


class Pings:
    """Tries `ping` again and again, in a thread."""

    def __init__(self, broker):
        self.words, self.statuses, self.is_over = [broker.program, "ping", str(broker.port)], [], threading.Event()
        self.thread = threading.Thread(target=self.try_them)

    def try_them(self):
        while not self.is_over.wait(BETWEEN_PINGS):
            self.statuses.append(subprocess.run(self.words, capture_output=True, check=False).returncode)

    def __enter__(self):
        self.thread.start()
        return self

    def __exit__(self, *_):
        self.is_over.set()
        self.thread.join()


class Waits:
    """What receipts took, in seconds: by the clock, and without the time for which the broker's flusher could run and had no processor."""

    def __init__(self):
        self.by_clock, self.without_others = [], []

    def add(self, seconds, held_up):
        self.by_clock.append(seconds)
        self.without_others.append(max(seconds - held_up, 0))


def held_up(broker):
    """For how many seconds the broker's first thread, its flusher, could run and had no processor."""
    number = broker.process.pid
    with open(f"/proc/{number}/task/{number}/schedstat", encoding="ascii") as figures:
        return int(figures.read().split()[1]) / 1e9


def receipts(broker, client, seconds):
    """What receipts take, one after another for so long."""
    waits, end = Waits(), time.monotonic() + seconds
    while (begun := time.monotonic()) < end:
        before = held_up(broker)
        client.publish("/topic/none", "x")
        waits.add(time.monotonic() - begun, held_up(broker) - before)
    return waits


def among_dear_frames(broker, clients, members, seconds):
    """What a neighbour's receipts take while so many clients send COMMITs of so many SENDs, how each `ping` ended, and how many clients and readers are left."""
    neighbour = Client(broker.port, timeout=LONGEST).connect()
    with at_work(listen, broker.port, TOPIC, READERS) as readers, at_work(flood, broker.port, clients, transaction(members)) as senders:
        with Pings(broker) as pings:
            waits = receipts(broker, neighbour, seconds)
        left = []
        for pipe in (senders, readers):
            pipe.send("end")
            left.append(pipe.recv())
    neighbour.close()
    return waits, pings.statuses, left


def within(taken, percent):
    return sorted(taken)[len(taken) * percent // 100]
