#!/usr/bin/env python3
"""Talks to the built program by clients that others wrote: stomp.py, over the WebSocket of websocket-client.

    /usr/bin/python3 clients/independent.py [PROGRAM]

It needs both for the Python that runs it; Debian has them as python3-stomp and python3-websocket. Where one is missing it
says so and ends with status 2.
"""

import queue
import sys

from lib import scenario

try:
    import stomp
    import websocket
except ModuleNotFoundError as missing:
    package = "python3-stomp" if missing.name == "stomp" else "python3-websocket"
    print(f"independent.py needs {package}, which {sys.executable} does not have (Debian: apt-get install {package})", file=sys.stderr)
    sys.exit(2)

# Where refused messages wait.
DEAD = "/queue/dead"


class WebSocketTransport(stomp.transport.BaseTransport):
    """What stomp.py sends by and hears by. That of its own for WebSocket came after the version in Debian 12."""

    vhost = "localhost"

    def __init__(self, port):
        super().__init__(is_eol_fc=stomp.StompConnection12.is_eol)
        self.port, self.close_code = port, None

    def attempt_connection(self):
        self.current_host_and_port = ("127.0.0.1", self.port)
        self.socket = websocket.create_connection(f"ws://127.0.0.1:{self.port}/", subprotocols=["v12.stomp"])

    def send(self, encoded_frame):
        self.socket.send(encoded_frame.decode())

    def receive(self):
        opcode, payload = self.socket.recv_data()
        if opcode == websocket.ABNF.OPCODE_CLOSE:
            self.close_code = int.from_bytes(payload[:2], "big")
            return b""
        return payload

    def disconnect_socket(self):
        """Nothing: the broker closes behind the receipt of a DISCONNECT."""


class Listener(stomp.ConnectionListener):
    """Keeps what comes, in order."""

    def __init__(self):
        self.frames = queue.Queue()

    def on_message(self, frame):
        self.frames.put(frame)

    def on_receipt(self, frame):
        self.frames.put(frame)

    def on_error(self, frame):
        self.frames.put(frame)

    def on_disconnected(self):
        self.frames.put(None)


class Connection(stomp.StompConnection12):
    """stomp.py's connection of STOMP 1.2, over that transport."""

    def __init__(self, port, **headers):
        transport = WebSocketTransport(port)
        stomp.connect.BaseConnection.__init__(self, transport)
        stomp.protocol.Protocol12.__init__(self, transport)
        self.listener = Listener()
        self.set_listener("listener", self.listener)
        self.connect(wait=True, headers=headers)

    def next(self):
        """The next frame; None where the connection is over."""
        return self.listener.frames.get(timeout=10)

    def receipt(self, name):
        """The bodies that come up to that receipt."""
        bodies = []
        while True:
            frame = self.next()
            if frame.cmd == "RECEIPT" and frame.headers["receipt-id"] == name:
                return bodies
            assert frame.cmd == "MESSAGE", frame
            bodies.append(frame.body)

    def publish(self, destination, body, **headers):
        self.send(destination, body, headers={"receipt": "p " + body, **headers})
        return self.receipt("p " + body)

    def leave(self):
        self.disconnect(receipt="bye")
        assert self.receipt("bye") == []


def a_room_of_two(broker, checks):
    """what one says is heard by both"""
    one, other = Connection(broker.port), Connection(broker.port)
    for connection in (one, other):
        connection.subscribe("/topic/room", id="a", headers={"receipt": "s"})
        connection.receipt("s")
    checks.same("the one who says it hears it", one.publish("/topic/room", "hello, öäü", said="by:one\\\n"), ["hello, öäü"])
    frame = other.next()
    seen = frame.cmd, frame.headers["destination"], frame.headers["said"], frame.body
    checks.same("and so does the other", seen, ("MESSAGE", "/topic/room", "by:one\\\n", "hello, öäü"))
    for connection in (one, other):
        connection.leave()
        connection.transport.stop()
    checks.same("a DISCONNECT with a receipt has it, and then 1000", (one.transport.close_code, other.transport.close_code), (1000, 1000))


def a_queue(port, mode, settle):
    """What a worker in that mode has of three messages, and what is left once it has settled the second and is gone."""
    destination = f"/queue/{mode}"
    sender = Connection(port)
    for body in ("one", "two", "three"):
        sender.publish(destination, body)
    worker = Connection(port)
    worker.subscribe(destination, id="w", ack=mode)
    frames = [worker.next() for _ in range(3)]
    settle(worker, frames[1].headers.get("ack"))
    worker.leave()
    reader = Connection(port)
    reader.subscribe(destination, id="r", ack="auto", headers={"receipt": "s"})
    left = reader.receipt("s")
    sender.leave(), reader.leave()
    return [frame.body for frame in frames], left


def a_queue_in_each_mode(broker, checks):
    """what a worker has of three messages, and what is left once it has settled the second and is gone"""
    three = ["one", "two", "three"]
    cases = [
        ("auto", lambda worker, ack: None, []),
        ("client", lambda worker, ack: worker.ack(ack), ["three"]),
        ("client-individual", lambda worker, ack: worker.ack(ack), ["one", "three"]),
    ]
    for mode, settle, left in cases:
        checks.same(f"{mode}: {left} left", a_queue(broker.port, mode, settle), (three, left))
    refuse = lambda worker, ack: worker.nack(ack)
    checks.same("client, refused: ['three'] left", a_queue(broker.port, "client", refuse), (three, ["three"]))
    checks.same("and the others in /queue/dead", [body for body, _ in take_dead(broker.port)], ["one", "two"])


def take_dead(port):
    """What waits in /queue/dead: each message's body and the header `said`, acknowledged."""
    operator = Connection(port)
    operator.subscribe(DEAD, id="o", ack="client-individual")
    operator.send(DEAD, "the last one")
    found = []
    while not found or found[-1][0] != "the last one":
        frame = operator.next()
        assert frame.headers["destination"] == DEAD, frame
        found.append((frame.body, frame.headers.get("said")))
        operator.ack(frame.headers["ack"])
    operator.leave()
    return found[:-1]


def what_workers_refuse(broker, checks):
    """a worker refuses jobs, one or all before it; who reads /queue/dead has them as they were sent, once"""
    take_dead(broker.port)
    for mode, refused in (("client-individual", ["two"]), ("client", ["one", "two"])):
        destination, sender, worker = f"/queue/refused.{mode}", Connection(broker.port), Connection(broker.port)
        for body in ("one", "two", "three"):
            sender.publish(destination, body, said=f"by:\\{body}\n")
        worker.subscribe(destination, id="w", ack=mode)
        frames = [worker.next() for _ in range(3)]
        worker.nack(frames[1].headers["ack"], receipt="n")
        assert worker.receipt("n") == []
        found = take_dead(broker.port)
        checks.same(f"{mode}: {refused} are in /queue/dead", found, [(body, f"by:\\{body}\n") for body in refused])
        checks.same("and gone from there once they are acknowledged", take_dead(broker.port), [])
        worker.ack(frames[2].headers["ack"])
        sender.leave(), worker.leave()


def a_refusal_in_a_transaction(broker, checks):
    """a refusal and a note of it go out together, or neither; what is refused outlasts a SIGKILL of the broker"""
    worker = Connection(broker.port)
    worker.publish("/queue/notes", "job")
    worker.subscribe("/queue/notes", id="w", ack="client-individual")
    job = worker.next()
    worker.subscribe("/topic/notes", id="n", ack="auto", headers={"receipt": "s"})
    worker.receipt("s")
    for finish, receipt, heard in ((worker.abort, "a", []), (worker.commit, "c", ["refused"])):
        name = worker.begin()
        worker.nack(job.headers["ack"], transaction=name)
        worker.send("/topic/notes", "refused", headers={"transaction": name})
        finish(name, headers={"receipt": receipt})
        checks.same(f"the note comes with a COMMIT alone: {heard}", worker.receipt(receipt), heard)
        if finish == worker.abort:
            checks.same("after an ABORT nothing is in /queue/dead", take_dead(broker.port), [])
    worker.leave()
    broker.again()
    checks.same("and the refused job after the COMMIT, and a kill", take_dead(broker.port), [("job", None)])


def a_transaction(broker, checks):
    """two jobs come with the COMMIT, none of an ABORT"""
    worker, sender = Connection(broker.port), Connection(broker.port)
    worker.subscribe("/queue/jobs", id="w", ack="client-individual", headers={"receipt": "s"})
    worker.receipt("s")
    for finish, receipt in ((sender.abort, "a"), (sender.commit, "c")):
        name = sender.begin()
        for body in ("one", "two"):
            sender.send("/queue/jobs", f"{body} {receipt}", headers={"transaction": name})
        finish(name, headers={"receipt": receipt})
        sender.receipt(receipt)
    frames = [worker.next() for _ in range(2)]
    checks.same("both of the COMMIT, and these alone", [frame.body for frame in frames], ["one c", "two c"])
    for frame in frames:
        worker.ack(frame.headers["ack"], receipt=frame.body)
        worker.receipt(frame.body)
    checks.check("each acknowledgement has its receipt", True)
    sender.leave(), worker.leave()


def a_durable_subscriber(broker, checks):
    """it goes away and finds what was sent meanwhile, also after a SIGKILL of the broker"""
    name = {"activemq.subscriptionName": "news", "receipt": "s"}
    reader = Connection(broker.port, **{"client-id": "anna"})
    reader.subscribe("/topic/news", id="d", ack="client-individual", headers=dict(name))
    reader.receipt("s")
    reader.leave()
    sender = Connection(broker.port)
    for body in ("one", "two"):
        sender.publish("/topic/news", body)
    broker.again()
    reader = Connection(broker.port, **{"client-id": "anna"})
    reader.subscribe("/topic/news", id="d", ack="client-individual", headers=dict(name))
    checks.same("both are there", reader.receipt("s"), ["one", "two"])
    reader.leave()
    checks.check("the sender has heard that the broker was gone", sender.next() is None)


def an_error(broker, checks):
    """what is refused is told, and closes the connection with 1002"""
    connection = Connection(broker.port)
    connection.ack("12345", receipt="r")
    frame = connection.next()
    seen = frame.cmd, frame.headers["message"], frame.headers["receipt-id"]
    checks.same("an acknowledgement of nothing", seen, ("ERROR", "E11 unknown acknowledgement id", "r"))
    checks.check("ends the connection", connection.next() is None)
    checks.same("with 1002", connection.transport.close_code, 1002)


def versions():
    """What it runs with."""
    return f"stomp.py {'.'.join(map(str, stomp.__version__))}, websocket-client {websocket.__version__}"


SCENARIOS = [
    a_room_of_two,
    a_queue_in_each_mode,
    what_workers_refuse,
    a_refusal_in_a_transaction,
    a_transaction,
    a_durable_subscriber,
    an_error,
]

if __name__ == "__main__":
    print(versions(), flush=True)
    sys.exit(scenario.run(__doc__, SCENARIOS))
