"""What proxies.py and secure_page.py share: clients over wss, a recipe's folder, programs and checks, and how nginx is started."""

import base64
import contextlib
import os
import pathlib
import random
import shutil
import socket
import ssl
import subprocess
import sys
import time

from lib import scenario
from lib.stomp_client import Client, Closed, handshake

TOP = pathlib.Path(__file__).resolve().parent.parent
DEPLOY = TOP / "deploy"
sys.path.insert(0, str(DEPLOY))
import login as example  # noqa: E402

# The page that the brokers serve, and the address of a client.
PAGE, HERE = "https://chat.example", "127.0.0.1"


def login(name="alice", password="secret"):
    return ("Authorization", "Basic " + base64.b64encode(f"{name}:{password}".encode()).decode())


USUAL = [login(), ("Origin", PAGE)]


def lasting_port():
    """A free port below those that the system gives to connections, of which there are many here: so nobody has it while its program is away."""
    most = int(pathlib.Path("/proc/sys/net/ipv4/ip_local_port_range").read_text().split()[0])
    while True:
        port = random.randrange(10_000, most)
        with contextlib.suppress(OSError), socket.socket() as probe:
            probe.bind((HERE, port))
            return port


class SecureClient(Client):
    """A client over wss, with headers of its own in the handshake, which knows the certificate of the trial. It waits less long than a broker between
    two pings, so that no wait goes on for ever."""

    context = None

    def __init__(self, port, headers=USUAL, path="/", address=HERE, timeout=15):
        plain = socket.create_connection((HERE, port), timeout, (address, 0))
        plain.setsockopt(socket.IPPROTO_TCP, socket.TCP_NODELAY, 1)
        self.socket = self.context.wrap_socket(plain, server_hostname="localhost")
        self.buffer, self.session = bytearray(), None
        self.write(handshake(port, path, "v12.stomp", headers, "localhost"))
        self.hear_answer()

    def fill(self):
        try:
            super().fill()
        except ssl.SSLError as error:
            # The proxy has gone without a farewell of TLS.
            raise Closed(0) from error


class Lane(scenario.Checks):
    """The checks of one recipe, each line with its name, and the folder that it has for itself."""

    def __init__(self, name, base, program):
        super().__init__()
        self.name, self.folder, self.program, self.port = name, base / name, program, lasting_port()
        self.folder.mkdir(mode=0o755)
        self.brokers, self.processes = [], []

    def check(self, what, holds, seen=None):
        super().check(f"{self.name}: {what}", holds, seen)

    def tell(self, what):
        super().tell(f"{self.name}: {what}")

    def add_broker(self, origin=PAGE):
        """A broker that serves the pages of one origin."""
        journal = self.folder / f"{len(self.brokers)}.journal"
        subprocess.run([self.program, "format", "--sparse", journal, str(scenario.JOURNAL_BYTES)], check=True, stderr=subprocess.DEVNULL)
        self.brokers.append(scenario.Broker(self.program, journal, lasting_port(), ("--origin", origin)))
        return self.brokers[-1]

    def recipe(self, file, instead):
        """Writes a recipe into the folder, with what stands there for the ports and paths of a system in the place of the trial's own."""
        text = (DEPLOY / file).read_text()
        for old, new in instead:
            if old not in text:
                raise AssertionError(f"{file} has no {old!r}")
            text = text.replace(old, new)
        (self.folder / file).write_text(text)
        return self.folder / file

    def start(self, *words):
        """Starts a program, and waits until the port answers."""
        with open(self.folder / "told", "ab") as told:
            environment = {**os.environ, "HOME": str(self.folder), "XDG_DATA_HOME": str(self.folder)}
            process = subprocess.Popen(words, cwd=self.folder, stdin=subprocess.DEVNULL, stdout=told, stderr=told, env=environment)
        self.processes.append(process)
        return process

    def wait_for(self, port):
        for _ in range(200):
            with contextlib.suppress(OSError), socket.create_connection((HERE, port), 1):
                return
            time.sleep(0.05)
        raise AssertionError(f"{self.name} does not listen: {self.told()[-2000:]}")

    def told(self):
        """All that the proxy has told, in its logs and on its streams."""
        return "".join(it.read_text(errors="replace") for it in self.folder.iterdir() if it.is_file() and (it.suffix == ".log" or it.name == "told"))

    def end(self):
        for process in self.processes:
            process.terminate()
        for process in self.processes:
            try:
                process.wait(timeout=15)
            except subprocess.TimeoutExpired:
                process.kill()
                process.wait()
        for broker in self.brokers:
            broker.kill()


# What stands in the recipes, and what the trial has in its place.
def nginx_places(lane):
    at = f"{lane.folder}/"
    return [("listen 443 ", f"listen {HERE}:{lane.port} "), ("/etc/stompd/", f"{lane.folder.parent}/"), ("/run/", at), ("/var/log/nginx/", at), ("/var/lib/nginx/", at)]


def start_nginx(lane, file, instead, more=()):
    path = lane.recipe(file, [*more, *nginx_places(lane), *instead])
    process = lane.start("nginx", "-p", lane.folder, "-c", path, "-g", "daemon off;")
    lane.wait_for(lane.port)
    return process


def start_cookie(lane, instead, origin=PAGE):
    """nginx with the login and two brokers, of the groups red and blue: alice is in red, bob in both."""
    red, blue, port = lane.add_broker(origin), lane.add_broker(origin), lasting_port()
    shutil.copytree(TOP / "examples", lane.folder / "chat")
    users = [example.line_of("alice", "secret", ["red"]), example.line_of("bob", "hidden", ["red", "blue"])]
    (lane.folder / "groups").write_text("\n".join(users) + "\n")
    lane.start(sys.executable, DEPLOY / "login.py", lane.folder / "groups", str(port), origin)
    lane.wait_for(port)
    places = [("127.0.0.1:8081", f"{HERE}:{red.port}"), ("127.0.0.1:8082", f"{HERE}:{blue.port}"), ("127.0.0.1:8090", f"{HERE}:{port}")]
    start_nginx(lane, "nginx-cookie.conf", instead, [*places, ("/var/www/chat", f"{lane.folder}/chat")])
    return red, blue


def make_certificate(base):
    words = ["openssl", "req", "-x509", "-newkey", "ec", "-pkeyopt", "ec_paramgen_curve:P-256", "-nodes", "-days", "2", "-subj", "/CN=localhost"]
    words += ["-addext", "subjectAltName=DNS:localhost", "-keyout", base / "key.pem", "-out", base / "cert.pem"]
    subprocess.run(words, check=True, capture_output=True)
    (base / "both.pem").write_bytes((base / "cert.pem").read_bytes() + (base / "key.pem").read_bytes())
    sum_ = subprocess.run(["openssl", "passwd", "-apr1", "secret"], check=True, capture_output=True, text=True).stdout
    (base / "users").write_text(f"alice:{sum_}")
    SecureClient.context = ssl.create_default_context(cafile=str(base / "cert.pem"))
