"""A RabbitMQ of its own for the measurements: what it keeps, its ports and its Erlang cookie are nobody else's."""

import os
import re
import shutil
import subprocess
import sys
import time

from lib.scenario import free_port
from serving import Measured

# Where Debian's package has the server itself. Its /usr/sbin/rabbitmq-server would run it as another user.
PLACES = "/usr/lib/rabbitmq/bin"
PLUGINS = "[rabbitmq_web_stomp].\n"
MOST_SECONDS = 60

CONFIG = """\
listeners.tcp.1 = 127.0.0.1:{amqp}
stomp.listeners.tcp = none
web_stomp.tcp.ip = 127.0.0.1
web_stomp.tcp.port = {port}
"""

# What the load generator says to it: where its WebSocket is, who comes, and that a message is to outlast a restart.
SPEAKS = {
    "LOAD_PATH": "/ws",
    "LOAD_CONNECT": "login:guest\npasscode:guest\nhost:/\n",
    "LOAD_SEND": "persistent:true\n",
}


def programs():
    """The server and the port mapper that Erlang needs."""
    found = [shutil.which("rabbitmq-server", path=f"{PLACES}:{os.environ['PATH']}"), shutil.which("epmd")]
    if None in found:
        sys.exit("no RabbitMQ here (Debian's rabbitmq-server)")
    return found


class RabbitMQ(Measured):
    """A running RabbitMQ that keeps what it keeps in a new folder, which goes with it. It has its defaults, but for its ports
    at 127.0.0.1 and the plugin for STOMP over WebSocket."""

    def __init__(self, folder, environment=None):
        folder.mkdir()
        server, mapper = programs()
        self.folder, self.port, self.process = folder, free_port(), None
        settings = {**(environment or os.environ), **self._settings()}
        words = [mapper, "-address", "127.0.0.1", "-port", settings["ERL_EPMD_PORT"]]
        self.mapper = subprocess.Popen(words, stdout=subprocess.DEVNULL, stderr=subprocess.DEVNULL)
        try:
            with open(folder / "out", "wb") as out:
                # The script goes over into the server, and has no shell of Erlang read from standard input.
                words = [server, "-noinput"]
                self.process = subprocess.Popen(words, stdin=subprocess.DEVNULL, stdout=out, stderr=subprocess.PIPE, env=settings, cwd=folder)
            self._wait()
        except BaseException:
            self.kill()
            raise

    def _settings(self):
        folder = self.folder
        (folder / "plugins").write_text(PLUGINS, encoding="ascii")
        (folder / "nothing").write_text("", encoding="ascii")
        (folder / "rabbitmq.conf").write_text(CONFIG.format(amqp=free_port(), port=self.port), encoding="ascii")
        return {
            "HOME": str(folder),
            "ERL_EPMD_ADDRESS": "127.0.0.1",
            "ERL_EPMD_PORT": str(free_port()),
            "RABBITMQ_ALLOW_INPUT": "1",
            "RABBITMQ_CONF_ENV_FILE": str(folder / "nothing"),
            "RABBITMQ_CONFIG_FILE": str(folder / "rabbitmq.conf"),
            "RABBITMQ_DIST_PORT": str(free_port()),
            "RABBITMQ_ENABLED_PLUGINS_FILE": str(folder / "plugins"),
            "RABBITMQ_LOG_BASE": str(folder / "log"),
            "RABBITMQ_MNESIA_BASE": str(folder / "mnesia"),
            "RABBITMQ_NODENAME": "beside@localhost",
            "RABBITMQ_SERVER_ADDITIONAL_ERL_ARGS": "-kernel inet_dist_use_interface {127,0,0,1}",
        }

    def _said(self):
        return (self.folder / "out").read_text(encoding="utf-8", errors="replace")

    def _wait(self):
        end = time.monotonic() + MOST_SECONDS
        while "Starting broker... completed" not in self._said():
            if self.process.poll() is not None or time.monotonic() > end:
                sys.exit(f"RabbitMQ does not start: {self._said()}")
            time.sleep(0.05)

    def version(self):
        """What it says that it is, and which Erlang carries it."""
        said = "".join(path.read_text(encoding="utf-8") for path in (self.folder / "log").glob("*.log"))
        return re.search("Starting (RabbitMQ .*)", said).group(1)

    def kill(self):
        for process in (self.process, self.mapper):
            if process:
                process.kill()
                process.wait()
        if self.process:
            self.process.stderr.close()
        shutil.rmtree(self.folder, ignore_errors=True)
