"""Headless Chromium, spoken to by the DevTools protocol, and a page of examples/rooms.html in it."""

import base64
import json
import pathlib
import subprocess
import time

from lib.stomp_client import TEXT, WebSocket

BROWSERS = ("chromium", "chromium-browser", "google-chrome")
SWITCHES = ["--headless=new", "--no-sandbox", "--disable-gpu", "--no-first-run", "--remote-debugging-port=0"]
# Pages that nobody looks at are to run as those that somebody does.
SWITCHES += ["--disable-background-timer-throttling", "--disable-renderer-backgrounding", "--disable-backgrounding-occluded-windows"]

ENTER = {"key": "Enter", "code": "Enter", "windowsVirtualKeyCode": 13, "text": "\r"}
TAB = {"key": "Tab", "code": "Tab", "windowsVirtualKeyCode": 9}
SPACE = {"key": " ", "code": "Space", "windowsVirtualKeyCode": 32, "text": " "}
DOWN = {"key": "ArrowDown", "code": "ArrowDown", "windowsVirtualKeyCode": 40}
UP = {"key": "ArrowUp", "code": "ArrowUp", "windowsVirtualKeyCode": 38}

# How often Tab is pressed to find a button of a list: a message that is in hand has two, and 16 are in hand at most.
MOST_TABS = 32


class Target:
    """A DevTools connection to a page, or to the browser itself."""

    def __init__(self, port, path):
        self.socket = WebSocket(port, path=path, timeout=30)
        self.count = 0
        self.exceptions = []

    def call(self, method, **parameters):
        self.count += 1
        call = {"id": self.count, "method": method, "params": parameters}
        self.socket.send_message(TEXT, json.dumps(call).encode())
        while True:
            answer = json.loads(self.socket.receive_message()[1])
            if answer.get("method") == "Runtime.exceptionThrown":
                self.exceptions.append(answer["params"]["exceptionDetails"])
            if answer.get("id") == self.count:
                assert "error" not in answer, answer
                return answer["result"]


class Page(Target):
    def __init__(self, port, target):
        super().__init__(port, f"/devtools/page/{target}")
        self.call("Runtime.enable")
        self.call("Page.enable")

    def value(self, expression):
        result = self.call("Runtime.evaluate", expression=expression, returnByValue=True, awaitPromise=True)
        assert "exceptionDetails" not in result, result
        return result["result"].get("value")

    def comes(self, expression, seconds=10):
        """Whether it comes true within that time."""
        end = time.monotonic() + seconds
        while time.monotonic() < end:
            if self.value(expression):
                return True
            time.sleep(0.02)
        return False

    def press(self, key):
        self.call("Input.dispatchKeyEvent", type="keyDown", **key)
        self.call("Input.dispatchKeyEvent", type="keyUp", **key)

    def write(self, field, text):
        """Writes into a field and presses Enter, as from a keyboard."""
        self.value(f"document.getElementById({field!r}).focus()")
        self.call("Input.insertText", text=text)
        self.press(ENTER)

    def toggle(self, field):
        self.value(f"document.getElementById({field!r}).focus()")
        self.press(SPACE)

    def state(self):
        return self.value("document.getElementById('state').dataset.state")

    def is_in(self, state, seconds=15):
        return self.comes(f"document.getElementById('state').dataset.state == {state!r}", seconds)

    def choose(self, field, key):
        """Presses a key at a field, as that which chooses another of its values."""
        self.value(f"document.getElementById({field!r}).focus()")
        self.press(key)

    def act(self, part, words):
        """Goes to a button of a list by Tab, and presses it: what its name is, and not only what stands on it."""
        self.value(f"document.getElementById({part!r}).focus()")
        for _ in range(MOST_TABS):
            self.press(TAB)
            if self.value("document.activeElement.ariaLabel") == words:
                self.press(ENTER)
                return True
        return False

    def act_soon(self, part, words):
        """The same, once there is such a button."""
        self.comes(f"document.querySelector('#{part} [aria-label=\"{words}\"]') != null")
        return self.act(part, words)

    def states_of(self, text, part=None):
        """The states of the rows that hold that text: a list for each row. Without a part of the page, those of all but refused jobs."""
        rows = f"#{part} li" if part else "li:not(#refused li)"
        return self.value(
            f"[...document.querySelectorAll({rows!r})].filter(row => row.childNodes[1].textContent == {text!r})"
            ".map(row => [...row.querySelectorAll('[data-state]')].map(chip => chip.dataset.state))"
        )

    def rows_come(self, text, states, part=None, seconds=15):
        """Whether there is one row with that text, and in those states, within that time."""
        end = time.monotonic() + seconds
        while time.monotonic() < end:
            if self.states_of(text, part) == [states]:
                return True
            time.sleep(0.02)
        return False

    def buttons_of(self, text, part):
        """What stands on the buttons of that row."""
        return self.value(
            f"[...document.querySelectorAll('#{part} li')].filter(row => row.childNodes[1].textContent == {text!r})"
            ".flatMap(row => [...row.querySelectorAll('button')].map(button => button.textContent))"
        )

    def refused(self):
        """The texts of the refused jobs that it has in hand."""
        return self.value("[...document.querySelectorAll('#refused li')].map(row => row.childNodes[1].textContent)")

    def look(self, path, width, height):
        """A picture of the page."""
        self.call("Emulation.setDeviceMetricsOverride", width=width, height=height, deviceScaleFactor=1, mobile=False)
        time.sleep(0.5)
        picture = self.call("Page.captureScreenshot", format="png", captureBeyondViewport=False)
        path.write_bytes(base64.b64decode(picture["data"]))


class Browser:
    def __init__(self, program, folder):
        words = [program, *SWITCHES, f"--user-data-dir={folder}/profile", "about:blank"]
        self.process = subprocess.Popen(words, stdout=subprocess.DEVNULL, stderr=subprocess.DEVNULL)
        port_file = pathlib.Path(folder) / "profile" / "DevToolsActivePort"
        self.port, path = self.wait_for(port_file)
        self.target = Target(self.port, path)

    def wait_for(self, port_file):
        for _ in range(600):
            if port_file.exists() and len(port_file.read_text().split("\n")) >= 2:
                port, path = port_file.read_text().split("\n")[:2]
                return int(port), path
            assert self.process.poll() is None, "the browser has ended"
            time.sleep(0.05)
        raise AssertionError("the browser does not answer")

    def open(self, url):
        target = self.target.call("Target.createTarget", url=url)["targetId"]
        page = Page(self.port, target)
        # Until it is there, what is asked of it is asked of an empty page.
        assert page.comes(f"document.readyState == 'complete' && location.href.startsWith({url.split('#')[0]!r})"), url
        return page

    def close(self):
        self.target.call("Browser.close")
        self.process.wait(timeout=20)
