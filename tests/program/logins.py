#!/usr/bin/env python3
"""Tries deploy/login.py, the example of a login by cookie: whom it lets in, and what of other pages and other cookies it passes over.

    python3 tests/program/logins.py [PROGRAM]
"""

import http.client
import subprocess
import sys
import tempfile
import time
import urllib.parse

from lib.scenario import TOP, Checks, free_port, words_of

sys.path.insert(0, str(TOP / "deploy"))
sys.dont_write_bytecode = True
import login  # noqa: E402

PAGE, FOREIGN = "https://chat.example", "https://foreign.example"


class Login:
    def __init__(self, port):
        self.port = port

    def answer(self, method, path, headers, body=None):
        connection = http.client.HTTPConnection("127.0.0.1", self.port, timeout=10)
        try:
            connection.request(method, path, body, headers)
            answered = connection.getresponse()
            return answered.status, answered.getheader("Set-Cookie", "")
        finally:
            connection.close()

    def post(self, name, password, origin=PAGE):
        form = urllib.parse.urlencode({"name": name, "password": password})
        return self.answer("POST", "/login", {"Origin": origin} if origin else {}, form)

    def may(self, cookies, group="red"):
        return self.answer("GET", "/may", {"Cookie": cookies, "X-Group": group})[0]


def started(users, port):
    process = subprocess.Popen([sys.executable, TOP / "deploy" / "login.py", users, str(port), PAGE], stderr=subprocess.DEVNULL)
    end = time.monotonic() + 30
    while time.monotonic() < end:
        try:
            http.client.HTTPConnection("127.0.0.1", port, timeout=1).connect()
            return process
        except OSError:
            time.sleep(0.05)
    process.kill()
    raise RuntimeError("login.py does not listen")


def try_all(it, checks):
    checks.same("a wrong password has no cookie", it.post("alice", "guess"), (401, ""))
    status, line = it.post("alice", "secret")
    cookie, *flags = line.split("; ")
    checks.same("a right one has a cookie", (status, flags[0], flags[2:]), (303, "Path=/", ["HttpOnly", "Secure", "SameSite=Strict"]))
    checks.check("that no other host can set", cookie.startswith("__Host-"), cookie)
    checks.same("its user is in the group", it.may(cookie), 200)
    checks.same("and in no other", it.may(cookie, "blue"), 403)
    for before in ('prefs={"a":1}', "a=b=c", "lonely", "x=,;y"):
        checks.same(f"another cookie, {before}, before it changes nothing", it.may(f"{before}; {cookie}"), 200)
    checks.same("nor one after it", it.may(f'{cookie}; prefs={{"a":1}}'), 200)
    bob = it.post("bob", "hidden")[1].split("; ")[0]
    checks.same("of two logins none counts", it.may(f"{cookie}; {bob}"), 401)
    name, until, sum_ = cookie.partition("=")[2].split(".")
    checks.same("one that lasts longer is none", it.may(f"__Host-rooms={name}.{int(until) + 1}.{sum_}"), 401)
    checks.same("nor is one of another name", it.may(f"rooms={name}.{until}.{sum_}"), 401)
    checks.same("a foreign page logs nobody in", it.post("bob", "hidden", FOREIGN), (403, ""))
    checks.same("nor does one that names no origin", it.post("bob", "hidden", None), (403, ""))


def main():
    words_of(__doc__).parse_args()
    checks = Checks()
    with tempfile.TemporaryDirectory(prefix="stompd-logins-") as folder:
        users = f"{folder}/users"
        with open(users, "w", encoding="utf-8") as file:
            file.write(f"{login.line_of('alice', 'secret', ['red'])}\n{login.line_of('bob', 'hidden', ['red', 'blue'])}\n")
        port = free_port()
        process = started(users, port)
        try:
            try_all(Login(port), checks)
        finally:
            process.kill()
            process.wait()
    return checks.status()


if __name__ == "__main__":
    sys.exit(main())
