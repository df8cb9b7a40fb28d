#!/usr/bin/env python3
"""A login by cookie, as an example of what nginx asks (nginx-cookie.conf). Needs Python 3 alone.

    python3 login.py USERS PORT ORIGIN..      serves at http://127.0.0.1:PORT, for pages of these origins
    python3 login.py NAME GROUP..             asks for a password, and prints the line of USERS for that user

`POST /login` with the form's fields `name` and `password` answers with the cookie `__Host-rooms`: who it is, until when, and a sum that only this
program can make. By that name no other host, and no page over plain HTTP, can set it. A page of another origin is answered 403, so that nobody is
logged in under a name of somebody else's choice. `GET /may` with that cookie and the header `X-Group` answers 200 if the user is in that group, 403
if not, and 401 if there is no such cookie, or several, or it is none of its own or has run out. The secret of the sums is made at the start, so a
restart ends all logins; connections that stand go on.
"""

import getpass
import hashlib
import hmac
import http.server
import os
import sys
import time
import urllib.parse

COOKIE = "__Host-rooms"
HOURS = 12
SECRET = os.urandom(32)


def hashed(password, salt):
    return hashlib.scrypt(password.encode(), salt=salt, n=16_384, r=8, p=1).hex()


def line_of(name, password, groups):
    salt = os.urandom(16)
    return f"{name}:{salt.hex()}:{hashed(password, salt)}:{','.join(groups)}"


def users_of(path):
    """The users of the file: for each name its salt, its password's hash and its groups."""
    with open(path, encoding="utf-8") as file:
        lines = [line.strip().split(":") for line in file if line.strip()]
    return {name: (bytes.fromhex(salt), sum_, groups.split(",")) for name, salt, sum_, groups in lines}


def may_log_in(users, name, password):
    # A name that is not there takes as long as one that is.
    salt, expected, _ = users.get(name, (b"no such user", "", []))
    return hmac.compare_digest(hashed(password, salt), expected)


def signed(text):
    return f"{text}.{hmac.new(SECRET, text.encode(), hashlib.sha256).hexdigest()}"


def ticket(name, until):
    return signed(f"{name.encode().hex()}.{until}")


def values_in(cookies):
    """The values of the cookies of this program's name. Others are passed over, whatever their form is (RFC 6265, 4.2.1)."""
    pairs = (it.strip().partition("=") for it in cookies.split(";"))
    return [value for name, _, value in pairs if name == COOKIE]


def name_in(cookies):
    """The user that the one cookie of this program names, or none."""
    try:
        (text,) = values_in(cookies)
        name, until, _ = text.split(".")
        is_own = hmac.compare_digest(signed(f"{name}.{until}").encode(), text.encode())
        return bytes.fromhex(name).decode() if is_own and int(until) > time.time() else None
    except ValueError:
        return None


class Answers(http.server.BaseHTTPRequestHandler):
    timeout = 10

    def answer(self, status, headers=()):
        self.send_response(status)
        for name, value in [*headers, ("Content-Length", "0")]:
            self.send_header(name, value)
        self.end_headers()

    def do_POST(self):
        size = self.headers.get("Content-Length", "")
        if self.path != "/login" or not size.isdigit() or int(size) > 4096:
            return self.answer(400)
        # A browser names the page's origin with each POST.
        if self.headers.get("Origin") not in sys.argv[3:]:
            return self.answer(403)
        form = urllib.parse.parse_qs(self.rfile.read(int(size)).decode(errors="replace"))
        name, password = (form.get(it, [""])[0] for it in ("name", "password"))
        if not may_log_in(users_of(sys.argv[1]), name, password):
            return self.answer(401)
        cookie = f"{COOKIE}={ticket(name, int(time.time()) + 3600 * HOURS)}; Path=/; Max-Age={3600 * HOURS}; HttpOnly; Secure; SameSite=Strict"
        self.answer(303, [("Set-Cookie", cookie), ("Location", "/")])

    def do_GET(self):
        users, name = users_of(sys.argv[1]), name_in(self.headers.get("Cookie", ""))
        if name not in users:
            return self.answer(401)
        self.answer(200 if self.headers.get("X-Group") in users[name][2] else 403)


if __name__ == "__main__":
    if len(sys.argv) < 3 or sys.argv[2].isdigit() and len(sys.argv) < 4:
        sys.exit(__doc__)
    if not sys.argv[2].isdigit():
        print(line_of(sys.argv[1], getpass.getpass(), sys.argv[2:]))
    else:
        http.server.ThreadingHTTPServer(("127.0.0.1", int(sys.argv[2])), Answers).serve_forever()
