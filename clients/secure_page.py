#!/usr/bin/env python3
"""examples/rooms.html as it is meant for others: by https from nginx, with deploy/nginx-cookie.conf and its login, in headless Chromium.

    python3 clients/secure_page.py [PROGRAM]

A page without a login, and one in the room of another group, is not connected; after the login it is, over wss. Needs Debian's packages nginx-light,
openssl and chromium; if one is missing it says which, with status 2.
"""

import os
import pathlib
import shutil
import sys
import tempfile
import urllib.parse

import chromium
import lanes
from lib import scenario

# The certificate is the trial's own.
TRUSTING = [*chromium.SWITCHES, "--ignore-certificate-errors"]
LOGIN = "fetch('/login', { method: 'POST', body: new URLSearchParams({ name: 'alice', password: 'secret' }), redirect: 'manual' }).then(answer => answer.type)"


def place_of(lane, path):
    fragment = urllib.parse.urlencode({"port": lane.port, "name": "anna", "room": "lobby", "path": path})
    return f"https://localhost:{lane.port}/rooms.html#{fragment}"


def try_page(lane, browser):
    page = browser.open(place_of(lane, "/rooms/red"))
    lane.check("without a login the page is not connected", page.is_in("lost", 5), page.state())
    lane.same("it logs in", page.value(LOGIN), "opaqueredirect")
    lane.check("and is connected by itself, over wss", page.is_in("open", 20), page.state())
    lane.same("no script reads the cookie", page.value("document.cookie"), "")
    page.write("words", "hello")
    lane.check("what it says is receipted and heard", page.rows_come("hello", ["sent", "received", "receipted"]), page.states_of("hello"))
    lane.same("no exception was thrown", page.exceptions, [])
    other = browser.open(place_of(lane, "/rooms/blue"))
    lane.check("in the room of another group it is not connected", not other.is_in("open", 3), other.state())


def main():
    words = scenario.words_of(__doc__).parse_args()
    os.environ["PATH"] += ":/usr/sbin:/sbin"
    browser_path = next(filter(None, map(shutil.which, chromium.BROWSERS)), None)
    lacking = [it for it in ("nginx", "openssl") if shutil.which(it) is None] + ([] if browser_path else ["chromium"])
    if lacking:
        print(f"secure_page.py needs {' and '.join(lacking)}", file=sys.stderr)
        return 2
    chromium.SWITCHES = TRUSTING
    with tempfile.TemporaryDirectory(prefix="stompd-page-", ignore_cleanup_errors=True) as folder:
        base = pathlib.Path(folder)
        base.chmod(0o755)
        lanes.make_certificate(base)
        lane = lanes.Lane("page", base, pathlib.Path(words.program).resolve())
        try:
            lanes.start_cookie(lane, [], f"https://localhost:{lane.port}")
            browser = chromium.Browser(browser_path, str(base / "profile"))
            try:
                try_page(lane, browser)
            finally:
                browser.close()
        finally:
            lane.end()
    return lane.status()


if __name__ == "__main__":
    sys.exit(main())
