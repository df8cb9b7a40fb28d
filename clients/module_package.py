#!/usr/bin/env python3
"""The npm package of examples/stompd.mjs that bin/release makes: npm installs it, Node imports it by its name, tsc finds its types, and its hooks for React
run in headless Chromium.

    python3 clients/module_package.py [PROGRAM]

Needs npm, Node 20, Debian's node-typescript, node-react, node-react-dom and Chromium; if one is missing it tries the rest, and ends with status 2.
"""

import importlib.machinery
import importlib.util
import json
import pathlib
import shutil
import subprocess
import sys
import tarfile
import tempfile

from browser import serving_files
from chromium import BROWSERS, Browser
from lib import scenario
from lib.stomp_client import Client
from module import node_words
from module_types import STRICT

REACT = [pathlib.Path(f"/usr/share/nodejs/{it}/umd/{it}.development.js") for it in ("react", "react-dom")]
VERSION = "stompd 1.2.3+git0123456789ab, given"

USES = """import { connect, StompdError, type Client } from "stompd";
import { useMessages } from "stompd/react";
const client: Client = connect("ws://127.0.0.1:1");
const texts: string[] = useMessages(client, "/topic/room", { most: 5 }).map(({ body }) => body);
export { StompdError, texts };
"""
# A page with the hook, whose React is that of Debian.
PAGE = """<!doctype html><div id="root"></div>
<script src="react.development.js"></script><script src="react-dom.development.js"></script>
<script type="importmap">{ "imports": { "react": "./react-shim.mjs", "stompd": "./package/stompd.mjs", "stompd/react": "./package/react.mjs" } }</script>
<script type="module">
import { connect } from "stompd";
import { useMessages } from "stompd/react";
globalThis.client = connect(location.hash.slice(1));
const Room = () => React.createElement("ol", null, useMessages(client, "/topic/room", { most: 3 }).map(it => React.createElement("li", { key: it.headers["message-id"] }, it.body)));
globalThis.root = ReactDOM.createRoot(document.getElementById("root"));
root.render(React.createElement(React.StrictMode, null, React.createElement(Room)));
</script>
"""
SHIM = "export const { useEffect, useReducer, useRef } = globalThis.React;\n"


def release():
    """bin/release as a module."""
    loader = importlib.machinery.SourceFileLoader("release", str(scenario.TOP / "bin" / "release"))
    module = importlib.util.module_from_spec(importlib.util.spec_from_loader("release", loader))
    loader.exec_module(module)
    return module


def run(folder, *words):
    ended = subprocess.run([str(it) for it in words], cwd=folder, capture_output=True, text=True, timeout=180)
    return ended.returncode, ended.stdout, ended.stderr


def by_npm(package, folder, checks):
    """What npm makes of the same files, and of the package."""
    status, listed, told = run(scenario.TOP / "examples", "npm", "pack", "--dry-run", "--json", "--offline")
    checks.same("npm packs these files", status, 0)
    with tarfile.open(package) as archive:
        names = {it.name.removeprefix("package/") for it in archive}
        described = json.load(archive.extractfile("package/package.json"))
    checks.same("the package has the same", names, {it["path"] for it in json.loads(listed)[0]["files"]})
    checks.same("and the program's version", described["version"], "1.2.3+git0123456789ab")
    (folder / "package.json").write_text('{ "name": "app", "private": true, "type": "module" }', encoding="utf-8")
    checks.same("npm installs it", run(folder, "npm", "install", "--offline", "--no-audit", "--no-fund", "--legacy-peer-deps", package)[0], 0)


def in_node(folder, broker, checks):
    node, ws = node_words()
    load = f"globalThis.WebSocket = (await import({json.dumps(str(ws[0]))})).default;\n" if ws else ""
    lines = f'import {{ connect }} from "stompd";\n{load}const client = connect("ws://127.0.0.1:{broker.port}");\nawait client.send("/queue/package", "hello");\nawait client.close();\n'
    (folder / "app.mjs").write_text(lines, encoding="utf-8")
    checks.same("Node imports it by its name", run(folder, *node, "app.mjs")[::2], (0, ""))
    reader = Client(broker.port).connect()
    checks.same("and sends with it", [frame.body for frame in reader.subscribe("r", "/queue/package")], ["hello"])
    reader.disconnect()


def in_react(folder, broker, checks):
    for it in REACT:
        shutil.copy(it, folder)
    shutil.copytree(folder / "node_modules" / "stompd", folder / "package")
    (folder / "react-shim.mjs").write_text(SHIM, encoding="utf-8")
    (folder / "page.html").write_text(PAGE, encoding="utf-8")
    server, browser = serving_files(folder), Browser(next(filter(None, map(shutil.which, BROWSERS))), str(folder))
    try:
        page = browser.open(f"http://127.0.0.1:{server.server_address[1]}/page.html#ws://127.0.0.1:{broker.port}/")
        ready = "globalThis.client?.session && [...document.querySelectorAll('#root ol')].length == 1"
        checks.check("a component is there", page.comes(ready), page.exceptions)
        sender = Client(broker.port).connect()
        page.value("client.send('/topic/none', 'the subscription is there')")
        for text in ("a", "b", "c", "d"):
            sender.publish("/topic/room", text)
        shown = "[...document.querySelectorAll('li')].map(it => it.textContent).join()"
        checks.check("it shows the last messages, once each", page.comes(f"{shown} == 'b,c,d'"), page.value(shown))
        page.value("root.unmount(); client.send('/topic/none', 'the subscription has ended')")
        held = subprocess.run([broker.program, "sessions", broker.journal], capture_output=True, text=True).stdout
        checks.check("and ends its subscription", "/topic/room" not in held, held)
        checks.same("no exception was thrown", page.exceptions, [])
        sender.disconnect()
    finally:
        server.shutdown()
        browser.close()


def main():
    words, checks = scenario.words_of(__doc__).parse_args(), scenario.Checks()
    lacking = [it for it in ("npm", "node", "tsc") if shutil.which(it) is None]
    if lacking:
        print(f"module_package: {' and '.join(lacking)} must be there")
        return 2
    has_react = all(it.exists() for it in REACT) and any(map(shutil.which, BROWSERS))
    with tempfile.TemporaryDirectory(prefix="stompd-npm-", ignore_cleanup_errors=True) as name, scenario.serving(words.program) as broker:
        folder, (file, packed) = pathlib.Path(name), release().package_for_npm(VERSION)
        (folder / file).write_bytes(packed)
        by_npm(folder / file, folder, checks)
        in_node(folder, broker, checks)
        (folder / "uses.mts").write_text(USES, encoding="utf-8")
        checks.same("tsc finds its types", run(folder, "tsc", *STRICT, "--noEmit", "uses.mts")[:2], (0, ""))
        if has_react:
            in_react(folder, broker, checks)
    if checks.status():
        return 1
    if not has_react:
        print("module_package: the hooks were not tried: Chromium, node-react or node-react-dom is missing")
    return 0 if has_react else 2


if __name__ == "__main__":
    sys.exit(main())
