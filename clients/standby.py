#!/usr/bin/env python3
"""A standby: the broker is killed under load, its journal's file is copied, and a broker over the copy serves at another port.

    python3 clients/standby.py [PROGRAM] [--rounds N] [--early]

The copy stands for storage that is handed on after the first machine was fenced (docs/RUNNING.md, "A standby"). In each of three rounds every message
that had its receipt has to be there once, and one without may be there. In another three the journal lies on a file system of its own, on a file that
stands for a volume (a loop device): that file is copied while the file system is mounted, so that the copy has just what was written to the volume, as
the storage of a machine that was lost. It is mounted, and a broker serves there. That needs root and loop devices; if they are missing, it is told.

--early copies before the kill and sends on, as storage does that lags behind: then receipted messages are missing, and the script fails.
"""

import contextlib
import filecmp
import os
import pathlib
import shutil
import subprocess
import sys
import tempfile
import threading
import time

from lib import scenario
from lib.stomp_client import Client, Closed

SECONDS, SENDERS = 2, 4
# A small journal, since all of it is copied.
JOURNAL_BYTES = 67_108_896


def send_until_the_end(port, name, sent, receipted):
    """Sends one message after another, until the broker is gone."""
    client = Client(port).connect()
    try:
        for number in range(1_000_000):
            text = f"{name} {number}"
            sent.add(text)
            client.publish("/queue/jobs", text)
            receipted.add(text)
            # So that four senders send no more in two seconds than the broker keeps, 4,096.
            time.sleep(0.002)
    except (Closed, OSError):
        client.close()


def take_all(port, count):
    client = Client(port).connect()
    frames = client.subscribe("taker", "/queue/jobs")
    while len(frames) < count:
        frames.append(client.receive())
    client.disconnect()
    return [frame.body for frame in frames]


def count_held(broker):
    with os.popen(f"'{broker.program}' held '{broker.journal}'") as lines:
        return sum(int(line.split()[0]) for line in lines if line.endswith(" queue /queue/jobs\n"))


def load(broker, copy, is_early):
    """What was sent, and what of it was receipted, until the broker is killed; the copy is made then, or before."""
    sent, receipted = set(), set()
    senders = [threading.Thread(target=send_until_the_end, args=(broker.port, f"sender {it}", sent, receipted)) for it in range(SENDERS)]
    for sender in senders:
        sender.start()
    time.sleep(SECONDS / 2)
    if is_early:
        copy()
    time.sleep(SECONDS / 2)
    broker.kill()
    for sender in senders:
        sender.join()
    if not is_early:
        copy()
    return sent, receipted


def take_over(program, journal, sent, receipted, checks):
    """A broker over the copy."""
    standby = scenario.Broker(program, journal)
    try:
        found = take_all(standby.port, count_held(standby))
    finally:
        standby.kill()
    checks.check(f"each of {len(receipted)} receipted messages is there", receipted <= set(found), len(receipted - set(found)))
    checks.check("each once, and nothing that was not sent", len(found) == len(set(found)) and set(found) <= sent, len(found))
    checks.check("there was a load", len(receipted) > 20, len(receipted))


def hand_over(broker, checks, is_early):
    """A copy of the file."""
    copy = f"{broker.journal}.copy"
    sent, receipted = load(broker, lambda: shutil.copyfile(broker.journal, copy), is_early)
    take_over(broker.program, copy, sent, receipted, checks)
    os.unlink(copy)


@contextlib.contextmanager
def attached(volume, folder):
    """A volume, mounted. What was not synced is written after five minutes, and not while the volume is copied."""
    folder.mkdir()
    subprocess.run(["mount", "-o", "loop,commit=300", volume, folder], check=True)
    try:
        yield folder
    finally:
        subprocess.run(["umount", folder], check=True)


def copy_volume(volume, copy, folder, is_early):
    """The volume as it is at one moment. Under load its file system stands still meanwhile, which writes all that it has."""
    if is_early:
        subprocess.run(["fsfreeze", "--freeze", folder], check=True)
    try:
        while True:
            subprocess.run(["cp", "--sparse=always", volume, copy], check=True)
            if filecmp.cmp(volume, copy, shallow=False):
                return
    finally:
        if is_early:
            subprocess.run(["fsfreeze", "--unfreeze", folder], check=True)


def hand_over_volume(program, checks, is_early):
    """A copy of the volume on which the journal lies."""
    with tempfile.TemporaryDirectory(prefix="stompd-volumes-") as folder:
        base = pathlib.Path(folder)
        first, second = base / "first.volume", base / "second.volume"
        with open(first, "wb") as volume:
            volume.truncate(256 << 20)
        subprocess.run(["mkfs.ext4", "-q", "-F", first], check=True)
        with attached(first, base / "first") as here:
            subprocess.run([program, "format", here / "journal", str(JOURNAL_BYTES)], check=True, stderr=subprocess.DEVNULL)
            broker = scenario.Broker(program, here / "journal")
            sent, receipted = load(broker, lambda: copy_volume(first, second, here, is_early), is_early)
            with attached(second, base / "second") as there:
                take_over(program, there / "journal", sent, receipted, checks)


def has_volumes():
    tools = all(shutil.which(it) for it in ("mkfs.ext4", "losetup", "mount"))
    return tools and os.geteuid() == 0 and subprocess.run(["losetup", "--find"], capture_output=True).returncode == 0


def main():
    parser = scenario.words_of(__doc__)
    parser.add_argument("--rounds", type=int, default=3)
    parser.add_argument("--early", action="store_true", help="copy before the kill: has to fail")
    words = parser.parse_args()
    checks = scenario.Checks()
    # Debian has some of the tools in /usr/sbin, which is not on everybody's path.
    os.environ["PATH"] += ":/usr/sbin:/sbin"
    for _ in range(words.rounds):
        with scenario.serving(words.program, JOURNAL_BYTES) as broker:
            hand_over(broker, checks, words.early)
            broker.serve()
    if not has_volumes():
        checks.tell("no volumes were tried: that needs root, loop devices and mkfs.ext4")
        return 1 if checks.failed else 2
    for _ in range(words.rounds):
        hand_over_volume(words.program, checks, words.early)
    return checks.status()


if __name__ == "__main__":
    sys.exit(main())
