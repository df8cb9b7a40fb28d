#!/usr/bin/env python3
"""Takes the file of a running server's journal away, or puts another in its place, and looks what the server does.

    python3 tests/program/replaced_journal.py [PROGRAM]

The file is moved away, removed, replaced by its copy, renamed over, overwritten in place, and cut: at rest and under load. Each time

- the server ends within two seconds, with status 1, and its last line says which it was;
- its clients are closed with 1001;
- what had a receipt stands in the file that was open, as far as that can still be read;
- the file at the path is as it was put there.

A copy that is older than the server's last write is noticed, be its header the same or not. So is a file behind a link, and a link that leads
elsewhere. What is sent right after it has no receipt.
"""

import concurrent.futures
import os
import pathlib
import shutil
import subprocess
import sys
import tempfile
import threading
import time

from lib.commands import held_or_fault
from lib.scenario import Broker, Checks, make_journal, program_of
from lib.stomp_client import Client, Closed

# Two areas of 64 KiB.
JOURNAL_BYTES = 32 + 2 * 65_536
QUEUE = "/queue/kept"
# Two seconds, and as much again on a busy machine.
PATIENCE = 4
BEFORE = 5

REMOVED, REPLACED = "the file was removed", "the file was replaced"
CUT, OVERWRITTEN = "the file was cut", "the file was overwritten"


# How many servers run side by side: most of the time is waiting.
SIDE_BY_SIDE = 6


class Server:
    """A server over a new journal with some messages, at rest or with a client that goes on sending."""

    def __init__(self, program, folder, is_busy, link=None):
        self.program, self.folder, self.journal = program, folder, folder / "journal"
        make_journal(program, self.journal, JOURNAL_BYTES)
        if link:
            link.parent.mkdir()
            link.symlink_to(self.journal)
        # An earlier life, and a backup from its end: the selector of its header is another one.
        Broker(program, self.journal).kill()
        self.backup = folder / "backup"
        shutil.copy(self.journal, self.backup)
        self.broker = Broker(program, link or self.journal)
        # The file that the server has open, whatever becomes of its names.
        self.file = open(self.journal, "rb")
        self.receipted = 0
        self.code = None
        self.others = []
        self.client = Client(self.broker.port, timeout=30).connect()
        for _ in range(BEFORE):
            self.publish()
        self.talks = threading.Thread(target=self.talk, args=(is_busy,))
        self.talks.start()
        # Its last turn, which syncs, is over.
        time.sleep(0.3)

    def publish(self):
        self.client.publish(QUEUE, f"{self.receipted}")
        self.receipted += 1

    def talk(self, is_busy):
        """Sends on, a message at a time, or only listens, up to the close."""
        try:
            # A quarter of an area, so that it is not compacted.
            while is_busy and self.receipted < 200:
                self.publish()
                time.sleep(0.01)
            self.code = self.client.to_the_end()[1]
        except Closed as closed:
            self.code = closed.code
        except ConnectionError:
            self.code = 0

    def end(self):
        """The status and the last line once it has ended, and for how many seconds it ran on. It is killed if it runs too long."""
        begun = time.monotonic()
        try:
            status = self.broker.await_end(PATIENCE)
        except subprocess.TimeoutExpired:
            status = None
        seconds = time.monotonic() - begun
        self.broker.kill()
        self.talks.join()
        return status, (self.broker.text().splitlines() or [""])[-1], seconds

    def held_in_open_file(self):
        """How many messages the file that was open holds."""
        seen = self.folder / "seen"
        self.file.seek(0)
        seen.write_bytes(self.file.read())
        return held_or_fault(self.program, seen)

    def close(self):
        self.file.close()
        for client in (self.client, *self.others):
            client.close()


def moved_away(server):
    os.rename(server.journal, server.folder / "journal.old")


def moved_elsewhere(server):
    (server.folder / "elsewhere").mkdir()
    os.rename(server.journal, server.folder / "elsewhere" / "journal")


def folder_moved(server):
    os.rename(server.folder, f"{server.folder}.moved")
    server.folder = pathlib.Path(f"{server.folder}.moved")


def removed(server):
    os.remove(server.journal)


def removed_beside_others(server):
    """Other files of the folder come and go before and after it, within a tick of the system's clock."""
    others = [server.folder / f"{number}" for number in range(50)]
    for it in others:
        it.touch()
    os.remove(server.journal)
    for it in others:
        it.unlink()


def replaced_by_its_copy(server):
    os.rename(server.journal, server.folder / "journal.old")
    shutil.copy(server.folder / "journal.old", server.folder / "journal.copy")
    os.rename(server.folder / "journal.copy", server.journal)


def renamed_over(server):
    shutil.copy(server.backup, server.folder / "new")
    os.rename(server.folder / "new", server.journal)


def removed_under_another_name(server):
    """The file keeps a name, but not its own."""
    os.link(server.journal, server.folder / "other-name")
    os.remove(server.journal)


def written_over(path, content):
    with open(path, "r+b") as file:
        file.write(content)


def overwritten_by_a_backup(server):
    written_over(server.journal, server.backup.read_bytes())


def overwritten_by_a_recent_copy(server):
    """The copy has the same header, and lacks the last message. Its client stays, so that nothing is written after that message."""
    content = server.journal.read_bytes()
    server.others.append(Client(server.broker.port, timeout=30).connect())
    server.others[-1].publish(QUEUE, "the last")
    written_over(server.journal, content)


def overwritten_by_zeros(server):
    written_over(server.journal, bytes(JOURNAL_BYTES))


def truncated(server):
    os.truncate(server.journal, 4_096)


def emptied(server):
    os.truncate(server.journal, 0)


def copied_over(server):
    """As `cp backup journal`, which empties the file first and then fills it."""
    shutil.copyfile(server.backup, server.journal)


# What is only done at rest: under load the server may be about to write, after it has looked.
AT_REST = {overwritten_by_a_recent_copy}

# What is done, the causes that may be told, whether a link leads to the file, and whether what was stored can still be read.
LOSSES = [
    (moved_away, {REMOVED}, False, True),
    (moved_elsewhere, {REMOVED}, False, True),
    (folder_moved, {REMOVED}, False, True),
    (removed, {REMOVED}, False, True),
    (removed_under_another_name, {REMOVED}, False, True),
    # Between the two renames the path names nothing.
    (replaced_by_its_copy, {REPLACED, REMOVED}, False, True),
    (renamed_over, {REPLACED}, False, True),
    (overwritten_by_a_backup, {OVERWRITTEN}, False, False),
    (overwritten_by_a_recent_copy, {OVERWRITTEN}, False, False),
    (overwritten_by_zeros, {OVERWRITTEN}, False, False),
    (truncated, {CUT}, False, False),
    (emptied, {CUT}, False, False),
    # A look may come before the file is filled again.
    (copied_over, {OVERWRITTEN, CUT}, False, False),
    (moved_away, {REMOVED}, True, True),
    (renamed_over, {REPLACED}, True, True),
]


def lose(program, folder, checks, loss, is_busy):
    loses, causes, by_link, is_readable = loss
    what = f"{loses.__name__.replace('_', ' ')}{' behind a link' if by_link else ''}, {'under load' if is_busy else 'at rest'}"
    server = Server(program, folder, is_busy, folder / "links" / "link" if by_link else None)
    loses(server)
    status, line, seconds = server.end()
    checks.check(f"{what}: the server ends by itself", status == 1 and seconds < PATIENCE, (status, line, seconds))
    checks.check(f"{what}: and says why", line in {f"stompd: J3 device failed: {cause}" for cause in causes}, line)
    checks.check(f"{what}: its client is closed", server.code == 1001, server.code)
    if is_readable:
        there = server.held_in_open_file()
        checks.check(f"{what}: each message with a receipt is in the file that was open", there >= server.receipted, (there, server.receipted))
    server.close()


def link_led_elsewhere(program, folder, checks):
    """The link by which the server has opened its journal leads to another file."""
    server = Server(program, folder, False, folder / "links" / "link")
    os.remove(folder / "links" / "link")
    (folder / "links" / "link").symlink_to(server.backup)
    before = server.backup.read_bytes()
    status, line, _ = server.end()
    checks.same("a link is led elsewhere: status and last line", (status, line), (1, f"stompd: J3 device failed: {REPLACED}"))
    checks.same("and the other file is as it was", server.backup.read_bytes() == before, True)
    server.close()


def header_before_a_compaction(program, folder, checks):
    """The header is changed while the server stores blocks so fast that it is compacted before a second is over: the selector isn't written."""
    server = Server(program, folder, False)
    written_over(server.journal, b"STOMPJ02")
    with open(server.journal, "r+b") as file:
        file.seek(31)
        file.write(b"x")
    with open(server.journal, "rb") as file:
        header = file.read(32)
    body = "y" * 4_000
    try:
        client = Client(server.broker.port, timeout=30).connect()
        for _ in range(100):
            client.publish("/topic/nobody", body)
    except (Closed, ConnectionError):
        pass
    status, line, _ = server.end()
    checks.same("a header that was changed: status and last line", (status, line), (1, f"stompd: J3 device failed: {OVERWRITTEN}"))
    with open(server.journal, "rb") as file:
        checks.same("a header that was changed: it is left so", file.read(32), header)
    server.close()


def header_at_rest(program, folder, checks):
    """One byte of the header is changed, and nothing is written after that."""
    server = Server(program, folder, False)
    with open(server.journal, "r+b") as file:
        file.seek(31)
        file.write(b"x")
    status, line, _ = server.end()
    checks.same("a header that was changed at rest: status and last line", (status, line), (1, f"stompd: J3 device failed: {OVERWRITTEN}"))
    server.close()


def sent_after_it(program, folder, checks, loses):
    """The next block is asked for at once, before the server looks by itself: it is not receipted."""
    what = f"{loses.__name__.replace('_', ' ')}, and a SEND at once"
    server = Server(program, folder, False)
    sender = Client(server.broker.port, timeout=30).connect()
    sender.publish(QUEUE, "before")
    loses(server)
    try:
        heard = sender.publish(QUEUE, "after")
    except (Closed, ConnectionError):
        heard = None
    checks.same(f"{what}: it has no receipt", heard, None)
    checks.same(f"{what}: the server ends by itself", server.end()[0], 1)
    sender.close()
    server.close()


def nothing_lost(program, folder, checks):
    """Files come and go beside the journal, it gets a second name, and its times and mode change:
    the server goes on."""
    server = Server(program, folder, False)
    for number in range(200):
        (folder / f"{number}").touch()
        os.remove(folder / f"{number}")
    os.link(server.journal, folder / "second")
    os.utime(server.journal, (0, 0))
    os.chmod(server.journal, 0o640)
    time.sleep(2.5)
    checks.check("a journal beside which files come and go is served on", server.broker.is_running(), server.broker.process.poll())
    server.broker.kill()
    server.close()


def main():
    program, checks = program_of(__doc__), Checks()
    tasks = [(lose, loss, is_busy) for loss in LOSSES for is_busy in (False, True) if not (is_busy and loss[0] in AT_REST)]
    tasks += [(link_led_elsewhere,), (header_before_a_compaction,), (header_at_rest,), (nothing_lost,)]
    tasks += [(sent_after_it, loses) for loses in (removed, removed_beside_others, renamed_over, truncated, overwritten_by_a_backup)]
    with tempfile.TemporaryDirectory(prefix="replaced-") as name:
        top = pathlib.Path(name).resolve()

        def run(number):
            (top / f"{number}").mkdir()
            task, *more = tasks[number]
            task(program, top / f"{number}", checks, *more)

        with concurrent.futures.ThreadPoolExecutor(SIDE_BY_SIDE) as pool:
            list(pool.map(run, range(len(tasks))))
    return checks.status()


if __name__ == "__main__":
    sys.exit(main())
