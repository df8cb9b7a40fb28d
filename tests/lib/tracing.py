"""The program under strace, and a device that is played from what that has seen."""

import pathlib
import re
import shutil
import sys

PAGE = 4_096
# What may stand in the place of bytes that were written and not synced.
FILLS = (b"\0", b"\xff", b"\1", bytes(range(2, 251)))

WRITE = re.compile(r'pwrite64\((\d+), "((?:\\x[0-9a-f]{2})*)", \d+, (\d+)\)')
SYNC = re.compile(r"(?:fdatasync|fsync)\((\d+)\) += (0|-1)")


def need_strace():
    """Ends the script if there is no strace."""
    if shutil.which("strace") is None:
        print(f"{pathlib.Path(sys.argv[0]).stem}: strace is missing", file=sys.stderr)
        sys.exit(2)


def strace(trace, calls, *injected, path=None, has_texts=False):
    """The words before those of a program whose calls are traced, only those of that path if it is given, and with faults injected into them. Calls are counted
    from 1 for each name, and in each thread by itself: the main one makes all those of the journal."""
    words = ["strace", "-f", "-o", trace, "-e", f"trace={calls}"]
    words += ["-P", path] if path else []
    words += ["-xx", "-s", "1000000"] if has_texts else []
    return words + [part for it in injected for part in ("-e", f"inject={it}")]


def text_of(trace):
    return pathlib.Path(trace).read_text(encoding="ascii", errors="replace")


def bytes_of(escaped):
    return bytes.fromhex(escaped.replace("\\x", ""))


class Device:
    """What the system has in memory of a file, and what the device has of it, page by page."""

    def __init__(self, content=b""):
        self.cache, self.stable, self.dirty = bytearray(content), bytearray(content), []
        # The ranges that were written since the last sync.
        self.ranges = []

    def size(self, count):
        for content in (self.cache, self.stable):
            content[count:] = b""
            content.extend(bytes(count - len(content)))

    def write(self, data, at):
        self.cache[at : at + len(data)] = data
        self.dirty += [page for page in range(at // PAGE, (at + len(data) - 1) // PAGE + 1) if page not in self.dirty]
        self.ranges.append((at, len(data)))

    def sync(self, succeeds=True):
        """After one that failed the system takes its pages for written."""
        if succeeds:
            self.give(self.stable, self.dirty)
        self.dirty, self.ranges = [], []

    def give(self, content, pages):
        for page in pages:
            content[page * PAGE : (page + 1) * PAGE] = self.cache[page * PAGE : (page + 1) * PAGE]

    def losses(self):
        """What it may hold after a loss of power: none, the first half, the second half or all of what was written since the last sync."""
        half = len(self.dirty) // 2
        for pages in ([], self.dirty[:half], self.dirty[half:], self.dirty):
            content = bytearray(self.stable)
            self.give(content, pages)
            yield bytes(content)

    def torn(self):
        """The same, and with any bytes in the place of what was written since the last sync."""
        for content in self.losses():
            yield content
            for fill in FILLS if self.ranges else ():
                torn = bytearray(content)
                for at, count in self.ranges:
                    torn[at : at + count] = (fill * (count // len(fill) + 1))[:count]
                yield bytes(torn)
