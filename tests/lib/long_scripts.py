"""The scripts of tests/scripts.py that are too long for a file: each is made here, with what it prints. Numbers are those of docs/PROTOCOL.md."""

import dataclasses
import string
import typing

END = "%0A%0A%00"
CONNECT = f"CONNECT%0Aaccept-version:1.2{END}"
FULL = "stompd: J4 journal full\n"
LONGEST_LINE, LONGEST_HEAD, LONGEST_BODY = 1_048_576, 8_192, 65_536


@dataclasses.dataclass(frozen=True)
class LongScript:
    """A script, which `make` gives with what it prints."""

    name: str
    rule: str
    make: typing.Callable[[], tuple[str, str]]
    err: str = ""
    status: int = 0


def lines(*them):
    return "".join(f"{it}\n" for it in them)


def connected(session, connection=0):
    return f"{connection} CONNECTED%0Aversion:1.2%0Asession:{session}%0Aheart-beat:0,0{END}"


def error(text, connection=0):
    return f"{connection} ERROR%0Amessage:{text}{END}"


def receipt(value, connection=0):
    return f"{connection} RECEIPT%0Areceipt-id:{value}{END}"


def send(body, destination="/queue/q", connection=0):
    return f"{connection} SEND%0Adestination:{destination}%0A%0A{body}%00"


TOO_LARGE, NOT_EXPECTED = "E2 frame too large", "E7 frame not expected here"
# What a new connection hears of a SEND that could be read.
IS_READ = error(NOT_EXPECTED)


def last_byte(front, byte):
    """A new connection gets a front, which is answered nothing, and the byte that is too much. Between them another one hears that its SEND may not come."""
    script = lines("lost 0", f"0 {front}", f"1 SEND{END}", "lost 1", f"0 {byte}")
    return script, lines(error(NOT_EXPECTED, 1), error(TOO_LARGE))


def both(*parts):
    return "".join(script for script, _ in parts), "".join(out for _, out in parts)


def bodies():
    longest = "x" * LONGEST_BODY
    fits = lines(f"0 SEND%0A%0A{longest}%00", "lost 0", f"0 SEND%0Acontent-length:65536%0A%0A{longest}%00"), lines(IS_READ, IS_READ)
    return both(fits, last_byte(f"SEND%0A%0A{longest}", "x"), last_byte("SEND%0Acontent-length:65537%0A", "%0A"))


def heads():
    """SEND, its LF, `a:`, a value, its LF and that of the empty line."""
    fits = lines(f"0 SEND%0Aa:{'a' * 8_183}{END}"), lines(IS_READ)
    return both(fits, last_byte(f"SEND%0Aa:{'a' * 8_184}%0A", "%0A"))


def endless_lines():
    """The limit of bytes comes before any other fault: a NUL there, and a line that has no colon."""
    ends = [last_byte("A" * LONGEST_HEAD, it) for it in ("A", "%00", "%0A")]
    return both(*ends, last_byte(f"SEND%0A{'a' * (LONGEST_HEAD - 5)}", "%0A"))


def million_ends():
    return lines(*["0 " + "%0A" * 250_000] * 4, f"0 {CONNECT}", "flush"), lines(connected(0))


def longest_line():
    return lines(f"0 {'a' * (LONGEST_LINE - 2)}"), lines(error(TOO_LARGE))


def longer_line():
    return lines("flush", f"0 {'a' * (LONGEST_LINE - 1)}"), ""


def long_message():
    headers = "%0Ak:v" * 60
    body = f"{headers}%0A%0A{'x' * 65_000}%00"
    script = lines(f"0 {CONNECT}", f"0 SUBSCRIBE%0Aid:s%0Adestination:/topic/t{END}", f"0 SEND%0Adestination:/topic/t{body}", "flush")
    return script, lines(connected(0), f"0 MESSAGE%0Asubscription:s%0Amessage-id:2.0%0Adestination:/topic/t%0Acontent-length:65000{body}")


def transactions_of_bytes():
    """A SEND to /queue/a takes 19 bytes of its transaction and those of its body: four of 65,536 bytes are as many as there may be."""
    begin, fourth = f"BEGIN%0Atransaction:t{END}", lambda size: f"SEND%0Adestination:/queue/a%0Atransaction:t%0A%0A{'x' * size}%00"
    fits, passes = fourth(65_536 - 19), fourth(65_536 - 18)
    script = lines(f"0 {CONNECT}", f"0 {begin}", *[f"0 {fits}"] * 4, f"0 COMMIT%0Atransaction:t%0Areceipt:c{END}")
    script += lines(f"1 {CONNECT}", f"1 {begin}", *[f"1 {fits}"] * 3, f"1 {passes}", "flush", "open")
    return script, lines(connected(0), receipt("c"), connected(2, 1), error("E17 transaction too large", 1), "open 4 4")


def held_messages():
    """With 4,095 held there is room for one copy, and not for those of two subscriptions."""
    subscribe = [f"1 SUBSCRIBE%0Aid:{it}%0Adestination:/topic/t{END}" for it in "ab"]
    script = lines(f"0 {CONNECT}", f"1 {CONNECT}", *[send("")] * 4_095, *subscribe, send("", "/topic/t", 1), send(""), send(""), "flush", "open")
    return script, lines(connected(0), connected(1, 1), error("E12 no room for the message", 1), error("E12 no room for the message"), "open 4102 4096")


def durable_names():
    """16 clients with 16 names each, to whose topic one message goes; and a client who wants one name more."""
    letters = string.ascii_lowercase[:16]
    connect = lambda connection, client: f"{connection} CONNECT%0Aaccept-version:1.2%0Aclient-id:{client}{END}"
    subscribe = lambda connection, it: f"{connection} SUBSCRIBE%0Aid:{it}%0Adestination:/topic/t%0Aack:client%0Aactivemq.subscriptionName:{it}{END}"
    script = "".join(lines(connect(at, client), *[subscribe(at, it) for it in letters]) for at, client in enumerate(letters))
    script += lines(f"16 {CONNECT}", send("hi", "/topic/t", 16), connect(17, "q"), subscribe(17, "a"), "flush", "open")
    sent = "%0Amessage-id:273.0%0Adestination:/topic/t%0Aack:"
    message = lambda at, place: f"{at} MESSAGE%0Asubscription:{letters[place]}{sent}{16 * at + place}%0Acontent-length:2%0A%0Ahi%00"
    out = lines(*[connected(17 * at, at) for at in range(17)], *[message(at, place) for at in range(16) for place in range(16)])
    return script, out + lines(connected(274, 17), error("E18 too many subscriptions or transactions", 17), "open 276 256")


def waiting_commands():
    """Sessions have the numbers of their connections."""
    sends = [f"{at} SEND%0Adestination:/queue/q%0Areceipt:r%0A%0Ax%00" for at in range(64)]
    script = lines(*[f"{at} {CONNECT}" for at in range(64)], *sends * 15, "flush", "open")
    return script, lines(*[connected(at, at) for at in range(64)], *[receipt("r", at) for at in range(64)] * 15, "open 1024 960")


def batches(fourth, calls, opened):
    """The record of a CONNECT has 11 bytes, and those of messages 28 and their bodies: the first five have 196,638 bytes and the fourth body."""
    sends = [send("x" * size) for size in (65_505, 65_505, 65_505, fourth, 65_536)]
    return lambda: (lines(f"0 {CONNECT}", *sends, f"crash {calls}", "open"), lines(opened))


def last_body(size, then, out=""):
    """Each area has 1,048,576 bytes: 41 of its snapshot and first gate, and 20 of the block of a CONNECT. The block of a message has 37 and its body,
    counting the closed gate after it and not the one before. After 15 messages of 65,536 bytes 64,920 bytes are left: a body of 64,883 has room.

    With one byte more the journal is compacted first. The snapshot of a session and a queue has 57 bytes, 30 more for each message and its body, and 9 of
    length and gate. That makes 983,556, so a body of 64,983 has room after it, and no longer one."""
    longest = lines(send("x" * LONGEST_BODY), "flush")
    return lambda: (lines(f"0 {CONNECT}", "flush") + longest * 15 + lines(send("x" * size)) + then, lines(connected(0)) + out)


def full_journal(end):
    """15 messages of 65,000 bytes fit into the area. One more fits after a fresh snapshot of them, and no other one after that of 16."""
    return lambda: (lines(f"0 {CONNECT}", *[send("x" * 65_000)] * 23, end), lines(connected(0)))


def done_messages():
    """48 messages of 65,000 bytes that nobody hears are three times what an area has room for, and nothing of them is held."""
    return lines(f"0 {CONNECT}", *[send("x" * 65_000, "/topic/t")] * 48, "flush", "open"), lines(connected(0), "open 49 0")


# A compaction of 983,556 bytes makes 16 writes and a sync, and the switch another write and sync; then come the four calls of a block.
CALLS_OF_A_BLOCK, CALLS_WITH_COMPACTION = 4, 16 + 1 + 2 + 4

LONG_SCRIPTS = [
    LongScript(
        "limits/a_body_has_at_most_65536_bytes",
        "A body has at most 65,536 bytes: the next is refused, and so is a greater length at the empty line.",
        bodies,
    ),
    LongScript(
        "limits/a_head_has_at_most_8192_bytes",
        "A command line and its headers have at most 8,192 bytes, up to the end of the empty line.",
        heads,
    ),
    LongScript(
        "limits/a_line_without_end_is_refused_at_its_byte",
        "The byte after the 8,192nd of a head is too much, whatever it is.",
        endless_lines,
    ),
    LongScript("limits/a_million_ends_of_lines_say_nothing", "Any number of ends of lines may stand before a frame.", million_ends),
    LongScript("limits/a_line_of_a_script_has_1048576_bytes", "A line of a script has at most 1,048,576 bytes without its end.", longest_line),
    LongScript(
        "limits/a_longer_line_of_a_script_is_not_understood",
        "A longer line of a script is not understood.",
        longer_line, "stompd: line 2 not understood\n", 1,
    ),
    LongScript(
        "limits/a_long_message_of_many_headers_is_delivered_whole",
        "A message of 65,000 bytes and 60 headers is delivered whole.",
        long_message,
    ),
    LongScript("limits/a_transaction_has_at_most_262144_bytes", "The members of a transaction have at most 262,144 bytes.", transactions_of_bytes),
    LongScript(
        "limits/no_more_than_4096_messages_are_held",
        "At most 4,096 messages are held: each copy of a message counts before any is handed out.",
        held_messages,
    ),
    LongScript(
        "limits/no_more_than_256_durable_names_are_bound",
        "At most 256 durable names are bound, and a message to their topic reaches all.",
        durable_names,
    ),
    LongScript(
        "limits/each_of_64_connections_has_sixteen_commands_wait",
        "64 connections may have 16 commands each wait for a flush.",
        waiting_commands,
    ),
    LongScript(
        "crash/a_batch_below_262144_bytes_takes_another_command",
        "A batch whose bytes are below 262,144 takes another command: a crash within it loses all.",
        batches(65_505, 3, "open 0 0"),
    ),
    LongScript(
        "crash/a_batch_of_six_commands_is_whole",
        "After the four calls of that batch all six commands are there.",
        batches(65_505, 4, "open 6 5"),
    ),
    LongScript(
        "crash/a_batch_of_262144_bytes_takes_no_other_command",
        "A batch of 262,144 bytes takes no other command: four calls store the first five.",
        batches(65_506, 4, "open 5 4"),
    ),
    LongScript("crash/the_command_after_a_full_batch_is_in_the_next", "The next four calls store the sixth.", batches(65_506, 8, "open 6 5")),
    LongScript(
        "limits/the_last_byte_of_an_area_is_written",
        "A block whose last byte is that of its area is stored.",
        last_body(64_883, "flush\nopen\n", "open 17 16\n"),
    ),
    LongScript(
        "crash/a_block_that_fits_takes_four_calls",
        "A block that fits is stored without a compaction.",
        last_body(64_883, f"crash {CALLS_OF_A_BLOCK}\nopen\n", "open 17 16\n"),
    ),
    LongScript(
        "limits/a_journal_without_room_is_compacted_first",
        "If a block does not fit, the journal is compacted first.",
        last_body(64_884, "flush\nopen\n", "open 17 16\n"),
    ),
    LongScript(
        "crash/a_compaction_that_stops_loses_nothing_stored",
        "A crash within a compaction leaves what was stored before.",
        last_body(64_884, f"crash {CALLS_OF_A_BLOCK}\nopen\n", "open 16 15\n"),
    ),
    LongScript(
        "crash/a_block_after_a_compaction_may_be_lost",
        "A crash at the last call of the block after a compaction loses that block.",
        last_body(64_884, f"crash {CALLS_WITH_COMPACTION - 1} 00\nopen\n", "open 16 15\n"),
    ),
    LongScript(
        "crash/a_block_after_a_compaction_is_stored",
        "After the last call of the block after a compaction it is there.",
        last_body(64_884, f"crash {CALLS_WITH_COMPACTION}\nopen\n", "open 17 16\n"),
    ),
    LongScript(
        "limits/the_last_byte_after_a_compaction_is_written",
        "After a compaction a block may fill its area.",
        last_body(64_983, "flush\nopen\n", "open 17 16\n"),
    ),
    LongScript(
        "limits/a_block_that_does_not_fit_even_then_ends_the_script",
        "If a block doesn't fit even after a compaction, the journal is full.",
        last_body(64_984, "flush\nopen\n"), FULL, 1,
    ),
    LongScript("restart/a_script_goes_on_over_a_journal_full_of_what_is_done", "What nobody has to hear takes no room for long.", done_messages),
    LongScript(
        "limits/a_full_journal_ends_the_script",
        "A full journal ends the script, and nothing of that flush is printed.",
        full_journal("flush"), FULL, 1,
    ),
    LongScript(
        "limits/a_crash_over_a_full_journal_ends_the_script",
        "A crash of more calls than a full journal can make ends the script too.",
        full_journal("crash 99"), FULL, 1,
    ),
    LongScript("crash/a_crash_before_the_journal_is_full_is_one", "A crash at the first call of the compaction is a crash.", full_journal("crash 0")),
]
