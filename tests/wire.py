#!/usr/bin/env python3
"""Computes anew what `crates/wire_tests` must print of the bytes in its file stdin, by the rules of docs/PROTOCOL.md alone.

Usage: tests/wire.py [--write]

Compares the answers with the file stdout; the last line is 'wire: N lines, M differ', and the exit status is 1 where any does. With --write
it puts lines of its own behind the hand-written ones of stdin, and writes stdout."""
import random
import sys

sys.dont_write_bytecode = True
from encoding import ERRORS, frame, number, text, varint
from table import Table

AT_RANDOM = "# cut and changed at random"
OF_TABLES = "# made at random of the tables"
CHANGES = 6  # of a line
MADE = 20  # lines of a table, and of streams
LONGEST_CHANGED = 400  # characters of a line that is changed

LONG_FRAMES = [  # these too stand behind what is written by hand, since `tests/allocations` would try them for long
    "# long frames of a type that isn't served", "# - byte by byte, without their last byte and whole", "long 1 000186a0000000020803 99993",
    "long 1 000186a0000000020803 99994", "# - a frame of the largest size, so too", "long 65536 00500000000000020803 5242873",
    "long 65536 00500000000000020803 5242874", "# - bytes behind it, of which the fourth tells a size that is too large",
    "long 1000 00001000000000020803 4093", "long 1000 00001000000000020803 4094"]

LARGEST_FRAME = 5_242_880
LARGEST_FIELD = 536_870_911
VARINT, FIXED64, BYTES, FIXED32 = 0, 1, 2, 5
PING = 18

UNREADABLE = "the command can't be read"
MISSING = "the command of this type is missing"
TOO_LARGE = "the frame is larger than 5242880 bytes"
BAD_SIZES = "the sizes of the frame don't agree"
BAD_PAYLOAD = "the part behind the command can't be read"


class Fault(Exception):
    """Why something can't be read; its text is the fault's."""


# Fields


def take_varint(content, at):
    """The number of the varint at a place, and the place behind it."""
    value = 0
    for count in range(10):
        if at + count >= len(content):
            raise Fault("Cut")
        group = content[at + count]
        value += group % 128 << 7 * count
        if group < 128:
            if value >= 2**64:
                raise Fault("TooLong")
            return value, at + count + 1
    raise Fault("TooLong")


def take(content, at, size):
    """So many bytes at a place, and the place behind them."""
    if size > len(content) - at:
        raise Fault("Cut")
    return content[at:at + size], at + size


def take_field(content, at):
    """The number, the wire type and the value of the field at a place, and the place behind it."""
    tag, at = take_varint(content, at)
    field, wire = divmod(tag, 8)
    if not 1 <= field <= LARGEST_FIELD:
        raise Fault("BadTag")
    if wire not in (VARINT, FIXED64, BYTES, FIXED32):
        raise Fault("BadWire")
    if wire == VARINT:
        value, at = take_varint(content, at)
    elif wire == BYTES:
        size, at = take_varint(content, at)
        value, at = take(content, at, size)
    else:
        part, at = take(content, at, 8 if wire == FIXED64 else 4)
        value = int.from_bytes(part, "little")
    return (field, wire, value), at


def fields_of(content):
    """The fields up to the end or to a fault, and the fault's name."""
    fields, at = [], 0
    while at < len(content):
        try:
            field, at = take_field(content, at)
        except Fault as fault:
            return fields, str(fault)
        fields.append(field)
    return fields, None


# Tables: for each known field its name, its number, its kind, and its default

REQUIRED = object()  # the default of a field with a star


def one_of(*names):
    return ("enum", names)


MESSAGE_ID = [("ledger_id", 1, "u64", REQUIRED), ("entry_id", 2, "u64", REQUIRED), ("partition", 3, "i32", -1), ("batch_index", 4, "i32", -1),
              ("has_ack_set", 5, "there", False)]
RANGE = [("start", 1, "i32", REQUIRED), ("end", 2, "i32", REQUIRED)]
KEY_SHARED = [("mode", 1, one_of("AutoSplit", "Sticky"), REQUIRED), ("ranges", 3, ("repeated", RANGE), None)]
METADATA = [("producer_name", 1, "str", REQUIRED), ("sequence_id", 2, "u64", REQUIRED), ("publish_time", 3, "u64", REQUIRED),
            ("partition_key", 6, "str", None), ("compression", 8, "u64", 0), ("num_messages_in_batch", 11, "i32", 1), ("ordering_key", 18, "bytes", None),
            ("deliver_at_time", 19, "i64", None)]
CONNECT = [("client_version", 1, "str", REQUIRED), ("protocol_version", 4, "i32", 0)]
SUBSCRIBE = [("topic", 1, "str", REQUIRED), ("subscription", 2, "str", REQUIRED),
             ("kind", 3, one_of("Exclusive", "Shared", "Failover", "KeyShared"), REQUIRED), ("consumer_id", 4, "u64", REQUIRED),
             ("request_id", 5, "u64", REQUIRED), ("durable", 8, "bool", True), ("start", 9, ("message", MESSAGE_ID), None),
             ("initial", 13, one_of("Latest", "Earliest"), "Latest"), ("key_shared", 17, ("message", KEY_SHARED), None)]
PRODUCER = [("topic", 1, "str", REQUIRED), ("producer_id", 2, "u64", REQUIRED), ("request_id", 3, "u64", REQUIRED), ("name", 4, "str", None)]
SEND = [("producer_id", 1, "u64", REQUIRED), ("sequence_id", 2, "u64", REQUIRED), ("num_messages", 3, "i32", 1)]
ACK = [("consumer_id", 1, "u64", REQUIRED), ("kind", 2, one_of("Individual", "Cumulative"), REQUIRED), ("ids", 3, ("repeated", MESSAGE_ID), None),
       ("request_id", 8, "u64", None)]
FLOW = [("consumer_id", 1, "u64", REQUIRED), ("message_permits", 2, "u32", REQUIRED)]
REQUEST = [("consumer_id", 1, "u64", REQUIRED), ("request_id", 2, "u64", REQUIRED)]
CLOSE_PRODUCER = [("producer_id", 1, "u64", REQUIRED), ("request_id", 2, "u64", REQUIRED)]
REDELIVER = [("consumer_id", 1, "u64", REQUIRED), ("ids", 2, ("repeated", MESSAGE_ID), None)]
LOOKUP = [("topic", 1, "str", REQUIRED), ("request_id", 2, "u64", REQUIRED)]

RANGES_OF = {"u64": (0, 2**64 - 1), "u32": (0, 2**32 - 1), "i64": (-2**63, 2**63 - 1), "i32": (-2**31, 2**31 - 1)}


def read_number(kind, bits):
    """The number of these 64 bits, which are two's complement where the kind has a sign."""
    least, greatest = RANGES_OF[kind]
    value = bits - 2**64 if least < 0 and bits >= 2**63 else bits
    if not least <= value <= greatest:
        raise Fault(UNREADABLE)
    return value


def read_scalar(kind, value):
    """The value of a field's last occurrence, whose wire type is right."""
    if kind == "bytes":
        return value
    if kind == "str":
        try:
            return value.decode("utf-8")
        except UnicodeDecodeError:
            raise Fault(UNREADABLE) from None
    names = {"bool": (False, True)}.get(kind) or (kind[1] if kind[0] == "enum" else None)
    if names is None:
        return read_number(kind, value)
    if value >= len(names):
        raise Fault(UNREADABLE)
    return names[value]


def read_known(fields, at, kind, default):
    """The value of a known field: the wire type is judged at each occurrence, the value of a scalar at the last one."""
    found = [(wire, value) for field, wire, value in fields if field == at]
    if kind == "there":
        return bool(found)
    wanted = BYTES if kind in ("str", "bytes") or kind[0] in ("message", "repeated") else VARINT
    if any(wire != wanted for wire, _ in found):
        raise Fault(UNREADABLE)
    if kind[0] == "repeated":
        return [read_message(kind[1], value) for _, value in found]
    if not found:
        if default is REQUIRED:
            raise Fault(UNREADABLE)
        return default
    if kind[0] == "message":
        return read_message(kind[1], b"".join(value for _, value in found))
    return read_scalar(kind, found[-1][1])


def readable(content):
    """The fields of a message, which has nothing else."""
    fields, fault = fields_of(content)
    if fault:
        raise Fault(UNREADABLE)
    return fields


def read_message(table, content):
    """The values of a message by the names of its table."""
    fields = readable(content)
    return {name: read_known(fields, at, kind, default) for name, at, kind, default in table}


# Texts


def spelled(content):
    """Bytes or a text in hexadecimal digits, or that there are none."""
    if content is None:
        return "none"
    return "=" + (content.encode() if isinstance(content, str) else content).hex()


def said(value):
    return {True: "true", False: "false"}[value] if isinstance(value, bool) else str(value)


def record(name, values):
    return f"{name} {{ {', '.join(f'{key}: {said(value)}' for key, value in values.items())} }}"


def listed(name, items):
    return f"[{', '.join(record(name, item) for item in items)}]"


def some(shown):
    return "None" if shown is None else f"Some({shown})"


def say_connect(it):
    return f"CONNECT {spelled(it['client_version'])} {it['protocol_version']}"


def say_subscribe(it):
    start = some(it["start"] and record("MessageIdData", it["start"]))
    key_shared = it["key_shared"]
    ranges = f"{key_shared['mode']} {listed('IntRange', key_shared['ranges'])}" if key_shared else "none"
    return (f"SUBSCRIBE {spelled(it['topic'])} {spelled(it['subscription'])} {it['kind']} {it['consumer_id']} {it['request_id']} {said(it['durable'])} "
            f"{start} {it['initial']} {ranges}")


def say_producer(it):
    return f"PRODUCER {spelled(it['topic'])} {it['producer_id']} {it['request_id']} {spelled(it['name'])}"


def say_ack(it):
    return f"ACK {it['consumer_id']} {it['kind']} {listed('MessageIdData', it['ids'])} {some(it['request_id'])}"


def say_redeliver(it):
    return f"REDELIVER {it['consumer_id']} {listed('MessageIdData', it['ids'])}"


def say_lookup(name):
    return lambda it: f"{name} {spelled(it['topic'])} {it['request_id']}"


def say_as(name):
    return lambda it: record(name, it)


def say_meta(it):
    return (f"{spelled(it['producer_name'])} {it['sequence_id']} {it['publish_time']} {spelled(it['partition_key'])} {it['compression']} "
            f"{it['num_messages_in_batch']} {spelled(it['ordering_key'])} {some(it['deliver_at_time'])}")


# The client commands by their types: the table of each, and what is said of it
COMMANDS = {2: (CONNECT, say_connect), 4: (SUBSCRIBE, say_subscribe), 5: (PRODUCER, say_producer), 6: (SEND, say_as("Send")), 10: (ACK, say_ack),
            11: (FLOW, say_as("Flow")), 12: (REQUEST, say_as("Unsubscribe")), 15: (CLOSE_PRODUCER, say_as("CloseProducer")),
            16: (REQUEST, say_as("CloseConsumer")), PING: ([], lambda it: "PING"), 19: ([], lambda it: "PONG"), 20: (REDELIVER, say_redeliver),
            21: (LOOKUP, say_lookup("PARTITIONED_METADATA")), 23: (LOOKUP, say_lookup("LOOKUP"))}


def command_in(content):
    """The type of a command, and its values by their names; none of a type that isn't served."""
    fields = readable(content)
    kind = read_known(fields, 1, "u64", REQUIRED)
    if kind not in COMMANDS:
        return kind, None
    if all(field != kind for field, _, _ in fields):
        raise Fault(MISSING)
    return kind, read_known(fields, kind, ("message", COMMANDS[kind][0]), REQUIRED)


def read_command(content):
    """The type of a command and what is said of it."""
    kind, values = command_in(content)
    return kind, f"type {kind}" if values is None else COMMANDS[kind][1](values)


def metadata_in(entry):
    """The values of an entry's metadata, by their names."""
    size = int.from_bytes(entry[:4], "big")
    if len(entry) < 4 or size > len(entry) - 4:
        raise Fault(UNREADABLE)
    return read_message(METADATA, entry[4:4 + size])


def read_entry(entry):
    """What the metadata of an entry says."""
    return say_meta(metadata_in(entry))


# Frames


def read_behind(kind, behind):
    """What is said of the part behind a command."""
    if kind not in COMMANDS:
        return ""
    if kind == 6 and behind.startswith(b"\x0e\x01"):
        return " with a checksum"
    if kind == 6:
        try:
            return f" with {behind.hex()} of {read_entry(behind)}"
        except Fault:
            raise Fault(BAD_PAYLOAD) from None
    if behind:
        raise Fault(BAD_PAYLOAD)
    return ""


def whole_frame(stream):
    """Of the first frame of a stream the command, the part behind it, and how many bytes the frame has; nothing where it isn't whole."""
    size, command_size = int.from_bytes(stream[:4], "big"), int.from_bytes(stream[4:8], "big")
    if len(stream) >= 4 and size > LARGEST_FRAME:
        raise Fault(TOO_LARGE)
    if len(stream) >= 8 and (size < 4 or command_size > size - 4):
        raise Fault(BAD_SIZES)
    if len(stream) < 8 or len(stream) < 4 + size:
        return None
    return stream[8:8 + command_size], stream[8 + command_size:4 + size], 4 + size


def take_frame(stream):
    """What is said of the first frame of a stream, and how many bytes it has; nothing where it isn't whole."""
    whole = whole_frame(stream)
    if not whole:
        return "", 0
    command, behind, size = whole
    kind, shown = read_command(command)
    return f"{shown}{read_behind(kind, behind)}; ", size


def read_stream(stream):
    """The frames of a stream and its end, which are the same however it is cut into pieces."""
    answer = ""
    while True:
        try:
            shown, size = take_frame(stream)
        except Fault as fault:
            return answer + str(fault)
        if size == 0:
            return answer + "and goes on"
        answer, stream = answer + shown, stream[size:]


def say_stream(asked):
    _, stream = asked.split(" ")
    return read_stream(bytes.fromhex(stream))


def say_long(asked):
    """Those of a stream that ends with so many bytes of 7."""
    _, stream, count = asked.split(" ")
    return read_stream(bytes.fromhex(stream) + b"\x07" * int(count))


# Ids and replies

CODES = {name.decode(): code for code, name in ERRORS.items()}


def say_id(asked):
    position, per_ledger = map(int, asked.split(" "))
    return f"{position // per_ledger}:{position % per_ledger}"


def say_position(asked):
    words = asked.split(" ")
    per_ledger, ledger, entry, partition, batch = map(int, words[:5])
    position = ledger * per_ledger + entry
    named = partition == -1 and batch == -1 and len(words) == 5 and entry < per_ledger and position < 2**63
    return some(position if named else None)


def place(ledger, entry):
    return number(1, int(ledger)) + number(2, int(entry))


def refusal(field, name):
    return number(field, CODES[name]) + text(field + 1, name.encode())


def receipt(producer, sequence, ledger, entry):
    return number(1, int(producer)) + number(2, int(sequence)) + text(3, place(ledger, entry))


def message(consumer, ledger, entry, count):
    return number(1, int(consumer)) + text(2, place(ledger, entry)) + (number(3, int(count)) if int(count) else b"")


# The replies by their words: the type of each, and its fields
REPLIES = {"connected": (3, lambda: text(1, b"node-1") + number(2, 5) + number(3, 1048576)),
           "receipt": (7, receipt),
           "send_error": (8, lambda producer, sequence, error: number(1, int(producer)) + number(2, int(sequence)) + refusal(3, error)),
           "message": (9, message),
           "success": (13, lambda request: number(1, int(request))),
           "refusal": (14, lambda request, error: number(1, int(request)) + refusal(2, error)),
           "producer": (17, lambda request, name: number(1, int(request)) + text(2, name.encode())),
           "pong": (19, lambda: b""),
           "partitions": (22, lambda request: number(1, 0) + number(2, int(request)) + number(3, 0)),
           "partitions_refused": (22, lambda request, error: number(2, int(request)) + number(3, 1) + refusal(4, error)),
           "lookup": (24, lambda request, url: text(1, url.encode()) + number(3, 1) + number(4, int(request)) + number(5, 1)),
           "lookup_refused": (24, lambda request, error: number(3, 2) + number(4, int(request)) + refusal(6, error)),
           "ack": (38, lambda consumer, request: number(1, int(consumer)) + number(6, int(request))),
           "ack_refusal": (38, lambda consumer, error, request: number(1, int(consumer)) + refusal(4, error) + number(6, int(request)))}


def say_reply(asked):
    entry, name, *words = asked.split(" ")
    kind, fields = REPLIES[name]
    return f"{kind} ee{frame(kind, fields(*words), b'' if entry == '-' else bytes.fromhex(entry)).hex()}"


# Lines


def or_fault(say):
    """What is said of a line's bytes, or their fault."""
    def shown(asked):
        try:
            return say(bytes.fromhex(asked))
        except Fault as fault:
            return str(fault)
    return shown


def say_fields(asked):
    names = {VARINT: "varint", FIXED64: "fixed64", BYTES: "bytes", FIXED32: "fixed32"}
    fields, fault = fields_of(bytes.fromhex(asked))
    shown = [f"{field} {names[wire]} {value.hex() if wire == BYTES else value}, " for field, wire, value in fields]
    return "".join(shown) + (f"{fault}, Some({fault})" if fault else "end")


def say_number(asked):
    field, value = map(int, asked.split(" "))
    return number(field, value).hex()


def say_bytes(asked):
    field, content = asked.split(" ")
    return text(int(field), bytes.fromhex(content)).hex()


SAY = {"fields": say_fields, "varint": lambda asked: varint(int(asked)).hex(), "number": say_number, "bytes": say_bytes,
       "command": or_fault(lambda content: read_command(content)[1]), "metadata": or_fault(lambda content: say_meta(read_message(METADATA, content))),
       "entry": or_fault(read_entry), "size": lambda asked: str(int.from_bytes(bytes.fromhex(asked)[:4], "big")), "stream": say_stream, "long": say_long,
       "memory": lambda asked: "no memory, no memory", "id": say_id, "position": say_position, "reply": say_reply,
       "error": lambda name: f"{CODES[name]} {name}"}


def answer_to(line):
    word, _, asked = line.partition(" ")
    return line if word in ("", "#") else SAY[word](asked)


# Lines at random

BITS = (0, 1, 2, 127, 128, 2**31 - 1, 2**31, 2**32 - 1, 2**32, 2**63 - 1, 2**63, 2**64 - 2**31 - 1, 2**64 - 2**31, 2**64 - 1)
TEXTS = (b"", b"t", b"two words", "\u00e9".encode(), "\U0010ffff".encode())
ODD = 60  # one of so many fields is one that isn't read


def fits(kind, bits):
    try:
        return read_number(kind, bits) is not None
    except Fault:
        return False


def made_scalar(chance, at, kind, odd):
    if kind in ("str", "bytes"):
        return text(at, b"\xc3" if odd else chance.choice(TEXTS))
    if kind in ("bool", "there") or kind[0] == "enum":
        count = len(kind[1]) if kind[0] == "enum" else 2
        return number(at, count if odd else chance.randrange(count))
    return number(at, chance.choice([bits for bits in BITS if odd or fits(kind, bits)]))


def made_field(chance, at, kind):
    """A field of a table, or now and then one that isn't read."""
    if chance.randrange(ODD) == 0:
        return varint(at * 8 + FIXED32) + bytes(4)
    if kind[0] in ("message", "repeated"):
        return text(at, made_message(chance, kind[1]))
    return made_scalar(chance, at, kind, chance.randrange(ODD) == 0)


def made_message(chance, table):
    """Fields of a table in any order, some of them twice, and others that it doesn't name."""
    often = {True: (1,) * 12 + (2, 2, 2, 0), False: (0, 0, 1, 1, 1, 2)}
    fields = [made_field(chance, at, kind) for _, at, kind, default in table for _ in range(chance.choice(often[default is REQUIRED]))]
    fields += chance.choice(([], [], [number(1000, 5)], [varint(99 * 8 + FIXED64) + bytes(8)]))
    chance.shuffle(fields)
    return b"".join(fields)


def made_command(chance, kind):
    """A command of this type, whole or in two parts, with its type before or behind them."""
    content = made_message(chance, COMMANDS[kind][0])
    at = chance.randrange(len(content) + 1)
    parts = chance.choice((text(kind, content), text(kind, content), text(kind, content[:at]) + text(kind, content[at:])))
    return chance.choice((number(1, kind) + parts, parts + number(1, kind)))


def made_entry(chance):
    metadata = made_message(chance, METADATA)
    return len(metadata).to_bytes(4, "big") + metadata + chance.choice((b"", b"payload"))


def made_frame(chance, kind):
    command = made_command(chance, kind)
    entry = made_entry(chance) if kind == 6 else b""
    return (4 + len(command) + len(entry)).to_bytes(4, "big") + len(command).to_bytes(4, "big") + command + entry


def made_stream(chance):
    return b"".join(made_frame(chance, chance.choice(list(COMMANDS))) for _ in range(3))


def lines_of_tables(chance):
    lines = [f"command {made_command(chance, kind).hex()}" for kind in COMMANDS for _ in range(MADE)]
    lines += [f"metadata {made_message(chance, METADATA).hex()}" for _ in range(MADE)] + [f"entry {made_entry(chance).hex()}" for _ in range(MADE)]
    return lines + [f"stream {chance.choice((1, 5, 64))} {made_stream(chance).hex()}" for _ in range(MADE)]


def changed(chance, line):
    """The line with a byte cut off with all behind it, put in, replaced or taken out."""
    front, _, digits = line.rpartition(" ")
    content = bytes.fromhex(digits)
    at = chance.randrange(len(content) + 1)
    byte = bytes([chance.choice((0, 1, 2, 8, 0x7F, 0x80, 0xFF, chance.randrange(256)))])
    how = chance.choice(("cut", "insert", "replace", "delete"))
    parts = {"cut": (), "insert": (byte, content[at:]), "replace": (byte, content[at + 1:]), "delete": (content[at + 1:],)}
    return f"{front} {b''.join((content[:at], *parts[how])).hex()}"


def is_changed(line):
    return line.split(" ")[0] in ("fields", "command", "metadata", "entry", "stream") and " " in line and len(line) < LONGEST_CHANGED


def made_lines(hand):
    """The lines behind the hand-written ones."""
    tags = [f"fields {tag:02x}{behind}" for tag in range(256) for behind in ("0201807f", "801004")]
    chance = random.Random(7)
    changes = [changed(chance, line) for line in hand if is_changed(line) for _ in range(CHANGES)]
    return [AT_RANDOM, *changes, "", OF_TABLES, *lines_of_tables(chance), "", "# each first byte of a tag", *tags, "", *LONG_FRAMES]


if __name__ == "__main__":
    Table("wire_tests", AT_RANDOM, made_lines, lambda asked: [answer_to(line) for line in asked]).main("wire", __doc__)
