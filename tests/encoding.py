"""Frames and replies of the Pulsar binary protocol, by an encoder of its own, written from its tables; and the exchanges that are too long to
stand as files."""

TOPIC = b"persistent://a/b/c"
PERSISTENCE, CONSUMER_BUSY, CHECKSUM, NO_CONSUMER, TOO_MANY, BUSY, BAD_TOPIC, NO_RANGES, NOT_ALLOWED = 2, 5, 9, 13, 14, 16, 17, 19, 22
ERRORS = {2: b"PersistenceError", 5: b"ConsumerBusy", 9: b"ChecksumError", 13: b"ConsumerNotFound", 14: b"TooManyRequests",
          16: b"ProducerBusy", 17: b"InvalidTopicName", 19: b"ConsumerAssignError", 22: b"NotAllowedError"}
EXCLUSIVE, SHARED, FAILOVER, KEY_SHARED = 0, 1, 2, 3


def varint(n):
    groups = b""
    while n >= 128:
        groups += bytes([n % 128 + 128])
        n //= 128
    return groups + bytes([n])


def number(field, n):
    return varint(field * 8) + varint(n)


def text(field, content):
    return varint(field * 8 + 2) + varint(len(content)) + content


def frame(kind, fields, entry=b""):
    command = number(1, kind) + text(kind, fields)
    return (4 + len(command) + len(entry)).to_bytes(4, "big") + len(command).to_bytes(4, "big") + command + entry


CONNECT = frame(2, text(1, b"c") + number(4, 5))
CONNECTED = frame(3, text(1, b"node-1") + number(2, 5) + number(3, 1048576))


def producer(producer_id, name=None, topic=TOPIC, request_id=7):
    return frame(5, text(1, topic) + number(2, producer_id) + number(3, request_id) + (b"" if name is None else text(4, name)))


def producer_success(name, request_id=7):
    return frame(17, number(1, request_id) + text(2, name))


def error(code, request_id=7):
    return frame(14, number(1, request_id) + number(2, code) + text(3, ERRORS[code]))


def entry_of(payload=b"", extra=b""):
    metadata = text(1, b"p") + number(2, 0) + number(3, 1) + extra
    return len(metadata).to_bytes(4, "big") + metadata + payload


def send(producer_id, sequence_id, entry=None, num_messages=None):
    fields = number(1, producer_id) + number(2, sequence_id) + (b"" if num_messages is None else number(3, num_messages))
    return frame(6, fields, entry_of() if entry is None else entry)


def place_of(position, per_ledger=1000):
    return number(1, position // per_ledger) + number(2, position % per_ledger)


def receipt(producer_id, sequence_id, position, per_ledger=1000):
    return frame(7, number(1, producer_id) + number(2, sequence_id) + text(3, place_of(position, per_ledger)))


def send_error(producer_id, sequence_id, code):
    return frame(8, number(1, producer_id) + number(2, sequence_id) + number(3, code) + text(4, ERRORS[code]))


def subscribe(consumer_id, name=b"s", mode=EXCLUSIVE, earliest=True, topic=TOPIC, request_id=8, extra=b""):
    fields = text(1, topic) + text(2, name) + number(3, mode) + number(4, consumer_id) + number(5, request_id)
    return frame(4, fields + extra + (number(13, 1) if earliest else b""))


def success(request_id=8):
    return frame(13, number(1, request_id))


def flow(consumer_id, permits):
    return frame(11, number(1, consumer_id) + number(2, permits))


def message(consumer_id, position, before=0, entry=None, per_ledger=1000):
    fields = number(1, consumer_id) + text(2, place_of(position, per_ledger)) + (number(3, before) if before else b"")
    return frame(9, fields, entry_of() if entry is None else entry)


def ack(consumer_id, places, request_id=9, cumulative=False):
    fields = number(1, consumer_id) + number(2, 1 if cumulative else 0) + b"".join(text(3, place) for place in places)
    return frame(10, fields + (b"" if request_id is None else number(8, request_id)))


def ack_response(consumer_id, code=None, request_id=9):
    refusal = b"" if code is None else number(4, code) + text(5, ERRORS[code])
    return frame(38, number(1, consumer_id) + refusal + number(6, request_id))


def unsubscribe(consumer_id, request_id=8):
    return frame(12, number(1, consumer_id) + number(2, request_id))


def close_consumer(consumer_id, request_id=8):
    return frame(16, number(1, consumer_id) + number(2, request_id))


def redeliver(consumer_id, places=()):
    return frame(20, number(1, consumer_id) + b"".join(text(2, place) for place in places))


class Exchange:
    """A script, and the lines that it must give."""

    def __init__(self, per_ledger=1000):
        self.script, self.lines = [f"init {per_ledger}"], ["1 - ok"]

    def line(self, words, said=b"", result="ok"):
        self.script.append(words)
        self.lines.append(f"{len(self.script)} {said.hex() or '-'} {result}")
        return self

    def feed(self, session, content, said=b"", result="ok"):
        return self.line(f"bytes {session} {content.hex()}", said, result)

    def status(self, *lines):
        self.script.append("status")
        self.lines += lines
        return self

    def connect(self, session):
        return self.line("open").feed(session, CONNECT, CONNECTED)

    def begin(self):
        return self.connect(0).feed(0, producer(1), producer_success(b"s0-p1"))

    def committed(self, entries):
        """So many entries are sent by session 0 and committed, and their receipts collected."""
        self.feed(0, b"".join(send(1, n) for n in range(entries))).line("flush 0")
        return self.line("pump 0", b"".join(receipt(1, n, n) for n in range(entries)))


def limits_of_what_waits():
    """1,024 entries wait at most; a flush makes room again."""
    sends = b"".join(send(1, n) for n in range(1024))
    receipts = b"".join(receipt(1, n, n) for n in range(1024))
    return (Exchange().begin().feed(0, sends).feed(0, send(1, 1024), send_error(1, 1024, TOO_MANY)).line("flush 0")
            .feed(0, send(1, 1025)).line("pump 0", receipts).line("flush 0").line("pump 0", receipt(1, 1025, 1024)))


def limit_of_an_entry():
    """An entry has 1,048,576 bytes at most: sizes, metadata and payload together."""
    empty = len(entry_of())
    return (Exchange().begin().feed(0, send(1, 0, entry_of(bytes(1048576 - empty))))
            .feed(0, send(1, 1, entry_of(bytes(1048577 - empty))), send_error(1, 1, NOT_ALLOWED))
            .line("flush 0").line("pump 0", receipt(1, 0, 0)))


def limit_of_bytes_that_wait():
    """16,777,216 bytes of entries wait at most, whatever their number; a flush makes room again."""
    longest = entry_of(bytes(1048576 - len(entry_of())))
    exchange = Exchange().begin()
    for n in range(16):
        exchange.feed(0, send(1, n, longest))
    exchange.feed(0, send(1, 16), send_error(1, 16, TOO_MANY)).line("flush 0").feed(0, send(1, 17)).line("flush 0")
    return exchange.line("pump 0", b"".join(receipt(1, n, n) for n in range(16)) + receipt(1, 17, 16))


def limit_of_changes():
    """65,536 changes wait for a flush at most, one for each id of an ACK and one for a new subscription."""
    exchange = Exchange().begin().committed(1).feed(0, subscribe(2)).feed(0, ack(2, [place_of(0)] * 65536), ack_response(2, TOO_MANY))
    exchange.feed(0, ack(2, [place_of(0)] * 65535)).feed(0, ack(2, [place_of(0)], 10), ack_response(2, TOO_MANY, 10)).feed(0, ack(2, [], 11))
    exchange.feed(0, subscribe(3, b"t"), error(TOO_MANY, 8)).feed(0, subscribe(3, b"s"), error(CONSUMER_BUSY, 8)).line("flush 0")
    return exchange.line("pump 0", success() + ack_response(2) + ack_response(2, None, 11)).feed(0, subscribe(3, b"t") + ack(2, [place_of(0)], 12)).line(
        "flush 0").line("pump 0", success() + ack_response(2, None, 12))


def limit_of_changes_of_an_unsubscribe():
    """One frame acknowledges so often that only one change more may wait for a flush; an UNSUBSCRIBE is a change, too."""
    exchange = Exchange().begin().feed(0, subscribe(2)).feed(0, send(1, 0, entry_of(extra=number(1000, 5))))
    exchange.line("flush 0").line("pump 0", success() + receipt(1, 0, 0))
    exchange.feed(0, ack(2, [place_of(0)] * 65535)).feed(0, ack(2, [place_of(0)] * 2), ack_response(2, TOO_MANY))
    exchange.feed(0, ack(2, [place_of(0)])).feed(0, ack(2, [place_of(0)]), ack_response(2, TOO_MANY))
    exchange.feed(0, unsubscribe(2), error(TOO_MANY, 8)).line("flush 0").line("pump 0", ack_response(2) + ack_response(2))
    return exchange.feed(0, unsubscribe(2)).line("flush 0").line("pump 0", success())


def slot(key):
    """The low 16 bits of MurmurHash3 (x86, 32 bits, seed 0), written after its published algorithm."""
    hashed = 0
    for start in range(0, len(key), 4):
        block = key[start:start + 4]
        word = int.from_bytes(block, "little") * 0xCC9E2D51 % 2**32
        hashed ^= (word << 15 | word >> 17) % 2**32 * 0x1B873593 % 2**32
        if len(block) == 4:
            hashed = ((hashed << 13 | hashed >> 19) % 2**32 * 5 + 0xE6546B64) % 2**32
    hashed ^= len(key)
    for factor, shift in ((1, 16), (0x85EBCA6B, 13), (0xC2B2AE35, 16)):
        hashed = hashed * factor % 2**32
        hashed ^= hashed >> shift
    return hashed % 2**16


def keys_go_to_their_ranges():
    """Sixty-four consumers have 1,024 slots each, and each message goes to the one that has its key's slot; so it is after a crash, and with the
    ranges in the opposite order."""
    entries = [entry_of(b"", text(6, f"key {n}".encode())) for n in range(64)]
    slots = [slot(f"key {n}".encode()) for n in range(64)]
    exchange = Exchange().begin().feed(0, b"".join(send(1, n, entry) for n, entry in enumerate(entries))).line("flush 0")
    exchange.line("pump 0", b"".join(receipt(1, n, n) for n in range(64))).connect(1)
    for session, owner in ((1, lambda at: at // 1024), (0, lambda at: 63 - at // 1024)):
        if session == 0:
            exchange.line("crash new").connect(0)
        ranges = [(owner(start), number(1, start) + number(2, start + 1023)) for start in range(0, 65536, 1024)]
        for consumer, bounds in sorted(ranges):
            sticky = text(17, number(1, 1) + text(3, bounds))
            exchange.feed(session, subscribe(consumer, mode=KEY_SHARED, extra=sticky) + flow(consumer, 64))
        sent = sorted((owner(at), n) for n, at in enumerate(slots))
        exchange.line("flush 0")
        exchange.line(f"pump {session}", success() * 64 + b"".join(message(consumer, n, entry=entries[n]) for consumer, n in sent)).line(f"pump {session}")
    return exchange


def writes_anew_where_a_ledger_begins():
    """A subscription acknowledges both entries of a first segment, which is given back; behind 4,096 records the other slot says where the ledger begins."""
    told = "T    0          3          2      1 persistent://a/b/c"
    exchange = Exchange(2).begin().feed(0, subscribe(2)).line("flush 0").line("pump 0", success())
    exchange.feed(0, send(1, 0) + send(1, 1)).line("flush 0").feed(0, send(1, 2)).line("flush 0")
    exchange.line("pump 0", b"".join(receipt(1, n, n, 2) for n in range(3)))
    exchange.feed(0, ack(2, [place_of(0, 2), place_of(1, 2)])).line("flush 0").line("pump 0", ack_response(2)).status(told, "S    0          2      0 s")
    exchange.feed(0, ack(2, [place_of(1, 2)] * 4096)).line("flush 0").feed(0, ack(2, [place_of(2, 2)])).line("flush 0").line("pump 0", ack_response(2) * 2)
    for form in ("old", "new"):
        exchange.line(f"crash {form}").status(told, "S    0          3      0 s")
    exchange.connect(0).feed(0, subscribe(2, b"t") + flow(2, 9)).line("flush 0").line("pump 0", success() + message(2, 2, per_ledger=2))
    return exchange.status(told, "S    0          3      0 s", "S    0          2      0 t")


LONG = (
    limits_of_what_waits, limit_of_an_entry, limit_of_bytes_that_wait, limit_of_changes, limit_of_changes_of_an_unsubscribe, keys_go_to_their_ranges,
    writes_anew_where_a_ledger_begins,
)
