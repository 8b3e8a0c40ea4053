"""Frames of clients that mean no good: plausible commands, with fields doubled, reordered, cut, spelled long and nested deep, and bytes changed."""
from wire import BYTES, FIXED32, FIXED64, VARINT
from encoding import varint

TOPICS = (12 * [b"persistent://a/b/c"] + 4 * [b"persistent://a/b/d"] + 2 * [b"persistent://A-1/b.2/c_3"]
          + [b"persistent://a/b/c/d", b"persistent://a//c", b"persistent://a/b/\xc3\xa9", b"a/b/c", b""])
SUBSCRIPTIONS = 8 * [b"s"] + 3 * [b"t"] + [b"S-1", b"", b"two words", b"s" * 255, b"s" * 256]
NAMES = 8 * [None] + [b"", b"p", b"s0-p1", b"n" * 255, b"n" * 256, "\u00e9".encode()]
KEYS = (None, None, None, b"", b"hello", b"test", "\U0010ffff".encode())
BATCHES = 7 * [None] + [1, 2, 2, 3, 3, 5, 1_048_576]  # messages of an entry
EDGES = (0, 1, 127, 128, 2**31 - 1, 2**31, 2**32 - 1, 2**32, 2**63 - 1, 2**63, 2**64 - 2**31, 2**64 - 1)
NO_TEXT = (b"\xc3", b"\xff", b"\xed\xa0\x80", b"\xc0\x80", b"\xf4\x90\x80\x80")  # bytes that aren't UTF-8
CONNECT = 2
LARGE_PAYLOAD = 1_048_556  # bytes: with its metadata about as large as an entry may be
LARGE = 0.00005  # of entries have such a one
DEEPEST = 300  # messages inside each other
SESSION_LIMIT = 3  # ids of producers and of consumers are below


# A message is a list of fields, each with its number and its value: a number, bytes, a message, or a wire type and the bytes behind the tag.


def some_field(number, content):
    return [] if content is None else [(number, content)]


def message_id(chance, odd):
    fields = [(1, chance.randrange(2)), (2, chance.randrange(4))]
    if chance.random() < odd:
        fields += chance.choice(([(3, 2**64 - 1)], [(3, 0)], [(4, 0)], [(4, 2**64 - 1)], [(5, 1)], [(5, b"")], [(2, 2**63)], [(1, 2**60)]))
    return fields


def connect(chance, _):
    return CONNECT, [(1, chance.choice((b"c", b"client"))), (4, chance.randrange(8))]


def subscribe(chance, odd):
    fields = [(1, chance.choice(TOPICS)), (2, chance.choice(SUBSCRIPTIONS)), (3, chance.choice((0, 1, 1, 1, 1, 2, 3, 3))), (4, chance.randrange(SESSION_LIMIT)),
              (5, chance.randrange(100))]
    if chance.random() < 0.7:
        fields.append((13, chance.randrange(2)))
    if chance.random() < odd:
        fields += chance.choice(([(8, 0)], [(8, 1)], [(9, message_id(chance, odd))]))
    if chance.random() < 0.5:
        start = chance.choice((0, 0, 1, 30_000, 65_535, 65_536, 2**64 - 1))
        ranges = [(3, [(1, start), (2, chance.choice((start, 32_767, 65_535, 65_536)))]) for _ in range(chance.choice((0, 1, 1, 2)))]
        fields.append((17, [(1, chance.choice((1, 1, 1, 0))), *ranges]))
    return 4, fields


def producer(chance, _):
    return 5, [(1, chance.choice(TOPICS)), (2, chance.randrange(SESSION_LIMIT)), (3, chance.randrange(100)), *some_field(4, chance.choice(NAMES))]


def send(chance, odd):
    fields = [(1, chance.randrange(SESSION_LIMIT)), (2, chance.choice((0, 1, 2, 3, 2**64 - 1)))]
    return 6, fields + ([(3, chance.choice((0, 1, 2, 2**64 - 1)))] if chance.random() < odd else [])


def acknowledge(chance, odd):
    ids = [(3, message_id(chance, odd)) for _ in range(chance.choice((0, 1, 1, 1, 2, 3)))]
    return 10, [(1, chance.randrange(SESSION_LIMIT)), (2, chance.choice((0, 0, 1))), *ids, *([(8, chance.randrange(100))] if chance.random() < 0.7 else [])]


def flow(chance, _):
    return 11, [(1, chance.randrange(SESSION_LIMIT)), (2, chance.choice((0, 1, 1, 2, 5, 2**32 - 1)))]


def of_request(kind):
    return lambda chance, _: (kind, [(1, chance.randrange(SESSION_LIMIT)), (2, chance.randrange(100))])


def empty(kind):
    return lambda _chance, _odd: (kind, [])


def redeliver(chance, odd):
    return 20, [(1, chance.randrange(SESSION_LIMIT)), *((2, message_id(chance, odd)) for _ in range(chance.choice((0, 1, 2))))]


def look_up(kind):
    return lambda chance, _: (kind, [(1, chance.choice(TOPICS)), (2, chance.randrange(100))])


def other(chance, _):
    return chance.choice((0, 1, 3, 7, 13, 22, 25, 64, 2**31, 2**64 - 1)), [(1, b"x")]


# Those that come often first.
COMMANDS = (8 * [send] + 3 * [producer, subscribe, flow, acknowledge] + [redeliver, of_request(12), of_request(15), of_request(16), empty(18), empty(19),
                                                                         look_up(21), look_up(23)])
RARE = (connect, other)


def metadata(chance, odd):
    fields = [(1, b"p"), (2, chance.randrange(4)), (3, 1), *some_field(6, chance.choice(KEYS)), *some_field(11, chance.choice(BATCHES)),
              *some_field(18, chance.choice(KEYS))]
    if chance.random() < odd:
        fields += chance.choice(([(8, 0)], [(8, 1)], [(11, 0)], [(11, 1_048_577)], [(11, 2**64 - 1)], [(19, 5)], [(19, 2**64 - 1)], [(19, 0)]))
    return fields


# What is done to the fields of a message


def doubled(chance, fields):
    """A field stands twice, the second time perhaps with another value."""
    if not fields:
        return fields
    number, value = chance.choice(fields)
    if isinstance(value, int) and chance.random() < 0.5:
        value = chance.choice(EDGES)
    at = chance.randrange(len(fields) + 1)
    return fields[:at] + [(number, value)] + fields[at:]


def reordered(chance, fields):
    return chance.sample(fields, len(fields))


def lacking(chance, fields):
    at = chance.randrange(len(fields) + 1)
    return fields[:at] + fields[at + 1:]


def with_unknown(chance, fields):
    """With a field that nobody knows, of any wire type, or nested deep."""
    number = chance.choice((7, 99, 1000, 536_870_911))
    value = chance.choice((5, b"unknown", (FIXED64, bytes(8)), (FIXED32, bytes(4)), (3, b""), (4, b""), (VARINT, b"\xff" * 10), nested(chance)))
    at = chance.randrange(len(fields) + 1)
    return fields[:at] + [(number, value)] + fields[at:]


def nested(chance):
    """Messages inside each other."""
    content = b""
    for _ in range(chance.randrange(1, DEEPEST)):
        content = b"\x0a" + varint(len(content)) + content
    return content


def changed(chance, fields):
    """Another value of a field."""
    if not fields:
        return fields
    at = chance.randrange(len(fields))
    number, value = fields[at]
    other = chance.choice(NO_TEXT) if isinstance(value, bytes) else chance.choice(EDGES)
    return fields[:at] + [(number, chance.choice((other, other, other, (FIXED32, bytes(4)), b"")))] + fields[at + 1:]


def inside(chance, fields):
    """A message inside is changed instead, if there is one."""
    places = [at for at, (_, value) in enumerate(fields) if isinstance(value, list)]
    if not places:
        return doubled(chance, fields)
    at = chance.choice(places)
    number, value = fields[at]
    return fields[:at] + [(number, chance.choice(CHANGES)(chance, value))] + fields[at + 1:]


CHANGES = (doubled, reordered, lacking, with_unknown, changed, inside, inside)


# Spelling


class Spelling:
    """Spells fields; varints now and then longer than they need be, and messages now and then in two parts."""

    def __init__(self, chance, odd):
        self.chance, self.odd = chance, odd

    def varint(self, number):
        spelled = varint(number)
        if self.chance.random() >= self.odd:
            return spelled
        more = self.chance.choice((1, 1, 2, 9, 10)) if len(spelled) == 1 else 1
        return spelled[:-1] + bytes([spelled[-1] | 0x80]) + b"\x80" * (more - 1) + b"\x00"

    def field(self, number, value):
        if isinstance(value, int):
            return self.varint(number * 8 + VARINT) + self.varint(value)
        if isinstance(value, tuple):
            return self.varint(number * 8 + value[0]) + value[1]
        content = self.message(value) if isinstance(value, list) else value
        if isinstance(value, list) and self.chance.random() < self.odd:
            at = self.chance.randrange(len(content) + 1)
            return self.delimited(number, content[:at]) + self.delimited(number, content[at:])
        return self.delimited(number, content)

    def delimited(self, number, content):
        return self.varint(number * 8 + BYTES) + self.varint(len(content)) + content

    def message(self, fields):
        return b"".join(self.field(number, value) for number, value in fields)


# Frames


def entry(chance, odd, spelling):
    """What stands behind a SEND."""
    fields = metadata(chance, odd)
    if chance.random() < odd:
        fields = chance.choice(CHANGES)(chance, fields)
    content = spelling.message(fields)
    size = len(content) + (chance.choice((-1, 1, 2**31)) if chance.random() < odd / 2 else 0)
    length = LARGE_PAYLOAD + chance.randrange(20) if chance.random() < LARGE else chance.choice((0, 0, 0, 5, 20, 300))
    checksum = chance.choice((b"\x0e\x01\x00\x00\x00\x07", b"\x0e\x01")) if chance.random() < odd / 2 else b""
    return checksum + max(size, 0).to_bytes(4, "big") + content + b"x" * length


def framed(chance, odd, command, behind):
    """The sizes now and then one off, or far off."""
    size, command_size = 4 + len(command) + len(behind), len(command)
    if chance.random() < odd / 2:
        size += chance.choice((-1, 1))
    if chance.random() < odd / 2:
        command_size += chance.choice((-1, 1, 100))
    if chance.random() < odd / 20:
        size = chance.choice((0, 3, 4, 5_242_880, 5_242_881, 2**32 - 1))
    return max(size, 0).to_bytes(4, "big") + max(command_size, 0).to_bytes(4, "big") + command + behind


def frame_of(chance, odd, make):
    """A frame of a command, in which so much is odd: 0 for a good one."""
    spelling = Spelling(chance, odd / 4)
    kind, fields = make(chance, odd)
    while chance.random() < odd:
        fields = chance.choice(CHANGES)(chance, fields)
    base = [(1, kind), (kind, fields)]
    if chance.random() < odd:
        base = chance.choice((doubled, reordered, lacking, with_unknown))(chance, base)
    command = spelling.message([(number, value) for number, value in base if number])
    behind = entry(chance, odd, spelling) if kind == 6 and chance.random() >= odd / 10 else b"\x00" if chance.random() < odd / 10 else b""
    whole = framed(chance, odd, command, behind)
    while chance.random() < odd / 2:
        whole = with_changed_bytes(chance, whole)
    return whole


def with_changed_bytes(chance, content):
    """Bits flipped, bytes cut off, put in or taken out."""
    at = chance.randrange(len(content) + 1)
    byte = bytes([chance.choice((0, 1, 0x7F, 0x80, 0xFF, chance.randrange(256)))])
    flipped = content[:at] + bytes(it ^ 1 << chance.randrange(8) for it in content[at:at + 1]) + content[at + 1:]
    return chance.choice((flipped, flipped, flipped, content[:at], content[:at] + byte + content[at:], content[:at] + content[at + 1:]))


def next_frame(chance, odd):
    return frame_of(chance, odd, chance.choice(RARE if chance.random() < odd / 20 else COMMANDS))


def first_frames(chance, odd):
    """A CONNECT, for the most part, and who may send and receive."""
    first = frame_of(chance, odd / 4, connect) if chance.random() >= odd / 8 else next_frame(chance, odd)
    return first + b"".join(frame_of(chance, odd / 4, make) for make in chance.choices((producer, producer, subscribe, flow), k=chance.randrange(5)))
