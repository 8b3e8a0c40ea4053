"""A plain slow reader of a topic's files, written from docs/FILES.md alone: what an opening of them answers."""
from subscriptions import Acked
from wire import Fault, metadata_in

OPEN, NAME, VERSION = 1, b"PULSAR", 2
HEADER = 32  # bytes
UNTRIMMED = 0, 0
LAST_GENERATION = 2**64 - 1
LARGEST_BODY, LARGEST_ENTRY, MOST_ENTRIES = 33_554_432, 1_048_576, 2**62
MOST_MESSAGES = 1_048_576  # of an entry
ENTRIES, END_MARK, RECORDS = 0, 1, 0  # kinds of bodies
MADE, REMOVED, ONE, THROUGH, RANGE = 1, 2, 3, 4, 5  # records
POSITIONS = {MADE: 1, REMOVED: 0, ONE: 1, THROUGH: 1, RANGE: 2}
LONGEST_NAME, MOST_NAMES = 255, 64
NAME_BYTES = b"0123456789ABCDEFGHIJKLMNOPQRSTUVWXYZabcdefghijklmnopqrstuvwxyz-_."


class Refused(Exception):
    """Why an opening is refused; its text is the refusal's."""


class NotOfItsForm(Exception):
    """A body can't stand where it stands."""


def judge_entry(entry):
    """Its metadata can be read, and it has as many messages as an entry may have."""
    try:
        messages = metadata_in(entry)["num_messages_in_batch"]
    except Fault:
        raise NotOfItsForm from None
    if not 1 <= messages <= MOST_MESSAGES:
        raise NotOfItsForm


def number_in(content):
    return int.from_bytes(content, "little")


class File:
    """A file of a topic: its name and its bytes. A missing one has none."""

    def __init__(self, name, content):
        self.name, self.content = name, content

    def damaged(self, offset):
        return Refused(f"damaged {self.name} at {offset}")

    def is_open(self):
        return len(self.content) >= HEADER and self.content[0] == OPEN

    def number(self):
        return number_in(self.content[8:16])

    def start(self):
        """Where the ledger begins, by position and by segment, as the header says."""
        return number_in(self.content[16:24]), number_in(self.content[24:HEADER])

    def judge_header(self):
        """Of an open one, as far as any file's header can be judged."""
        if self.content[1:7] != NAME or len(self.content) == HEADER:
            raise self.damaged(0)
        if self.content[7] != VERSION:
            raise Refused("version")

    def body(self, gate):
        """The body behind an open gate, which ends where the next gate stands."""
        length = self.content[gate + 1:gate + 5]
        end = gate + 5 + number_in(length)
        if len(length) < 4 or number_in(length) > LARGEST_BODY or end >= len(self.content):
            raise self.damaged(gate)
        return self.content[gate + 5:end]

    def read_bodies(self, take):
        """Hands each body over before the next gate is looked at, up to the closing gate."""
        gate = HEADER
        while self.content[gate] == OPEN:
            body = self.body(gate)
            try:
                take(body)
            except NotOfItsForm:
                raise self.damaged(gate) from None
            gate += 5 + len(body)


class Segments:
    """The entries of a chain of segments, and how many segments it has, from where the ledger begins on."""

    def __init__(self, topic, files, base, first):
        self.base, self.entries, self.count, self.goes_on = base, [], 0, True
        if max(base, first) > MOST_ENTRIES:
            raise File(f"u{topic:05}-e{first:08}.dat", b"").damaged(0)
        while self.goes_on:
            number = first + self.count
            self.read_segment(File(f"u{topic:05}-e{number:08}.dat", files.get(("segment", number), b"")))
            self.count += 1

    def end(self):
        return self.base + len(self.entries)

    def read_segment(self, file):
        if not file.is_open():
            raise file.damaged(0)
        file.judge_header()
        if file.number() != self.end() or file.start() != UNTRIMMED:
            raise file.damaged(0)
        self.goes_on = False
        file.read_bodies(self.take)

    def take(self, body):
        if self.goes_on or not body or body[0] not in (ENTRIES, END_MARK) or (body[0] == END_MARK and len(body) > 1):
            raise NotOfItsForm
        if body[0] == END_MARK:
            self.goes_on = True
        else:
            self.take_entries(body[1:])

    def take_entries(self, content):
        at = 0
        while at < len(content):
            size = number_in(content[at:at + 4])
            entry = content[at + 4:at + 4 + size]
            if at + 4 + size > len(content) or size > LARGEST_ENTRY or self.end() == MOST_ENTRIES:
                raise NotOfItsForm
            judge_entry(entry)
            self.entries.append(entry)
            at += 4 + size


class Slots:
    """Both slots of a topic, of which one counts."""

    def __init__(self, topic, files):
        self.zero, self.one = (File(f"u{topic:05}-c{slot}.dat", files.get(("slot", slot), b"")) for slot in (0, 1))

    def read(self, told):
        """Hands over the bodies of the one that counts."""
        zero, one = self.zero, self.one
        if not zero.is_open() and not one.is_open():
            raise zero.damaged(0)
        one_counts = one.is_open() and (not zero.is_open() or one.number() > zero.number())
        if zero.is_open():
            self.judge_header(zero)
        if not one_counts:
            self.read_slot(zero, told)
        if one.is_open():
            self.judge_header(one)
            if zero.is_open() and zero.number() == one.number():
                raise one.damaged(0)
        if one_counts:
            self.read_slot(one, told)

    @staticmethod
    def read_slot(file, told):
        told.start = file.start()
        file.read_bodies(told.take)

    @staticmethod
    def judge_header(file):
        file.judge_header()
        if file.number() == LAST_GENERATION:
            raise file.damaged(0)

    def start(self):
        """Where the ledger begins, by the header that counts; at its first entry where none does, or the one that does is refused."""
        zero, one = self.zero, self.one
        one_counts = one.is_open() and (not zero.is_open() or one.number() > zero.number())
        counting = one if one_counts else zero
        if not counting.is_open():
            return UNTRIMMED
        try:
            self.judge_header(counting)
        except Refused:
            return UNTRIMMED
        return counting.start()


class Told:
    """What a slot tells beside a ledger of so many entries: where it begins, by position and by segment, and the positions that each
    subscription has acknowledged."""

    def __init__(self, entries):
        self.acked, self.entries, self.start = {}, entries, UNTRIMMED

    def take(self, body):
        if not body or body[0] != RECORDS:
            raise NotOfItsForm
        at = 1
        while at < len(body):
            at = self.take_record(body, at)

    def take_record(self, body, at):
        """Takes the record at a place; answers the place behind it."""
        kind, size = body[at], body[at + 1] if at + 1 < len(body) else 0
        end = at + 2 + size + 8 * POSITIONS.get(kind, 0)
        name = body[at + 2:at + 2 + size]
        if kind not in POSITIONS or end > len(body) or not 1 <= size <= LONGEST_NAME or any(byte not in NAME_BYTES for byte in name):
            raise NotOfItsForm
        positions = [number_in(body[start:start + 8]) for start in range(at + 2 + size, end, 8)]
        if (name in self.acked) == (kind == MADE) or any(it > self.entries - (kind != MADE) for it in positions):
            raise NotOfItsForm
        self.mean(kind, name, *positions)
        return end

    def mean(self, kind, name, first=0, last=0):
        if kind == MADE and (len(self.acked) == MOST_NAMES or first < self.start[0]) or kind == RANGE and first > last:
            raise NotOfItsForm
        if kind == MADE:
            self.acked[name] = Acked(first)
        elif kind == REMOVED:
            del self.acked[name]
        else:
            self.acked[name].add(*{ONE: (first, first), THROUGH: (0, first), RANGE: (first, last)}[kind])

    def told(self, name):
        """The name, the mark-delete position, how many runs there are behind it, and whether each position is acknowledged."""
        acked = self.acked[name]
        return f"; {name.decode()} {acked} {''.join('.a'[acked.has(position)] for position in range(self.entries))}"


def told_entry(entry):
    """Of a long one the first bytes, and how many there are."""
    return f" {entry.hex()}" if len(entry) <= 32 else f" {entry[:32].hex()}..{len(entry)}"


def opened(topic, files):
    """What an opening answers of the bytes of a topic's files, which are named by their kind and number."""
    slots = Slots(topic, files)
    base, first = slots.start()
    try:
        segments = Segments(topic, files, base, first)
        told = Told(segments.end())
        slots.read(told)
    except Refused as refusal:
        return str(refusal)
    begins = f" from {base}" if base else ""
    entries = "".join(map(told_entry, segments.entries))
    kept = "".join(map(told.told, sorted(told.acked)))
    return f"ok, segments {segments.count}, entries {segments.end()}{begins}:{entries}{kept}"
