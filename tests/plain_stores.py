"""Plain slow models of the device in memory and of the stores above it, written from docs/FILES.md and the definitions in `specs/`: what each
call answers, and what it leaves in the files."""
from plain_reader import (ENTRIES, END_MARK, HEADER, LARGEST_BODY, LARGEST_ENTRY, LAST_GENERATION, LONGEST_NAME, MADE, MOST_NAMES, NAME_BYTES, ONE,
                          OPEN, POSITIONS, RANGE, RECORDS, REMOVED, THROUGH, UNTRIMMED, File, NotOfItsForm, Refused, judge_entry, number_in)
from subscriptions import Acked
from wire import metadata_in

TOPIC = 3
LONGEST_FILE = 2**62
CLOSED = b"\0"
LONGEST_LEDGER = LAST_FIRST = 2**62
REPLACE_AFTER = 4_096  # records
MOST_PER_LEDGER, MOST_TOPICS = 50_000, 64
PREFIX = b"persistent://"


class Failed(Exception):
    """The device failed, or an earlier failure failed the store."""


class NoMemory(Exception):
    """What takes bodies has no memory for one more."""


def little(value, size):
    return value.to_bytes(size, "little")


# The device


class PlainFile:
    """What reads give, what they gave at the last good sync, and byte by byte what a crash leaves: none where that may be anything."""

    def __init__(self, content=b""):
        self.present, self.synced, self.cells = bytearray(content), bytes(content), list(content)

    def write(self, offset, content):
        offset = min(offset, len(self.present))
        self.present[offset:offset + len(content)] = content
        self.cells[offset:offset + len(content)] = [None] * len(content)

    def cut(self, length):
        del self.present[length:]
        self.cells[length:] = [None] * len(self.cells[length:])

    def left(self, form):
        if form in ("old", "new"):
            return self.synced if form == "old" else bytes(self.present)
        return bytes(form if cell is None else cell for cell in self.cells)


class Device:
    """Files by their names, and the failures that are ordered: at so many writes, cuts and syncs from now, or so many reads."""

    def __init__(self):
        self.files, self.fails, self.stop, self.read_fails, self.form = {}, [], None, [], "old"

    def file(self, name):
        return self.files.setdefault(name, PlainFile())

    def content(self, name):
        return bytes(self.file(name).present)

    def count(self):
        """A write, a cut or a sync begins. One that fails does nothing."""
        fails = 1 in self.fails or self.stop == 1
        self.fails = [max(number - 1, 0) for number in self.fails]
        self.stop = self.stop and max(self.stop - 1, 1)
        if fails:
            raise Failed

    def write(self, name, offset, content):
        self.count()
        if offset + len(content) > LONGEST_FILE:
            raise Failed
        self.file(name).write(offset, content)

    def cut(self, name, length):
        self.count()
        self.file(name).cut(length)

    def sync(self, name):
        self.count()
        self.files[name] = PlainFile(self.content(name))

    def count_read(self):
        fails = 1 in self.read_fails
        self.read_fails = [max(number - 1, 0) for number in self.read_fails]
        if fails:
            raise Failed

    def read(self, name, offset, size):
        self.count_read()
        return self.content(name)[offset:offset + size]

    def crash(self):
        self.files = {name: PlainFile(file.left(self.form)) for name, file in self.files.items()}
        self.stop = None

    def persist(self, name, offset, content):
        """A write, and a sync."""
        self.write(name, offset, content)
        self.sync(name)


def printed_name(name):
    """The name of a file as it prints."""
    if name == "catalog":
        return "catalog2.dat"
    return f"u{TOPIC:05}-e{int(name[1:]):08}.dat" if name[0] == "e" else f"u{TOPIC:05}-{name}.dat"


# Gated files


def header(number, gate, start=UNTRIMMED):
    return bytes([gate]) + b"PULSAR\2" + b"".join(little(value, 8) for value in (number, *start))


def batch(body):
    return little(len(body), 4) + body


class Log:
    """A gated file and the bodies that are remembered of it."""

    def __init__(self, name, number, count=0, end=HEADER):
        self.name, self.number, self.count, self.end, self.failed = name, number, count, end, False

    @staticmethod
    def lay_closed(device, name, number):
        device.cut(name, 0)
        device.persist(name, 0, header(number, 0) + CLOSED)

    @classmethod
    def create(cls, device, name, number):
        cls.lay_closed(device, name, number)
        device.persist(name, 0, bytes([OPEN]))
        return cls(name, number)

    def append(self, device, body):
        if self.failed:
            raise Failed
        self.failed = True
        device.persist(self.name, self.end + 1, batch(body) + CLOSED)
        device.persist(self.name, self.end, bytes([OPEN]))
        self.failed = False
        self.end, self.count = self.end + 5 + len(body), self.count + 1

    def read(self, device, offset, size):
        if self.failed:
            raise Failed
        found = device.read(self.name, offset, size)
        if len(found) < size:
            raise Refused(f"damaged {printed_name(self.name)} at {offset}")
        return found


class Head:
    """The header of a file that is being opened: the file is synced first."""

    def __init__(self, device, name):
        device.sync(name)
        device.count_read()
        self.name, self.file = name, File(printed_name(name), device.content(name))

    def number(self):
        return self.file.number() if len(self.file.content) >= 16 else 0

    def kind(self):
        if not self.file.is_open():
            return "closed"
        try:
            self.file.judge_header()
        except Refused as refusal:
            return "version" if str(refusal) == "version" else "damaged"
        return "number"

    def told(self):
        return f"{len(self.file.content)} {self.kind()} {self.number()}"


def go_on(device, head, taken):
    """Opens a file whose head was read, and hands over its number and its bodies, each before the next gate is looked at."""
    file = head.file
    if not file.is_open():
        raise Refused("not initialised")
    file.judge_header()
    hand(file, 0, lambda label: taken.begin(*label), (file.number(), file.start()))
    gate, count = HEADER, 0
    while True:
        device.count_read()
        if file.content[gate] != OPEN:
            return Log(head.name, file.number(), count, gate)
        body = file.body(gate)
        device.count_read()
        hand(file, gate, taken.body, body)
        gate, count = gate + 5 + len(body), count + 1


def hand(file, gate, take, what):
    try:
        take(what)
    except NotOfItsForm:
        raise file.damaged(gate) from None


def spelled(content):
    return content.hex() or "-"


class Taken:
    """All that is handed over, as text, with room for so many bodies."""

    def __init__(self, room=None):
        self.text, self.room = "", room

    def take(self):
        if self.room == 0:
            raise NoMemory
        self.room = self.room and self.room - 1

    def begin(self, number, _):
        self.text += f" |{number}"

    def body(self, body):
        self.take()
        self.text += f" {spelled(body)}"

    def entry(self, entry):
        self.take()
        self.text += f" {metadata_in(entry)['sequence_id']}:{entry.hex()}"


# A chain of segments


class SegmentTaken:
    """Hands the bodies of a segment on by their kind."""

    def __init__(self, taken):
        self.taken, self.ended = taken, False

    def begin(self, number, start):
        self.taken.begin(number, start)

    def body(self, body):
        if self.ended or not body or body[0] not in (ENTRIES, END_MARK) or body[0] == END_MARK and len(body) > 1:
            raise NotOfItsForm
        if body[0] == END_MARK:
            self.ended = True
        else:
            self.taken.body(body[1:])


class Journal:
    """The logs of its segments from a number on, of which the last one grows."""

    def __init__(self, logs, first):
        self.logs, self.first, self.failed = logs, first, False

    @classmethod
    def create(cls, device, number, first=0):
        return cls([Log.create(device, f"e{first}", number)], first)

    @classmethod
    def open(cls, device, taken, first=0):
        logs, ended = [], True
        while ended:
            segment = SegmentTaken(taken)
            head = Head(device, f"e{first + len(logs)}")
            if not head.file.is_open():
                raise head.file.damaged(0)
            logs.append(go_on(device, head, segment))
            ended = segment.ended
        return cls(logs, first)

    def last(self):
        return self.logs[-1]

    def append(self, device, body):
        self.change(lambda: self.last().append(device, bytes([ENTRIES]) + body))

    def roll(self, device, number):
        def work():
            following = Log.create(device, f"e{self.first + len(self.logs)}", number)
            self.last().append(device, bytes([END_MARK]))
            self.logs.append(following)
        self.change(work)

    def drop_before(self, device, first):
        def work():
            for number in range(self.first, first):
                device.cut(f"e{number}", 0)
                device.sync(f"e{number}")
            self.logs, self.first = self.logs[first - self.first:], first
        self.change(work)

    def change(self, work):
        if self.failed:
            raise Failed
        self.failed = True
        work()
        self.failed = False

    def read(self, device, segment, offset, size):
        if self.failed:
            raise Failed
        return self.logs[segment].read(device, offset, size) if segment < len(self.logs) else None


class EntriesTaken:
    """Takes the entries out of bodies, and remembers where each stands."""

    def __init__(self, taken, base):
        self.taken, self.count, self.segments = taken, base, []

    def begin(self, number, start):
        if number != self.count or start != UNTRIMMED:
            raise NotOfItsForm
        self.segments.append((number, []))
        self.offset = HEADER

    def body(self, body):
        at, start = 0, self.offset + 6
        self.offset = start + len(body)
        while at < len(body):
            size = number_in(body[at:at + 4])
            entry = body[at + 4:at + 4 + size]
            if at + 4 + size > len(body) or size > LARGEST_ENTRY:
                raise NotOfItsForm
            judge_entry(entry)
            self.taken.entry(entry)
            self.segments[-1][1].append((start + at + 4, size))
            self.count, at = self.count + 1, at + 4 + size


class Ledger:
    """A journal of entries. Of each segment the position of its first entry, and where each stands."""

    def __init__(self, journal, per_ledger, segments):
        self.journal, self.per_ledger, self.segments = journal, per_ledger, segments

    @classmethod
    def create(cls, device, per_ledger):
        return cls(Journal.create(device, 0), per_ledger, [(0, [])])

    @classmethod
    def open(cls, device, per_ledger, taken, start=(0, 0)):
        entries = EntriesTaken(taken, start[0])
        journal = Journal.open(device, entries, start[1])
        return cls(journal, per_ledger, entries.segments)

    def start(self):
        return self.segments[0][0], self.journal.first

    def end(self):
        first, places = self.segments[-1]
        return first + len(places)

    def is_full(self):
        return len(self.segments[-1][1]) >= self.per_ledger

    def append(self, device, entries):
        if sum(4 + len(entry) for entry in entries) > LARGEST_BODY - 1:
            raise Refused("too large")
        position = self.end()
        if self.is_full():
            self.journal.roll(device, position)
            self.segments.append((position, []))
        at = self.journal.last().end + 6
        self.journal.append(device, b"".join(batch(entry) for entry in entries))
        for entry in entries:
            self.segments[-1][1].append((at + 4, len(entry)))
            at += 4 + len(entry)
        return position

    def read(self, device, position):
        if self.journal.failed:
            raise Failed
        for segment, (first, places) in enumerate(self.segments):
            if first <= position < first + len(places):
                return self.journal.read(device, segment, *places[position - first])
        return None

    def trim_point(self, more, limit):
        firsts = [first for first, _ in self.segments]
        if more and self.is_full():
            firsts.append(self.end())
        below = [(first, self.journal.first + count) for count, first in enumerate(firsts) if count and first <= limit]
        return below[-1] if below else None

    def trim(self, device, start):
        count = start[1] - self.journal.first
        self.journal.drop_before(device, start[1])
        self.segments = self.segments[count:]


# Two slots


class Slots:
    """The log of the slot that counts, which is the one of that name."""

    def __init__(self, log):
        self.log, self.failed = log, False

    @classmethod
    def create(cls, device):
        log = Log.create(device, "c0", 1)
        Log.lay_closed(device, "c1", 0)
        return cls(log)

    @classmethod
    def open(cls, device, taken):
        return cls.open_from(device, cls.heads(device), taken)

    @staticmethod
    def heads(device):
        return tuple(Head(device, name) for name in ("c0", "c1"))

    @classmethod
    def start(cls, heads):
        """Where the ledger begins, as the header says that counts; at its first entry where none does, or the one that does is refused."""
        zero, one = heads
        one_counts = one.file.is_open() and (not zero.file.is_open() or one.number() > zero.number())
        counting = one if one_counts else zero
        if not counting.file.is_open():
            return UNTRIMMED
        try:
            cls.judge(counting)
        except Refused:
            return UNTRIMMED
        return counting.file.start()

    @classmethod
    def open_from(cls, device, heads, taken):
        zero, one = heads
        zero_open, one_open = zero.file.is_open(), one.file.is_open()
        if not zero_open and not one_open:
            raise zero.file.damaged(0)
        if zero_open:
            cls.judge(zero)
        one_counts = one_open and (not zero_open or one.number() > zero.number())
        log = None if one_counts else go_on(device, zero, taken)
        if one_open:
            cls.judge(one)
            if zero_open and zero.number() == one.number():
                raise one.file.damaged(0)
        return cls(log or go_on(device, one, taken))

    @staticmethod
    def judge(head):
        head.file.judge_header()
        if head.number() == LAST_GENERATION:
            raise head.file.damaged(0)

    def can_replace(self, times=1):
        return self.log.number < LAST_GENERATION - times

    def append(self, device, body):
        self.change(lambda: self.log.append(device, body))

    def replace(self, device, bodies, start=UNTRIMMED):
        if not self.can_replace():
            raise Refused("too large")
        self.change(lambda: self.write_over(device, bodies, start))

    def write_over(self, device, bodies, start):
        name, number = "c1" if self.log.name == "c0" else "c0", self.log.number + 1
        before = device.content(name)
        if len(before) >= HEADER and before[0] != OPEN:
            device.persist(name, 1, b"\x50")
        else:
            device.persist(name, 0, CLOSED)
        batches = b"".join(bytes([OPEN]) + batch(body) for body in bodies)
        device.persist(name, 1, header(number, OPEN, start)[1:] + batches + CLOSED)
        device.persist(name, 0, bytes([OPEN]))
        self.log = Log(name, number, len(bodies), HEADER + len(batches))

    change = Journal.change


# Subscriptions

KINDS = {"made": MADE, "removed": REMOVED, "one": ONE, "through": THROUGH, "range": RANGE}


def is_part(content):
    return 1 <= len(content) <= LONGEST_NAME and all(byte in NAME_BYTES for byte in content)


def record_bytes(kind, name, *positions):
    return bytes([kind, len(name)]) + name + b"".join(little(position, 8) for position in positions)


def record_at(body, at):
    """The record at a place, and the place behind it; none where none stands there."""
    kind, size = body[at], body[at + 1] if at + 1 < len(body) else 0
    end = at + 2 + size + 8 * POSITIONS.get(kind, 0)
    if kind not in POSITIONS or at + 2 > len(body) or end > len(body):
        return None
    name = body[at + 2:at + 2 + size]
    return (kind, name, *(number_in(body[start:start + 8]) for start in range(at + 2 + size, end, 8))), end


def records_in(body):
    """The records of a body; none where it has another kind or something else stands in it."""
    if not body or body[0] != RECORDS:
        return None
    at, parts = 1, []
    while at < len(body):
        found = record_at(body, at)
        if found is None:
            return None
        parts.append(found[0])
        at = found[1]
    return parts


class Kept:
    """The acknowledged positions of each subscription, by the bytes of its name."""

    def __init__(self, acked=None):
        self.acked = acked or {}

    def copy(self):
        copies = {}
        for name, acked in self.acked.items():
            copies[name] = Acked()
            copies[name].parts = list(acked.parts)
        return Kept(copies)

    def is_formed(self, entries, kind, name, *positions):
        if not is_part(name) or (name in self.acked) == (kind == MADE) or kind == MADE and len(self.acked) >= MOST_NAMES:
            return False
        return all(it <= entries - (kind != MADE) for it in positions) and (kind != RANGE or positions[0] <= positions[1])

    def apply(self, kind, name, first=0, last=0):
        if kind == MADE:
            self.acked[name] = Acked(first)
        elif kind == REMOVED:
            del self.acked[name]
        else:
            self.acked[name].add(*{ONE: (first, first), THROUGH: (0, first), RANGE: (first, last)}[kind])

    def apply_all(self, entries, records):
        """What is kept behind records; none where one isn't of its form at its place."""
        after = self.copy()
        for record in records:
            if not after.is_formed(entries, *record):
                return None
            after.apply(*record)
        return after

    def read_body(self, entries, body):
        """What is kept behind the records of a body; none where it isn't of its form."""
        records = records_in(body)
        return None if records is None else self.apply_all(entries, records)

    def told(self, name):
        acked = self.acked[name]
        marks = "".join("a" if acked.has(position) else "." for position in range(10))
        return f" {name.decode()} {acked.mark_delete()} {acked.ranges()} {marks}"

    def told_all(self):
        return f"{len(self.acked)}" + "".join(map(self.told, sorted(self.acked)))

    def records(self):
        """The bytes of records that make all from nothing."""
        content = b""
        for name in sorted(self.acked):
            acked = self.acked[name]
            mark = acked.mark_delete()
            content += record_bytes(MADE, name, mark)
            for first in sorted({first for first, end in acked.parts if mark < first < end and not acked.has(first - 1)}):
                content += record_bytes(RANGE, name, first, acked.first_open(first) - 1)
        return content


class Told:
    """Where the ledger begins, by position and by segment, and its subscriptions."""

    def __init__(self, kept=None, start=(0, 0)):
        self.kept, self.start = kept or Kept(), start

    def may_begin(self, entries, base, first):
        """Not before it did, nor past its end, nor past a position that a subscription lacks."""
        lacks = any(acked.mark_delete() < base for acked in self.kept.acked.values())
        return self.start[0] <= base <= entries and first <= LAST_FIRST and not lacks

    def behind(self, entries, records):
        """What is told behind records; none where one isn't of its form at its place."""
        after = Told(self.kept.copy(), self.start)
        for kind, *what in records:
            if kind == MADE and what[1] < self.start[0] or not after.kept.is_formed(entries, kind, *what):
                return None
            after.kept.apply(kind, *what)
        return after

    def snapshot(self):
        """The body that makes what is kept from nothing; none where there is nothing."""
        content = self.kept.records()
        return [bytes([RECORDS]) + content] if content else []


class RecordsTaken:
    """Takes where the ledger begins out of a header, where one of so many entries may, and the records out of bodies."""

    def __init__(self, entries):
        self.entries, self.told = entries, Told()

    def begin(self, _, start):
        if start[0] > self.entries or start[1] > LAST_FIRST:
            raise NotOfItsForm
        self.told.start = start

    def body(self, body):
        records = records_in(body)
        after = None if records is None else self.told.behind(self.entries, records)
        if after is None:
            raise NotOfItsForm
        self.told = after


class CursorStore:
    """Slots of records, what these tell, and how many were appended since the last replace."""

    def __init__(self, slots, told):
        self.slots, self.told, self.appended = slots, told, 0

    @classmethod
    def create(cls, device):
        return cls(Slots.create(device), Told())

    @classmethod
    def open(cls, device, entries):
        return cls.open_from(device, Slots.heads(device), entries)

    @classmethod
    def open_from(cls, device, heads, entries):
        taken = RecordsTaken(entries)
        slots = Slots.open_from(device, heads, taken)
        return cls(slots, taken.told)

    @staticmethod
    def begin(device):
        """The heads of both slots, and where the ledger begins, by the header that counts."""
        heads = Slots.heads(device)
        return heads, Slots.start(heads)

    def after(self, records):
        return self.told.behind(LONGEST_LEDGER, records) if records else None

    def append(self, device, records):
        """Whether the records are of their form, and so appended."""
        after = self.after(records)
        if after is None:
            return False
        if self.appended >= REPLACE_AFTER and self.slots.can_replace():
            self.slots.replace(device, self.told.snapshot(), self.told.start)
            self.appended = 0
        self.add(device, b"".join(record_bytes(*record) for record in records), len(records), after)
        return True

    def trim(self, device, start, records=()):
        """Whether the ledger may begin there, behind these records, and so does; without that none is appended."""
        after = self.after(records) if records else self.told
        is_due = bool(records) and self.appended >= REPLACE_AFTER and self.slots.can_replace()
        if after is None or not after.may_begin(LONGEST_LEDGER, *start) or not self.slots.can_replace(1 + is_due):
            return False
        if records:
            self.append(device, records)
        self.slots.replace(device, after.snapshot(), start)
        self.told, self.appended = Told(after.kept, start), 0
        return True

    def add(self, device, content, count, after):
        self.slots.append(device, bytes([RECORDS]) + content)
        self.told, self.appended = after, min(self.appended + count, REPLACE_AFTER)


# The catalog


def is_topic(content):
    parts = content[len(PREFIX):].split(b"/")
    return content.startswith(PREFIX) and len(parts) == 3 and all(map(is_part, parts))


class NamesTaken:
    """Takes names."""

    def __init__(self):
        self.names = []

    def begin(self, number, start):
        if not 1 <= number <= MOST_PER_LEDGER or start != UNTRIMMED:
            raise NotOfItsForm

    def body(self, body):
        if not is_topic(body) or body in self.names or len(self.names) == MOST_TOPICS:
            raise NotOfItsForm
        self.names.append(body)


class Catalog:
    """A log of names."""

    def __init__(self, log, names=()):
        self.log, self.names = log, list(names)

    @classmethod
    def create(cls, device, number):
        return cls(Log.create(device, "catalog", number))

    @classmethod
    def open(cls, device):
        taken = NamesTaken()
        return cls(go_on(device, Head(device, "catalog"), taken), taken.names)

    def is_full(self):
        return len(self.names) >= MOST_TOPICS

    def find(self, device, name):
        """The place of a name, or none. A failed catalog is opened again first, and stays as it is where that fails."""
        if self.log.failed:
            again = Catalog.open(device)
            self.log, self.names = again.log, again.names
        return self.names.index(name) if name in self.names else None

    def add(self, device, name):
        self.log.append(device, name)
        self.names.append(name)
        return len(self.names) - 1
