#!/usr/bin/env python3
"""Computes anew what `crates/opening_tests` must print of the files in its file stdin, by `plain_reader.py`, which follows docs/FILES.md alone.

Usage: tests/openings.py [--write]

Compares the answers with the file stdout; the last line is 'openings: N lines, M differ', and the exit status is 1 where any does. With --write
it puts damaged folders behind the hand-written lines of stdin (rows of each fault, pairs of faults, each byte of small folders changed to each of
00, 01, 02 and ff, each file cut at each length, and changes at random), and writes stdout."""
import random
import sys
from itertools import combinations

sys.dont_write_bytecode = True
from encoding import entry_of, number, text
from plain_reader import (END_MARK, ENTRIES, LARGEST_ENTRY, LAST_GENERATION, MADE, MOST_ENTRIES, MOST_NAMES, ONE, RANGE, RECORDS, REMOVED, THROUGH,
                          UNTRIMMED, opened)
from table import Table

TOPIC = 3
BEGINS = "# folders that are damaged in one place, in two, and at random"
BYTES = (0, 1, 2, 0xFF)
SEED, FOLDERS, OPENINGS = 5, 40, 12

# Files


def little(value, size):
    return value.to_bytes(size, "little")


def batch(body, length=None):
    return b"\x01" + little(len(body) if length is None else length, 4) + body


def gated(value, *batches, gate=1, name=b"PULSAR", version=2, start=UNTRIMMED, end=b"\0"):
    """A gated file with this number in its header, and where a ledger begins, by position and by segment."""
    return bytes([gate]) + name + bytes([version]) + b"".join(little(it, 8) for it in (value, *start)) + b"".join(batches) + end


def entries(*content):
    """A batch of entries."""
    return batch(bytes([ENTRIES]) + b"".join(little(len(entry), 4) + entry for entry in content))


def records(*content):
    """A batch of records."""
    return batch(bytes([RECORDS]) + b"".join(content))


def record(kind, name, *positions):
    return bytes([kind, len(name)]) + name + b"".join(little(position, 8) for position in positions)


MARK = batch(bytes([END_MARK]))
A, B, C, D = (entry_of(payload) for payload in (b"a", b"", b"c", b"d"))
FULL = gated(0, entries(A, B), MARK)
LAST = gated(2, entries(C), entries(D))
SEGMENTS = {("segment", 0): FULL, ("segment", 1): LAST}
MANY = (records(record(MADE, b"s", 0), record(MADE, b"t", 2)), records(record(ONE, b"s", 0), record(RANGE, b"s", 2, 3), record(THROUGH, b"t", 2)),
        records(record(MADE, b"u", 4), record(REMOVED, b"u")))
FEW = (records(record(MADE, b"s", 1)),)


def of_slots(zero, one, segments=None):
    """A folder with these slots, and with two segments where no others are given."""
    return {**(SEGMENTS if segments is None else segments), ("slot", 0): zero, ("slot", 1): one}


CLOSED = gated(0, gate=0)
BOTH_OPEN = of_slots(gated(2, *MANY), gated(1, *FEW))  # slot 0 counts
ONE_COUNTS = of_slots(gated(2, *FEW), gated(3, *MANY))
NEW = of_slots(gated(1, *MANY), CLOSED)  # as slots are that were never replaced

# Lines


def spelled(content):
    return f" {content.hex()}" if content else ""


def lay(files):
    return ["folder 2", *(f"file {kind} {at}{spelled(content)}" for (kind, at), content in files.items())]


def alone(title, *folders):
    """Folders that are opened as they are."""
    return [f"# {title}", *(line for files in folders for line in [*lay(files), "open"]), ""]


def of_segments(title, *chains):
    """The same of chains of segments, beside slots without subscriptions."""
    folders = ({("segment", at): content for at, content in enumerate(chain)} for chain in chains)
    return alone(title, *(of_slots(gated(1), CLOSED, segments) for segments in folders))


def of_bodies(title, *bodies):
    """The same of batches behind the first ones in the slot that counts."""
    return alone(title, *(of_slots(gated(1, *MANY, body), CLOSED) for body in bodies))


def change(file, offset, byte):
    return f"byte {file[0]} {file[1]} {offset} {byte:02x}"


def each_byte(files, file):
    content = files[file]
    return [f"open {change(file, at, byte)}" for at in range(len(content)) for byte in BYTES if content[at] != byte]


def each_length(files, file):
    return [f"open cut {file[0]} {file[1]} {length}" for length in range(len(files[file]))]


# Rows

METADATA = entry_of()
NO_RECORDS = of_slots(gated(1), CLOSED, {})


def long_entry(size):
    """The line of a segment with an entry of this size."""
    front = gated(0, batch(bytes([ENTRIES]) + little(size, 4) + METADATA, 5 + size), end=b"")
    return f"file segment 0 {front.hex()} {size - len(METADATA)} 00"


def limits():
    folders = (["folder 2", long_entry(size), *lay(NO_RECORDS)[1:], "open"] for size in (LARGEST_ENTRY, LARGEST_ENTRY + 1))
    return ["# the longest entry, and one that is a byte longer", *(line for folder in folders for line in folder), ""]


def unreadable():
    """Entries without metadata that can be read: none, cut, with another size, without a required field, with a checksum before them."""
    return [b"", b"\0", b"\0\0\0", b"\0\0\0\0", B[:-1], b"\0\0\0\x08" + B[4:], b"\0\0\0\x04" + text(1, b"p") + number(2, 0)[:1],
            b"\x0e\x01" + B, B[:4] + b"\x0b" + B[5:]]


def counted():
    """Entries that may be, of one message and more, and some that have none or too many; of two numbers the last one counts."""
    numbers = ([1], [3], [1_048_576], [0, 3], [0], [1_048_577], [2**31 - 1], [2**64 - 1], [2**64 - 2**31], [3, 0])
    return [entry_of(b"a", b"".join(number(11, it) for it in some)) for some in numbers]


def rows_of_chains():
    zero, one = gated(0, entries(A), MARK), gated(1, entries(B), MARK)
    return [
        *of_segments("chains that stand", [gated(0)], [FULL, LAST], [gated(0, MARK), gated(0, MARK), gated(0, entries(A))], [zero, one, gated(2)],
                     [gated(0, batch(b"\0"), batch(b"\0")), b"other bytes"], [gated(0, entries(A, B, C, D), end=b"\x02other bytes")]),
        *of_segments("a segment that is missing, closed or cut in its header", [], [b"", LAST], [FULL], [zero, b"", gated(1)],
                     [FULL, gated(2, gate=0)], [FULL, gated(2, gate=255)], [FULL, LAST[:15]], [FULL, LAST[:16]], [FULL, LAST[:31]], [FULL, LAST[:32]]),
        *of_segments("another name, version or number of a header, and two of them", [gated(0, name=b"PULSAS")], [gated(0, version=1)],
                     [gated(0, version=0)], [gated(1)], [gated(0, name=b"pULSAR", version=1)], [gated(1, version=1)], [gated(0, version=1, end=b"")],
                     [gated(7, end=b"")], [FULL, gated(0)], [FULL, gated(3)], [FULL, gated(2 + 2**63)], [FULL, gated(2, version=3)],
                     [FULL, gated(9, version=3)])]


def rows_of_batches():
    cut = (b"\0\0", b"\0\0\0\0", b"\0\x0c\0\0\0" + A[:-1], b"\0\x0c\0\0\0" + A + b"\0", b"\0\x0c\0\0\0" + A + b"\0\0\0", b"\0\xff\xff\xff\xff" + A)
    return [
        *of_segments("batches that aren't whole, too long, or of another kind", [gated(0, batch(b"\0", 2))], [gated(0, batch(b"\0", 2**25 + 1))],
                     [gated(0, batch(b"\0", 2**32 - 1))], [gated(0, entries(A), end=b"")], [gated(0, entries(A), end=b"\1")],
                     [gated(0, entries(A), end=b"\1\1\0\0")], [gated(0, batch(b""))], [gated(0, batch(b"\2"))], [gated(0, batch(b"\xff" + A))],
                     [gated(0, batch(b"\1\0"))], [gated(0, entries(A), batch(b"\1\1"))]),
        *of_segments("batches behind an end mark", [gated(0, MARK, MARK), gated(0)], [gated(0, MARK, entries(A)), gated(0)],
                     [gated(0, MARK, end=b"\1"), gated(0)], [gated(0, MARK, batch(b"", 9)), b""]),
        *of_segments("bodies whose lengths don't fill them", *([gated(0, entries(A), batch(body))] for body in cut)),
        *of_segments("entries whose metadata can't be read", *([gated(0, entries(A, it))] for it in unreadable())),
        *of_segments("entries of so many messages", *([gated(0, entries(A), entries(B, it, C), entries(D))] for it in counted())),
        *limits()]


def headers():
    """Headers of one slot: each fault alone, and two at once."""
    last = LAST_GENERATION
    return [b"", CLOSED, gated(1)[:15], gated(1)[:31], gated(1)[:32], gated(1), gated(2), gated(last), gated(last - 1), gated(last, gate=0), gated(1, name=b"PULSAS"),
            gated(last, name=b"PULSAS"), gated(1, version=1), gated(last, version=1), gated(1, version=1, end=b""), gated(1, name=b"\0" * 6, version=1),
            gated(2, b"\1"), gated(2, batch(b"\1")), gated(2, version=0)]


def rows_of_headers():
    beside = (of_slots(zero, one, {("segment", 0): gated(0)}) for zero in headers() for one in headers())
    return alone("each header of slot 0 beside each header of slot 1", *beside)


def rows_of_records():
    short = (record(MADE, b"u", 0), record(REMOVED, b"s"), record(RANGE, b"s", 0, 1))
    return [
        *of_bodies("bodies that stand", records(), records(record(MADE, b"u", 0)), records(record(MADE, b"a-b_c.z9", 4)),
                   records(record(MADE, b"l" * 255, 1)), records(record(REMOVED, b"s"), record(MADE, b"s", 3)),
                   records(record(ONE, b"s", 3), record(ONE, b"s", 3)), records(record(THROUGH, b"s", 3)), records(record(RANGE, b"s", 1, 1)),
                   records(record(RANGE, b"t", 0, 3))),
        *of_bodies("bodies without bytes, of another kind or with records that aren't known", batch(b""), batch(b"\1"),
                   batch(b"\2" + record(ONE, b"s", 0)), *(records(it) for it in (b"\0", record(0, b"s", 0), record(6, b"s", 0), record(255, b"s"),
                                                                                b"\x07" + bytes(16)))),
        *of_bodies("records that are cut short", *(records(it[:size]) for it in short for size in range(1, len(it)))),
        *of_bodies("batches of the slot that counts", batch(b"\0", 2), batch(b"\0", 2**25 + 1), records() + b"\1",
                   records(record(ONE, b"s", 4)) + b"\1")]


# Where the ledger begins

THREE = {("segment", 1): gated(2, entries(C), MARK), ("segment", 2): gated(3, entries(D))}  # whose first one is gone, as are its bytes
TRIMMED = of_slots(gated(2, records(record(MADE, b"s", 3)), records(record(ONE, b"s", 3)), start=(2, 1)), CLOSED, THREE)
TWICE = of_slots(gated(1, records(record(MADE, b"s", 2)), start=(2, 1)), gated(2, records(record(MADE, b"s", 3)), records(record(MADE, b"t", 3)), start=(3, 2)),
                 THREE)


def begun(*start, bodies=(), segments=None, other=CLOSED):
    """A folder whose first segment is gone, with this start in slot 0, a subscription that has the positions below 3, and these batches."""
    return of_slots(gated(1, records(record(MADE, b"s", 3)), *bodies, start=start), other, THREE if segments is None else segments)


def rows_of_starts():
    made = records(record(MADE, b"t", 2)), records(record(MADE, b"t", 1)), records(record(REMOVED, b"s"), record(MADE, b"s", 1))
    lacking = {("segment", 2): THREE[("segment", 2)]}
    closed = {**THREE, ("segment", 1): b"\0" + THREE[("segment", 1)][1:]}
    whole = {("segment", 0): FULL, **THREE}
    bad = batch(b"\7")
    most = [(MOST_ENTRIES, 1), (MOST_ENTRIES + 1, 1), (2, MOST_ENTRIES), (2, MOST_ENTRIES + 1), (2**64 - 1, 2**64 - 1)]
    begins = gated(2, *MANY, start=(2, 1))
    return [
        *alone("where the ledger begins", begun(2, 1), begun(3, 2), begun(0, 0, segments=whole), begun(2, 1, segments=whole), begun(2, 1, bodies=made[:1]),
               begun(4, 3, segments={("segment", 3): gated(4)}, bodies=(records(record(THROUGH, b"s", 3)),)), TRIMMED, TWICE),
        *alone("a segment that isn't the one that is named", begun(2, 0), begun(3, 1), begun(1, 1), begun(2, 2), begun(2, 3), begun(2, 1, segments=lacking),
               begun(2, 1, segments=closed), begun(4, 2), begun(5, 2), begun(0, 0), begun(0, 1, segments=whole), begun(2, 0, segments=whole)),
        *alone("a subscription that begins before the ledger does, and one that it makes behind", *(begun(2, 1, bodies=(it,)) for it in made)),
        *alone("numbers at their limits", *(begun(*it) for it in most)),
        *alone("a record of the version before", begun(2, 1, bodies=(records(bytes([6]) + little(2, 8) + little(1, 8)),))),
        *alone("a start in a slot that doesn't count, or is refused", *(of_slots(zero, one, whole) for zero, one in (
            (gated(3, *MANY), begins), (begins, gated(1, *MANY, start=(3, 2))), (gated(2, *MANY, start=(2, 1), gate=0), gated(1, *MANY)),
            (gated(2, *MANY, start=(2, 1), name=b"PULSAS"), CLOSED), (gated(2, *MANY, start=(2, 1), version=1), CLOSED),
            (gated(2, *MANY, start=(2, 1)), gated(2, *MANY)), (gated(1, *MANY, start=(2, 1)), gated(2, *MANY, version=3))))),
        *alone("a start in a segment", *(of_slots(gated(1), CLOSED, {("segment", 0): gated(0, start=it)}) for it in ((1, 0), (0, 1), (2**63, 0), (0, 2**63)))),
        *alone("damage behind it, and beside the ledger alone", begun(2, 1, bodies=(bad,)), begun(2, 1, bodies=(records(record(ONE, b"s", 4)),)),
               begun(2, 1, bodies=(batch(b"", 9),)), begun(2, 1, bodies=(records(record(ONE, b"u", 0)),)),
               begun(2, 1, bodies=(records(record(ONE, b"s", 4)),), segments=lacking), begun(2, 1, bodies=(bad,), segments=lacking))]


def rows_of_names():
    bad = (b"", b"a b", b"\0", b"\x7f", b"a/b", b"\xc3\xa9", b"A" * 254 + b"!")
    several = [record(MADE, b"n%02d" % at, at % 5) for at in range(MOST_NAMES + 1)]
    most, last = records(*several[:-1]), several[-1]
    return [
        *of_bodies("names that aren't", *(records(record(MADE, name, 0)) for name in bad), records(record(REMOVED, b""))),
        *of_bodies("a name that is there, and names that aren't", records(record(MADE, b"s", 0)), records(record(MADE, b"u", 0), record(MADE, b"u", 0)),
                   *(records(record(kind, b"u", *places)) for kind, places in ((REMOVED, ()), (ONE, (0,)), (THROUGH, (0,)), (RANGE, (0, 0)))),
                   records(record(REMOVED, b"s"), record(ONE, b"s", 0)), records(record(REMOVED, b"s"), record(REMOVED, b"s"))),
        *alone("sixty-four subscriptions, and one more", *(of_slots(gated(1, *bodies), CLOSED) for bodies in (
            (most,), (records(*several),), (most, records(last)), (most, records(record(REMOVED, b"n00"), last)))))]


def rows_of_positions():
    last = 2**64 - 1
    return of_bodies("positions past the ledger's length, and ranges that end before they start", *(records(it) for it in (
        record(MADE, b"u", 4), record(MADE, b"u", 5), record(MADE, b"u", last), record(ONE, b"s", 3), record(ONE, b"s", 4), record(ONE, b"s", 2**63),
        record(THROUGH, b"s", 4), record(THROUGH, b"s", last), record(RANGE, b"s", 3, 4), record(RANGE, b"s", 4, 4), record(RANGE, b"s", 0, last),
        record(RANGE, b"s", 2, 1), record(RANGE, b"s", 3, 0), record(RANGE, b"s", last, 0))))


# Two faults, of which the first is told


def changes():
    """One in each place of a folder with two segments and two slots."""
    zero, one, first, second = ("segment", 0), ("segment", 1), ("slot", 0), ("slot", 1)
    of_files = [change(zero, 1, 0), change(zero, 7, 2), change(zero, 33, 255), change(zero, len(FULL) - 2, 2), change(zero, len(FULL) - 1, 1),
                change(one, 8, 1), change(one, 16, 1), change(one, 24, 1), change(one, 37, 3), change(one, len(LAST) - 1, 1)]
    of_slot = [change(first, 2, 0), change(first, 7, 0), change(first, 33, 255), change(first, 37, 9), "cut slot 0 36",
               change(second, 2, 0), change(second, 7, 0), change(second, 0, 0), change(second, 8, 2), change(second, 16, 1), change(second, 37, 9), "cut slot 1 36"]
    return of_files + of_slot


def rows_of_pairs():
    pairs = [f"open {one}, {other}" for one, other in combinations(changes(), 2)]
    of_starts = [f"open {one}, {other}" for one, other in combinations(changes_of_starts(), 2)]
    return [line for title, files, asked in (("where slot 0 counts", BOTH_OPEN, pairs), ("where slot 1 counts", ONE_COUNTS, pairs),
                                             ("where the first segment is gone", TWICE, of_starts))
            for line in [f"# two faults, {title}", *lay(files), *asked, ""]]


def changes_of_starts():
    """One in each place of a folder whose slots both say where the ledger begins, and whose slot 1 counts."""
    one, two, first, second = ("segment", 1), ("segment", 2), ("slot", 0), ("slot", 1)
    return [change(one, 0, 0), change(one, 37, 9), change(two, 1, 0), change(two, 8, 2), change(two, 37, 9), change(first, 2, 0), change(first, 8, 2),
            change(second, 0, 0), change(second, 7, 0), change(second, 16, 2), change(second, 24, 1), change(second, 38, 7), change(second, 39, 4),
            change(second, 55, 7), "cut slot 1 50", "cut slot 1 31"]


# Each byte and each length


def rows_of_bytes():
    lines = []
    for title, files in (("slot 0 counts", BOTH_OPEN), ("slot 1 counts", ONE_COUNTS), ("slot 1 is closed", NEW), ("the first segment is gone", TRIMMED)):
        for file, content in files.items():
            if files in (BOTH_OPEN, TRIMMED) or file[0] == "slot" and (files is ONE_COUNTS or file[1] == 1):
                lines += [f"# {title}: {file[0]} {file[1]} of {len(content)} bytes, each changed, and cut at each length", *lay(files),
                          *each_byte(files, file), *each_length(files, file), ""]
    return lines


# At random


def some_entries(chance, chain):
    """Appends of entries to a chain of segments, which is rolled now and then."""
    at = 0
    for _ in range(chance.randrange(4)):
        if chance.randrange(3) == 0:
            chain[-1].append(MARK)
            chain.append([at])
        count = chance.randrange(3)
        chain[-1].append(entries(*(chance.choice((A, B, C, D)) for _ in range(count))))
        at += count
    return at


def some_record(chance, length):
    kind = chance.choice((MADE, MADE, REMOVED, ONE, THROUGH, RANGE))
    places = sorted(chance.randrange(length + 1) for _ in range({MADE: 1, REMOVED: 0, RANGE: 2}.get(kind, 1)))
    return record(kind, chance.choice((b"s", b"t", b"uv")), *places)


def some_slot(chance, length):
    """Bodies that stand as far as the plain reader says, in a slot with a low generation."""
    bodies = [records(record(MADE, b"s", chance.randrange(length + 1)))]
    for _ in range(chance.randrange(6)):
        more = [*bodies, records(*(some_record(chance, length) for _ in range(chance.randrange(1, 3))))]
        bodies = chance.choice((more, bodies)) if chance.randrange(12) else more
    return chance.choice((gated(chance.randrange(1, 4), *bodies), gated(chance.randrange(1, 4), *bodies), CLOSED, b""))


def some_folder(chance):
    chain = [[0]]
    length = some_entries(chance, chain)
    segments = {("segment", at): gated(*parts) for at, parts in enumerate(chain)}
    return of_slots(some_slot(chance, length), some_slot(chance, length), segments)


def some_change(chance, files):
    file = chance.choice([it for it in files if files[it]])
    content = files[file]
    if chance.randrange(8) == 0:
        return f"cut {file[0]} {file[1]} {chance.randrange(len(content) + 1)}"
    at = chance.choice((chance.randrange(len(content)), chance.randrange(min(41, len(content))), len(content) - 1))
    return change(file, at, chance.choice((*BYTES, 3, 4, 5, chance.randrange(256), content[at] ^ 1 << chance.randrange(8))))


def rows_at_random():
    chance, lines = random.Random(SEED), []
    for _ in range(FOLDERS):
        files = some_folder(chance)
        changes_of = ([some_change(chance, files) for _ in range(chance.randrange(1, 4))] for _ in range(OPENINGS))
        lines += [*lay(files), "open", *(f"open {', '.join(several)}" for several in changes_of), ""]
    return ["# at random", *lines]


def made_lines():
    rows = (rows_of_chains, rows_of_batches, rows_of_headers, rows_of_records, rows_of_starts, rows_of_names, rows_of_positions, rows_of_pairs, rows_of_bytes,
            rows_at_random)
    return [BEGINS, *(line for row in rows for line in row())]


# Answers


class Folder:
    """The files that lines lay."""

    def __init__(self):
        self.files = {}

    def lay(self, kind, at, *content):
        front, count, end = (*content, "", "0", "")[:3] if len(content) != 1 else (content[0], "0", "")
        self.files[kind, int(at)] = bytes.fromhex(front) + b"\x07" * int(count) + bytes.fromhex(end)
        return f"{len(self.files[kind, int(at)])} bytes"

    def changed(self, changes):
        files = dict(self.files)
        for words in (it.split(" ") for it in changes.split(", ") if it):
            file, place = (words[1], int(words[2])), int(words[3])
            content = files.get(file, b"")
            byte = bytes.fromhex(words[4]) if words[0] == "byte" else b""
            place = min(place, len(content))
            files[file] = content[:place] + byte + (content[place + 1:] if byte else b"")
        return files

    def answer(self, line):
        word, _, asked = line.partition(" ")
        if word == "folder":
            self.files = {}
            return f"{int(asked)} entries a ledger"
        if word == "file":
            return self.lay(*asked.split(" "))
        return opened(TOPIC, self.changed(asked)) if word == "open" else line


def answers_to(lines):
    folder = Folder()
    return [folder.answer(line) for line in lines]


if __name__ == "__main__":
    Table("opening_tests", BEGINS, lambda hand: made_lines(), answers_to).main("openings", __doc__)
