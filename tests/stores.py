#!/usr/bin/env python3
"""Computes anew what `crates/stores_tests` must print of the steps in its file stdin, by the models of `plain_stores.py`.

Usage: tests/stores.py [--write]

Each line is steps with '; ' between, which begin with a device without files and no store; docs/TESTING.md names them. Compares the answers with the
file stdout; the last line is 'stores: N lines, M differ', and the exit status is 1 where any does. With --write it puts sweeps behind the hand-written
lines of stdin (a stop and a failure at each call of each kind of work, in each form of crash, failed reads, headers of slots, bodies of records, calls
of the device at random), and writes stdout."""
import sys

sys.dont_write_bytecode = True
from plain_reader import Refused
from plain_stores import (KINDS, MOST_PER_LEDGER, TOPIC, Catalog, CursorStore, Device, Failed, Head, Journal, Kept, Ledger,
                          Log, NoMemory, Slots, Taken, go_on, is_part, is_topic, printed_name, spelled)
from store_sweeps import BEGINS, made_lines
from table import Table

LOG = "e12"
LONG = b"-" * 256
STORES = ("log", "journal", "slots", "ledger", "cursors", "catalog")
MAKING = ("create", "open", "behind", "begin", "from", "head", "some", "count", "limit")  # steps that need no store


def content_of(word):
    return b"" if word == "-" else bytes.fromhex(word)


def entry_of(word):
    """Hex digits, and behind a + how many bytes of 78 more."""
    front, _, count = word.partition("+")
    return content_of(front) + b"x" * int(count or 0)


def record_of(word):
    kind, name, *positions = word.split(":")
    return KINDS[kind], name.encode(), *map(int, positions)


def records_of(words):
    return [record_of(word.partition("*")[2] or word) for word in words for _ in range(int(word.partition("*")[0]) if "*" in word else 1)]


def yes(is_so):
    return "yes" if is_so else "no"


def standing(failed):
    return "failed" if failed else "works"


def some(found):
    return "none" if found is None else str(found)


def told_start(start):
    return "none" if start is None else f"{start[0]} {start[1]}"


def found_bytes(found):
    return "none" if found is None else spelled(found)


class Steps:
    """The device, and of each kind of store the one that was made or opened last. Each method answers one kind of step."""

    def __init__(self):
        self.device, self.taken, self.kept = Device(), Taken(), Kept()
        self.log = self.journal = self.slots = self.ledger = self.cursors = self.catalog = self.other = self.head = self.slot_heads = None

    def step(self, step):
        """The answer of a step, which is `ok` where its method has none."""
        first, *words = step.split(" ")
        if first in STORES and getattr(self, first) is None and words[0] not in MAKING:
            return "none"
        work = getattr(self, f"{first}_{words.pop(0)}" if first in (*STORES, "kept", "name") else f"on_{first}")
        try:
            answer = work(*words)
        except Failed:
            return "device"
        except NoMemory:
            return "no memory"
        except Refused as refusal:
            return str(refusal)
        return "ok" if answer is None else answer

    # The device

    def on_room(self, *names):
        for name in names:
            self.device.write(name, 0, LONG)
            self.device.sync(name)

    def on_lay(self, name, word):
        self.device.cut(name, 0)
        self.device.persist(name, 0, content_of(word))

    def on_write(self, name, offset, word):
        self.device.write(name, int(offset), content_of(word))

    def on_persist(self, name, offset, word):
        self.device.persist(name, int(offset), content_of(word))

    def on_cut(self, name, length):
        self.device.cut(name, int(length))

    def on_sync(self, name):
        self.device.sync(name)

    def on_read(self, name, offset, size):
        found = self.device.read(name, int(offset), int(size))
        return f"{len(found)} {spelled(found + b'-' * (int(size) - len(found)))}"

    def on_length(self, name):
        return str(len(self.device.content(name)))

    def on_file(self, name):
        self.device.count_read()
        return spelled(self.device.content(name))

    def on_fail(self, number):
        self.device.fails.append(int(number))

    def on_stop(self, number):
        if int(number):
            self.device.stop = min(int(number), self.device.stop or int(number))

    def on_failread(self, number):
        self.device.read_fails.append(int(number))

    def on_form(self, form):
        self.device.form = form if form in ("old", "new") else int(form, 16)

    def on_crash(self, form=None):
        if form:
            self.on_form(form)
        self.device.crash()

    # Names

    @staticmethod
    def name_bytes(word):
        content = content_of(word)
        return f"{yes(is_topic(content))} {yes(is_part(content))} {yes(is_part(content))}"

    @staticmethod
    def name_topic(text):
        return f"{text} yes" if is_topic(text.encode()) else "bad name"

    @staticmethod
    def name_subscription(text):
        return text

    @staticmethod
    def name_file(kind, topic="", number=""):
        if kind == "catalog":
            return printed_name(kind)
        return f"u{int(topic):05}-e{int(number):08}.dat" if kind == "segment" else f"u{int(topic):05}-c{number}.dat"

    @staticmethod
    def name_failure():
        return "the device failed"

    # A gated log

    def log_create(self, number):
        self.log = Log.create(self.device, LOG, int(number))

    def opening(self, work):
        """What an opening of a log or of slots answers, and what it handed over, also where it is refused."""
        try:
            return "ok", work()
        except Failed:
            return "device", None
        except Refused as refusal:
            return str(refusal), None

    def log_opened(self, work):
        answer, log = self.opening(work)
        self.log = log or self.log
        return answer + self.taken.text

    def log_open(self):
        self.taken = Taken()
        return self.log_behind()

    def log_behind(self):
        return self.log_opened(lambda: go_on(self.device, Head(self.device, LOG), self.taken))

    def log_from(self):
        self.taken = Taken()
        return self.log_opened(lambda: go_on(self.device, self.head, self.taken))

    def log_head(self):
        self.head = Head(self.device, LOG)
        return self.head.told()

    def log_append(self, word):
        self.log.append(self.device, content_of(word))

    def log_built(self, word):
        size = len(content_of(word))
        try:
            self.log.append(self.device, content_of(word))
        except Failed:
            return f"{size} device"
        return f"{size} ok"

    def log_read(self, offset, size):
        return spelled(self.log.read(self.device, int(offset), int(size)))

    def log_state(self):
        return f"{printed_name(LOG)} {self.log.number}, {self.log.count} to {self.log.end}, {standing(self.log.failed)}"

    # A journal

    def journal_create(self, number, first=0):
        self.journal = Journal.create(self.device, int(number), int(first))

    def journal_open(self, room=None):
        taken = Taken(room and int(room))
        journal = Journal.open(self.device, taken)
        if room:
            return "ok"
        self.journal = journal
        return "ok" + taken.text

    def journal_from(self, first):
        taken = Taken()
        self.journal = Journal.open(self.device, taken, int(first))
        return "ok" + taken.text

    def journal_first(self):
        return str(self.journal.first)

    def journal_append(self, word):
        self.journal.append(self.device, content_of(word))

    def journal_roll(self, number):
        self.journal.roll(self.device, int(number))

    def journal_drop(self, number):
        if not 0 <= int(number) - self.journal.first < len(self.journal.logs):
            return "none"
        self.journal.drop_before(self.device, int(number))

    def journal_read(self, segment, offset, size):
        return found_bytes(self.journal.read(self.device, int(segment), int(offset), int(size)))

    def journal_state(self):
        last = self.journal.last()
        return f"topic u{TOPIC:05}, segments {len(self.journal.logs)}, {last.count} to {last.end}, {standing(self.journal.failed)}"

    # Two slots

    def slots_create(self):
        self.slots = Slots.create(self.device)

    def slots_open(self):
        self.taken = Taken()
        answer, slots = self.opening(lambda: Slots.open(self.device, self.taken))
        self.slots = slots or self.slots
        return answer + self.taken.text

    def slots_append(self, word):
        self.slots.append(self.device, content_of(word))

    def slots_replace(self, *words):
        self.slots.replace(self.device, [content_of(word) for word in words])

    def slots_state(self):
        return f"topic u{TOPIC:05}, {self.slots.log.count}, {standing(self.slots.failed)}, {yes(self.slots.can_replace())}"

    # A ledger

    def ledger_create(self, per_ledger):
        self.ledger = Ledger.create(self.device, int(per_ledger))

    def ledger_open(self, per_ledger):
        taken = Taken()
        self.ledger = Ledger.open(self.device, int(per_ledger), taken)
        return "ok" + taken.text

    def ledger_from(self, base, first, per_ledger):
        taken = Taken()
        self.ledger = Ledger.open(self.device, int(per_ledger), taken, (int(base), int(first)))
        return "ok" + taken.text

    def ledger_start(self):
        return told_start(self.ledger.start())

    def ledger_point(self, more, limit):
        return told_start(self.ledger.trim_point(int(more), int(limit)))

    def ledger_trim(self, limit):
        start = self.ledger.trim_point(0, int(limit))
        if start is None:
            return "none"
        self.ledger.trim(self.device, start)
        return None

    def ledger_some(self, room):
        Ledger.open(self.device, 2, Taken(int(room)))

    def ledger_count(self):
        ledger = Ledger.open(self.device, 2, Taken())
        return f"{ledger.end()} in {len(ledger.journal.logs)}"

    def ledger_append(self, *words):
        return str(self.ledger.append(self.device, [entry_of(word) for word in words]))

    def ledger_copies(self, count, word):
        return self.ledger_append(*[word] * int(count))

    def ledger_read(self, position):
        return found_bytes(self.ledger.read(self.device, int(position)))

    def ledger_state(self):
        return f"topic u{TOPIC:05}, {self.ledger.end()} in {len(self.ledger.journal.logs)}, {standing(self.ledger.journal.failed)}"

    # A cursor store

    def cursors_create(self):
        self.cursors = CursorStore.create(self.device)

    def cursors_open(self, entries):
        self.cursors = CursorStore.open(self.device, int(entries))
        return f"ok {self.cursors_kept()}"

    def cursors_begin(self):
        self.slot_heads, start = CursorStore.begin(self.device)
        return told_start(start)

    def cursors_from(self, entries):
        if self.slot_heads is None:
            return "none"
        self.cursors = CursorStore.open_from(self.device, self.slot_heads, int(entries))
        return f"ok {self.cursors_kept()}"

    def cursors_append(self, *words):
        return "ok" if self.cursors.append(self.device, records_of(words)) else "no"

    def cursors_trim(self, base, first, *words):
        return "ok" if self.cursors.trim(self.device, (int(base), int(first)), records_of(words)) else "no"

    def cursors_start(self):
        return told_start(self.cursors.told.start)

    def cursors_formed(self, entries, word):
        return yes(self.cursors.told.kept.is_formed(int(entries), *record_of(word)))

    def cursors_kept(self):
        return self.cursors.told.kept.told_all()

    def cursors_state(self):
        return f"topic u{TOPIC:05}, {len(self.cursors.told.kept.acked)}, {standing(self.cursors.slots.failed)}"

    # What records make

    def kept_apply(self, word):
        is_formed = self.kept.is_formed(2**62, *record_of(word))
        if is_formed:
            self.kept.apply(*record_of(word))
        return yes(is_formed)

    def kept_formed(self, entries, word):
        return yes(self.kept.is_formed(int(entries), *record_of(word)))

    def kept_fit(self, entries, *words):
        return yes(self.kept.apply_all(int(entries), records_of(words)))

    def kept_body(self, entries, word):
        after = self.kept.read_body(int(entries), content_of(word))
        self.kept = after or self.kept
        return f"yes {after.told_all()}" if after else "no"

    def kept_get(self, name):
        return self.kept.told(name.encode()) if name.encode() in self.kept.acked else "none"

    def kept_all(self):
        return self.kept.told_all()

    def kept_copies(self):
        return self.kept.told_all()

    def kept_clone(self):
        self.other = self.kept.copy()

    def kept_other(self):
        return self.other.told_all()

    # The catalog

    def catalog_create(self, number):
        if self.catalog_limit(number) == "none":
            return "none"
        self.catalog = Catalog.create(self.device, int(number))
        return "ok"

    @staticmethod
    def catalog_limit(number):
        return number if 1 <= int(number) <= MOST_PER_LEDGER else "none"

    def catalog_open(self):
        self.catalog = Catalog.open(self.device)

    def catalog_add(self, text):
        if self.catalog.find(self.device, text.encode()) is not None:
            return "there"
        return "full" if self.catalog.is_full() else str(self.catalog.add(self.device, text.encode()))

    def catalog_find(self, text):
        return some(self.catalog.find(self.device, text.encode()))

    def catalog_name(self, number):
        return self.catalog.names[int(number)].decode() if int(number) < len(self.catalog.names) else "none"

    def catalog_state(self):
        catalog = self.catalog
        return f"{catalog.log.number} entries, {len(catalog.names)} names, {standing(catalog.log.failed)}, full {yes(catalog.is_full())}"


def answer(line):
    if not line or line.startswith("#"):
        return line
    steps = Steps()
    return "; ".join(steps.step(step) for step in line.split("; "))


def answers(lines):
    return [answer(line) for line in lines]


if __name__ == "__main__":
    Table("stores_tests", BEGINS, made_lines, answers).main("stores", __doc__)
