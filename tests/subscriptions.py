#!/usr/bin/env python3
"""Computes anew what `crates/subscriptions_tests` must print of the lines in its file stdin, by a plain model of sets and lists.

Usage: tests/subscriptions.py [--write]

The model follows docs/PROTOCOL.md and the contracts of `cursor`, `holds`, the modes of dispatch and `subscriptions`. The slots of keys are not computed:
another program told them. Compares the answers with the file stdout; the last line is
'subscriptions: N lines, M differ', and the exit status is 1 where any does. With --write it puts lines of its own behind the hand-written ones of
stdin, and writes stdout."""
import random
import sys

sys.dont_write_bytecode = True
from table import Table

AT_RANDOM = "# at random"
SEED = 11
ROUNDS, ACTIONS = 6, 60  # topics of each mode, and actions of a topic
CURSORS, STEPS = 24, 12  # and steps of a cursor
HELD, HELD_STEPS = 6, 30  # and of what is held
BENCHES, BENCH_STEPS = 4, 60  # and of the consumers of each mode

MODES = ("Exclusive", "Failover", "Shared", "KeyShared")
SERVING_MANY = ("Shared", "KeyShared")
MOST_CONSUMERS = 64
MOST_SUBSCRIPTIONS = 64
MOST_CHANGES = 65_536
MOST_PERMITS = 2**62

BUSY, TOO_MANY, BAD_RANGES = "Some(ConsumerBusy)", "Some(TooManyRequests)", "Some(ConsumerAssignError)"

# The low 16 bits of what Hashing.murmur3_32_fixed(0) of Google's Guava 31.1 answers to a key
SLOTS_OF_KEYS = {
    b"": 0,
    b"test": 53779,
    b"hello": 64071,
    b"a": 27058,
    b"ab": 55135,
    b"abc": 37882,
    b"abcd": 26474,
    b"abcde": 39670,
    b"\0": 10423,
    b"\0\0": 49926,
    b"\0\0\0": 46119,
    b"\0\0\0\0": 63966,
    b"\xff": 61709,
    b"\x80\xfe": 18456,
    b"\xff\xfe\xfd": 62172,
    b"\xff\xfe\xfd\xfc": 32367,
    b"\xff\xfe\xfd\xfc\xfb": 40123,
    bytes(at * 7 % 251 for at in range(1000)): 10942,
    b"\xff" * 1000: 38307,
}


# What is acknowledged


class Acked:
    """A set of positions, as the list of what was put in: the first position and the one behind the last."""

    def __init__(self, start=0):
        self.parts = [(0, start)]

    def add(self, first, last):
        start, end = self.parts[-1]
        if start <= first <= end:
            self.parts[-1] = (start, max(end, last + 1))
        else:
            self.parts.append((first, last + 1))

    def has(self, position):
        return any(first <= position < end for first, end in self.parts)

    def first_open(self, position):
        while self.has(position):
            position = max(end for first, end in self.parts if first <= position)
        return position

    def mark_delete(self):
        return self.first_open(0)

    def ranges(self):
        """How many runs there are behind position 0: a run begins where the position before isn't in."""
        return len({first for first, end in self.parts if 0 < first < end and not self.has(first - 1)})

    def copy(self):
        copied = Acked()
        copied.parts = list(self.parts)
        return copied

    def __str__(self):
        return f"{self.mark_delete()} {self.ranges()}"


def acknowledge(acked, word, first, last=None):
    acked.add(*{"one": (first, first), "through": (0, first), "range": (first, last)}[word])


class CursorLines:
    """Answers the lines that ask a cursor."""

    def __init__(self):
        self.acked = Acked()

    def answer(self, word, *words):
        if word in ("copy", "own"):
            copy = self.acked.copy()
            acknowledge(copy if word == "copy" else self.acked, words[0], *map(int, words[1:]))
            return f"{copy}, {self.acked}"
        numbers = [int(number) for number in words]
        if word == "look":
            seen = (f" {'a' if self.acked.has(position) else '.'}{self.acked.first_open(position)}" for position in range(*numbers))
            return f"{self.acked}{''.join(seen)}"
        if word == "new":
            self.acked = Acked(*numbers)
        else:
            acknowledge(self.acked, word, *numbers)
        return str(self.acked)


# What is held


class HeldLines:
    """Answers the lines that ask what is held: who holds a position, and how often it was sent."""

    def __init__(self):
        self.holders, self.times = {}, {}

    def answer(self, word, *words):
        return getattr(self, word)(*words) or "done"

    def new(self):
        self.__init__()

    def hold(self, key, *positions):
        for position in map(int, positions):
            self.holders[position] = key
            self.times[position] = self.times.get(position, 0) + 1

    def give_back(self, key):
        self.holders = {position: holder for position, holder in self.holders.items() if holder != key}

    def release(self, position):
        self.holders.pop(int(position), None)

    def forget(self, position):
        self.release(position)
        self.times.pop(int(position), None)

    def forget_below(self, end):
        for position in [position for position in self.times if position < int(end)]:
            self.forget(position)

    def first(self, key):
        held = [position for position, holder in self.holders.items() if holder == key]
        return f"Some({min(held)})" if held else "None"

    def look(self, first, end):
        return "held" + "".join(f" {self.holders.get(position, '-')}x{self.times.get(position, 0)}" for position in range(int(first), int(end)))


# The subscriptions of a topic


class Consumer:
    def __init__(self, key, ranges):
        self.key, self.ranges = key, ranges
        self.granted = self.sent = 0  # messages; what was sent beyond what was granted is owed

    def session(self):
        return self.key.split(".")[0]

    def has_permit(self):
        return self.sent < self.granted

    def takes(self, slot):
        return any(start <= slot <= end for start, end in self.ranges)


def meet(one, other):
    return one[0] <= other[1] and other[0] <= one[1]


def are_refused(ranges, consumers):
    """Whether Key_Shared refuses ranges beside those of attached consumers."""
    of_others = [taken for consumer in consumers for taken in consumer.ranges]
    return (not ranges or any(start > end for start, end in ranges)
            or any(meet(one, other) for at, one in enumerate(ranges) for other in ranges[:at] + of_others))


class Subscription:
    def __init__(self, name, start):
        self.name, self.mode = name, None
        self.consumers = []  # the one that was attached first is the first
        self.acked = Acked(start)
        self.holders = {}  # by position
        self.times = {}  # how often a position was sent

    def refusal(self, mode, ranges):
        if self.consumers and (mode != self.mode or mode == "Exclusive"):
            return BUSY
        if len(self.consumers) >= MOST_CONSUMERS:
            return TOO_MANY
        if mode == "KeyShared" and are_refused(ranges, self.consumers):
            return BAD_RANGES
        return "None"

    def attach(self, mode, consumer):
        self.mode = mode
        self.consumers.append(consumer)

    def consumer(self, key):
        return next((consumer for consumer in self.consumers if consumer.key == key), None)

    def permits(self):
        """How many its consumers have left together, up to what 64 bits hold."""
        return min(sum(max(0, consumer.granted - consumer.sent) for consumer in self.consumers), 2**64 - 1)

    def acknowledge(self, first, last):
        self.acked.add(first, last)
        for known in (self.holders, self.times):
            for position in [position for position in known if first <= position <= last]:
                del known[position]

    def give_back(self, gives):
        """What passes the test, of a position and its holder, is held no more."""
        self.holders = {position: key for position, key in self.holders.items() if not gives(position, key)}

    def drop(self, goes):
        """The consumers that pass the test go, and give back what they hold."""
        keys = [consumer.key for consumer in self.consumers if goes(consumer)]
        self.consumers = [consumer for consumer in self.consumers if consumer.key not in keys]
        self.give_back(lambda position, key: key in keys)

    def is_open(self, position):
        return not self.acked.has(position) and position not in self.holders

    def pick(self, key, slots, committed):
        consumer = self.consumer(key)
        if not consumer.has_permit() or self.mode == "Failover" and self.consumers[0] is not consumer:
            return None
        for position in range(committed):
            slot = slots[position] if position < len(slots) else 0
            if self.is_open(position) and (self.mode != "KeyShared" or consumer.takes(slot)):
                return position
        return None

    def is_quiet(self, session, committed):
        """Whether no consumer of the session has a permit left, or nothing is open."""
        may_ask = any(consumer.session() == session and consumer.has_permit() for consumer in self.consumers)
        return not may_ask or not any(self.is_open(position) for position in range(committed))

    def send(self, key, position, messages):
        """An entry of so many messages is sent; answers how often the position was sent before."""
        self.consumer(key).sent += messages
        self.holders[position] = key
        self.times[position] = self.times.get(position, 0) + 1
        return self.times[position] - 1


class Topic:
    def __init__(self):
        self.subs, self.changes, self.first, self.committed = [], [], 0, 0
        self.slots, self.messages = [], []  # of each entry: the slot of its key, and how many messages it has

    def add(self, slot, messages):
        self.slots.append(slot)
        self.messages.append(messages)

    def messages_of(self, position):
        return self.messages[position] if position < len(self.messages) else 1

    def named(self, name):
        return next((sub for sub in self.subs if sub.name == name), None)

    def of(self, key):
        return next((sub for sub in self.subs if sub.consumer(key)), None)

    def refusal(self, name, mode, ranges):
        if sub := self.named(name):
            return sub.refusal(mode, ranges)
        if len(self.subs) >= MOST_SUBSCRIPTIONS:
            return TOO_MANY
        if mode == "KeyShared" and are_refused(ranges, []):
            return BAD_RANGES
        return TOO_MANY if len(self.changes) >= MOST_CHANGES else "None"

    def subscribe(self, name, mode, key, initial, ranges):
        if self.of(key):
            return "attached"
        refusal = self.refusal(name, mode, ranges)
        if refusal == "None":
            if not self.named(name):
                start = self.committed if initial == "Latest" else self.first
                self.subs.append(Subscription(name, start))
                self.changes.append(f"made {name} {start}")
            self.named(name).attach(mode, Consumer(key, ranges))
        return refusal

    def summaries(self):
        return "".join(f"{sub.name} {sub.acked} {sub.mode} {len(sub.consumers)} {sub.permits()}, " for sub in self.subs)

    def statuses(self):
        return "".join(f"{sub.name} {sub.acked}, " for sub in sorted(self.subs, key=lambda sub: sub.name.encode()))


# Lines


def ranges_of(words):
    return [tuple(map(int, word.split("-"))) for word in words]


class ModeLines:
    """Answers the lines that ask a mode without its subscription. Nothing is held of the entries, and permits don't count."""

    def __init__(self):
        self.mode, self.consumers = "Exclusive", []
        self.first, self.slots = 0, []

    def answer(self, word, *words):
        return getattr(self, word)(*words) or "done"

    def new(self, mode):
        self.mode, self.consumers = mode, []

    def open(self, first, *slots):
        self.first, self.slots = int(first), list(map(int, slots))

    def refusal(self, ranges):
        if self.mode == "Exclusive":
            return "ConsumerBusy" if self.consumers else None
        if len(self.consumers) >= MOST_CONSUMERS:
            return "TooManyConsumers"
        return "ConsumerAssignError" if self.mode == "KeyShared" and are_refused(ranges, self.consumers) else None

    def attach(self, key, *words):
        ranges = ranges_of(words)
        if refusal := self.refusal(ranges):
            return f"Some({refusal}) Err({refusal})"
        self.consumers.append(Consumer(key, ranges))
        return "None Ok(())"

    def detach(self, key):
        self.consumers = [consumer for consumer in self.consumers if consumer.key != key]

    def pick(self, key):
        consumer = next((consumer for consumer in self.consumers if consumer.key == key), None)
        if not consumer or self.mode == "Failover" and self.consumers[0] is not consumer:
            return "None"
        for position in range(self.first, len(self.slots)):
            if self.mode != "KeyShared" or consumer.takes(self.slots[position]):
                return f"Some({position})"
        return "None"


def slot(key=""):
    return str(SLOTS_OF_KEYS[bytes.fromhex(key)])


def truth(value):
    return "true" if value else "false"


class TopicLines:
    """Answers the lines that ask a topic: each has a method, by its word."""

    def __init__(self):
        self.at = Topic()

    def topic(self):
        self.at = Topic()
        return "done"

    def slots(self, *slots):
        """The entries that follow have these slots, and one message each, or as many as stand behind an x."""
        if self.at.committed:
            raise ValueError("slots come before entries are committed")
        for word in slots:
            slot, _, messages = word.partition("x")
            self.at.add(int(slot), int(messages or 1))
        return "done"

    def commit(self, committed):
        self.at.committed = int(committed)
        return "done"

    def subscribe(self, name, mode, key, initial, *ranges):
        return self.at.subscribe(name, mode, key, initial, ranges_of(ranges))

    def refusal(self, name, mode, *ranges):
        return self.at.refusal(name, mode, ranges_of(ranges))

    def changes(self):
        return "".join(f"{change}, " for change in self.at.changes)

    def count(self):
        return str(len(self.at.changes))

    def room(self, count):
        return truth(len(self.at.changes) + int(count) <= MOST_CHANGES)

    def settle(self, count):
        if int(count) > len(self.at.changes):
            raise ValueError("more is settled than waits")
        del self.at.changes[:int(count)]
        return "done"

    def statuses(self):
        return self.at.statuses()

    def summaries(self):
        return self.at.summaries()

    def leave(self, session):
        for sub in self.at.subs:
            sub.drop(lambda consumer: consumer.session() == session)
        return "done"

    def quiet(self, session):
        return truth(all(sub.is_quiet(session, self.at.committed) for sub in self.at.subs))

    def has(self, key):
        sub = self.at.of(key)
        return f"{truth(sub)} {truth(sub and sub.mode in SERVING_MANY)}"

    def grant(self, key, permits):
        sub = self.at.of(key)
        if sub:
            consumer = sub.consumer(key)
            if consumer.granted + int(permits) > MOST_PERMITS:
                return "Err(TooManyPermits)"
            consumer.granted += int(permits)
        return "Ok(())"

    def picked(self, key):
        sub = self.at.of(key)
        return sub and sub.pick(key, self.at.slots, self.at.committed)

    def pick(self, key):
        position = self.picked(key)
        return "None" if position is None else f"Some({position})"

    def send(self, key):
        position = self.picked(key)
        if position is None:
            return "None"
        return f"Some(({position}, {self.at.of(key).send(key, position, self.at.messages_of(position))}))"

    def ack(self, key, position, times=1):
        sub = self.at.of(key)
        for _ in range(int(times)):
            if len(self.at.changes) >= MOST_CHANGES:
                return "no room"
            if sub:
                sub.acknowledge(int(position), int(position))
                self.at.changes.append(f"acknowledged {sub.name} {position}")
        return "done"

    def through(self, key, position):
        sub = self.at.of(key)
        if len(self.at.changes) >= MOST_CHANGES:
            return "no room"
        if sub:
            sub.acknowledge(0, int(position))
            self.at.changes.append(f"through {sub.name} {position}")
        return "done"

    def redeliver(self, key, *positions):
        sub = self.at.of(key)
        if sub:
            asked = {int(position) for position in positions} if positions and sub.mode in SERVING_MANY else None
            sub.give_back(lambda position, holder: holder == key and (asked is None or position in asked))
        return "done"

    def unsubscribe(self, key):
        sub = self.at.of(key)
        if sub and len(sub.consumers) > 1:
            return BUSY
        if len(self.at.changes) >= MOST_CHANGES:
            return TOO_MANY
        if sub:
            self.at.subs.remove(sub)
            self.at.changes.append(f"removed {sub.name}")
        return "None"

    def close(self, key):
        sub = self.at.of(key)
        if sub:
            sub.drop(lambda consumer: consumer.key == key)
        return "done"


def answers_to(lines):
    """The answer to each line, one after another."""
    topic, answers = TopicLines(), []
    others = {"cursor": CursorLines().answer, "held": HeldLines().answer, "mode": ModeLines().answer, "slot": slot}
    for line in lines:
        word, *words = line.split(" ")
        if word in ("", "#"):
            answers.append(line)
        elif word in others:
            answers.append(others[word](*words))
        else:
            answers.append(getattr(topic, word)(*words))
    return answers


# Lines at random

KEYS = {"0.2": "0-9", "1.2": "10-19 40-65535", "0.3": "25-25", "1.4": "9-12", "2.0": "20-24 26-39"}
SLOTS = (3, 12, 25, 9, 12, 40, 25, 3, 10, 33, 9, 65535, 0, 21)
MESSAGES = (1, 1, 3, 2, 1, 1, 5, 1, 1, 2, 1, 1_048_576, 1, 4)


def action(chance, mode):
    """One line about a topic, whose subscriptions have this mode for the most part."""
    key = chance.choice(list(KEYS))
    position = chance.randrange(len(SLOTS))
    name = chance.choice(("s", "s", "s", "s", "t", "S-1"))
    its_mode = mode if chance.randrange(12) else chance.choice(MODES)
    ranges = KEYS[key] if chance.randrange(8) else chance.choice(("7-6", "0-9 9-9", "0-65535", "60-60"))
    initial = chance.choice(("Earliest", "Latest"))
    return chance.choice(
        3 * [f"subscribe {name} {its_mode} {key} {initial} {ranges}"] + 3 * [f"grant {key} {chance.randrange(6)}"] + 8 * [f"send {key}"]
        + 6 * [f"quiet {key[0]}"] + 2 * [f"ack {key} {position}", f"commit {position}"]
        + [f"pick {key}", f"has {key}", f"through {key} {position // 2}", f"redeliver {key}", f"redeliver {key} {position} {chance.randrange(9)}",
           f"close {key}", f"leave {key[0]}", f"unsubscribe {key}", f"refusal {name} {its_mode} {ranges}", "statuses", "count"])


def topic_at_random(chance, mode):
    marks = (f"{slot}x{messages}" if messages > 1 else str(slot) for slot, messages in zip(SLOTS, MESSAGES))
    begin = ["topic", f"slots {' '.join(marks)}", "commit 6", f"subscribe s {mode} 0.2 Earliest {KEYS['0.2']}", "grant 0.2 3"]
    return ["", *begin, *(action(chance, mode) for _ in range(ACTIONS)), "statuses", "summaries", "changes"]


def step(chance):
    """One line about a cursor, over the positions below 40."""
    first = chance.randrange(36)
    last = first + chance.randrange(5)
    acked = chance.choice(3 * [f"one {first}"] + 3 * [f"range {first} {last}"] + [f"through {first // 2}"])
    return f"cursor {chance.choice(8 * [''] + ['copy ', 'own '])}{acked}"


def cursor_at_random(chance):
    begin = chance.choice(("cursor new", f"cursor new {chance.randrange(6)}"))
    return ["", begin, *(line for _ in range(STEPS) for line in (step(chance), "cursor look 0 41"))]


def held_step(chance):
    """One line about what is held, of the positions below 12."""
    key, position = chance.choice(list(KEYS)), chance.randrange(12)
    return "held " + chance.choice(3 * [f"hold {key} {position} {chance.randrange(12)}"] + [
        f"give_back {key}", f"release {position}", f"forget {position}", f"forget_below {position // 2}", f"first {key}"])


def held_at_random(chance):
    return ["", "held new", *(line for _ in range(HELD_STEPS) for line in (held_step(chance), "held look 0 12"))]


def bench_step(chance):
    """One line about the consumers of a mode."""
    key = chance.choice(list(KEYS))
    ranges = KEYS[key] if chance.randrange(8) else chance.choice(("7-6", "0-9 9-9", "0-65535", "60-60"))
    first = chance.randrange(len(SLOTS) + 1)
    return "mode " + chance.choice(3 * [f"attach {key} {ranges}"] + 4 * [f"pick {key}"] + [f"detach {key}", f"open {first} {' '.join(map(str, SLOTS))}"])


def bench_at_random(chance, mode):
    return ["", f"mode new {mode}", f"mode open 0 {' '.join(map(str, SLOTS))}", *(bench_step(chance) for _ in range(BENCH_STEPS))]


def lines_at_random():
    chance = random.Random(SEED)
    topics = [line for _ in range(ROUNDS) for mode in MODES for line in topic_at_random(chance, mode)]
    cursors = [line for _ in range(CURSORS) for line in cursor_at_random(chance)]
    held = [line for _ in range(HELD) for line in held_at_random(chance)]
    benches = [line for _ in range(BENCHES) for mode in MODES for line in bench_at_random(chance, mode)]
    return [AT_RANDOM, *topics, *cursors, *held, *benches]


if __name__ == "__main__":
    Table("subscriptions_tests", AT_RANDOM, lambda hand: lines_at_random(), answers_to).main("subscriptions", __doc__)
