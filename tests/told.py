"""What a broker told its clients, and whether that is found again: for tests/soak."""
import random
import zlib

from encoding import number, subscribe, text
from server import Wrong

POOL = random.Random(0).randbytes(1 << 20)
SIZES = (0, 10, 20, 50, 100, 100, 200, 500, 1000, 4000)  # of most payloads
LARGE, LARGEST = 100_000, 1_000_000  # of one in 200, and of one in 2,000
BATCHES = (None, None, None, None, 1, 2, 3, 100)  # messages of an entry, as its metadata says


def mixed(topic, producer, sequence):
    """What of an entry depends on the names and on its number."""
    return zlib.crc32(b"%s %s %d " % (topic.encode(), producer, sequence))


def messages_of(topic, producer, sequence):
    """How many messages an entry has."""
    return BATCHES[mixed(topic, producer, sequence) // len(SIZES) % len(BATCHES)]


def entry_for(topic, producer, sequence):
    """A producer's entry: a function of the names and of the entry's number, so that it needn't be kept."""
    words = b"%s %s %d " % (topic.encode(), producer, sequence)
    by = mixed(topic, producer, sequence)
    size = SIZES[by % len(SIZES)]
    if sequence % 200 == 199:
        size = LARGEST if sequence % 2000 == 1999 else LARGE
    messages = messages_of(topic, producer, sequence)
    metadata = text(1, producer) + number(2, sequence) + number(3, 1) + (b"" if messages is None else number(11, messages))
    start = (by >> 8) % (len(POOL) - size)
    return len(metadata).to_bytes(4, "big") + metadata + words + POOL[start:start + size]


def author_of(entry):
    """The topic, the producer and the number of the message, as the payload says."""
    try:
        topic, producer, sequence = entry[4 + int.from_bytes(entry[:4], "big"):][:200].split(b" ", 3)[:3]
        return topic.decode(), producer, int(sequence)
    except ValueError:
        raise Wrong(f"an entry that nobody published: {entry[:60].hex()}") from None


class Subscription:
    """What was told of a subscription: whether it is there, and what is acknowledged on it. *Asked* is what was asked for, *kept* what was answered."""

    def __init__(self, kind, begins_behind=None):
        """It begins at the topic's first entry, or behind all that are committed, among them those before the position `begins_behind`."""
        self.kind, self.is_told, self.is_to_go, self.is_gone = kind, False, False, False
        self.begins_early, self.least = begins_behind is None, begins_behind or 0
        self.sent_then = {} if self.begins_early else None  # what each producer had sent when it was known to be there: the rest is its own
        self.asked, self.asked_through, self.kept, self.kept_through = set(), -1, set(), -1

    def be_told(self, sent):
        self.is_told = True
        if self.sent_then is None:
            self.sent_then = dict(sent)

    def must_have(self, position, author):
        """Whether it has this position, as far as is known, and nobody tried to acknowledge it there."""
        producer, sequence = author
        has_it = self.sent_then is not None and position >= self.least and sequence >= self.sent_then.get(producer, 0)
        return has_it and position > self.asked_through and position not in self.asked

    def is_kept(self, position):
        return position <= self.kept_through or position in self.kept

    def ask(self, positions, through):
        """An ACK is sent, of these positions or of all through one."""
        self.asked.update(positions)
        self.asked_through = max(self.asked_through, through)

    def keep(self, positions, through):
        """That ACK was answered."""
        self.kept.update(positions)
        self.kept_through = max(self.kept_through, through)

    def forget_below(self, base):
        """Nothing before this position is asked for any more."""
        self.asked, self.kept = ({it for it in some if it >= base} for some in (self.asked, self.kept))


class Topic:
    """What was told of a topic: receipts, messages, subscriptions."""

    def __init__(self, name):
        self.name, self.is_told = name, False
        self.sent, self.authors, self.places, self.subscriptions = {}, {}, {}, {}
        self.receipts, self.messages, self.acknowledgements = 0, 0, 0
        self.base = 0  # the entries before it were given back
        self.end = 0  # all receipts are below

    def wrong(self, what):
        return Wrong(f"{self.name}: {what}")

    def subscribe(self, consumer, name, request):
        """The SUBSCRIBE of a consumer on one of the subscriptions."""
        it = self.subscriptions[name]
        return subscribe(consumer, name.encode(), it.kind, it.begins_early, self.name.encode(), request)

    def has(self, name):
        """That SUBSCRIBE was answered."""
        self.is_told = True
        self.subscriptions[name].be_told(self.sent)

    def next_entry(self, producer):
        """The number and the entry of the next message of a producer, which is now sent."""
        sequence = self.sent.get(producer, 0)
        self.sent[producer] = sequence + 1
        return sequence, entry_for(self.name, producer, sequence)

    def take_receipt(self, producer, sequence, position):
        self.stands(producer, sequence, position)
        self.receipts += 1
        self.end = max(self.end, position + 1)

    def take_message(self, position, entry):
        """An entry came: it must be one that was published, byte for byte, and the one that stands there. Answers how many messages it has."""
        topic, producer, sequence = author_of(entry)
        if topic != self.name:
            raise self.wrong(f"position {position} has message {sequence} of {producer.decode(errors='replace')} on {topic}")
        if sequence >= self.sent.get(producer, 0):
            raise self.wrong(f"position {position} has message {sequence} of {producer.decode(errors='replace')}, which wasn't sent")
        if position < self.base:
            raise self.wrong(f"position {position} came, though the entries before position {self.base} were given back")
        if entry != entry_for(topic, producer, sequence):
            raise self.wrong(f"position {position} has message {sequence} of {producer.decode()} with other bytes than were sent")
        self.stands(producer, sequence, position)
        count = messages_of(topic, producer, sequence) or 1
        self.messages += count
        return count

    def stands(self, producer, sequence, position):
        """This message stands at this position: no other one does, and it stands nowhere else."""
        author, place = self.authors.setdefault(position, (producer, sequence)), self.places.setdefault((producer, sequence), position)
        if author != (producer, sequence):
            raise self.wrong(f"position {position} has message {sequence} of {producer.decode()}, and had message {author[1]} of {author[0].decode()}")
        if place != position:
            raise self.wrong(f"message {sequence} of {producer.decode()} stands at position {position}, and stood at {place}")

    def give_back(self, base):
        """The entries before this position are gone: on no subscription that is there may one be that nobody acknowledged. They are forgotten here, too."""
        if base < self.base:
            raise self.wrong(f"the entries from position {base} on are there, and those before position {self.base} were given back")
        for name, subscription in self.subscriptions.items():
            if subscription.is_told and not subscription.is_to_go:
                lacking = [it for it in range(self.base, base) if it in self.authors and subscription.must_have(it, self.authors[it])]
                if lacking:
                    raise self.wrong(f"the entries before position {base} were given back, though nobody acknowledged {lacking[:5]} on {name}")
        for position in range(self.base, base):
            self.places.pop(self.authors.pop(position, None), None)
        for subscription in self.subscriptions.values():
            subscription.forget_below(base)
        self.base = base

    def must_be_all(self, entries):
        """All entries were read, from the first one that is there: they must have all receipts, and of each producer a front of what it sent, in order, but
        what was given back."""
        if entries < self.end:
            raise self.wrong(f"there are {entries} entries, and a receipt for position {self.end - 1}")
        heard = {}
        for position in range(self.base, entries):
            producer, sequence = self.authors[position]
            if sequence != heard.get(producer, sequence if self.base else 0):
                raise self.wrong(f"position {position} has message {sequence} of {producer.decode()} behind its message {heard.get(producer, 0) - 1}")
            heard[producer] = sequence + 1

    def must_have_come(self, name, came, entries):
        """These positions came on a subscription after a start: all that nobody acknowledged, and none of an answered acknowledgement."""
        subscription = self.subscriptions[name]
        for position in range(self.base, entries):
            if position in came:
                if subscription.is_kept(position):
                    raise self.wrong(f"position {position} came on {name} again, though its acknowledgement was answered")
                if position < subscription.least:
                    raise self.wrong(f"position {position} came on {name}, which was made behind position {subscription.least - 1}")
            elif subscription.must_have(position, self.authors[position]):
                raise self.wrong(f"position {position} didn't come on {name}, though nobody acknowledged it")

    def must_be_listed(self, found):
        """What `inspect` says of the topic: its entries, and the mark-delete positions of its subscriptions."""
        if found is None:
            if self.is_told:
                raise self.wrong("inspect doesn't list the topic, though a PRODUCER or a SUBSCRIBE of it was answered")
            return
        entries, marks = found.entries, found.marks
        if entries < self.end:
            raise self.wrong(f"inspect says {entries} entries, and there was a receipt for position {self.end - 1}")
        for name, subscription in self.subscriptions.items():
            self.must_stand(name, subscription, marks.get(name), entries)
        self.give_back(found.base)
        unknown = set(marks) - set(self.subscriptions)
        if unknown:
            raise self.wrong(f"inspect lists subscriptions that nobody made: {sorted(unknown)}")

    def must_stand(self, name, subscription, mark, entries):
        if mark is None:
            if subscription.is_told and not subscription.is_to_go:
                raise self.wrong(f"inspect doesn't list {name}, though its SUBSCRIBE was answered")
            return
        if subscription.is_gone:
            raise self.wrong(f"inspect lists {name}, though its UNSUBSCRIBE was answered")
        if subscription.is_kept(mark):
            raise self.wrong(f"{name} has mark-delete {mark}, which is acknowledged for good")
        early = [it for it in range(self.base, min(mark, entries)) if it in self.authors and subscription.must_have(it, self.authors[it])]
        if mark > entries or early:
            raise self.wrong(f"{name} has mark-delete {mark}, of {entries} entries, and nobody acknowledged {early[:5]}")
