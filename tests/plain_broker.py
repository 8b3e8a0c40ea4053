"""A plain slow broker: what a replay prints of a script, by docs/PROTOCOL.md and docs/FILES.md alone.

Where the device may fail, and of what a crash may leave, a *fate* chooses; Fate() lets no call fail that isn't stopped already, and leaves the oldest."""
import re

from encoding import (BAD_TOPIC, BUSY, CHECKSUM, CONNECTED, CONSUMER_BUSY, NO_CONSUMER, NO_RANGES, NOT_ALLOWED, PERSISTENCE, TOO_MANY, ack_response, error,
                      frame, message, producer_success, receipt, send_error, slot, success)
from subscriptions import MOST_CHANGES, MOST_PERMITS, SERVING_MANY, Subscription, Topic
from wire import BAD_PAYLOAD, BAD_SIZES, COMMANDS, MISSING, PING, REPLIES, TOO_LARGE, UNREADABLE, Fault, command_in, metadata_in, whole_frame

FAULTS = {TOO_LARGE: "F1", BAD_SIZES: "F2", UNREADABLE: "F3", MISSING: "F4", BAD_PAYLOAD: "F5"}
UNKNOWN_COMMAND, OUT_OF_TURN, TOO_MANY_PERMITS = "F6", "F7", "F8"
CONNECT, SUBSCRIBE, PRODUCER, SEND, ACK, FLOW, UNSUBSCRIBE, CLOSE_PRODUCER, CLOSE_CONSUMER, PONG, REDELIVER, PARTITIONED_METADATA, LOOKUP = (
    2, 4, 5, 6, 10, 11, 12, 15, 16, 19, 20, 21, 23)
URL = b"pulsar://replay"
MOST_SESSIONS, MOST_TOPICS, MOST_OF_A_SESSION = 256, 64, 64
MOST_WAITING, MOST_WAITING_BYTES, LARGEST_ENTRY, LONGEST_NAME = 1_024, 16_777_216, 1_048_576, 255
MOST_OF_AN_ENTRY = 1_048_576  # messages
MOST_REPLIES, MOST_MESSAGES = 65_536, 64
ROLL, APPEND, REPLACE, MAKE = 9, 4, 6, 13  # calls of the device: of a roll, of an append, of writing a slot anew, and of making a topic's files
DROP = 2  # and of giving a segment back
LISTS = 2  # syncs of an opening of all topics, before theirs: of the list of a folder of version 1, which may be there, and of that of version 2
RECORDS = 4_096  # behind so many in a slot a flush with changes first writes the other one anew
IN_DOUBT = 2  # the last calls of an append: where one of them fails, it is there or not
READ = -1
ON_TOPICS = ("flush", "take", "write", "finish", "reopen")  # lines
PART = "[0-9A-Za-z._-]{1,255}"
TOPIC_NAME, SUBSCRIPTION_NAME = re.compile(f"persistent://{PART}/{PART}/{PART}"), re.compile(PART)
LARGEST_SLOT = 65_535
REFUSALS = {"None": None, "Some(ConsumerBusy)": CONSUMER_BUSY, "Some(TooManyRequests)": TOO_MANY, "Some(ConsumerAssignError)": NO_RANGES}


class Fate:
    """What the device does, where it may do several things: the first of them."""

    @staticmethod
    def choose(_count):
        return 0


class Device:
    """Counts its calls, and fails those that are ordered to. When reads come isn't known: one that is to fail may do so in any work, once."""

    def __init__(self):
        self.fate, self.fuses, self.reads, self.has_stopped = Fate(), [], 0, False

    def order(self, word, call):
        if word == "failread":
            self.reads += int(call) > 0
        elif int(call):
            self.fuses.append((word, int(call)))

    def failing(self, calls):
        """Which of so many calls fails, from 1 on, behind which no further one is made; 0 where none does, or READ."""
        if not self.has_stopped and self.read_fails():
            return READ
        due = min((left for _, left in self.fuses if left <= calls), default=0)
        due = 1 if self.has_stopped else due
        fuses = [(word, left - (due or calls)) for word, left in self.fuses]
        self.has_stopped |= any(word == "stop" and left == 0 for word, left in fuses)
        self.fuses = [(word, left) for word, left in fuses if left > 0]
        return due

    def read_fails(self):
        fails = self.reads > 0 and self.fate.choose(2) == 1
        self.reads -= fails
        return fails

    def crash(self):
        """The power is cut: a stop ends with it, fired or not."""
        self.fuses, self.has_stopped = [(word, left) for word, left in self.fuses if word != "stop"], False


class ReadFails(Exception):
    """A pump's read of a message."""


class Ended(Exception):
    """A session ends; the text is the fault's."""


def behind_of(kind, behind):
    """The metadata of the entry behind a SEND, or none where a checksum stands before it."""
    if kind != SEND:
        if behind and kind in COMMANDS:
            raise Fault(BAD_PAYLOAD)
        return None
    if behind.startswith(b"\x0e\x01"):
        return None
    try:
        return metadata_in(behind)
    except Fault:
        raise Fault(BAD_PAYLOAD) from None


def first_of(*refusals):
    """The error of the first refusal that stands, if one does."""
    return next((code for stands, code in refusals if stands), None)


class Files:
    """What the files of a topic hold: its entries, also those that were given back, at which positions the segments that are there begin, and what each
    subscription acknowledged."""

    def __init__(self, entries, starts, kept):
        self.entries, self.starts, self.kept = entries, starts, kept

    def base(self):
        """The position of the first entry that is there."""
        return self.starts[0]

    def is_full(self, per_ledger):
        return len(self.entries) - self.starts[-1] >= per_ledger

    def rolled(self):
        return Files(self.entries, (*self.starts, len(self.entries)), self.kept)

    def longer(self, more):
        return Files(self.entries + more, self.starts, self.kept)

    def changed(self, kept):
        return Files(self.entries, self.starts, kept)

    def below(self, position):
        """How many segments before the last one have no entry from this position on."""
        return sum(end <= position for end in self.starts[1:])

    def without(self, segments):
        return Files(self.entries, self.starts[segments:], self.kept)


class Batch:
    """What a flush takes of what waits: how many entries and changes, which replies and closings, and up to where it may trim; and once it is written, what
    the files may hold."""

    def __init__(self, topic):
        self.entries, self.changes, self.replies, self.closing = len(topic.waiting), len(topic.subs.changes), topic.later, topic.closing
        self.kept = {it.name: it.acked.copy() for it in topic.subs.subs}
        behind = min((acked.mark_delete() for acked in self.kept.values()), default=topic.files.base())
        self.trim = max(topic.files.base(), behind - behind % topic.per_ledger)
        self.left, self.counts, self.is_well, self.is_anew, self.trims = None, [], True, False, False


class Held:
    """A topic of the broker: its entries, what waits for a flush, what is due to whom, its producers and its subscriptions."""

    def __init__(self, place, name, per_ledger):
        self.place, self.name, self.per_ledger = place, name, per_ledger
        self.due = []
        self.begin(Files([], (0,), {}))

    def begin(self, files):
        """As an opening finds it."""
        self.files, self.left, self.batch, self.records = files, None, None, 0
        self.waiting, self.later, self.names, self.closing = [], [], {}, set()
        self.subs = Topic()
        self.commit(files.entries)
        for name, acked in files.kept.items():
            subscription = Subscription(name, 0)
            subscription.acked = acked.copy()
            self.subs.subs.append(subscription)

    def commit(self, entries):
        for entry in entries:
            self.subs.add(slot_of(entry), messages_of(entry))
        self.subs.committed += len(entries)

    def has_failed(self):
        return self.left is not None

    def has_room(self, entry):
        return len(self.waiting) < MOST_WAITING and sum(map(len, self.waiting)) + len(entry) <= MOST_WAITING_BYTES

    def floor(self):
        """Where a subscription begins that asks for the earliest: behind what a flush may give back."""
        return self.batch.trim if self.batch else self.files.base()

    def steps(self):
        """The steps of writing the batch."""
        steps, files, count = [], self.files, self.batch.entries
        if count and files.is_full(self.per_ledger):
            files = files.rolled()
            steps.append(Step(ROLL, files))
        if count:
            files = files.longer(self.waiting[:count])
            steps.append(Step(APPEND, files))
        self.batch.is_anew = self.batch.changes > 0 and self.records >= RECORDS
        if self.batch.is_anew:
            steps.append(Step(REPLACE, files))
        if self.batch.changes:
            files = files.changed(self.batch.kept)
            steps.append(Step(APPEND, files))
        dropped = files.below(self.batch.trim)
        if dropped:
            steps.append(Step(REPLACE, files.without(dropped), DROP * dropped))
            self.batch.trims = True
        return steps

    def take(self, _device):
        if self.has_failed():
            return "S1"
        if self.batch is None and (self.waiting or self.later or self.subs.changes or self.closing):
            self.batch = Batch(self)
            self.later, self.closing = [], set()
        return "ok"

    def write(self, device):
        if self.batch is None or self.batch.left:
            return "none"
        steps = self.steps()
        failing = device.failing(sum(step.calls for step in steps))
        self.batch.left, self.batch.counts = left_by(self.files, steps, failing)
        self.batch.is_well = not failing
        return "S1" if failing else "ok"

    def finish(self, _device):
        if self.batch is None or not self.batch.left:
            return "none"
        batch, self.batch = self.batch, None
        if not batch.is_well:
            self.left, self.counts = batch.left, batch.counts
            self.due += [(who, refusal) for who, _, refusal in batch.replies + self.later]
            self.later = []
            return "S1"
        self.files = batch.left[0]
        self.records = 0 if batch.trims else (0 if batch.is_anew else self.records) + batch.changes
        self.commit(self.waiting[:batch.entries])
        self.subs.changes = self.subs.changes[batch.changes:]
        self.due += [(who, answer) for who, answer, _ in batch.replies]
        for who in batch.closing:
            self.names.pop(who, None)
        self.waiting = self.waiting[batch.entries:]
        return "ok"

    def flush(self, device):
        """In one; nothing where one in parts is under way."""
        if self.batch is not None:
            return "ok"
        how = self.take(device)
        if self.batch is not None:
            self.write(device)
            how = self.finish(device)
        return how

    def found(self, device):
        """What an opening finds."""
        if self.has_failed():
            return self.left[device.fate.choose(len(self.left))]
        if self.batch and self.batch.left:
            return self.batch.left[device.fate.choose(len(self.batch.left))]
        return self.files

    def reopen(self, device):
        if self.has_failed():
            found = self.found(device)
            if device.failing(calls_of_opening(found)):
                return "S1"
            self.begin(found)
        return "ok"

    def leave(self, session):
        for subscription in self.subs.subs:
            subscription.drop(lambda consumer: consumer.session() == str(session))
        self.later = [(who, *said) for who, *said in self.later if who != session]
        if self.batch is not None:
            self.batch.replies = [(who, *said) for who, *said in self.batch.replies if who != session]
        self.due = [(who, said) for who, said in self.due if who != session]
        self.names = {who: name for who, name in self.names.items() if who[0] != session}
        self.closing = {who for who in self.closing if who[0] != session}

    def collect(self, session, most):
        said = [reply for who, reply in self.due if who == session][:most]
        left = len(said)
        kept = []
        for who, reply in self.due:
            if who == session and left:
                left -= 1
            else:
                kept.append((who, reply))
        self.due = kept
        return said

    def dispatch(self, session, consumer, device):
        """The frame of the next message of a consumer, if it gets one."""
        key = f"{session}.{consumer}"
        subscription = None if self.has_failed() else self.subs.of(key)
        position = subscription and subscription.pick(key, self.subs.slots, self.subs.committed)
        if position is None:
            return None
        if device.read_fails():
            raise ReadFails
        before = min(subscription.send(key, position, self.subs.messages[position]), 2**32 - 1)
        return message(consumer, position, before, self.files.entries[position], self.per_ledger)

    def segments(self, device):
        """How many segments are there: as the files hold, or, where a write failed, as they held before the step that did or would hold behind it."""
        counts = self.counts if self.has_failed() else self.batch.counts if self.batch and self.batch.left else [len(self.files.starts)]
        return counts[device.fate.choose(len(counts))] if len(counts) > 1 else counts[0]

    def status(self, device):
        lines = [f"T {self.place:>4} {len(self.files.entries):>10} {self.files.base():>10} {self.segments(device):>6} {self.name}"]
        for it in sorted(self.subs.subs, key=lambda it: it.name.encode()):
            lines.append(f"S {self.place:>4} {it.acked.mark_delete():>10} {it.acked.ranges():>6} {it.name}")
        return lines


class Step:
    """A part of writing a batch: how many calls it makes, and what the files hold behind it. Where one of the last of the calls that decide fails, they hold
    that or what they held before; calls behind these decide nothing."""

    def __init__(self, decide, behind, further=0):
        self.decide, self.calls, self.behind = decide, decide + further, behind

    def left(self, before, failing):
        """What the files may hold where this call of it fails."""
        if failing > self.decide:
            return [self.behind]
        return [before] if failing <= self.decide - IN_DOUBT else [before, self.behind]


def counts_of(some):
    return sorted({len(files.starts) for files in some})


def left_by(before, steps, failing):
    """What the files may hold behind steps of which a call fails, or none; and how many segments there may be, as far as the store knows."""
    if failing == READ:
        left = [before, *(step.behind for step in steps)]
        return left, counts_of(left)
    for step in steps:
        if 0 < failing <= step.calls:
            return step.left(before, failing), counts_of([before, step.behind])
        before, failing = step.behind, failing - step.calls
    return [before], counts_of([before])


def calls_of_opening(found):
    """A sync of each segment and of both slots."""
    return len(found.starts) + 2


def slot_of(entry):
    metadata = metadata_in(entry)
    key = metadata["ordering_key"]
    if key is None:
        key = (metadata["partition_key"] or "").encode()
    return slot(key)


def messages_of(entry):
    return metadata_in(entry)["num_messages_in_batch"]


class Session:
    """A client's session: each command has a method, which answers the frames that are said at once."""

    def __init__(self, broker, place):
        self.broker, self.place, self.stream, self.is_connected = broker, place, b"", False
        self.producers, self.consumers = {}, {}  # the topic of each id

    def feed(self, piece):
        """What is said of these bytes, and how it went."""
        self.stream += piece
        said = b""
        try:
            while whole := whole_frame(self.stream):
                command, behind, size = whole
                self.stream = self.stream[size:]
                kind, values = command_in(command)
                said += self.work(kind, values, behind, behind_of(kind, behind))
        except Fault as fault:
            return said, FAULTS[str(fault)]
        except Ended as fault:
            return said, str(fault)
        return said, "ok"

    def work(self, kind, values, behind, metadata):
        if values is None:
            raise Ended(UNKNOWN_COMMAND)
        if (kind == CONNECT) == self.is_connected:
            raise Ended(OUT_OF_TURN)
        if kind == SEND:
            return self.send(values, behind, metadata)
        return {CONNECT: self.connect, SUBSCRIBE: self.subscribe, PRODUCER: self.produce, ACK: self.acknowledge, FLOW: self.flow,
                UNSUBSCRIBE: self.unsubscribe, CLOSE_PRODUCER: self.close_producer, CLOSE_CONSUMER: self.close_consumer, PING: self.ping, PONG: self.pong,
                REDELIVER: self.redeliver, PARTITIONED_METADATA: self.partitions, LOOKUP: self.look_up}[kind](values)

    def connect(self, _):
        self.is_connected = True
        return CONNECTED

    @staticmethod
    def ping(_):
        return frame(PONG, b"")

    @staticmethod
    def pong(_):
        return b""

    @staticmethod
    def look_up(it):
        kind, fields = REPLIES["lookup"]
        if not TOPIC_NAME.fullmatch(it["topic"]):
            return frame(kind, REPLIES["lookup_refused"][1](it["request_id"], "InvalidTopicName"))
        return frame(kind, fields(it["request_id"], URL.decode()))

    @staticmethod
    def partitions(it):
        kind, fields = REPLIES["partitions"]
        if not TOPIC_NAME.fullmatch(it["topic"]):
            return frame(kind, REPLIES["partitions_refused"][1](it["request_id"], "InvalidTopicName"))
        return frame(kind, fields(it["request_id"]))

    # Producers

    def who(self, producer):
        return self.place, producer

    def of_producer(self, producer):
        """The topic of a producer that may send, if there is one."""
        topic, who = self.producers.get(producer), self.who(producer)
        is_closing = topic and (who in topic.closing or topic.batch is not None and who in topic.batch.closing)
        return topic if topic and who in topic.names and not is_closing else None

    def searched(self, refusal, name):
        """The topic of this name, and why there is none: the refusal that stands before, or one of the search."""
        if refusal:
            return None, refusal
        topic = self.broker.find(name)
        if topic is None:
            return None, self.broker.why_not
        return topic, PERSISTENCE if topic.has_failed() else None

    def produce(self, it):
        self.producers = {id: topic for id, topic in self.producers.items() if self.who(id) in topic.names}
        producer, given = it["producer_id"], it["name"] or ""
        refusal = first_of((producer in self.producers, NOT_ALLOWED), (len(self.producers) >= MOST_OF_A_SESSION, TOO_MANY),
                           (not TOPIC_NAME.fullmatch(it["topic"]), BAD_TOPIC), (len(given.encode()) > LONGEST_NAME, NOT_ALLOWED))
        topic, refusal = self.searched(refusal, it["topic"])
        name = given or f"s{self.place}-p{producer}"
        refusal = refusal or first_of((topic and name in topic.names.values(), BUSY))
        if refusal:
            return error(refusal, it["request_id"])
        topic.names[self.who(producer)] = name
        self.producers[producer] = topic
        return producer_success(name.encode(), it["request_id"])

    def send(self, it, entry, metadata):
        topic = self.of_producer(it["producer_id"])
        plain = metadata or {}
        refusal = first_of((topic is None, NOT_ALLOWED), (metadata is None, CHECKSUM), (len(entry) > LARGEST_ENTRY, NOT_ALLOWED),
                           (plain.get("compression") != 0 or plain.get("deliver_at_time") is not None, NOT_ALLOWED),
                           (not 1 <= plain.get("num_messages_in_batch", 0) <= MOST_OF_AN_ENTRY, NOT_ALLOWED),
                           (topic and topic.has_failed(), PERSISTENCE), (topic and not topic.has_room(entry), TOO_MANY))
        if refusal:
            return send_error(it["producer_id"], it["sequence_id"], refusal)
        position = len(topic.files.entries) + len(topic.waiting)
        topic.waiting.append(entry)
        topic.later.append((self.place, receipt(it["producer_id"], it["sequence_id"], position, topic.per_ledger),
                            send_error(it["producer_id"], it["sequence_id"], PERSISTENCE)))
        return b""

    def close_producer(self, it):
        topic = self.of_producer(it["producer_id"])
        refusal = first_of((topic is None, NOT_ALLOWED), (topic and topic.has_failed(), PERSISTENCE))
        if refusal:
            return error(refusal, it["request_id"])
        topic.closing.add(self.who(it["producer_id"]))
        self.promise(topic, it["request_id"])
        return b""

    def promise(self, topic, request):
        """A SUCCESS with the next flush."""
        topic.later.append((self.place, success(request), error(PERSISTENCE, request)))

    # Consumers

    def key(self, consumer):
        return f"{self.place}.{consumer}"

    def subscribe(self, it):
        self.consumers = {id: topic for id, topic in self.consumers.items() if topic.subs.of(self.key(id))}
        refusal = first_of((it["consumer_id"] in self.consumers, NOT_ALLOWED), (len(self.consumers) >= MOST_OF_A_SESSION, TOO_MANY),
                           (not TOPIC_NAME.fullmatch(it["topic"]), BAD_TOPIC), (not it["durable"] or it["start"] is not None, NOT_ALLOWED),
                           (not SUBSCRIPTION_NAME.fullmatch(it["subscription"]), NOT_ALLOWED))
        topic, refusal = self.searched(refusal, it["topic"])
        ranges = ranges_of(it)
        if topic:
            topic.subs.first = topic.floor()
        refusal = refusal or REFUSALS[topic.subs.subscribe(it["subscription"], it["kind"], self.key(it["consumer_id"]), it["initial"], ranges)]
        if refusal:
            return error(refusal, it["request_id"])
        self.consumers[it["consumer_id"]] = topic
        self.promise(topic, it["request_id"])
        return b""

    def of_consumer(self, consumer):
        """The topic and the subscription of a consumer, if it is there."""
        topic = self.consumers.get(consumer)
        subscription = topic and topic.subs.of(self.key(consumer))
        return (topic, subscription) if subscription else (None, None)

    def flow(self, it):
        topic, subscription = self.of_consumer(it["consumer_id"])
        if subscription and not topic.has_failed():
            consumer = subscription.consumer(self.key(it["consumer_id"]))
            if consumer.granted + it["message_permits"] > MOST_PERMITS:
                raise Ended(TOO_MANY_PERMITS)
            consumer.granted += it["message_permits"]
        return b""

    def acknowledge(self, it):
        topic, subscription = self.of_consumer(it["consumer_id"])
        is_cumulative, ids, request = it["kind"] == "Cumulative", it["ids"], it["request_id"]
        places = [topic and self.broker.place_of(id, topic) for id in ids]
        refusal = first_of((topic is None, NO_CONSUMER), (topic and topic.has_failed(), PERSISTENCE),
                           (is_cumulative and subscription and subscription.mode in SERVING_MANY, NOT_ALLOWED),
                           (is_cumulative and len(ids) != 1, NOT_ALLOWED), (None in places, NOT_ALLOWED),
                           (topic and len(topic.subs.changes) + (1 if is_cumulative else len(ids)) > MOST_CHANGES, TOO_MANY))
        if refusal:
            return b"" if request is None else ack_response(it["consumer_id"], refusal, request)
        for place in places:
            subscription.acknowledge(0 if is_cumulative else place, place)
            topic.subs.changes.append("acknowledged")
        if request is not None:
            topic.later.append((self.place, *(ack_response(it["consumer_id"], code, request) for code in (None, PERSISTENCE))))
        return b""

    def redeliver(self, it):
        topic, subscription = self.of_consumer(it["consumer_id"])
        if subscription and not topic.has_failed():
            places = {self.broker.place_of(id, topic) for id in it["ids"]}
            is_all = not it["ids"] or subscription.mode not in SERVING_MANY
            subscription.give_back(lambda position, key: key == self.key(it["consumer_id"]) and (is_all or position in places))
        return b""

    def unsubscribe(self, it):
        topic, subscription = self.of_consumer(it["consumer_id"])
        refusal = first_of((topic is None, NO_CONSUMER), (topic and topic.has_failed(), PERSISTENCE),
                           (subscription and len(subscription.consumers) > 1, CONSUMER_BUSY), (topic and len(topic.subs.changes) >= MOST_CHANGES, TOO_MANY))
        if refusal:
            return error(refusal, it["request_id"])
        topic.subs.subs.remove(subscription)
        topic.subs.changes.append("removed")
        del self.consumers[it["consumer_id"]]
        self.promise(topic, it["request_id"])
        return b""

    def close_consumer(self, it):
        topic, subscription = self.of_consumer(it["consumer_id"])
        refusal = first_of((topic is None, NO_CONSUMER), (topic and topic.has_failed(), PERSISTENCE))
        if refusal:
            return error(refusal, it["request_id"])
        subscription.drop(lambda consumer: consumer.key == self.key(it["consumer_id"]))
        del self.consumers[it["consumer_id"]]
        return success(it["request_id"])

    def pump(self):
        """What is said, and how it went."""
        said = []
        for topic in self.broker.topics:
            said += topic.collect(self.place, MOST_REPLIES - len(said))
        try:
            if len(said) < MOST_REPLIES:
                self.serve(said)
        except ReadFails:
            return b"".join(said), "S1"
        return b"".join(said), "ok"

    def serve(self, said):
        count = 0
        for consumer in sorted(self.consumers):
            while count < MOST_MESSAGES and (sent := self.consumers[consumer].dispatch(self.place, consumer, self.broker.device)):
                said.append(sent)
                count += 1


def ranges_of(it):
    """The ranges of hash slots that a SUBSCRIBE names; one that Key_Shared refuses in any case where it names none that are good."""
    named = it["key_shared"]
    ranges = [(one["start"], one["end"]) for one in named["ranges"]] if named and named["mode"] == "Sticky" else []
    return ranges if all(0 <= bound <= LARGEST_SLOT for one in ranges for bound in one) else [(1, 0)]


class Broker:
    """Works the lines of a script."""

    def __init__(self, per_ledger):
        self.per_ledger, self.topics, self.sessions, self.used, self.device = per_ledger, [], {}, 0, Device()
        self.is_up, self.why_not = True, None
        self.doubtful, self.may_be_there = None, False  # the name of a topic whose addition failed

    def find(self, name):
        """The topic of this name, which is made where there is room for it; or nothing, and `why_not` says why."""
        self.why_not = None
        if not self.settle():
            self.why_not = PERSISTENCE
            return None
        topic = next((topic for topic in self.topics if topic.name == name), None)
        if topic is None and len(self.topics) >= MOST_TOPICS:
            self.why_not = TOO_MANY
        elif topic is None:
            topic = self.make(name)
        return topic

    def make(self, name):
        """First its files, then its name in the catalog."""
        failing = self.device.failing(MAKE + APPEND)
        if not failing:
            return self.add(name)
        self.why_not = PERSISTENCE
        if failing > MAKE or failing == READ:
            self.doubtful, self.may_be_there = name, failing == READ or failing > MAKE + APPEND - IN_DOUBT
        return None

    def add(self, name):
        self.topics.append(Held(len(self.topics), name, self.per_ledger))
        return self.topics[-1]

    def is_there(self):
        """Whether the name in doubt is."""
        return self.doubtful is not None and self.may_be_there and self.device.fate.choose(2) == 1

    def settle(self):
        """Whether no name is in doubt now: the catalog is opened again, and the topic of that name."""
        if self.doubtful is None:
            return True
        is_there = self.is_there()
        if self.device.failing(1 + is_there * calls_of_opening(Held(0, "", 1).found(self.device))):
            return False
        if is_there:
            self.add(self.doubtful)
        self.doubtful = None
        return True

    def place_of(self, id, topic):
        """The committed position that an id names, if it names one."""
        position = id["ledger_id"] * self.per_ledger + id["entry_id"]
        is_named = id["partition"] == -1 and id["batch_index"] == -1 and not id["has_ack_set"] and id["entry_id"] < self.per_ledger
        return position if is_named and position < len(topic.files.entries) else None

    def leave(self, session):
        del self.sessions[session]
        for topic in self.topics:
            topic.leave(session)

    def open(self):
        if not self.is_up:
            return b"", "none"
        if len(self.sessions) >= MOST_SESSIONS:
            return b"", "full"
        self.sessions[self.used] = Session(self, self.used)
        self.used += 1
        return b"", "ok"

    def bytes(self, session, piece):
        if int(session) not in self.sessions:
            return b"", "none"
        said, word = self.sessions[int(session)].feed(bytes.fromhex(piece))
        if word != "ok":
            self.leave(int(session))
        return said, word

    def pump(self, session):
        return self.sessions[int(session)].pump() if int(session) in self.sessions else (b"", "none")

    def close(self, session):
        if int(session) not in self.sessions:
            return b"", "none"
        self.leave(int(session))
        return b"", "ok"

    def on_topic(self, word, topic):
        if not self.is_up or int(topic) >= len(self.topics):
            return b"", "none"
        return b"", getattr(self.topics[int(topic)], word)(self.device)

    def crash(self, *_):
        self.device.crash()
        self.sessions, self.used = {}, 0
        is_there = self.is_there()
        found = [topic.found(self.device) for topic in self.topics]
        calls = LISTS + sum(map(calls_of_opening, found)) + is_there * calls_of_opening(Held(0, "", 1).found(self.device))
        self.is_up = not self.device.failing(calls)
        if not self.is_up:
            return b"", "S1"
        for topic, what in zip(self.topics, found):
            topic.due = []
            topic.begin(what)
        if is_there:
            self.add(self.doubtful)
        self.doubtful = None
        return b"", "ok"

    def status(self):
        return [line for topic in self.topics for line in topic.status(self.device)] if self.is_up else []

    def work(self, at, line):
        """The lines that the line of this number prints."""
        word, *words = line.split(" ")
        if word == "status":
            return self.status()
        if word in ("fail", "stop", "failread"):
            self.device.order(word, *words)
            return [f"{at} - ok"]
        said, how = self.on_topic(word, *words) if word in ON_TOPICS else getattr(self, word)(*words)
        return [f"{at} {said.hex() or '-'} {how}"]


def lines_of(script):
    """What a replay prints of the lines of a script."""
    broker = Broker(int(script[0].split(" ")[1]))
    return ["1 - ok", *(line for at, words in enumerate(script[1:], 2) for line in broker.work(at, words))]
