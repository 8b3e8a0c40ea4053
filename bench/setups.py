"""The scripts that `bench/bounds` times: what is there beforehand, and the commands that are timed."""
from wire import CONNECT, EXCLUSIVE, METADATA, PER_LEDGER, TOPIC, acknowledge, flow, frame, number, subscribe, text

PIECE = 64  # small commands of a line
PUMPED = 64  # messages of a pump at most
BATCH = 1_000  # entries of a flush
SHARED = 1
PERMITS = 1_000_000
SMALL = len(METADATA).to_bytes(4, "big") + METADATA
LARGE = SMALL + b"x" * (1_024 - len(SMALL))
RECEIPT, MESSAGE, PRODUCER_SUCCESS, SUCCESS = 7, 9, 17, 13  # types of replies
NOBODY = 999  # no session has this number, so that its lines are only read


def send(producer, entry):
    return frame(6, number(1, producer) + number(2, 0), entry)


def attach(producer):
    return frame(5, text(1, TOPIC) + number(2, producer) + number(3, 7))


class Script:
    """Lines up to what is timed, and whom that uses: the last consumer of the last session, and the producers of the session that sends."""

    def __init__(self, sessions, sender=0):
        """So many sessions connect, and the one that sends has producer 0."""
        self.lines = [f"init {PER_LEDGER}", *["open"] * sessions]
        self.sessions, self.session, self.sender, self.entries = sessions, sessions - 1, sender, 0
        self.consumers, self.producers = [0], [0]
        for session in range(sessions):
            self.feed(session, CONNECT)
        self.feed(sender, attach(0))

    def copy(self):
        copied = object.__new__(Script)
        copied.__dict__.update(self.__dict__, lines=[*self.lines])
        return copied

    def feed(self, session, *frames):
        self.lines.append(f"bytes {session} {''.join(frames)}")

    def flush(self, session):
        self.lines += ["flush 0", f"pump {session}"]

    def commit(self, entries, entry=SMALL):
        for first in range(0, entries, BATCH):
            self.feed(self.sender, send(0, entry) * min(BATCH, entries - first))
            self.flush(self.sender)
        self.entries += entries

    def permit(self, permits):
        self.feed(self.session, flow(self.consumers[-1], permits))

    def hold(self, session, consumer, count):
        """The consumer gets so many messages, and keeps them."""
        self.feed(session, flow(consumer, count))
        self.lines += [f"pump {session}"] * (count // PUMPED + 1)


# What is there beforehand


def with_consumers(subscriptions, consumers):
    """Each of the last sessions has a consumer on each subscription. There are as many sessions in any case."""
    script = Script(65)
    script.consumers = list(range(subscriptions))
    for session in range(65 - consumers, 65):
        script.feed(session, *(subscribe(it, b"s%02d" % it, SHARED) for it in range(subscriptions)))
        script.flush(session)
    return script


def with_producers(sessions, producers):
    """Each of the last sessions has so many producers, and the last one a consumer."""
    script = Script(256, sender=255)
    script.producers = list(range(producers))
    for session in range(256 - sessions, 256):
        others = range(session == script.sender, producers)  # beside the one that the sender has
        if others:
            script.feed(session, *map(attach, others))
    script.feed(script.session, subscribe(0, b"s", SHARED))
    script.flush(script.session)
    return script


def with_held(held, entries=100_000):
    """Another session's consumer of the subscription holds so many positions, all that aren't acknowledged."""
    script = Script(3)
    script.commit(entries - held)
    for session in (1, 2):
        script.feed(session, subscribe(0, b"s", SHARED, earliest=False))
        script.flush(session)
    script.commit(held)
    script.hold(1, 0, held)
    return script


def with_ranges(subscriptions, ranges=10_000):
    """Each second position is acknowledged on each subscription, so many of them."""
    script = Script(2)
    script.consumers = list(range(subscriptions))
    script.commit(2 * ranges)
    script.feed(1, *(subscribe(it, b"s%02d" % it, EXCLUSIVE) for it in script.consumers))
    for consumer in script.consumers:
        script.feed(1, *(acknowledge(consumer, range(first + 1, first + 1_000, 2)) for first in range(0, 2 * ranges, 1_000)))
        script.flush(1)
    return script


def with_sessions():
    return Script(256)


# What is timed: lines of so many commands, behind what is readied for them


def in_pieces(script, session, commands, count, size=PIECE):
    """Lines of so many commands, of which the nth is told."""
    for first in range(0, count, size):
        script.feed(session, *(commands(n) for n in range(first, min(count, first + size))))


def no_more(_script, _count):
    pass


def ready_to_dispatch(script, count):
    script.commit(count)
    script.permit(count)


def dispatches(script, count):
    script.lines += [f"pump {script.session}"] * (count // PUMPED)


def ready_to_dispatch_large(script, count):
    script.commit(count, LARGE)
    script.permit(count)


def ready_to_acknowledge(script, count):
    script.commit(count)


def acknowledges(script, count):
    """Of the last entries, which nobody holds, each in a frame."""
    consumer, first = script.consumers[-1], script.entries - count
    in_pieces(script, script.session, lambda n: acknowledge(consumer, [first + n]), count)


def takes_turns(script, count):
    """Permits, messages, and their acknowledgements."""
    consumer, first = script.consumers[-1], script.entries - count
    for piece in range(first, first + count, PIECE):
        script.permit(PIECE)
        script.lines.append(f"pump {script.session}")
        script.feed(script.session, *(acknowledge(consumer, [n]) for n in range(piece, piece + PIECE)))


def flows(script, count):
    consumer = script.consumers[-1]
    in_pieces(script, script.session, lambda _: flow(consumer, 1), count)


def sends_of(entry, size):
    """With a flush a thousand of them or a little fewer, and the receipts collected."""
    def sends(script, count):
        frames = [send(it, entry) for it in script.producers]
        for first in range(0, count, BATCH // size * size):
            in_pieces(script, script.sender, lambda n: frames[n % len(frames)], min(count - first, BATCH // size * size), size)
            script.flush(script.sender)
    return sends


def ready_to_pump(script, _count):
    """Each consumer of the session has permits, and nothing is open."""
    script.feed(script.session, *(flow(it, PERMITS) for it in script.consumers))


def ready_without_permits(script, _count):
    script.commit(BATCH)


def pumps(script, count):
    script.lines += [f"pump {script.session}"] * count


def acknowledges_and_flushes(script, count):
    """In turn, of one entry at a time."""
    consumer, first = script.consumers[-1], script.entries - count
    for n in range(first, first + count):
        script.feed(script.session, acknowledge(consumer, [n]))
        script.lines.append("flush 0")


def comes_and_goes(script, count):
    """A session attaches 64 consumers, as many of them to the subscription as there is room for beside two, and ends."""
    for session in range(script.sessions, script.sessions + count):
        script.lines.append("open")
        script.feed(session, CONNECT, *(subscribe(it, b"s" if it < 62 else b"t", SHARED) for it in range(64)))
        script.flush(session)
        script.lines.append(f"close {session}")


def producers_attach(script, count):
    """Sixty-four of each session, of which the first one has one already."""
    for session in range(count // 64):
        script.feed(session, *map(attach, range(session == script.sender, 64)))


def nobodys(line):
    """The line with a session that isn't there in the place of its session: it is read, and does nothing."""
    word, _, rest = line.partition(" ")
    if word not in ("bytes", "pump", "close"):
        return line
    _, space, rest = rest.partition(" ")
    return f"{word} {NOBODY}{space}{rest}"
