"""Clients that publish, consume and acknowledge over one loop, and note what they are told: for tests/soak."""
import selectors
import socket
import time

from encoding import CONNECT, CONNECTED, ack, close_consumer, flow, place_of, producer, redeliver, send, unsubscribe
from server import SECONDS, Wrong
from wire import take_varint

PRODUCER_SUCCESS, SEND_RECEIPT, SEND_ERROR, MESSAGE, SUCCESS, ERROR, ACK_RESPONSE = 17, 7, 8, 9, 13, 14, 38
PIECE = 1 << 18  # bytes of one read
TICK = 0.01  # seconds between two looks at what an actor wants to do


def fields_of(content):
    """The fields of a reply by their numbers: this broker's have numbers and texts alone."""
    fields, at = {}, 0
    while at < len(content):
        tag, at = take_varint(content, at)
        value, at = take_varint(content, at)
        if tag % 8 == 2:
            value, at = content[at:at + value], at + value
        fields[tag // 8] = value
    return fields


class Loop:
    """All connections of a round, and the actors over them."""

    def __init__(self, port, per_ledger, rng, forgives=False):
        """One that forgives takes refusals, and connections that the broker ends, as what failing files bring: who meets one asks for nothing more."""
        self.port, self.per_ledger, self.rng, self.selector, self.is_ending = port, per_ledger, rng, selectors.DefaultSelector(), False
        self.forgives, self.forgiven = forgives, 0
        self.actors, self.others = [], []

    def connect(self):
        return Connection(self)

    def forgive(self, why):
        """A refusal, or a connection that the broker ends, where such may come."""
        if not self.forgives:
            raise Wrong(why)
        self.forgiven += 1

    def run(self, seconds, is_done=lambda: False):
        """Works until something is done or so many seconds are over; answers whether it is done."""
        end, next_tick = time.monotonic() + seconds, 0
        while not is_done():
            now = time.monotonic()
            if now > end:
                return False
            if now > next_tick and not self.is_ending:
                next_tick = now + TICK
                for actor in self.actors:
                    actor.act(now)
            for key, events in self.selector.select(TICK):
                key.data.work(events)
        return True

    def must(self, what, is_done):
        if not self.run(SECONDS, is_done):
            raise Wrong(f"after {SECONDS} seconds this hadn't happened: {what}")

    def take_the_rest(self):
        """The broker was ended: what it told before is read up to the end of each connection."""
        self.is_ending = True
        self.must("the connections of an ended broker end", lambda: not self.selector.get_map())

    def close(self):
        for key in list(self.selector.get_map().values()):
            key.data.close()
        self.selector.close()
        for it in self.others:
            it.close()

    def add_bad_clients(self, topic, deaf, gone):
        """Clients that keep to no rules, which nobody else may feel: none of them ever reads. The first has a consumer on the subscription `deaf` with
        permits beyond number, the second stops amid a frame, the third sends what is no frame, and the fourth publishes as `gone` and closes at once."""
        greeted = CONNECT + producer(1, gone, topic.name.encode())
        sends = [send(1, *topic.next_entry(gone)) for _ in range(50)]
        for content in (CONNECT + topic.subscribe(1, deaf, 1) + flow(1, 1 << 30), CONNECT + sends[0][:-1], CONNECT + b"\xff" * 100, greeted + b"".join(sends)):
            it = socket.create_connection(("127.0.0.1", self.port))
            it.sendall(content)
            self.others.append(it)
        self.others.pop().close()


class Connection:
    """A session: its frames go to the actors by their requests, producers and consumers."""

    def __init__(self, loop):
        self.loop, self.out, self.inside, self.awaited, self.producers, self.consumers = loop, bytearray(CONNECT), bytearray(), {}, {}, {}
        self.socket = socket.create_connection(("127.0.0.1", loop.port))
        self.socket.setblocking(False)
        self.is_connected, self.is_over, self.last_id, self.events = False, False, 0, selectors.EVENT_READ | selectors.EVENT_WRITE
        loop.selector.register(self.socket, self.events, self)

    def new_id(self):
        self.last_id += 1
        return self.last_id

    def put(self, content):
        if not self.is_over:
            self.out += content
            self.listen()

    def ask(self, make, answer):
        """Sends what `make` makes of a new request id; its reply is handed to `answer`."""
        request_id = self.new_id()
        self.awaited[request_id] = answer
        self.put(make(request_id))

    def listen(self):
        wanted = selectors.EVENT_READ | (selectors.EVENT_WRITE if self.out else 0)
        if wanted != self.events:
            self.events = wanted
            self.loop.selector.modify(self.socket, wanted, self)

    def work(self, events):
        try:
            if events & selectors.EVENT_READ:
                piece = self.socket.recv(PIECE)
                self.inside += piece
                self.take_frames()
                if not piece:
                    return self.end("the broker ended a connection")
            if events & selectors.EVENT_WRITE and self.out:
                del self.out[:self.socket.send(memoryview(self.out)[:PIECE].tobytes())]
        except (BlockingIOError, InterruptedError):
            return None
        except OSError as why:
            return self.end(f"a connection failed: {why}")
        return self.listen()

    def end(self, why):
        if not self.loop.is_ending:
            self.loop.forgive(why)
        self.close()

    def close(self):
        self.is_over = True
        self.loop.selector.unregister(self.socket)
        self.socket.close()

    def take_frames(self):
        at = 0
        while len(self.inside) >= at + 4:
            size = int.from_bytes(self.inside[at:at + 4], "big")
            if len(self.inside) < at + 4 + size:
                break
            self.take_frame(bytes(self.inside[at + 4:at + 4 + size]))
            at += 4 + size
        del self.inside[:at]

    def take_frame(self, content):
        end = 4 + int.from_bytes(content[:4], "big")
        command, entry = fields_of(content[4:end]), content[end:]
        kind = command[1]
        fields = fields_of(command[kind])
        if not self.is_connected:
            if CONNECTED[4:] != content:
                raise Wrong(f"CONNECT was answered by {content.hex()}")
            self.is_connected = True
        elif kind in (PRODUCER_SUCCESS, SUCCESS, ERROR):
            self.answered(fields[1], kind, fields)
        elif kind == ACK_RESPONSE:
            self.answered(fields[6], kind, fields)
        elif kind == SEND_RECEIPT and fields[1] in self.producers:
            self.producers[fields[1]].take_receipt(fields[2], self.position(fields[3]))
        elif kind == SEND_ERROR:
            self.loop.forgive(f"message {fields[2]} of a producer was refused: {fields[4]}")
            self.producers[fields[1]].is_idle = True
        elif kind == MESSAGE and fields[1] in self.consumers:
            self.consumers[fields[1]].take_message(self.position(fields[2]), entry)
        else:
            raise Wrong(f"a client got what it can't get: {content[:200].hex()}")

    def answered(self, request_id, kind, fields):
        if request_id not in self.awaited:
            raise Wrong(f"request {request_id} was answered, and isn't awaited")
        answer = self.awaited.pop(request_id)
        if kind != ERROR and (kind != ACK_RESPONSE or 4 not in fields):
            answer()
        else:
            self.loop.forgive(f"request {request_id} was refused: {fields.get(3, fields.get(5))}")

    def position(self, message_id):
        fields = fields_of(message_id)
        if sorted(fields) != [1, 2] or fields[2] >= self.loop.per_ledger:
            raise Wrong(f"a message id that names no position: {message_id.hex()}")
        return fields[1] * self.loop.per_ledger + fields[2]


class Producer:
    """Publishes in bursts of many sizes; each receipt must be the next one."""

    BURSTS = (1, 1, 1, 5, 20, 50, 100)
    FLOOD = 2000  # more than may wait on a topic, so that the broker lets the client wait

    def __init__(self, connection, topic, name, is_idle=False):
        self.connection, self.topic, self.name, self.id = connection, topic, name, connection.new_id()
        self.is_there, self.is_idle, self.received, self.sent, self.rests_until = False, is_idle, 0, 0, 0
        connection.producers[self.id] = self
        connection.loop.actors.append(self)
        connection.ask(lambda request: producer(self.id, name, topic.name.encode(), request), self.begin)

    def begin(self):
        self.is_there = self.topic.is_told = True

    def act(self, now):
        if self.is_there and not self.is_idle and self.received == self.sent and now > self.rests_until:
            rng = self.connection.loop.rng
            self.publish(self.FLOOD if rng.random() < 0.01 else rng.choice(self.BURSTS))
            self.rests_until = now + rng.random() * 0.1

    def publish(self, count):
        self.sent += count
        burst = []
        for _ in range(count):
            sequence, entry = self.topic.next_entry(self.name)
            burst.append(send(self.id, sequence, entry))
        self.connection.put(b"".join(burst))

    def take_receipt(self, sequence, position):
        if sequence != self.received:
            raise self.topic.wrong(f"the receipt of message {sequence} of {self.name.decode()} came where that of message {self.received} is due")
        if sequence and position <= self.topic.places[self.name, sequence - 1]:
            raise self.topic.wrong(f"the receipt of message {sequence} of {self.name.decode()} names position {position}, which isn't behind the one before")
        self.topic.take_receipt(self.name, sequence, position)
        self.received += 1


class Consumer:
    """Takes messages and acknowledges most of them: one by one or through one, with an answer or without; at times it gives back, or goes and comes."""

    def __init__(self, connection, topic, name, is_cumulative=False):
        self.connection, self.topic, self.name, self.is_cumulative = connection, topic, name, is_cumulative
        self.subscription = topic.subscriptions[name]
        connection.loop.actors.append(self)
        self.attach()

    def attach(self):
        self.id, self.permits, self.batch, self.is_there = self.connection.new_id(), 0, [], False
        self.kept, self.kept_through = set(), -1  # by answers that this consumer itself got
        self.connection.consumers[self.id] = self
        self.connection.ask(lambda request: self.topic.subscribe(self.id, self.name, request), self.begin)

    def begin(self):
        self.is_there = True
        self.topic.has(self.name)
        self.grant()

    def grant(self):
        more = self.connection.loop.rng.choice((5, 50, 500))
        self.permits += more
        self.connection.put(flow(self.id, more))

    def take_message(self, position, entry):
        if self.permits < 1:
            raise self.topic.wrong(f"position {position} came on {self.name} without a permit")
        self.permits -= self.topic.take_message(position, entry)
        if position in self.kept or position <= self.kept_through:
            raise self.topic.wrong(f"position {position} came on {self.name} behind the answer to its acknowledgement")
        self.batch.append(position)
        while self.permits < 3:
            self.grant()

    def act(self, _):
        rng = self.connection.loop.rng
        if self.is_there and self.batch and rng.random() < 0.3:
            self.acknowledge(rng)
        if self.is_there and rng.random() < 0.005:
            self.connection.put(redeliver(self.id))
            self.batch.clear()
        elif self.is_there and rng.random() < 0.005:
            self.is_there = False
            self.connection.ask(lambda request: close_consumer(self.id, request), self.left)

    def left(self):
        del self.connection.consumers[self.id]
        self.attach()

    def acknowledge(self, rng):
        """Of what came: one in ten is left out, so that there are holes; of eight acknowledgements one has no answer."""
        chosen = self.chosen(rng)
        self.batch.clear()
        if not chosen:
            return
        positions, through = ((), max(chosen)) if self.is_cumulative else (chosen, -1)
        self.subscription.ask(positions, through)
        places = [self.place(it) for it in (chosen if positions else [through])]
        if rng.random() < 0.125:
            self.connection.put(ack(self.id, places, None, self.is_cumulative))
        else:
            answer = self.answer_to(positions, through)
            self.connection.ask(lambda request: ack(self.id, places, request, self.is_cumulative), answer)

    def chosen(self, rng):
        return [it for it in self.batch if rng.random() < 0.9]

    def answer_to(self, positions, through):
        """What is done with the answer; it may come when the consumer has gone and come again, under another id."""
        kept, consumer = self.kept, self.id

        def keep():
            self.subscription.keep(positions, through)
            self.topic.acknowledgements += 1
            kept.update(positions)
            if self.id == consumer:
                self.kept_through = max(self.kept_through, through)

        return keep

    def place(self, position):
        return place_of(position, self.connection.loop.per_ledger)


class Thorough(Consumer):
    """A consumer that acknowledges all that comes."""

    def chosen(self, _):
        return [*self.batch]


class Passer(Consumer):
    """A consumer of a subscription that soon goes again."""

    def act(self, now):
        if self.is_there and self.connection.loop.rng.random() < 0.02:
            self.is_there = False
            self.leave()

    def leave(self):
        self.subscription.is_to_go = True
        self.connection.ask(lambda request: unsubscribe(self.id, request), self.left)

    def left(self):
        self.subscription.is_gone = True
        del self.connection.consumers[self.id]


class Reader:
    """Takes all that comes up to a position, and notes it; it acknowledges nothing."""

    def __init__(self, connection, topic, name, last):
        self.connection, self.topic, self.last, self.came, self.id, self.is_there = connection, topic, last, [], connection.new_id(), False
        self.name = name
        connection.consumers[self.id] = self
        connection.ask(lambda request: topic.subscribe(self.id, name, request), self.begin)

    def begin(self):
        self.is_there = True
        self.topic.has(self.name)
        self.connection.put(flow(self.id, 1 << 30))

    def take_message(self, position, entry):
        self.topic.take_message(position, entry)
        if self.came and position <= self.came[-1]:
            raise self.topic.wrong(f"position {position} came behind position {self.came[-1]}")
        self.came.append(position)

    def is_done(self):
        return bool(self.came) and self.came[-1] >= self.last

    def leave(self, make):
        """Goes by CLOSE_CONSUMER or UNSUBSCRIBE, which `make` makes of the consumer's id and a request id."""
        self.connection.ask(lambda request: make(self.id, request), self.left)

    def left(self):
        self.is_there = False
        del self.connection.consumers[self.id]
