#!/usr/bin/env python3
"""Subscribes to a topic, prints each message with its message id, and acknowledges it.

Usage: examples/consume.py HOST:PORT TOPIC SUBSCRIPTION [--type exclusive|failover|shared] [--earliest] [--count N]

A subscription remembers what was acknowledged, so each run goes on behind the one before. A new one begins behind the messages that are there;
with --earliest it begins at the first one. The id of a message in a batch ends in its number there, from 0 on. Ends behind N messages, or behind the
batch that has the last of them, once all are acknowledged for good; else with the connection. A fault, such as that end, is told on standard error,
with exit status 1. Once nobody reads standard output it ends quietly, with exit status 141, as other programs do in a pipe, and what it couldn't print
comes again; and so it does at Ctrl-C, with 130.
"""
import itertools
import os
import sys

sys.dont_write_bytecode = True
from command_line import count, parser_of, run  # noqa: E402
from frames import ACK, ACK_RESPONSE, FLOW, MESSAGE, SUBSCRIBE, SUCCESS, Connection, messages_of, number, text, told_id  # noqa: E402

CONSUMER_ID = 1  # the client's own choice; one connection may have several consumers
TYPES = {"exclusive": 0, "shared": 1, "failover": 2}
WINDOW = 100  # messages that may be under way
INDIVIDUAL = 0  # an acknowledgement of just the messages that it names
EARLIEST = 1


class Permits:
    """What the broker may send: it sends nothing without a permit, and each message takes one. A batch comes whole, so some may be owed."""

    def __init__(self, connection, wanted):
        self.connection, self.left, self.open = connection, wanted, 0

    def top_up(self):
        """Grants further permits where half of them are used, but never more than messages are wanted."""
        more = WINDOW - self.open if self.left is None else min(WINDOW - self.open, self.left)
        if more > 0 and self.open <= WINDOW // 2:
            self.connection.send(FLOW, number(1, CONSUMER_ID) + number(2, more))
            self.open += more
            self.left = None if self.left is None else self.left - more

    def use(self, messages):
        self.open -= messages
        self.top_up()


def show(message_id, entry):
    """Prints the messages of an entry, each with its id, and answers how many they are."""
    messages, is_batch = messages_of(entry)
    for index, message in enumerate(messages):
        print(f"{told_id(message_id)}:{index}" if is_batch else told_id(message_id), message.decode(errors="replace"), flush=True)
    return len(messages)


def consume(words):
    connection = Connection(words.address)
    asked = text(1, os.fsencode(words.topic)) + text(2, os.fsencode(words.subscription)) + number(3, TYPES[words.type])
    asked += number(4, CONSUMER_ID) + number(5, 1) + (number(13, EARLIEST) if words.earliest else b"")
    connection.send(SUBSCRIBE, asked)
    connection.expect(SUCCESS)
    permits = Permits(connection, words.count)
    permits.top_up()
    request_ids, acknowledged, asked = itertools.count(2), 0, {}  # of each ACK that isn't answered yet how many messages it acknowledges
    while words.count is None or acknowledged < words.count:
        kind, fields, entry = connection.receive()
        if kind == MESSAGE:
            request_id = next(request_ids)
            asked[request_id] = show(fields[2], entry)
            # With a request id the broker answers, once the acknowledgement outlives a crash. Without one it wouldn't. It is of all messages of a batch.
            connection.send(ACK, number(1, CONSUMER_ID) + number(2, INDIVIDUAL) + text(3, fields[2]) + number(8, request_id))
            permits.use(asked[request_id])
        elif kind == ACK_RESPONSE:
            acknowledged += asked.pop(fields[6])


def main():
    parser = parser_of(__doc__)
    parser.add_argument("subscription", metavar="SUBSCRIPTION", help="its name: letters, digits, -, _ and .")
    parser.add_argument("--type", choices=TYPES, default="exclusive",
                        help="exclusive, as without it: one consumer; shared: many; failover: one, for which others stand by")
    parser.add_argument("--earliest", action="store_true", help="a new subscription begins at the first message")
    parser.add_argument("--count", metavar="N", type=count, help="how many messages; without it, all that come")
    run(consume, parser.parse_args())


if __name__ == "__main__":
    main()
