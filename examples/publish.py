#!/usr/bin/env python3
"""Publishes texts on a topic, and prints a line for each receipt, with its message id.

Usage: examples/publish.py HOST:PORT TOPIC [--batch N] [TEXT ...]

A line `receipt 0:0` says that the message with this id is kept: it outlives a crash of the broker. With --batch so many messages go in one entry, the last
one of which may have fewer; an entry has one id and one receipt. A fault, such as the end of the connection, is
told on standard error, with exit status 1. Once nobody reads standard output it ends quietly, with exit status 141, as other programs do in a pipe;
and so it does at Ctrl-C, with 130.
"""
import contextlib
import itertools
import os
import sys
import threading
import time

sys.dont_write_bytecode = True
from command_line import count, parser_of, run  # noqa: E402
from frames import (CLOSE_PRODUCER, MESSAGES_IN_BATCH, PRODUCER, PRODUCER_SUCCESS, SEND, SEND_RECEIPT, SUCCESS, Connection, Failed,  # noqa: E402
                    batch_of, entry_of, number, text, told_id)

PRODUCER_ID = 1  # the client's own choice; one connection may have several producers


def send(connection, name, sequence_id, messages, is_batched):
    """An entry of these messages; its number is that of the first one."""
    metadata = text(1, name) + number(2, sequence_id) + number(3, int(time.time() * 1000))
    if is_batched:
        entry = entry_of(metadata + number(MESSAGES_IN_BATCH, len(messages)), batch_of(messages))
    else:
        entry = entry_of(metadata, messages[0])
    connection.send(SEND, number(1, PRODUCER_ID) + number(2, sequence_id) + number(3, len(messages)), entry)


def send_all(connection, name, texts, batch, faults):
    """Sends without waiting for receipts, and closes the producer behind the last message that could be read."""
    texts, sequence_id = iter(texts), 0
    with contextlib.suppress(Failed):  # which ends the connection, too
        try:
            while messages := list(itertools.islice(texts, batch or 1)):
                send(connection, name, sequence_id, messages, batch is not None)
                sequence_id += len(messages)
        except OSError as why:
            faults.append(f"standard input: {why}")
        connection.send(CLOSE_PRODUCER, number(1, PRODUCER_ID) + number(2, 2))


def publish(words):
    texts = [os.fsencode(word) for word in words.texts] or (line.rstrip(b"\r\n") for line in sys.stdin.buffer)
    connection = Connection(words.address)
    connection.send(PRODUCER, text(1, os.fsencode(words.topic)) + number(2, PRODUCER_ID) + number(3, 1))
    name, faults = connection.expect(PRODUCER_SUCCESS)[2], []  # the broker gives a name where the client doesn't
    threading.Thread(target=send_all, args=(connection, name, texts, words.batch, faults), daemon=True).start()
    while True:
        kind, fields, _ = connection.receive()
        if kind == SEND_RECEIPT:
            print(f"receipt {told_id(fields[3])}", flush=True)
        elif kind == SUCCESS:  # the producer is closed, so no receipt will come any more
            break
    for fault in faults:
        raise Failed(fault)


def main():
    parser = parser_of(__doc__)
    parser.add_argument("--batch", metavar="N", type=count, help="how many messages go in one entry; without it, one, which is no batch")
    parser.add_argument("texts", metavar="TEXT", nargs="*", default=[],
                        help="a message; without any, each line of standard input is one (-- goes before texts that begin with -)")
    words = parser.parse_intermixed_args()  # so that --batch may stand before the texts
    if not words.texts and sys.stdin is None:
        parser.error("there is no TEXT, and standard input is closed")
    run(publish, words)


if __name__ == "__main__":
    main()
