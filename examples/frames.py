"""Frames of the Pulsar binary protocol, as publish.py and consume.py send and receive them: a first lesson. docs/PROTOCOL.md has every rule.

Client and broker exchange frames. A frame has one command, and an entry behind it where the command is SEND or MESSAGE:

    4 bytes   totalSize: how many bytes follow it in the frame
    4 bytes   commandSize
    ..        the command, a Protocol Buffers message
    4 bytes   metadataSize                             |
    ..        the metadata, a Protocol Buffers message | the entry
    ..        the payload, up to the end of the frame  |

An entry is one message, or a batch of several: then field 11 of its metadata says how many, and its payload is, of each message in turn, the size of a
metadata of its own (4 bytes), this metadata, whose field 3 is the size of the message, and the message.

Sizes are big-endian. The broker keeps the entry, and hands it out byte for byte. From protocol version 6 on, `0e 01` and four bytes of checksum may
stand before metadataSize. This broker answers version 5 in its CONNECTED, so there are no checksums here.

A Protocol Buffers message is a list of fields. A field is a varint, which is its number * 8 + its wire type, and a value: a varint (wire type 0), or
a varint length and so many bytes (wire type 2). A varint has seven bits a byte, the low ones first; the high bit says that another byte follows. In a
command field 1 is its type, and what belongs to type k stands in field k, which is a message itself.
"""
import contextlib
import socket
import threading
import time

PING_SECONDS = 30  # the broker cuts off a client that says nothing for ten minutes
ENDED = "the broker ended the connection"

# The types of commands that are used here
CONNECT, CONNECTED, SUBSCRIBE, PRODUCER, SEND, SEND_RECEIPT, SEND_ERROR, MESSAGE, ACK, FLOW = 2, 3, 4, 5, 6, 7, 8, 9, 10, 11
SUCCESS, ERROR, CLOSE_PRODUCER, PRODUCER_SUCCESS, PING, PONG, ACK_RESPONSE = 13, 14, 15, 17, 18, 19, 38
ERROR_TEXT = {ERROR: 3, SEND_ERROR: 4, ACK_RESPONSE: 5}  # the field that says why something is refused
MESSAGES_IN_BATCH, MESSAGE_SIZE = 11, 3  # fields of an entry's metadata, and of that of a message in a batch


class Failed(Exception):
    """The broker refused something, or the connection failed; its text says why."""


def varint(n):
    groups = b""
    while n >= 128:
        groups += bytes([n % 128 + 128])
        n //= 128
    return groups + bytes([n])


def number(field, n):
    return varint(field * 8) + varint(n)


def text(field, content):
    return varint(field * 8 + 2) + varint(len(content)) + content


def read_varint(content, at):
    """The varint at a place, and the place behind it."""
    n, shift = 0, 0
    while True:
        n |= content[at] % 128 << shift
        at, shift = at + 1, shift + 7
        if content[at - 1] < 128:
            return n, at


def fields_of(content):
    """The fields of a message that has only numbers and texts, as this broker's replies do, by their numbers."""
    fields, at = {}, 0
    while at < len(content):
        tag, at = read_varint(content, at)
        value, at = read_varint(content, at)
        if tag % 8 == 2:
            value, at = content[at:at + value], at + value
        fields[tag // 8] = value
    return fields


def frame(kind, fields, entry=b""):
    command = number(1, kind) + text(kind, fields)
    return (4 + len(command) + len(entry)).to_bytes(4, "big") + len(command).to_bytes(4, "big") + command + entry


def entry_of(metadata, payload):
    return len(metadata).to_bytes(4, "big") + metadata + payload


def batch_of(messages):
    """The payload of an entry of several messages."""
    return b"".join(entry_of(number(MESSAGE_SIZE, len(message)), message) for message in messages)


def messages_of(entry):
    """The messages of an entry, and whether it is a batch."""
    start = 4 + int.from_bytes(entry[:4], "big")
    metadata, messages, at = fields_of(entry[4:start]), [], start
    if MESSAGES_IN_BATCH not in metadata:
        return [entry[start:]], False
    for _ in range(metadata[MESSAGES_IN_BATCH]):
        start = at + 4 + int.from_bytes(entry[at:at + 4], "big")
        size = fields_of(entry[at + 4:start]).get(MESSAGE_SIZE, 0)
        messages.append(entry[start:start + size])
        at = start + size
    return messages, True


def told_id(message_id):
    """A message id as it is written for people: its ledger, and its entry in that ledger."""
    fields = fields_of(message_id)
    return f"{fields[1]}:{fields[2]}"


def full_name(topic):
    """A topic's full name, as client libraries complete it: `greetings` is persistent://public/default/greetings, and a/b/c is persistent://a/b/c."""
    if "://" in topic:
        return topic
    parts = topic.split("/")
    if len(parts) not in (1, 3) or not all(parts):
        raise ValueError(f"{topic!r} is neither NAME, nor TENANT/NAMESPACE/NAME, nor a full name with ://")
    return "persistent://" + "/".join(["public", "default", *parts][-3:])


class Connection:
    """A connection over which CONNECT was answered. `address` is HOST:PORT."""

    def __init__(self, address):
        host, _, port = address.rpartition(":")
        try:
            self.socket = socket.create_connection((host, int(port)))
        except (OSError, ValueError, OverflowError) as why:
            raise Failed(f"no connection to {address}: {why}") from None
        self.stream, self.sending = self.socket.makefile("rb"), threading.Lock()
        self.send(CONNECT, text(1, b"examples") + number(4, 5))
        self.expect(CONNECTED)
        threading.Thread(target=self.keep_alive, daemon=True).start()

    def keep_alive(self):
        """Says now and then that the client is still there, as long as it is."""
        with contextlib.suppress(Failed):
            while True:
                time.sleep(PING_SECONDS)
                self.send(PING, b"")

    def send(self, kind, fields, entry=b""):
        try:
            with self.sending:
                self.socket.sendall(frame(kind, fields, entry))
        except ConnectionError:
            raise Failed(ENDED) from None
        except OSError as why:
            raise Failed(f"the connection failed: {why}") from None

    def receive(self):
        """The type, the fields and the entry of the next frame but PING and PONG. What the broker refuses is raised as its text."""
        kind = PONG
        while kind in (PING, PONG):
            content = self.take(int.from_bytes(self.take(4), "big"))
            end = 4 + int.from_bytes(content[:4], "big")
            command, entry = fields_of(content[4:end]), content[end:]
            kind = command[1]
            fields = fields_of(command[kind])
            if kind == PING:  # a broker asks so whether the client is still there
                self.send(PONG, b"")
        if ERROR_TEXT.get(kind) in fields:
            raise Failed(fields[ERROR_TEXT[kind]].decode())
        return kind, fields, entry

    def expect(self, kind):
        """The fields of the next frame, which must be of this type."""
        got, fields, _ = self.receive()
        if got != kind:
            raise Failed(f"the broker answered type {got} in place of {kind}")
        return fields

    def take(self, size):
        try:
            content = self.stream.read(size)
        except ConnectionError:
            raise Failed(ENDED) from None
        except OSError as why:
            raise Failed(f"the connection failed: {why}") from None
        if len(content) < size:
            raise Failed(ENDED)
        return content
