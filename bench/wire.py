"""Frames of the Pulsar binary protocol, and how scripts of them are run, for the measurements beside this file."""
import os
import resource
import subprocess
import sys
import tempfile

TOP = os.path.dirname(os.path.dirname(os.path.realpath(__file__)))
TOPIC = b"persistent://a/b/c"
PER_LEDGER = 1000


def varint(n):
    groups = b""
    while n >= 128:
        groups += bytes([n % 128 + 128])
        n //= 128
    return groups + bytes([n])


def number(field, n):
    return varint(field * 8) + varint(n)


def text(field, content):
    return varint(field * 8 + 2) + varint(len(content)) + content


def frame(kind, fields, entry=b""):
    command = number(1, kind) + text(kind, fields)
    whole = (4 + len(command) + len(entry)).to_bytes(4, "big") + len(command).to_bytes(4, "big") + command + entry
    return whole.hex()


CONNECT = frame(2, text(1, b"c") + number(4, 5))
PRODUCER = frame(5, text(1, TOPIC) + number(2, 1) + number(3, 7))
METADATA = text(1, b"p") + number(2, 0) + number(3, 1)


def send(metadata):
    return frame(6, number(1, 1) + number(2, 0), len(metadata).to_bytes(4, "big") + metadata)


SEND = send(METADATA)


def keyed(key):
    """A SEND of an entry with this partition key."""
    return send(METADATA + text(6, key))


EXCLUSIVE = 0
KEY_SHARED = 3


def subscribe(consumer, name, kind=EXCLUSIVE, ranges=(), earliest=True):
    """From the first entry on, or behind those that are committed; the ranges of hash slots, both ends included, are those of a sticky Key_Shared
    consumer."""
    sticky = number(1, 1) + b"".join(text(3, number(1, start) + number(2, end)) for start, end in ranges)
    meta = text(17, sticky) if ranges else b""
    begins = number(13, 1) if earliest else b""
    return frame(4, text(1, TOPIC) + text(2, name) + number(3, kind) + number(4, consumer) + number(5, 8) + begins + meta)


def flow(consumer, permits):
    return frame(11, number(1, consumer) + number(2, permits))


def acknowledge(consumer, positions):
    """Each by itself, without an answer."""
    ids = b"".join(text(3, number(1, p // PER_LEDGER) + number(2, p % PER_LEDGER)) for p in positions)
    return frame(10, number(1, consumer) + number(2, 0) + ids)


def begin(script):
    script.write(f"init {PER_LEDGER}\nopen\nbytes 0 {CONNECT}\nbytes 0 {PRODUCER}\n")


def publish(script, entries, batch, sent=SEND):
    """So many committed entries, with so many a flush."""
    for _ in range(entries // batch):
        script.write(f"bytes 0 {sent * batch}\nflush 0\npump 0\n")


def processor_seconds():
    """Of all programs that were run."""
    used = resource.getrusage(resource.RUSAGE_CHILDREN)
    return used.ru_utime + used.ru_stime


def seconds(path, check, runs=5):
    """The best of some runs of a script; `check` looks at what it printed, and names what is wrong."""
    best = None
    for _ in range(runs):
        with tempfile.TemporaryFile() as out:
            began = processor_seconds()
            subprocess.run([f"{TOP}/pulsar_node", "replay", path], check=True, stdout=out)
            took = processor_seconds() - began
            out.seek(0)
            wrong = check(out.read().decode("ascii"))
        if wrong:
            sys.exit(f"{os.path.basename(sys.argv[0])}: {wrong}")
        best = took if best is None else min(best, took)
    return best


def has_messages(count):
    """The check that a script's run sent so many messages."""
    def check(printed):
        sent = printed.count("08094a")
        return None if sent == count else f"{sent} messages, and not {count}"

    return check
