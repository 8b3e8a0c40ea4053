"""What publish.py and consume.py have in common as programs: their first two arguments, and how they end. Nothing of the protocol is here."""
import argparse
import contextlib
import os
import sys

from frames import Failed, full_name


def address(word):
    host, _, port = word.rpartition(":")
    if not host or not port.isdecimal() or not 0 < int(port) < 65_536:
        raise argparse.ArgumentTypeError(f"{word!r} isn't HOST:PORT, with a port from 1 to 65535")
    return word


def topic(word):
    try:
        return full_name(word)
    except ValueError as why:
        raise argparse.ArgumentTypeError(why) from None


def count(word):
    if not word.isdecimal() or int(word) == 0:
        raise argparse.ArgumentTypeError(f"{word!r} isn't a whole number from 1 on")
    return int(word)


def parser_of(doc):
    """A parser of what both take, whose help is made of a program's docstring: what it does, its usage, and more."""
    what, usage, more = doc.split("\n\n")
    parser = argparse.ArgumentParser(usage=usage.removeprefix("Usage: "), description=what, epilog=more)
    parser.add_argument("address", metavar="HOST:PORT", type=address, help="where the broker listens, such as 127.0.0.1:6650")
    parser.add_argument("topic", metavar="TOPIC", type=topic, help="greetings is short for persistent://public/default/greetings")
    return parser


def run(work, words):
    """Ends the program behind its work, at once: Python's own end would trip over a thread that reads standard input, and over a closed pipe."""
    status = 0
    try:
        if sys.stdout is None:  # closed from the start
            raise BrokenPipeError
        work(words)
    except BrokenPipeError:
        status = 141
    except KeyboardInterrupt:
        status = 130
    except (Failed, OSError) as why:
        status = 1
        with contextlib.suppress(OSError):
            print(f"error: {why}", file=sys.stderr, flush=True)
    os._exit(status)
