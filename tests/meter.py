"""What the checks of a gate, or of wrong bodies, cost, crate by crate: the processor time of each `rattle` that runs while the meter does."""
import os
import threading
from collections import Counter

SECONDS = 1.0  # between two looks; what a check takes behind the last look at it isn't counted
TICKS = os.sysconf("SC_CLK_TCK")


def words_of(pid):
    with open(f"/proc/{pid}/cmdline", "rb") as file:
        return file.read().decode(errors="replace").split("\0")


def ticks_of(pid):
    """The processor time of a process so far, and when it started, which tells it from others of its number."""
    with open(f"/proc/{pid}/stat", encoding="ascii", errors="replace") as file:
        fields = file.read().rpartition(")")[2].split()
    return int(fields[11]) + int(fields[12]), fields[19]


def crate_named(words):
    return words[words.index("--crate-name") + 1]


def kind_of_gate(words):
    """What a check of the gate is for: a crate's proof, that of its tests, or a wrong body."""
    if any("rt-edits-" in word for word in words):
        return "must-fail"
    return "tests" if "--test" in words else "proof"


class Meter(threading.Thread):
    """Counts while it runs the checks of which `kind_of` says by their words what they are for; `stop` ends it, and gives the seconds by crate and kind."""

    def __init__(self, kind_of=kind_of_gate):
        super().__init__(daemon=True)
        self.seen, self.ended, self.kind_of = {}, threading.Event(), kind_of

    def look(self):
        for pid in filter(str.isdigit, os.listdir("/proc")):
            try:
                words = words_of(pid)
                kind = self.kind_of(words) if "--crate-name" in words else None
                if kind:
                    ticks, started = ticks_of(pid)
                    self.seen[pid, started] = crate_named(words), kind, ticks
            except (OSError, IndexError, ValueError):
                pass  # it has ended

    def run(self):
        while not self.ended.wait(SECONDS):
            self.look()

    def stop(self):
        self.ended.set()
        self.join()
        seconds = Counter()
        for crate, kind, ticks in self.seen.values():
            seconds[crate, kind] += ticks / TICKS
        return seconds
