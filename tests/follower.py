"""Follows what a replay printed of a script, beside plain brokers (tests/plain_broker.py): whatever the device may have done where a failure of it was
ordered, and whatever a crash may have left, there must be one way in which all lines came to be."""
import copy
import pickle

from plain_broker import Broker

MOST_WAYS = 5_000  # of a line, with all that may have been before it


class Chosen:
    """Chooses as it is told, and behind that the first; remembers what it chose, and of how many."""

    def __init__(self, choices):
        self.choices, self.made = choices, []

    def choose(self, count):
        at = len(self.made)
        self.made.append((self.choices[at] if at < len(self.choices) else 0, count))
        return self.made[-1][0]


def ways(broker, at, line):
    """Each way in which a line may go: what it prints, and the broker behind it."""
    paths = [[]]
    while paths:
        path = paths.pop()
        after, fate = copy.deepcopy(broker), Chosen(path)
        after.device.fate = fate
        yield after.work(at, line), after
        for place in range(len(path), len(fate.made)):
            front = [chosen for chosen, _ in fate.made[:place]]
            paths += [[*front, other] for other in range(1, fate.made[place][1])]


class Follower:
    """All that may be: how many lines were printed, and the broker then."""

    def __init__(self, script, said):
        self.script, self.said = script, said
        self.states = [(1, Broker(int(script[0].split(" ")[1])))]

    def follow(self, at, line):
        """What is wrong with what a line printed, if anything is."""
        states, wanted = {}, []
        for place, broker in self.states:
            for lines, after in ways(broker, at, line):
                if self.said[place:place + len(lines)] == lines:
                    after.device.fate = None
                    states[pickle.dumps((place + len(lines), after))] = place + len(lines), after
                elif lines not in wanted:
                    wanted.append(lines)
        if len(states) > MOST_WAYS:
            return f"line {at}: it may have come about in too many ways"
        if not states:
            place = self.states[0][0]
            return f"line {at}, {line[:80]}: {self.said[place:place + 4]}, and not one of {wanted[:6]}"
        self.states = [*states.values()]
        return None

    def fault(self):
        """What is wrong with what was printed, if anything is."""
        if self.said[:1] != ["1 - ok"]:
            return f"line 1: {self.said[:1]}"
        for at, line in enumerate(self.script[1:], 2):
            if fault := self.follow(at, line):
                return fault
        return None if any(place == len(self.said) for place, _ in self.states) else "it has further lines"


def fault_in(script, said):
    """What is wrong with the lines that a replay printed of the lines of a script, if anything is."""
    return Follower(script, said).fault()
