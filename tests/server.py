"""A broker's program over a folder: how it is begun, ended, asked, and refused."""
import fcntl
import os
import re
import secrets
import selectors
import signal
import socket
import subprocess
import tempfile
from contextlib import suppress
from typing import NamedTuple

PORTS = range(20_000, 32_000)  # below those that a client gets of the system, which would take one that is looked up and not yet bound
SECONDS = 60  # until the program must have answered or ended; a machine that does other things too needs some
THREADS = 66  # of a broker at rest: a flusher for each of 64 topics, the ringer, and the one that takes connections
TOPIC_LINE = re.compile(r"T +(\d+) +(\d+) +(\d+) +(\d+) (\S+)")
STAMP = re.compile(r"\d{4}-\d\d-\d\dT\d\d:\d\d:\d\d\.\d{3}Z ")  # before each line of a served broker's log
SUBSCRIPTION_LINE = re.compile(r"S +(\d+) +(\d+) +(\d+) (\S+)")


class Listed(NamedTuple):
    """What `inspect` says of a topic: how many entries came, where the first one stands that is there, in how many segments, and the mark-delete positions of
    its subscriptions by their names."""

    entries: int
    base: int
    segments: int
    marks: dict


class Wrong(Exception):
    """The broker did what it must not do; the text says what."""


def free_port():
    """A port that nobody has, and that the system gives no client meanwhile."""
    while True:
        port = secrets.choice(PORTS)
        with socket.socket() as it, suppress(OSError):
            it.bind(("127.0.0.1", port))
            return port


def told_holder(folder, process):
    """How the log names a process that holds a folder there: by its number, where the system lists the locks of files in that place."""
    with tempfile.TemporaryFile(dir=folder) as file:
        fcntl.flock(file, fcntl.LOCK_EX)
        at = os.fstat(file.fileno())
        place = f"{os.major(at.st_dev):02x}:{os.minor(at.st_dev):02x}:{at.st_ino}"
        with suppress(OSError), open("/proc/locks", encoding="ascii") as locks:
            if any(line.split()[4:6] == [str(os.getpid()), place] for line in locks):
                return f"process {process} holds the folder"
    return "another process holds the folder"


class Server:
    """A served folder. What the program says on standard error stands in the file `log` beside the folder."""

    def __init__(self, program, folder, entries=1000, survives_limits=False, words=()):
        self.program, self.folder, self.log, self.process, self.port = program, folder, f"{folder}.log", None, None
        self.entries = entries  # of a segment
        self.words = words  # that `serve` gets besides
        self.restores = not survives_limits  # a limit that is passed is an error of the call, and no signal ends the program
        said = self.run("init", folder, "--entries", str(entries))
        if said != (0, f"initialised, {entries} entries a ledger\n", ""):
            raise Wrong(f"init answered {said}")

    def run(self, *words):
        """The exit status, the output and the errors of a call that must end by itself."""
        try:
            done = subprocess.run([self.program, *words], stdin=subprocess.DEVNULL, capture_output=True, text=True, timeout=SECONDS, check=False)
        except subprocess.TimeoutExpired:
            raise Wrong(f"{words[0]} hadn't ended after {SECONDS} seconds") from None
        return done.returncode, done.stdout, done.stderr

    def begin(self):
        """Begins to serve, and doesn't wait until clients are taken."""
        self.port = free_port()
        self.begin_at(f"127.0.0.1:{self.port}", self.words)

    def begin_at(self, address, words):
        """Begins to serve at an address."""
        with open(self.log, "a", encoding="utf-8") as log:
            self.process = subprocess.Popen([self.program, "serve", address, self.folder, *words], stdin=subprocess.DEVNULL,
                                            stdout=subprocess.PIPE, stderr=log, text=True, restore_signals=self.restores)

    def start(self):
        """Serves, and takes clients."""
        self.begin()
        line, wanted = self.first_line(), f"listening on 127.0.0.1:{self.port}\n"
        if line != wanted:
            raise Wrong(f"serve printed {line!r}, and not {wanted!r}; its exit status is {self.process.poll()}, and its log ends with {self.log_end()!r}")

    def first_line(self):
        with selectors.DefaultSelector() as selector:
            selector.register(self.process.stdout, selectors.EVENT_READ)
            return self.process.stdout.readline() if selector.select(SECONDS) else ""

    def log_end(self):
        with open(self.log, encoding="utf-8", errors="replace") as log:
            return log.read()[-500:]

    def log_lines(self):
        """What the log says, without the times."""
        with open(self.log, encoding="utf-8", errors="replace") as log:
            return [STAMP.sub("", line, count=1) for line in log.read().splitlines()]

    def status(self, name):
        """A number of the process, as the system tells it: memory in bytes, threads as they are."""
        with open(f"/proc/{self.process.pid}/status", encoding="ascii") as file:
            words = next(line.split() for line in file if line.startswith(f"{name}:"))
        return int(words[1]) * (1024 if words[2:] == ["kB"] else 1)

    def processor_seconds(self):
        """What the process took of processors so far, to a hundredth or so."""
        with open(f"/proc/{self.process.pid}/stat", encoding="ascii") as file:
            words = file.read().rpartition(")")[2].split()
        return sum(map(int, words[11:13])) / os.sysconf("SC_CLK_TCK")

    def end(self, how=signal.SIGKILL):
        """Ends the program by a signal; it must live until then."""
        if self.process.poll() is not None:
            raise Wrong(f"serve ended by itself with status {self.process.returncode}; its log ends with {self.log_end()!r}")
        self.process.send_signal(how)
        try:
            self.process.wait(SECONDS)
        except subprocess.TimeoutExpired:
            raise Wrong(f"serve hadn't ended {SECONDS} seconds after {how.name}") from None
        self.process.stdout.close()
        self.process = None

    def abandon(self):
        """Leaves nothing behind that runs."""
        if self.process is not None:
            self.process.kill()
            self.process.wait()
            self.process.stdout.close()
            self.process = None

    def must_refuse_others(self):
        """While the folder is served, nobody else may serve it or look at it."""
        for words in (("serve", f"127.0.0.1:{free_port()}", self.folder), ("inspect", self.folder)):
            status, said, errors = self.run(*words)
            if status != 1 or said or not errors.splitlines()[-1:] or not errors.splitlines()[-1].startswith("error: "):
                raise Wrong(f"a second {words[0]} of a served folder ended with status {status}, printed {said!r}, and said {errors!r}")

    def inspect(self):
        """What is listed, by the topics' names."""
        status, said, errors = self.run("inspect", self.folder)
        if status or errors:
            raise Wrong(f"inspect ended with status {status}, and said {errors!r}")
        found = []
        for line in said.splitlines():
            topic, subscription = TOPIC_LINE.fullmatch(line), SUBSCRIPTION_LINE.fullmatch(line)
            if topic and int(topic[1]) == len(found):
                found.append((topic[5], Listed(*map(int, topic.group(2, 3, 4)), {})))
            elif subscription and int(subscription[1]) == len(found) - 1:
                found[-1][1].marks[subscription[4]] = int(subscription[2])
            else:
                raise Wrong(f"inspect printed the line {line!r}")
        return dict(found)


class Troubled(Server):
    """A folder that `troubled` serves, a built program of tests: the same broker, whose files take orders."""

    def __init__(self, program, folder, troubled, entries=1000):
        super().__init__(program, folder, entries)
        self.troubled = troubled

    def begin(self):
        self.port = free_port()
        with open(self.log, "a", encoding="utf-8") as log:
            self.process = subprocess.Popen([self.troubled, f"127.0.0.1:{self.port}", self.folder], stdin=subprocess.PIPE, stdout=subprocess.PIPE, stderr=log,
                                            text=True)

    def order(self, line):
        self.process.stdin.write(f"{line}\n")
        self.process.stdin.flush()
        said = self.first_line()
        if said != "obeyed\n":
            raise Wrong(f"the order {line!r} was answered {said!r}")
