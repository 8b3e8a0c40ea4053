#!/usr/bin/env python3
"""Runs `pulsar_node init`, `inspect` and `upgrade` over real folders, and compares what they print, how they end and what they leave.

Usage: tests/folders.py PROGRAM..

PROGRAM is a built pulsar_node. The files of folders with topics are written here, from docs/FILES.md alone. The last line is
'folders: N commands, M differ', and the exit status is 1 where any does.
"""
import fcntl
import os
import re
import shutil
import subprocess
import sys
import tempfile
from contextlib import contextmanager
from errno import EACCES, EISDIR, ENOENT, ENOSPC, ENOTDIR

sys.dont_write_bytecode = True
from encoding import entry_of
from openings import FEW, MANY, MARK, THREE, batch, entries, gated, record, records
from plain_reader import MADE, ONE, THROUGH
from server import STAMP, told_holder

SECONDS = 60
NOBODY = 65534
NAMES = (b"persistent://a/b/c", b"persistent://a/b/d-2")
NEW = gated(1000)
NAMED = gated(7, *map(batch, NAMES))
A, B, C = (entry_of(payload) for payload in (b"a", b"", b"c"))
TOPICS = {
    "catalog2.dat": NAMED,
    "u00000-e00000000.dat": gated(0, entries(A, B), entries(C), MARK),
    "u00000-e00000001.dat": gated(3, entries(A)),
    "u00000-c0.dat": gated(2, *MANY),
    "u00000-c1.dat": gated(1, *FEW),
    "u00001-e00000000.dat": gated(0),
    "u00001-c0.dat": gated(1),
    "u00001-c1.dat": gated(0, gate=0),
}
LINES = (
    "T    0          4          0      2 persistent://a/b/c\n"
    "S    0          1      1 s\n"
    "S    0          3      0 t\n"
    "T    1          0          0      1 persistent://a/b/d-2\n"
)
MADE_AND_ACKNOWLEDGED = records(record(MADE, b"s", 2))  # 17 bytes
TRIMMED = {  # the first segment is given back, and two are there
    "catalog2.dat": gated(2, batch(NAMES[0])),
    "u00000-e00000000.dat": b"",
    "u00000-e00000001.dat": THREE["segment", 1],
    "u00000-e00000002.dat": THREE["segment", 2],
    "u00000-c0.dat": gated(1, MADE_AND_ACKNOWLEDGED, records(record(ONE, b"s", 3)), start=(2, 1)),
    "u00000-c1.dat": gated(0, gate=0),
}
TRIMMED_LINES = (
    "T    0          4          2      2 persistent://a/b/c\n"
    "S    0          2      1 s\n"
)
RANGE = "error: invalid value '{0}' for '--entries <N>': {0} is not in 1..=50000\n\nFor more information, try '--help'.\n"


def told(fault):
    """How a command ends that says this fault."""
    return "", f"error: {fault}\n", 1


def failed(place, number):
    """How a command ends for which the system had this error at this place of the folder, or of the device over it."""
    module = "disk_fs::shelf" if " failed" in place else "folder::fault"
    return "", f"[WARN  {module}] {place}: {os.strerror(number)} (os error {number})\nerror: device\n", 1


def refused_by_holder(folder):
    """How a command ends whose folder this process holds."""
    return "", f"[ERROR folder::holder] {told_holder(folder, os.getpid())}\nerror: device\n", 1


# How an `init` ends in a folder that has files of topics, and no open list of them.
HAS_TOPICS = "", "[ERROR pulsar_node] the folder holds files of topics, but its list of topics isn't open; nothing was made\nerror: not initialised\n", 1

NOT_HELD = "[WARN  folder::looking] the folder has no lock file and may not be written, so it isn't held\n"


def made(count):
    return f"initialised, {count} entries a ledger\n", "", 0


def contents(path):
    """Each file and folder at or below a path, with its bytes."""
    if not os.path.isdir(path):
        return open(path, "rb").read() if os.path.exists(path) else None
    return {name: contents(f"{path}/{name}") for name in os.listdir(path)}


class Room:
    """A folder in which a program runs, and what went wrong there."""

    def __init__(self, program, path):
        self.program, self.path, self.count, self.faults = f"{path}/program", path, 0, []
        shutil.copy(program, self.program)

    def at(self, name):
        return f"{self.path}/{name}"

    def lay(self, name, files):
        """Makes a folder of these files."""
        os.mkdir(self.at(name))
        for file, content in files.items():
            with open(self.at(f"{name}/{file}"), "wb") as written:
                written.write(content)

    def run(self, *words, **how):
        self.count += 1
        done = subprocess.run([self.program, *words], stdin=subprocess.DEVNULL, stderr=subprocess.PIPE, timeout=SECONDS, check=False,
                              **{"cwd": self.path, "stdout": subprocess.PIPE, **how})
        errors = "".join(STAMP.sub("", line, count=1) for line in done.stderr.decode().splitlines(keepends=True))
        return (done.stdout or b"").decode(), errors, done.returncode

    def expect(self, wanted, *words, **how):
        """The command ends so: what it prints, what it says on standard error, its status."""
        found = self.run(*words, **how)
        if found != wanted:
            self.faults.append(f"{' '.join(words)}: {found}, and not {wanted}")

    def expect_kept(self, wanted, *words, **how):
        """The same, and all that is in the room stays as it was."""
        before = contents(self.path)
        self.expect(wanted, *words, **how)
        if contents(self.path) != before:
            self.faults.append(f"{' '.join(words)}: it changed what is there")

    def expect_files(self, name, files):
        """In this folder stand these files alone, and its lock file, which has no bytes."""
        if contents(self.at(name)) != {"lock": b"", **files}:
            self.faults.append(f"{name}: {contents(self.at(name))}, and not {files}")


# What is tried


def folders_are_made(room):
    room.expect(made(1000), "init", "plain")
    room.expect_files("plain", {"catalog2.dat": NEW})
    room.expect_kept(told("already initialised"), "init", "plain")
    room.expect_kept(told("already initialised"), "init", "plain", "--entries", "7")
    room.expect_kept(("", "", 0), "inspect", "plain")
    for number, count in enumerate((1, 2, 50000)):
        for place, words in enumerate((("init", f"n{number}-0", "--entries", str(count)), ("init", f"--entries={count}", f"n{number}-1"))):
            room.expect(made(count), *words)
            room.expect_files(f"n{number}-{place}", {"catalog2.dat": gated(count)})
    os.mkdir(room.at("empty"))
    for path in ("empty", "slash/", "./dots/../inner", room.at("absolute")):
        os.makedirs(room.at("dots"), exist_ok=True)
        room.expect(made(1000), "init", path)
        room.expect_files(path if not path.startswith("/") else "absolute", {"catalog2.dat": NEW})
    os.mkdir(room.at("here"))
    room.expect(made(1000), "init", ".", cwd=room.at("here"))
    room.expect_files("here", {"catalog2.dat": NEW})


def words_are_refused(room):
    for count in ("0", "50001"):
        room.expect_kept(("", RANGE.format(count), 2), "init", "refused", "--entries", count)
    for words in ("init", "inspect", "init a b", "inspect a b", "inspect a --entries 7", "init a --entries", "init a --entries x", "init a --entries=-1",
                  "init a --entries 18446744073709551617", "init a --entries 1 --entries 2", "make a"):
        before = contents(room.path)
        printed, said, status = room.run(*words.split())
        if (printed, status) != ("", 2) or not re.match(r"error: .*\n(.*\n)*\nFor more information, try '--help'\.\n$", said):
            room.faults.append(f"{words}: {(printed, said, status)}, and not why it is refused")
        if contents(room.path) != before:
            room.faults.append(f"{words}: it changed what is there")
    for words in ("--help", "help", "init --help", "help inspect", "inspect -h"):
        printed, said, status = room.run(*words.split())
        if "Usage: " not in printed or (said, status) != ("", 0):
            room.faults.append(f"{words}: {(printed, said, status)}, and not help")


def what_is_not_there_is_not_made(room):
    room.expect_kept(told("not initialised"), "inspect", "nowhere")
    room.expect_kept(told("not initialised"), "inspect", "")
    room.expect_kept(failed("", ENOENT), "init", "")
    room.expect_kept(failed("nowhere/inner", ENOENT), "init", "nowhere/inner")
    room.lay("bare", {})
    room.expect_kept(told("not initialised"), "inspect", "bare")


def a_lock_file_that_lacks_is_made(room):
    room.lay("inspected", TOPICS)
    room.expect((LINES, "", 0), "inspect", "inspected")
    room.expect_files("inspected", TOPICS)
    room.lay("without_topics", {"catalog2.dat": NEW})
    room.expect(("", "", 0), "inspect", "without_topics")
    room.expect_files("without_topics", {"catalog2.dat": NEW})
    room.lay("initialised", TOPICS)
    room.expect_kept(told("already initialised"), "init", "initialised")


def topics_without_a_list_are_kept(room):
    lists = ({}, {"catalog2.dat": b""}, {"catalog2.dat": NAMED[:31]}, {"catalog2.dat": b"\0" + NAMED[1:]})
    topics = {name: content for name, content in TOPICS.items() if name != "catalog2.dat"}
    for number, (lock, files) in enumerate((lock, files) for lock in ({}, {"lock": b""}) for files in lists):
        room.lay(f"unlisted{number}", {**lock, **topics, **files})
        room.expect_kept(HAS_TOPICS, "init", f"unlisted{number}")
        if lock:
            room.expect_kept(told("not initialised"), "inspect", f"unlisted{number}")
    room.lay("of_the_version_before", {"t00000-e0000000000000000.dat": b""})
    room.expect_kept(HAS_TOPICS, "init", "of_the_version_before")
    room.lay("of_others", {"tools.txt": b"", "data.dat": b""})
    room.expect(made(1000), "init", "of_others")


def half_made_ones_are_made(room):
    halves = ({}, {"catalog2.dat": b""}, {"catalog2.dat": NEW[:31]}, {"catalog2.dat": gated(1000, gate=0)}, {"catalog2.dat": gated(7, gate=2)})
    for number, files in enumerate(halves):
        room.lay(f"half{number}", {"lock": b"", **files})
        room.expect_kept(told("not initialised"), "inspect", f"half{number}")
        room.expect(made(1000), "init", f"half{number}")
        room.expect_files(f"half{number}", {"catalog2.dat": NEW})


def topics_are_told(room):
    room.lay("topics", {"lock": b"", **TOPICS})
    room.expect_kept((LINES, "", 0), "inspect", "topics")
    room.expect_kept(told("already initialised"), "init", "topics")


def segments_that_are_given_back_are_not_read(room):
    first = (b"", None, gated(0, entries(A, B), MARK), gated(7), gated(0, batch(b"\7")), b"\1", gated(0, version=9), bytes(40))
    for number, content in enumerate(first):
        files = {"lock": b"", **TRIMMED, "u00000-e00000000.dat": content}
        room.lay(f"trimmed{number}", {name: it for name, it in files.items() if it is not None})
        room.expect_kept((TRIMMED_LINES, "", 0), "inspect", f"trimmed{number}")


def damage_beside_a_trim_is_told(room):
    """Where a ledger begins is known by the header of the slot that counts; the segments are read before a fault in the slots is told."""
    bad, made, first = batch(b"\7"), MADE_AND_ACKNOWLEDGED, {"u00000-e00000000.dat": gated(0, entries(A, B), MARK)}

    def slot(*bodies, start=(2, 1)):
        return {"u00000-c0.dat": gated(1, *bodies, start=start)}

    damaged = (
        ("u00000-e00000000.dat at 0", {"u00000-c0.dat": b"\0" + gated(1, made, start=(2, 1))[1:]}),
        ("u00000-c0.dat at 0", {**first, "u00000-c0.dat": b"\0" + gated(1, made, start=(2, 1))[1:]}),
        ("u00000-c0.dat at 32", slot(bad)),
        ("u00000-c0.dat at 49", slot(made, bad)),
        ("u00000-c0.dat at 49", slot(made, records(record(ONE, b"s", 4)))),
        ("u00000-c0.dat at 49", slot(made, records(record(MADE, b"t", 1)))),
        ("u00000-c0.dat at 49", slot(made, records(b"\6" + bytes(16)))),
        ("u00000-e00000002.dat at 0", slot(made, start=(2, 2))),
        ("u00000-e00000001.dat at 0", slot(made, start=(3, 1))),
        ("u00000-e00000001.dat at 0", {"u00000-e00000001.dat": b""}),
        ("u00000-e00000001.dat at 0", {"u00000-e00000001.dat": gated(3, entries(C))}),
        ("u00000-e00000001.dat at 0", {"u00000-e00000001.dat": gated(2, entries(C), start=(1, 0))}),
        ("u00000-e00000001.dat at 32", {"u00000-e00000001.dat": gated(2, bad)}),
        ("u00000-e00000002.dat at 0", {"u00000-e00000002.dat": gated(4)}),
        ("u00000-e00000001.dat at 32", {"u00000-e00000001.dat": gated(2, bad), **slot(made, bad)}),
        ("u00000-e9223372036854775808.dat at 0", slot(made, start=(2, 2**63))),
    )
    for number, (place, files) in enumerate(damaged):
        room.lay(f"beside{number}", {"lock": b"", **TRIMMED, **files})
        room.expect_kept(told(f"damaged {place}"), "inspect", f"beside{number}")


def old(value, *batches, gate=1, name=b"PULSAR", version=1, end=b"\0"):
    """A file of a folder of version 1."""
    return bytes([gate]) + name + bytes([version]) + value.to_bytes(8, "little") + b"".join(batches) + end


def begins(base, segment):
    """A record of version 1 that says where the ledger begins."""
    return b"\6" + base.to_bytes(8, "little") + segment.to_bytes(8, "little")


# Folders of version 1, the files of version 2 that are made of them, and what `inspect` says of these.
OLD = {
    "catalog.dat": old(2, *map(batch, NAMES)),
    "t00000-e00000000.dat": old(0, entries(A, B), MARK),
    "t00000-e00000001.dat": old(2, entries(C), end=b"\2other bytes"),
    "t00000-c0.dat": old(1, records(record(MADE, b"s", 0)), records(record(THROUGH, b"s", 0), record(ONE, b"s", 2), record(MADE, b"r", 3))),
    "t00000-c1.dat": old(0, gate=0),
    "t00001-e00000000.dat": old(0),
    "t00001-c0.dat": old(1),
    "t00001-c1.dat": old(0, gate=0),
}
MADE_OF_OLD = {
    "catalog2.dat": gated(2, *map(batch, NAMES)),
    "u00000-e00000000.dat": gated(0, entries(A, B), MARK),
    "u00000-e00000001.dat": gated(2, entries(C)),
    "u00000-c0.dat": gated(1, records(record(MADE, b"r", 3), record(MADE, b"s", 1), record(5, b"s", 2, 2))),
    "u00000-c1.dat": gated(0, gate=0),
    "u00001-e00000000.dat": gated(0),
    "u00001-c0.dat": gated(1),
    "u00001-c1.dat": gated(0, gate=0),
}
OLD_LINES = (
    "T    0          3          0      2 persistent://a/b/c\n"
    "S    0          3      0 r\n"
    "S    0          1      1 s\n"
    "T    1          0          0      1 persistent://a/b/d-2\n"
)
OLD_TRIMMED = {  # whose slot 1 counts, and whose first segment is given back
    "catalog.dat": old(2, batch(NAMES[0])),
    "t00000-e00000000.dat": b"",
    "t00000-e00000001.dat": old(2, entries(C), MARK),
    "t00000-e00000002.dat": old(3, entries(C)),
    "t00000-c0.dat": old(1, records(record(MADE, b"s", 0))),
    "t00000-c1.dat": old(2, records(begins(0, 0), record(MADE, b"s", 2)), records(begins(2, 1)), records(record(ONE, b"s", 3))),
}
MADE_OF_TRIMMED = {
    "catalog2.dat": gated(2, batch(NAMES[0])),
    "u00000-e00000001.dat": gated(2, entries(C), MARK),
    "u00000-e00000002.dat": gated(3, entries(C)),
    "u00000-c0.dat": gated(1, records(record(MADE, b"s", 2), record(5, b"s", 3, 3)), start=(2, 1)),
    "u00000-c1.dat": gated(0, gate=0),
}
OF_VERSION_1 = (
    "", "[ERROR pulsar_node] the folder, or a file in it, is of another version; `pulsar_node upgrade DIR` makes version 2 of a folder of version 1\nerror: version\n", 1)
ALREADY = "already version 2\n", "", 0


def upgraded(count):
    return f"upgraded, {count} topics\n", "", 0


def closed(files):
    """A folder of version 1 behind its upgrade: one byte has changed."""
    return {name: b"\0" + content[1:] if name == "catalog.dat" else content for name, content in files.items()}


def old_folders_are_upgraded(room):
    none = {"catalog.dat": old(1000)}, {"catalog2.dat": NEW}, "", 0
    half = {"catalog2.dat": gated(7, gate=0), "u00000-e00000000.dat": gated(9), "u00000-c0.dat": b"\1half", "u00063-c1.dat": gated(3)}
    for number, (before, after, lines, count) in enumerate((none, (OLD, MADE_OF_OLD, OLD_LINES, 2), (OLD_TRIMMED, MADE_OF_TRIMMED, TRIMMED_LINES, 1))):
        for beside, left in (({}, {}), (half, {"u00063-c1.dat": gated(3)}) if count == 2 else ({}, {})):
            name = f"old{number}{len(beside)}"
            if os.path.exists(room.at(name)):
                continue
            room.lay(name, {**before, **beside})
            room.expect(OF_VERSION_1, "inspect", name)
            room.expect(told("already initialised"), "init", name)
            room.expect(upgraded(count), "upgrade", name)
            room.expect_files(name, {**closed(before), **after, **left})
            room.expect_kept(ALREADY, "upgrade", name)
            room.expect_kept((lines, "", 0), "inspect", name)
            room.expect_kept(told("already initialised"), "init", name)


def faults_of_old_folders_are_told(room):
    bad = batch(b"\7")
    damaged = {
        "damaged catalog.dat at 0": {**OLD, "catalog.dat": old(0)},
        "damaged catalog.dat at 16": {**OLD, "catalog.dat": old(2, batch(b"a name"))},
        "damaged t00000-e00000001.dat at 0": {**OLD, "t00000-e00000001.dat": old(3, entries(C))},
        "damaged t00000-e00000001.dat at 16": {**OLD, "t00000-e00000001.dat": old(2, bad)},
        "damaged t00000-c0.dat at 16": {**OLD, "t00000-c0.dat": old(1, bad)},
        "damaged t00001-c1.dat at 0": {**OLD, "t00001-c1.dat": old(1)},
        "damaged t00000-c1.dat at 33": {**OLD_TRIMMED, "t00000-e00000000.dat": old(0, entries(A, B), MARK), "t00000-c1.dat": old(2, records(record(MADE, b"s", 2)), records(begins(3, 2)))},
        "version": {**OLD, "catalog.dat": old(2, version=2)},
    }
    for number, (fault, files) in enumerate(damaged.items()):
        room.lay(f"fault{number}", {"lock": b"", **files})
        before = contents(room.at(f"fault{number}"))
        room.expect(OF_VERSION_1 if fault == "version" else told(fault), "upgrade", f"fault{number}")
        if {name: it for name, it in contents(room.at(f"fault{number}")).items() if name in before} != before:
            room.faults.append(f"{fault}: the old folder has changed")
    for number, content in enumerate((None, b"", b"\0" + NEW[1:], NEW[:31])):
        room.lay(f"none{number}", {"lock": b"", "catalog.dat": closed(OLD)["catalog.dat"], **({} if content is None else {"catalog2.dat": content})})
        room.expect_kept(told("not initialised"), "upgrade", f"none{number}")
    room.lay("another", {"lock": b"", "catalog2.dat": gated(7, version=1)})
    for command in ("inspect", "upgrade"):
        room.expect_kept(OF_VERSION_1, command, "another")
    room.expect_kept(told("already initialised"), "init", "another")
    room.lay("bad", {"lock": b"", "catalog2.dat": gated(0)})
    room.expect_kept(told("damaged catalog2.dat at 0"), "upgrade", "bad")


def damage_is_told(room):
    damaged = {
        "damaged catalog2.dat at 0": {"catalog2.dat": gated(0)},
        "damaged catalog2.dat at 32": {"catalog2.dat": gated(7, batch(b"a name"))},
        "damaged catalog2.dat at 55": {"catalog2.dat": gated(7, batch(NAMES[0]), batch(NAMES[0]))},
        "damaged u00000-e00000001.dat at 0": {**TOPICS, "u00000-e00000001.dat": gated(4, entries(A))},
        "damaged u00001-c0.dat at 32": {**TOPICS, "u00001-c0.dat": gated(1, batch(b""))},
        "damaged u00001-e00000000.dat at 0": {name: content for name, content in TOPICS.items() if name != "u00001-e00000000.dat"},
    }
    for number, (fault, files) in enumerate(damaged.items()):
        room.lay(f"damaged{number}", {"lock": b"", **files})
        room.expect_kept(told(fault), "inspect", f"damaged{number}")
        room.expect_kept(told("already initialised"), "init", f"damaged{number}")


def what_is_no_folder_fails(room):
    with open(room.at("file"), "wb") as file:
        file.write(b"text")
    os.symlink("gone", room.at("link"))
    room.expect_kept(failed("file", ENOTDIR), "init", "file")
    room.expect_kept(failed("link/..", ENOENT), "init", "link")
    room.expect_kept(failed("file/lock", ENOTDIR), "inspect", "file")
    room.expect_kept(told("not initialised"), "inspect", "link")
    room.lay("folders", {"lock": b""})
    os.mkdir(room.at("folders/catalog2.dat"))
    for command, call in (("init", "a sync"), ("inspect", "a read at 0")):
        room.expect_kept(failed(f"catalog2.dat: {call} failed", EISDIR), command, "folders")
    room.lay("no_lock", {"catalog2.dat": NEW})
    os.mkdir(room.at("no_lock/lock"))
    for command in ("init", "inspect"):
        room.expect_kept(failed("no_lock/lock", EISDIR), command, "no_lock")


def without_permission_it_fails(room):
    """As somebody who may not: root may all."""
    as_nobody = {"user": NOBODY, "group": NOBODY, "extra_groups": []} if os.geteuid() == 0 else {}
    room.lay("closed", {"lock": b"", "catalog2.dat": NEW})
    room.lay("unwritten", {})
    for name, mode in (("closed", 0), ("unwritten", 0o555)):
        os.chmod(room.at(name), mode)
    for words, place in (("init closed", "closed"), ("inspect closed", "closed/lock"), ("init closed/inner", "closed/inner"), ("init unwritten/inner", "unwritten/inner")):
        room.expect(failed(place, EACCES), *words.split(), **as_nobody)
    # Where the room's owner is another one, the room can't be read, and else the lock file can't be made.
    room.expect(failed("unwritten/.." if as_nobody else "unwritten/lock", EACCES), "init", "unwritten", **as_nobody)
    for name, lock in (("read_only", {"lock": b""}), ("read_only_copy", {})):
        room.lay(name, {**lock, **TOPICS})
        for file in os.listdir(room.at(name)):
            os.chmod(room.at(f"{name}/{file}"), 0o444)
        os.chmod(room.at(name), 0o555)
        room.expect_kept((LINES, "" if lock else NOT_HELD, 0), "inspect", name, **as_nobody)
        room.expect_kept(told("already initialised"), "init", name, **as_nobody)
        room.expect_kept(failed(f"{name}/lock", EACCES), "serve", "127.0.0.1:0", name, **as_nobody)
    for name in ("closed", "unwritten", "read_only", "read_only_copy"):
        os.chmod(room.at(name), 0o755)
    room.expect_files("closed", {"catalog2.dat": NEW})
    if contents(room.at("unwritten")) != {}:
        room.faults.append("something was made in a folder that may not be written")


@contextmanager
def held(path, how):
    """The lock of this file is held."""
    with open(path, "rb+") as file:
        fcntl.flock(file, how)
        yield


def one_process_has_it(room):
    room.lay("held", {"lock": b"", **TOPICS})
    room.lay("held_half", {"lock": b""})
    for how in (fcntl.LOCK_EX, fcntl.LOCK_SH):
        with held(room.at("held/lock"), how), held(room.at("held_half/lock"), how):
            for words in ("init held", "inspect held", "init held_half", "inspect held_half"):
                room.expect_kept(refused_by_holder(room.path), *words.split())
    room.expect_kept((LINES, "", 0), "inspect", "held")
    room.expect(made(1000), "init", "held_half")


def where_printing_fails(room):
    room.lay("told", {"lock": b"", **TOPICS})
    with open("/dev/full", "wb") as full:
        room.expect_kept(failed("printing", ENOSPC), "inspect", "told", stdout=full)
        room.expect(failed("printing", ENOSPC), "init", "made", stdout=full)
    room.expect_files("made", {"catalog2.dat": NEW})


TRIED = (folders_are_made, words_are_refused, what_is_not_there_is_not_made, a_lock_file_that_lacks_is_made, topics_without_a_list_are_kept,
         half_made_ones_are_made, topics_are_told, segments_that_are_given_back_are_not_read, damage_beside_a_trim_is_told, old_folders_are_upgraded,
         faults_of_old_folders_are_told, damage_is_told,
         what_is_no_folder_fails, without_permission_it_fails, one_process_has_it, where_printing_fails)


def main():
    programs = sys.argv[1:]
    if not programs or any(word.startswith("-") for word in programs):
        print(__doc__, end="", file=sys.stdout if programs in (["-h"], ["--help"]) else sys.stderr)
        return 0 if programs in (["-h"], ["--help"]) else 2
    count, faults = 0, []
    for program in programs:
        for tried in TRIED:
            with tempfile.TemporaryDirectory(prefix="pulsar-folders-") as path:
                os.chmod(path, 0o711)
                room = Room(program, path)
                tried(room)
                count, faults = count + room.count, faults + [f"{tried.__name__}: {fault}" for fault in room.faults]
    print("".join(f"{fault}\n" for fault in faults), end="")
    print(f"folders: {count} commands, {len(faults)} differ")
    return 1 if faults else 0


if __name__ == "__main__":
    sys.exit(main())
