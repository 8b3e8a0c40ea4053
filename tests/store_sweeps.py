"""The lines that `stores.py` makes: a stop and a failure at each call of each kind of work of a store, in each form of crash, failed reads, headers
of slots beside each other, bodies of records, and calls of the device at random."""
import random

from plain_stores import HEADER, LAST_FIRST, LAST_GENERATION, MADE, ONE, RANGE, REMOVED, THROUGH, UNTRIMMED, header, is_topic, little, record_bytes

BEGINS = "# sweeps: a stop and a failure at each call, in each form of crash; and files that are changed"
FORMS = ("old", "new", "00", "01", "07")
SEED, LINES, STEPS = 7, 400, 12  # of calls of the device at random


def line(*steps):
    return "; ".join(step for step in steps if step)


def lay(name, content):
    return f"lay {name} {content.hex() or '-'}"


def sweep(what, front, work, calls, behind, again=""):
    """Lines in which a call of some work fails, once or until the crash, and how it goes on; and where the call behind it fails, so that it has no
    more calls. After a failure without a crash the store is asked `again` before it goes on."""
    lines = [f"# - each call of {what}"]
    for call in range(1, calls + 2):
        for form in FORMS:
            for fuse in ("stop", "fail"):
                lines.append(line(front, f"{fuse} {call}", work, f"crash {form}", behind))
        lines.append(line(front, f"fail {call}", work, again, behind))
    return [*lines, ""]


def sweep_reads(what, front, work, reads):
    """Lines in which a read of an opening fails, and the next opening doesn't; and where the read behind them all fails."""
    return [f"# - each read of {what}", *(line(front, f"failread {read}", work, work, "read e0 0 1") for read in range(1, reads + 2)), ""]


def of_logs():
    front = "room e12"
    made = "log create 7; log append 6162"
    again = "log append 6566; log read 37 2; log state; length e12"
    behind = "log open; log append 67; log state; log open"
    two = "log create 7; log append -; log append 616263"
    unsynced = line(front, made, "fail 4; log append 6364")
    return [
        *sweep("a log's creation", front, "log create 7", 5, "log open; log create 8; log open; log append 61; log open"),
        *sweep("a log's append", line(front, made), "log append 6364", 4, behind, again),
        *sweep("a log's opening behind an append whose last sync failed", unsynced, "log open", 1, behind, "sync e12"),
        *sweep_reads("a log's opening", line(front, two), "log open", 6)]


def of_journals():
    front = "room e0 e1 e2"
    made = "journal create 0; journal append 6162"
    rolled = f"{made}; journal roll 5; journal append -"
    again = "journal append 64; journal roll 6; journal read 0 38 2; journal state; file e0; length e1"
    behind = "journal open; journal append 66; journal roll 8; journal append 67; journal state; journal open"
    unsynced = line(front, made, "journal roll 5; fail 4; journal append 63")
    whole = line("room e0 e1 e2 e3", rolled, "journal roll 6; journal append 64")
    kept = "length e0; length e1; journal from 2; journal append 66; journal roll 8; journal state; journal from 2"
    return [
        *sweep("a journal's creation", front, "journal create 0", 5, "journal open; journal create 4; journal open"),
        *sweep("a journal's append", line(front, made), "journal append 63", 4, behind, again),
        *sweep("a journal's roll", line(front, made), "journal roll 5", 9, behind, again),
        *sweep("a journal's drop of two segments", whole, "journal drop 2", 4, kept, "journal append 64; journal drop 2; journal state"),
        *sweep("a journal's opening behind an append whose last sync failed", unsynced, "journal open", 2, behind, "sync e0"),
        *sweep_reads("a journal's opening", line(front, rolled), "journal open", 10)]


ENTRY, ENTRY_B, ENTRY_CC = ("0000000a0a017010001801c03e05" + payload for payload in ("", "62", "6363"))


def of_ledgers():
    front = "room e0 e1 e2"
    behind = f"ledger open 2; ledger read 0; ledger read 1; ledger read 2; ledger append {ENTRY_CC}; ledger state; ledger open 2"
    again = f"ledger append {ENTRY}; ledger read 0; ledger read 5; ledger state"
    lines = []
    for per_ledger, calls, what in ((2, 4, "an append of entries"), (1, 13, "an append of entries behind a roll")):
        made = line(front, f"ledger create {per_ledger}; ledger append {ENTRY}")
        lines += sweep(what, made, f"ledger append {ENTRY_B} {ENTRY_CC}", calls, behind, again)
    two = line(front, f"ledger create 1; ledger append {ENTRY}; ledger append {ENTRY_B}")
    unsynced = line(two, f"fail 13; ledger append {ENTRY_CC}")
    three = line("room e0 e1 e2 e3", f"ledger create 1; ledger append {ENTRY}; ledger append {ENTRY_B}; ledger append {ENTRY_CC}")
    kept = f"length e0; length e1; ledger from 2 2 1; ledger read 1; ledger read 2; ledger append {ENTRY}; ledger state; ledger from 2 2 1"
    return [
        *sweep("a ledger's creation", front, "ledger create 2", 5, "ledger open 2; ledger create 2; ledger open 2"), *lines,
        *sweep("a ledger's trim of two segments", three, "ledger trim 2", 4, kept, f"ledger append {ENTRY}; ledger trim 2; ledger start; ledger state"),
        *sweep("a ledger's opening behind an append whose last sync failed", unsynced, "ledger open 1", 3, behind, "sync e0"),
        *sweep_reads("a ledger's opening", two, "ledger open 1", 10)]


def of_slots():
    front = "room c0 c1"
    made = line(front, "slots create; slots append 6162")
    behind = "slots open; slots append 6566; slots state; slots open; slots replace 61 - 62; slots open; slots state"
    again = "slots append 6768; slots replace; slots state; slots open"
    lines = []
    for what, before in (("a header that is cut short", line(made, "lay c1 73686f7274; slots open")), ("a closed header", made),
                         ("a header of a lower generation", line(front, "slots create; slots replace 6162"))):
        lines += sweep(f"a replace over {what}", before, "slots replace 6162 6364", 6, behind, again)
    unsynced = line(made, "fail 4; slots append 6364")
    return [
        *sweep("the creation of slots", front, "slots create", 8, "slots open; slots create; slots open"),
        *sweep("an append to slots", made, "slots append 6364", 4, behind, again), *lines,
        *sweep("a replace and an append behind it", made, "slots replace 6162; slots append 6364", 10, "slots open"),
        *sweep("an opening of slots behind an append whose last sync failed", unsynced, "slots open", 2, behind, "sync c0"),
        *sweep_reads("an opening of slots", made, "slots open", 5)]


MADE_S = "cursors create; cursors append made:s:0"
DUE = "cursors append made:s:0 one:s:0 4094*one:s:2"


def of_cursors():
    front = "room c0 c1"
    made = line(front, MADE_S)
    behind = "cursors open 10; cursors append one:s:4; cursors state; cursors open 10"
    again = "cursors append one:s:1; cursors kept; cursors state"
    return [
        *sweep("the creation of a cursor store", front, "cursors create", 8, "cursors open 10; cursors create; cursors open 10"),
        *sweep("an append of records", made, "cursors append one:s:2", 4, behind, again),
        *sweep("an opening of a cursor store behind an append whose last sync failed", line(made, "fail 4; cursors append one:s:2"), "cursors open 10", 2,
               behind, "sync c0"),
        *sweep_reads("an opening of a cursor store", made, "cursors open 10", 5), *of_trims()]


def of_trims():
    made = line("room c0 c1", "cursors create; cursors append made:s:3; cursors trim 1 1")
    steps = "cursors begin; cursors from 10; cursors start"
    behind = line(steps, "cursors append one:s:4; cursors trim 3 3; cursors state; cursors open 10; cursors start")
    again = "cursors trim 3 2; cursors start; cursors kept; cursors state"
    unsynced = line(made, "fail 6; cursors trim 2 2")
    return [
        *sweep("a trim of a cursor store", made, "cursors trim 2 2", 6, behind, again),
        *sweep("a trim of a cursor store behind records", made, "cursors trim 4 2 one:s:3", 10, behind),
        *sweep("an opening of a cursor store in two steps behind a trim whose last sync failed", unsynced, steps, 2, behind, "sync c1"),
        *sweep_reads("an opening of a cursor store in two steps", made, steps, 5)]


def of_due_replaces():
    """Behind 4,096 records, of which each costs: every call stops and fails, each in another form of crash, and the last one in all forms. The sweep of
    a replace and an append of slots has the same calls in all forms."""
    made = line("room c0 c1; cursors create", DUE)
    work, behind = "cursors append one:s:1", "cursors open 10; cursors append one:s:4; cursors kept"
    tried = [(fuse, call, FORMS[(call + at) % len(FORMS)]) for call in range(1, 10) for fuse, at in (("stop", 0), ("fail", 2))]
    tried += [(fuse, 10, form) for fuse in ("stop", "fail") for form in FORMS]
    lines = [line(made, f"{fuse} {call}", work, "cursors append one:s:1; cursors kept; cursors state", f"crash {form}", behind)
             for fuse, call, form in tried]
    counted = [line("cursors create", f"cursors append made:s:0 one:s:0 {count - 2}*one:s:2", "read c0 8 1; read c1 8 1",
                    *2 * ["cursors append one:s:1; read c0 8 1; read c1 8 1"]) for count in (4_094, 4_095, 4_096, 5_000)]
    return ["# - each call of an append of records that replaces first", *lines, line(made, "fail 11", work, "sync c1"), "",
            "# - as many records as make a replace due, one less, and more: the generations behind two appends", *counted, "",
            "# - as many records as make a replace due, and then an opening, from which the count begins",
            line("cursors create", DUE, "cursors open 10; cursors append one:s:1; read c0 8 1; read c1 8 1"), "",
            "# - the snapshot byte by byte, where the append behind it fails",
            line(made, "fail 7; cursors append one:s:1; cursors kept; read c1 0 69"), "",
            "# - a trim is a replace, and goes behind one that is due",
            *(line("cursors create; cursors append made:s:1", f"cursors append {count}*one:s:2; cursors trim 1 1 one:s:5; read c0 8 24; read c1 8 24",
                   "cursors append one:s:4; cursors begin; cursors from 10; cursors start") for count in (4_094, 4_095)), ""]


def of_catalogs():
    front = "room catalog"
    made = line(front, "catalog create 2; catalog add persistent://a/b/c")
    work = "catalog add persistent://a/b/d"
    behind = ("catalog find persistent://a/b/d; catalog state; catalog add persistent://a/b/e; catalog find persistent://a/b/c; catalog open; "
              "catalog state; catalog name 1")
    return [
        *sweep("a catalog's creation", front, "catalog create 2", 5, "catalog open; catalog create 3; catalog open; catalog state"),
        *sweep("an addition of a name", made, work, 4, behind, "catalog state; fail 1; catalog find persistent://a/b/d; catalog state"),
        *sweep("a catalog's opening behind an addition whose last sync failed", line(made, "fail 4", work), "catalog open", 1,
               "catalog open; catalog state", "sync catalog"),
        *sweep_reads("a catalog's opening", made, "catalog open", 4)]


# Bytes in place of others


def log_of(*bodies, end=b"\0", number=1, start=UNTRIMMED):
    """A gated file of these bodies."""
    return header(number, 1, start) + b"".join(b"\1" + len(body).to_bytes(4, "little") + body for body in bodies) + end


BYTES = (0, 1, 2, 3, 0xFF)
C, D = b"persistent://a/b/c", b"persistent://a/b/d"
MADE_S_BODY = b"\0" + record_bytes(MADE, b"s", 0)
LOG = header(7, 1) + b"\1\3\0\0\0abc\1\1\0\0\0d\0\1\x09\x09\x09\x09"
ENTRY_X = b"\0\0\0\7\x0a\1p\x10\0\x18\0x"
ONE_ENTRY = b"\1\x11\0\0\0\0\x0c\0\0\0" + ENTRY_X
MARK = b"\1\1\0\0\0\1"
CHAIN = header(0, 1) + b"\1\3\0\0\0\0ab" + MARK + b"\0", header(5, 1) + b"\1\1\0\0\0\0\0"
LEDGER = header(0, 1) + ONE_ENTRY + MARK + b"\0", header(1, 1) + b"\1\1\0\0\0\0\0"
NAMES = header(2, 1) + b"".join(b"\1\x12\0\0\0persistent://a/b/" + last for last in (b"c", b"d")) + b"\0"


def changed(files, name, work):
    """Lines that open files as they are, and with a byte of one in place of another, or with one that is cut."""
    content = files[name]
    others = [lay(other, files[other]) for other in files if other != name]
    contents = [content[:at] + bytes([byte]) + content[at + 1:] for at in range(len(content)) for byte in BYTES if content[at] != byte]
    cut = [content[:length] for length in range(len(content))]
    return [line(*others, lay(name, it), work) for it in [content, *contents, *cut]]


def of_damage():
    chain, ledger = ({f"e{at}": content for at, content in enumerate(files)} for files in (CHAIN, LEDGER))
    single = {"e0": LEDGER[0][:38] + b"\0"}
    return ["# - a log with each byte changed, and cut at each length", *changed({"e12": LOG}, "e12", "log open"), "",
            "# - a journal of two segments, of which one is changed", *changed(chain, "e0", "journal open"), *changed(chain, "e1", "journal open"), "",
            "# - a ledger of one segment and of two, of which one is changed", *changed(single, "e0", "ledger open 100"),
            *changed(ledger, "e0", "ledger open 100"), *changed(ledger, "e1", "ledger open 100"), "",
            "# - a catalog of two names that is changed", *changed({"catalog": NAMES}, "catalog", "catalog open; catalog state"), ""]


def of_messages(*varint):
    """An entry whose metadata says so many messages."""
    metadata = ENTRY_X[4:-1] + b"\x58" + bytes(varint)
    return len(metadata).to_bytes(4, "big") + metadata + b"x"


def of_named_damage():
    """Changes of more than one byte, or to others."""
    ones = ((8, 1), (38, 13), (38, 11), (45, 9), (45, 6), (45, 8), (46, 0x0D), (53, 0x79))
    one = LEDGER[0][:38] + b"\0"
    entries = [line(lay("e0", one[:at] + bytes([byte]) + one[at + 1:]), "ledger open 100") for at, byte in ones]
    entries += [line(lay("e0", LEDGER[0][:38] + b"\x0d" + LEDGER[0][39:]), lay("e1", LEDGER[1]), "ledger open 100"),
                line(lay("e0", LEDGER[0]), lay("e1", LEDGER[1][:37] + b"\7\0"), "ledger open 100")]
    counted = (of_messages(1), of_messages(3), of_messages(0x80, 0x80, 0x40), of_messages(0), of_messages(0x81, 0x80, 0x40), of_messages(*[0xFF] * 9, 1))
    entries += [line(lay("e0", log_of(b"\0" + len(it).to_bytes(4, "little") + it, number=0)), "ledger open 100; ledger read 0") for it in counted]
    numbers = [line(lay("catalog", NAMES[:place] + bytes(content) + NAMES[place + len(content):]), "catalog open; catalog state")
               for place, content in ((6, (0x53, 9)), (7, (9,)), (7, (2, 0)), (8, (0x50, 0xC3)), (8, (0x51, 0xC3)), (8, (2, 0, 0, 0, 1)))]
    several = [((b"",), b"\0"), ((b"persistent://a/b",), b"\0"), ((C, b"persistent://a/b/c/"), b"\0"), ((C, C), b"\0"), ((C, D, C), b"\0"),
               ((C, D), b"\2\1\x09"), ((C, C), b"\1\0"), ((C,), b"\1\x12\0\0\0persistent"), ((C,), b"")]
    names = [line(lay("catalog", log_of(*texts, end=end, number=2)), "catalog open") for texts, end in several]
    return ["# - entries whose lengths, metadata or numbers of messages are others", *entries, "", "# - catalogs of other numbers and versions", *numbers, "",
            "# - bodies that are no names, or names that are there", *names, ""]


def of_records():
    """Second bodies behind one that makes s, of no form and at the edge of it; and which fault is told first."""
    s, t = b"s", b"t"
    bad = [b"", b"\1", b"\0\0\1s", b"\0\6\1s", b"\0\3", b"\0\2\2s", b"\0" + record_bytes(ONE, s, 0)[:-1], b"\0" + record_bytes(RANGE, s, 0, 0)[:-8],
           b"\0" + record_bytes(ONE, s, 0) + b"\0", b"\0\2\0", b"\0" + record_bytes(MADE, b" ", 0), b"\0" + record_bytes(MADE, b"\xff", 0), MADE_S_BODY,
           b"\0" + record_bytes(REMOVED, t), b"\0" + record_bytes(ONE, t, 0), b"\0" + record_bytes(MADE, t, 11), b"\0" + record_bytes(ONE, s, 10),
           b"\0" + record_bytes(THROUGH, s, 2**63), b"\0" + record_bytes(RANGE, s, 1, 10), b"\0" + record_bytes(RANGE, s, 3, 2)]
    good = [b"\0", b"\0" + record_bytes(MADE, t, 10), b"\0" + record_bytes(ONE, s, 9), b"\0" + record_bytes(REMOVED, s) + record_bytes(MADE, s, 0),
            b"\0" + record_bytes(REMOVED, s), b"\0" + record_bytes(RANGE, s, 9, 9)]
    torn = b"\1\x09\0\0\0\0"
    slots = [bytes(33), bytes([1] * 33), log_of(b"\7", end=torn), log_of(MADE_S_BODY, b"\7", end=torn), log_of(MADE_S_BODY, b"\7", b"\0", end=torn),
             log_of(MADE_S_BODY, b"\0", end=torn)]
    version = header(0, 1)[:7] + b"\x09" + header(0, 1)[8:] + b"\0"
    last = header(LAST_GENERATION, 1)[:7] + b"\x09" + header(LAST_GENERATION, 1)[8:] + b"\0"
    pairs = [(log_of(*bodies), one) for one in (version, log_of(), last) for bodies in ((MADE_S_BODY, b"\7"), (MADE_S_BODY,))]
    pairs.append((last, bytes(33)))
    return [*of_starts(), "# - bodies of records behind one that makes a subscription", *(line(lay("c0", log_of(MADE_S_BODY, it)), "cursors open 10") for it in
                                                                          [*bad, *good]), "",
            "# - which fault of slots with records is told", *(line(lay("c0", it), lay("c1", bytes(33)), "cursors open 10") for it in slots),
            *(line(lay("c0", zero), lay("c1", one), "cursors open 10") for zero, one in pairs), ""]


STEPS_BESIDE_10 = "cursors begin; cursors from 10; cursors start; cursors open 10"


def of_starts():
    """Slots that say where the ledger begins, and bodies behind one that makes s at 4, where it begins at 2."""
    s, t = b"s", b"t"
    front, start = b"\0" + record_bytes(MADE, s, 4), (2, 3)
    good = [record_bytes(MADE, t, 2), record_bytes(REMOVED, s), record_bytes(THROUGH, s, 9), record_bytes(REMOVED, s) + record_bytes(MADE, s, 2), b""]
    bad = [record_bytes(MADE, t, 1), b"\6", b"\6" + little(3, 8) + little(3, 8), record_bytes(REMOVED, s) + record_bytes(MADE, s, 1)]
    starts = [(0, 0), start, (4, 3), (10, 4), (11, 4), (0, 3), (2, 0), (2, LAST_FIRST), (2, LAST_FIRST + 1), (2**62, 4), (2**64 - 1, 2**64 - 1)]
    lines = []
    for what, items in (("records or none", good), ("what can't stand there", bad)):
        files = [log_of(front, b"\0" + it, end=end, start=start) for it in items for end in ((b"\0",) if items is good else (b"\0", b"\1"))]
        lines += [f"# - behind a header that says where the ledger begins {what}", *(line(lay("c0", it), STEPS_BESIDE_10) for it in files), ""]
    return [*lines, "# - each start", *(line(lay("c0", log_of(front, start=it)), STEPS_BESIDE_10) for it in starts), "",
            "# - such a file that is changed, and cut at each length", *changed({"c0": log_of(front, start=start)}, "c0", STEPS_BESIDE_10), "",
            "# - headers of slots that say where the ledger begins", *of_start_headers(front), ""]


def of_start_headers(front):
    """Each kind of header of slot 0 beside each kind of slot 1, of a lower, an equal and a higher generation."""

    def kinds(generation, first):
        whole, last = log_of(front, number=generation, start=(2, first)), log_of(front, number=LAST_GENERATION, start=(2, first))
        return [whole, whole[:31], b"\0" + whole[1:], whole[:1] + b"\0" + whole[2:], whole[:7] + b"\1" + whole[8:], last,
                log_of(front, b"\7", number=generation, start=(2, first))]

    return [line(lay("c0", zero), lay("c1", one), STEPS_BESIDE_10) for zero in kinds(3, 5) for generation in (2, 3, 4) for one in kinds(generation, 6)]


# Headers of slots


def of_kinds(generation, bodies):
    """The bytes of slots whose headers are of each kind, with so many empty bodies of two."""
    batches = b"".join(b"\1\0\0\0\0" for _ in range(bodies)) + bytes(16 - 5 * bodies)
    whole = header(generation, 1) + batches

    def with_byte(at, byte, content=whole):
        return content[:at] + bytes([byte]) + content[at + 1:]

    last = header(LAST_GENERATION, 1) + batches
    return [whole[:31], with_byte(0, 0)[:HEADER], with_byte(0, 7), whole, with_byte(1, 0), with_byte(7, 1), with_byte(36, 0x7f), last,
            with_byte(7, 1, last), whole[:HEADER]]


def of_headers():
    zeros, ones = of_kinds(3, 1), [kind for generation in (2, 3, 4) for kind in of_kinds(generation, 2)]
    return ["# - each kind of header of slot 0 beside each kind of slot 1, of a lower, an equal and a higher generation",
            *(line(lay("c0", zero), lay("c1", one), "slots open") for zero in zeros for one in ones),
            "# - a header of slot 1 that is cut short",
            *(line(lay("c0", log_of(b"")), lay("c1", log_of(number=2)[:size]), "slots open") for size in (0, 15, 16, 31, 32, 33)), ""]


# Bodies of records


POSITIONS = ((0, 0), (1, 3), (3, 1), (2, 2), (4, 3), (0, 4))


def of_bodies():
    """Behind a subscription each two records, of all kinds; a second one that makes a subscription makes another."""
    lines = ["# - bodies of each two records behind one that makes a subscription"]
    for first in (MADE, REMOVED, ONE, THROUGH, RANGE):
        for second in (MADE, REMOVED, ONE, THROUGH, RANGE):
            name = b"b" if second == MADE else b"a"
            for low, high in POSITIONS:
                body = b"\0" + b"".join(record_bytes(kind, of, *positions[:{REMOVED: 0, RANGE: 2}.get(kind, 1)])
                                        for kind, of, positions in ((MADE, b"a", (1,)), (first, b"a", (low, high)), (second, name, (high, low))))
                lines.append(f"kept body 4 {body.hex()}")
    return [*lines, ""]


# Names


def of_names():
    parts = ((255, 255, 255), (256, 255, 255), (255, 256, 255), (255, 255, 256), (1, 1, 1), (0, 1, 1), (1, 0, 1), (1, 1, 0))
    names = [b"persistent:/" + b"".join(b"/" + b"a" * size for size in sizes) for sizes in parts]
    return ["# - names at their limits", *(f"name bytes {name.hex()}" for name in [*names, b"z" * 255, b"z" * 256]), ""]


def of_many_names():
    """Up to the limits."""
    texts = [f"persistent://a/b/{number:02}" for number in range(65)]
    added = "; ".join(f"catalog add {text}" for text in texts)
    found = "; ".join(f"catalog find {text}; catalog name {number}" for number, text in enumerate(texts))
    assert all(is_topic(text.encode()) for text in texts)
    batches = [b"\1" + len(text).to_bytes(4, "little") + text.encode() for text in texts]
    files = [header(2, 1) + b"".join(batches[:count]) + b"\0" for count in (64, 65)]
    subscriptions = [b"\0" + b"".join(record_bytes(MADE, b"n%02d" % number, 0) for number in range(count)) for count in (64, 65)]
    slots = [header(1, 1) + b"\1" + len(body).to_bytes(4, "little") + body + b"\0" for body in subscriptions]
    return ["# - sixty-four names and one more", line("catalog create 2", added, "catalog state", found, "catalog open; catalog state", found),
            *(line(lay("catalog", content), "catalog open") for content in files), "",
            "# - sixty-four subscriptions and one more", *(line(lay("c0", content), "cursors open 10") for content in slots), ""]


# At random


def some_step(chance, file):
    kind = chance.choice(("write", "write", "write", "cut", "cut", "sync", "crash", "persist", "read", "stop", "fail"))
    if kind in ("write", "persist"):
        return f"{kind} {file} {chance.randrange(12)} {chance.randbytes(chance.randrange(5)).hex() or '-'}"
    if kind == "read":
        return f"read {file} {chance.randrange(12)} {chance.randrange(6)}"
    if kind == "crash":
        return f"crash {chance.choice(FORMS)}"
    return {"cut": f"cut {file} {chance.randrange(10)}", "sync": f"sync {file}"}.get(kind, f"{kind} {chance.randrange(1, 5)}")


def at_random():
    chance = random.Random(SEED)
    lines = []
    for _ in range(LINES):
        steps = [some_step(chance, chance.choice(("e0", "e0", "c1"))) for _ in range(STEPS)]
        lines.append(line("write e0 0 6162636465666768; sync e0", *steps, "file e0; file c1", f"crash {chance.choice(FORMS)}", "file e0; file c1"))
    return ["# calls of the device at random", *lines]


def made_lines(_hand):
    parts = (of_logs, of_journals, of_ledgers, of_slots, of_cursors, of_catalogs, of_damage, of_named_damage, of_records, of_headers, of_bodies,
             of_names, of_many_names, of_due_replaces, at_random)
    return [BEGINS, *(made for part in parts for made in part())]
