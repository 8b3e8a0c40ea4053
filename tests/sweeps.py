"""The device stops, or fails once, at each of its calls, and what is found afterwards is compared with what was told.

Each sweep is a script with a failure at its call k, a crash of some form, and lines that look at what is left; there is one for each k and
form. Its lines aren't known beforehand: a judge reads them, and says what is wrong.
"""
import re

CONNECT = "bytes 0 0000000d00000009080212050a01632005\n"
BEGIN = f"init 2\nopen\n{CONNECT}bytes 0 000000200000001c08052a180a1270657273697374656e743a2f2f612f622f6310011807\n"
SUBSCRIBE = "bytes 0 00000027000000230804221f0a1270657273697374656e743a2f2f612f622f631201731800200228086801\n"
FLOW = "bytes 0 0000000c00000008080b5a0408021001\n"
END = "flush 0\npump 0\n"


def send(sequence_id):
    return f"bytes 0 0000001a00000008080632040801100{sequence_id}0000000a0a017010001801c03e05\n"


# Three messages, each flushed, in ledgers of two.
SENDS = "".join(send(n) + END for n in range(3))

# A subscription, a message that it gets, and its acknowledgement; and a new session that gets what the subscription has open.
CONSUMES = f"{SUBSCRIBE}{send(0)}flush 0\n{FLOW}pump 0\nbytes 0 0000001400000010080a520c080210001a04080010004009\n{END}"
CONSUMES_AGAIN = f"open\n{CONNECT}{SUBSCRIBE}{FLOW}{END}"

# Two subscriptions and two messages; then all up to the second one is acknowledged on the first, the other is removed, and the producer closes.
CHANGES = (SUBSCRIBE + "bytes 0 00000027000000230804221f0a1270657273697374656e743a2f2f612f622f631201741800200328096801\n" + send(0) + send(1) + END
           + "bytes 0 0000001400000010080a520c080210011a04080010014009\nbytes 0 0000000c00000008080c62040803100a\n"
           + "bytes 0 0000000c00000008080f7a040801100b\n" + END)

# Three messages in flushes that come in parts; the next one is sent between two of them, and the last one waits.
PARTS = "take 0\n{}write 0\nfinish 0\npump 0\n"
SENDS_IN_PARTS = send(0) + "".join(PARTS.format(send(n)) for n in range(1, 4))

# The changes in a flush that comes in parts, beside a message that is sent and a subscription that is made between these.
CHANGES_IN_PARTS = CHANGES[:-len(END)] + PARTS.format(send(2) + f"bytes 0 {'00000027000000230804221f0a1270657273697374656e743a2f2f612f622f63120175180020042809' + '6801'}\n")

# A message of the first topic, and another topic is made; and a new session that has it made or found.
OTHER = "bytes 0 000000200000001c08052a180a1270657273697374656e743a2f2f612f622f6410021808\n"
MAKES = f"{send(0)}{END}{OTHER}status\n"
MAKES_AGAIN = f"status\nopen\n{CONNECT}{OTHER}status\n"

RECEIPT, MESSAGE, ACK_RESPONSE = "08073a", "08094a", "0000000d000000090826b2"
OTHER_IS_MADE = "08118a01090808120573302d7032"
SUCCESS_OF_SUBSCRIBE, SUCCESS_OF_UNSUBSCRIBE = "0000000a00000006080d6a020808", "0000000a00000006080d6a02080a"


def receipted_is_found(said):
    """Each receipted message is found."""
    status = re.findall(r"^T    0 +(\d+) ", said, re.M)
    if len(status) != 1:
        return "it was not opened"
    return "a receipted message is lost" if said.count(RECEIPT) > int(status[0]) else None


def acknowledged_stays_so(said):
    """A message whose acknowledgement was answered doesn't come again."""
    if f"{len((BEGIN + 'fail 1').splitlines())} - ok" not in said:
        return "it did not run"
    return "an acknowledged message came again" if said.count(ACK_RESPONSE) == 1 and said.count(MESSAGE) != 1 else None


def changed_is_found(said):
    """Answered changes are found, and those of one flush all or none."""
    subscribed, acknowledged, removed = (said.count(it) for it in (SUCCESS_OF_SUBSCRIBE, ACK_RESPONSE, SUCCESS_OF_UNSUBSCRIBE))
    left = tuple(len(re.findall(f"^S    0 +{line}$", said, re.M)) for line in ("0 +0 s", "2 +0 s", "0 +0 t"))
    if acknowledged != removed:
        return "one of two answers of a flush"
    if left not in ((0, 0, 0), (1, 0, 1), (0, 1, 0)):
        return "a part of a flush's changes"
    if left == (0, 0, 0) and subscribed:
        return "an answered subscription is lost"
    return "an answered change is lost" if left != (0, 1, 0) and removed else None


def made_or_not(said):
    """A topic that was told is there, and one that was refused is there or isn't; the other one stays, and the next search settles it."""
    told = [re.findall(r"^T +(\d+) +(\d+) +0 +1 (\S+)$", lines, re.M) for lines in re.split(r"^\d+ .*\n", said, flags=re.M) if lines]
    if len(told) != 3:
        return "it was not opened"
    first = ("0", "1", "persistent://a/b/c") if RECEIPT in said else told[1][0]
    if first not in (("0", "0", "persistent://a/b/c"), ("0", "1", "persistent://a/b/c")):
        return "the first topic is lost"
    with_other = [first, ("1", "0", "persistent://a/b/d")]
    if told[1] != with_other and (told[1] != [first] or said.count(OTHER_IS_MADE) > 1):
        return "a topic that was told is lost, or another one is there"
    return None if told[2] == with_other else "the topic is neither found nor made"


def frame(command, entry=""):
    """The hex of a frame with this command, and with an entry behind it."""
    size = len(command) // 2
    return f"{size + 4 + len(entry) // 2:08x}{size:08x}{command}{entry}"


def varint(number):
    return f"{number & 127 | (128 if number > 127 else 0):02x}" + (varint(number >> 7) if number > 127 else "")


def field(number, value):
    """The hex of a field whose value is a message or bytes, in hex."""
    return varint(number * 8 + 2) + varint(len(value) // 2) + value


def sends(first, end):
    """Messages with these sequence ids in one piece."""
    return "bytes 0 " + "".join(frame("0806" + field(6, f"080110{varint(n)}"), "0000000a0a017010001801c03e05") for n in range(first, end)) + "\n"


def acknowledge(positions):
    """One individual acknowledgement of these positions."""
    ids = "".join(field(3, f"080010{varint(position)}") for position in positions)
    return "bytes 0 " + frame("080a" + field(10, f"08021000{ids}4009")) + "\n"


# 4,097 messages and a subscription that has acknowledged the first 4,095 of them, so that 4,096 records stand in slot 0: the flush of the next
# acknowledgement replaces it first.
REPLACES_BEGIN = (f"init 50000\nopen\n{CONNECT}bytes 0 000000200000001c08052a180a1270657273697374656e743a2f2f612f622f6310011807\n"
                  + "".join(sends(n, min(n + 1000, 4097)) + "flush 0\n" for n in range(0, 4097, 1000)) + SUBSCRIBE + "flush 0\n"
                  + acknowledge(range(4095)) + END)
REPLACES = acknowledge([4095]) + END


def acknowledged_or_not(said):
    """All that was acknowledged before is, and the last one where it was answered."""
    left = re.findall(r"^S    0 +(\d+) +0 s$", said, re.M)
    if left not in (["4095"], ["4096"]):
        return "an acknowledgement is away"
    return "an answered acknowledgement is lost" if said.count(ACK_RESPONSE) == 2 and left != ["4096"] else None


# Three messages in ledgers of two, and a subscription that has acknowledged none; then it has acknowledged both of the first segment, and that one is given
# back in the same flush.
TRIMS_BEGIN = BEGIN + SUBSCRIBE + "flush 0\n" + send(0) + send(1) + "flush 0\n" + send(2) + END
TRIMS = "bytes 0 0000001400000010080a520c080210011a04080010014009\n" + END

# The same, where the next message comes with the acknowledgement, and rolls to a third segment, and the slot of the subscription has so many records that it is
# written anew first.
ROLLS_BEGIN = BEGIN + SUBSCRIBE + "flush 0\n" + sends(0, 2) + "flush 0\n" + sends(2, 4) + "flush 0\n" + acknowledge([0] * 4095) + END
ROLLS = "bytes 0 0000001400000010080a520c080210011a04080010014009\n" + send(4) + END


def trimmed_or_not(said):
    """Each entry is there, but those of the first segment where they are acknowledged; which they are where that was answered."""
    left = re.findall(r"^T    0 +3 +(\d+) +(\d+) \S+\nS    0 +(\d+) +0 s$", said, re.M)
    if left not in ([("0", "2", "0")], [("0", "2", "2")], [("2", "1", "2")]):
        return "it has another state than before, behind the acknowledgement and behind the trim"
    return "an answered acknowledgement is lost" if said.count(ACK_RESPONSE) == 1 and left != [("2", "1", "2")] else None


def rolled_and_trimmed_or_not(said):
    """The same of a flush with an entry: that is there before the acknowledgement is, and this before the trim is."""
    left = re.findall(r"^T    0 +(\d+) +(\d+) +(\d+) \S+\nS    0 +(\d+) +0 s$", said, re.M)
    if left not in ([("4", "0", "2", "1")], [("4", "0", "3", "1")], [("5", "0", "3", "1")], [("5", "0", "3", "2")], [("5", "2", "2", "2")]):
        return "it has another state than before and behind each part of the flush"
    return "an answered acknowledgement is lost" if said.count(ACK_RESPONSE) == 2 and left != [("5", "2", "2", "2")] else None


# What is done, what is done after the crash, the judge, up to which call, and the forms of crash behind a stop. A single failure is followed by `old`.
SWEEPS = {
    "receipted": (SENDS, "status\n", receipted_is_found, 20, ("old", "new", "fill 01", "fill 07")),
    "acknowledged": (CONSUMES, CONSUMES_AGAIN, acknowledged_stays_so, 18, ("old", "new", "fill 01", "fill 07")),
    "receipted_in_parts": (SENDS_IN_PARTS, "status\n", receipted_is_found, 20, ("old", "new", "fill 01", "fill 07")),
    "changed_in_parts": (CHANGES_IN_PARTS, "status\n", changed_is_found, 13, ("old", "new", "fill 01", "fill 07")),
    "made": (MAKES, MAKES_AGAIN, made_or_not, 22, ("old", "new", "fill 01", "fill 07")),
    "changed": (CHANGES, "status\n", changed_is_found, 13, ("old", "new", "fill 01", "fill 07")),
    "replaced": (REPLACES, "status\n", acknowledged_or_not, 11, ("old", "new", "fill 01", "fill 07")),
    "trimmed": (TRIMS, "status\n", trimmed_or_not, 13, ("old", "new", "fill 01", "fill 07")),
    "rolled_replaced_and_trimmed": (ROLLS, "status\n", rolled_and_trimmed_or_not, 32, ("old", "new", "fill 01", "fill 07")),
}

# What is done before the failure is ordered.
BEGINNINGS = {"replaced": REPLACES_BEGIN, "trimmed": TRIMS_BEGIN, "rolled_replaced_and_trimmed": ROLLS_BEGIN}


def scripts():
    """The name of each script of each sweep, with the script and its judge."""
    for name, (done, further, judge, calls, forms) in SWEEPS.items():
        for failure, form in [("stop", form) for form in forms] + [("fail", "old")]:
            for call in range(1, calls):
                script = f"{BEGINNINGS.get(name, BEGIN)}{failure} {call}\n{done}crash {form}\n{further}"
                yield f"sweep-{name}-{failure}-{call}-{form.replace(' ', '-')}", script, judge
