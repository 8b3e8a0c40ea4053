"""Which wrong bodies a run of the whole tries: a third of the crates, those first that changed since they were tried, and twelve that the gate judges too.

What was tried stands in the file `tests/wrong_bodies.tried`: a line for each crate of which all was found as it must be, with a sum of its texts as they were
then and the processor seconds that its wrong bodies took from nothing. `./test --all` writes it when it passes, and `tests/wrong_bodies --record` the lines of
the crates that it tries. (A sum says what changed in a fresh or shallow clone too, behind a rebase, and before a commit; a commit's name would say it only
where the history has that commit.) The seconds change only with a line, so the thirds mostly stay, and three runs one behind another try every crate, where the
time holds; a run says which crates of its third it leaves out.
"""
import hashlib
import os

TRIED = "tests/wrong_bodies.tried"
THIRDS = 3
MOST_SECONDS = 45 * 60  # of processors, which a run may take
JUDGED = 12  # edits that the gate's own function judges in a run
BLOCKS = 3  # in so many places of all
A_LINE, AN_EDIT = 0.2, 25  # processor seconds of a line of src/ and of an edit, where a crate's own weren't measured
PARTS = ("src", "specs", "proofs", "wrong-bodies", "right-bodies")


def texts_of(folder):
    """The texts of a crate that say whether its wrong bodies were tried as they stand, by their paths."""
    paths = sorted(os.path.relpath(f"{at}/{name}", folder) for part in PARTS for at, _, names in os.walk(f"{folder}/{part}") for name in names)
    for path in paths:
        with open(f"{folder}/{path}", "rb") as file:
            yield path, file.read()


def sum_of(folder):
    found = hashlib.sha256()
    for path, text in texts_of(folder):
        found.update(repr((path, text)).encode())
    return found.hexdigest()[:16]


class Tried:
    """What the file says: of each crate the sum of the texts that were tried, and the seconds that it took."""

    def __init__(self, top):
        self.path, self.rows = f"{top}/{TRIED}", {}
        if os.path.exists(self.path):
            with open(self.path, encoding="ascii") as file:
                rows = [line.split() for line in file if not line.startswith("#")]
            self.rows = {name: (tried, int(seconds)) for name, tried, seconds in rows}

    def is_changed(self, crate):
        return self.rows.get(crate.name, ("", 0))[0] != sum_of(crate.folder)

    def seconds(self, crate):
        """What a crate takes: as measured, or by its lines and edits."""
        if crate.name in self.rows:
            return self.rows[crate.name][1]
        texts = dict(texts_of(crate.folder))
        edits = sum(path.startswith("wrong-bodies/") for path in texts)
        return int(A_LINE * sum(text.count(b"\n") for path, text in texts.items() if path.startswith("src/")) + AN_EDIT * edits)

    def note(self, crate, seconds):
        """Notes that all of a crate was found as it must be, and took so many seconds from nothing, or none where that isn't known."""
        self.rows[crate.name] = (sum_of(crate.folder), self.seconds(crate) if seconds is None else seconds)

    def write(self, path):
        with open(path, "w", encoding="ascii") as file:
            file.write("# What tests/wrong_bodies tried last: of each crate a sum of its texts, and the processor seconds of its wrong bodies.\n")
            file.write("".join(f"{name} {tried} {seconds}\n" for name, (tried, seconds) in sorted(self.rows.items())))


def thirds_of(crates, seconds):
    """The crates in three lists that take about the same: the dearest first, each into the list that has least."""
    lists = [[] for _ in range(THIRDS)]
    for crate in sorted(crates, key=lambda it: (-seconds(it), it.name)):
        min(lists, key=lambda it: sum(map(seconds, it))).append(crate)
    return lists


def crates_of_run(crates, number, tried):
    """The crates that run `number` tries, and those of its third that it leaves out: it tries the changed ones of its third, the changed others, the cheapest
    first, and the rest of its third, as far as the time goes. Of the first kind all, however long they take."""
    third = thirds_of(crates, tried.seconds)[number % THIRDS]
    changed = [it for it in crates if tried.is_changed(it)]
    first, others = [it for it in third if it in changed], [it for it in changed if it not in third]
    chosen, left = first, MOST_SECONDS - sum(map(tried.seconds, first))
    for crate in [*sorted(others, key=tried.seconds), *(it for it in third if it not in changed)]:
        if tried.seconds(crate) <= left:
            chosen, left = [*chosen, crate], left - tried.seconds(crate)
    return [it for it in crates if it in chosen], [it for it in third if it not in chosen]


def judged_of_run(paths, number):
    """The twelve edits of all that run `number` has the gate judge too: four one behind another in each of three places, which the next turn moves on."""
    each, turn = JUDGED // BLOCKS, number // THIRDS
    places = [each * turn + block * len(paths) // BLOCKS + step for block in range(BLOCKS) for step in range(each)]
    return {paths[place % len(paths)] for place in places} if paths else set()
