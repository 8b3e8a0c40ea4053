"""Tries the wrong bodies of one crate: over which kept work, in which groups, and what the prover says of each.

An edit is refused where its function has an open goal of its own in a check of a group, or, alone, where the whole crate isn't proved any more. So
nothing is taken for refused that only the kept work or the group makes so, each crate is checked once over the same work without an edit, and with its
right bodies in, and must be proved both times.
"""
import errno
import os
import re
import shutil

from functions import callees_of, changes_of, functions_changed, with_changes

MISSING_NAME = re.compile(r"(\./)?proofs/.*(has no field|is not in scope|has no `|was not admitted)")
NO_FUNCTION = re.compile(r"^rattle: error: .* has no function `([^`]*)`", re.M)
STANDS_ON = re.compile(r"it stands on (`[^;]*`), which antt refuses")
MOST = 16  # wrong bodies of a group
SEED, GROUPS, ALONE, GATES = "seed", "groups", "alone", "gate's"  # what a check is for; a folder of kept work has that name


def only(functions):
    """The flags by which a check is of these functions, and of what they call, alone."""
    return [word for path in sorted({it.path for it in functions}) for word in ("--only", path)]


class Edit:
    """A change of a crate's text: its texts of the files that it changes, and the functions whose text it changes."""

    def __init__(self, kit, crate, path):
        self.path, self.name = path, f"{crate.name}/{os.path.basename(path)[:-len('.edit')]}"
        with open(path, encoding="utf-8") as file:
            self.texts, self.fault = kit.edited(file.read(), crate.folder)
        self.changes = {} if self.fault else {path: changes_of(crate.folder, path, text) for path, text in self.texts.items()}
        self.functions = functions_changed(crate.folder, crate.name, self.changes) or []

    def is_of(self, name):
        """Whether it changes a function whose name ends so."""
        return any(f"::{it.name}".endswith(f"::{name}") for it in self.functions)


class Work:
    """A crate's kept work: `seed` is what checks of the crate as it stands left, in part or whole; a check with edits goes over a copy of it in `room`."""

    def __init__(self, kit, crate, seed, room):
        self.kit, self.crate, self.seed, self.room, self.checks, self.whole = kit, crate, seed, room, 0, None
        os.makedirs(seed, exist_ok=True)

    def checked(self, texts, flags, over):
        """What the prover says of the crate with these texts, over this folder."""
        self.checks += 1
        ran = self.kit.checked(self.crate, texts, ["--jobs", "1", *flags], over)
        if os.strerror(errno.ENOSPC) in ran.stdout:
            raise OSError(errno.ENOSPC, os.strerror(errno.ENOSPC))
        return ran

    def make_seed(self, flags):
        """What the prover says of the crate as it stands, of which the seed is made."""
        held = self.kit.rtlib.lock([self.crate])  # the seed may be the work that `rt check` keeps
        try:
            return self.checked({}, flags, self.seed)
        finally:
            for it in held:
                os.close(it)

    def over_a_copy(self, kind, call):
        """What a call says that is given a copy of the seed, which is gone then."""
        copy = f"{self.room}/{kind}"
        self.kit.linked(self.seed, copy)
        try:
            return call(copy)
        finally:
            shutil.rmtree(copy, ignore_errors=True)

    def texts_with(self, edits):
        """The texts of the files that these edits change, which change different lines."""
        return {path: with_changes(self.crate.folder, path, [change for it in edits for change in it.changes.get(path, ())])
                for path in {path for it in edits for path in it.changes}}

    def check(self, kind, edits, flags=()):
        """What the prover says of the crate with these edits in it."""
        return self.over_a_copy(kind, lambda copy: self.checked(self.texts_with(edits), flags, copy))

    def is_proved_whole(self):
        """Whether the whole crate is proved as it stands, of which a seed in parts is made whole."""
        if self.whole is None:
            self.whole = self.make_seed([]).returncode == 0
        return self.whole

    def gates_judgement(self, edit):
        """What the gate's own function says of an edit, as it tries those of must-fail."""
        return self.over_a_copy(GATES, lambda copy: self.kit.must_fail(self.crate, edit.path, ["--jobs", "1"], copy))


class Trial:
    """Some edits of a crate, and what became of each: `faults`, in `refused` the wrong bodies that are refused, and in `proved` the right ones that are not."""

    def __init__(self, work, edits, rights):
        self.work, self.crate, self.kit = work, work.crate, work.kit
        self.faults = [f"{it.name}: it can't be applied: {it.fault}" for it in [*edits, *rights] if it.fault]
        self.left, self.rights = ([it for it in some if not it.fault] for some in (edits, rights))
        self.refused, self.proved, self.nameless, self.why = [], [], set(), ""

    def named(self, edits):
        """Those of which the prover knows each function by name, so that these alone can be checked."""
        return [it for it in edits if it.functions and not any(function.path in self.nameless for function in it.functions)]

    def check_named(self, check, edits):
        """What a check says of the functions that these edits change, or none where there is nothing to check; a name that the prover doesn't know is left out."""
        while named := self.named(edits):
            ran = check(named, only(function for it in named for function in it.functions))
            lacking = NO_FUNCTION.search(ran.stdout)
            if not lacking or lacking[1] in self.nameless:
                return ran
            self.nameless.add(lacking[1])
        return None

    def is_proved(self):
        """Whether the crate is proved as it stands: first what the edits change, of which the kept work is made, and then over that work, as groups are."""
        both = [*self.left, *self.rights]
        made = self.check_named(lambda _, flags: self.work.make_seed(flags), both)
        if made and made.returncode:
            return self.is_not(made)
        if len(self.named(both)) < len(both) and not self.work.is_proved_whole():
            return False
        again = self.check_named(lambda _, flags: self.work.check(GROUPS, [], ["--allow-holes", *flags]), both)
        return not again or again.returncode == 0 or self.is_not(again)

    def is_not(self, ran):
        """That the crate isn't proved, by the last line of this check."""
        self.why = f" ({ran.stdout.rstrip().rpartition(chr(10))[2][:200]})"
        return False

    def try_rights(self):
        """Tries the right bodies, all at once, and each by itself where something is refused then."""
        bad = self.refused_rights(self.rights) and ([it for it in self.rights if self.refused_rights([it])] or self.rights)
        self.faults += [f"{it.name}: a RIGHT body is REFUSED: groups of this crate can't be trusted" for it in bad]
        self.proved = [it for it in self.rights if it not in bad]

    def refused_rights(self, some):
        """These right bodies, where not all of their functions are proved with them."""
        named = self.check_named(lambda edits, flags: self.work.check(GROUPS, edits, ["--allow-holes", *flags]), some)
        others = [it for it in some if it not in self.named(some)]
        is_well = (not named or named.returncode == 0) and (not others or self.work.check(GROUPS, others, ["--allow-holes"]).returncode == 0)
        return [] if is_well else some

    def try_group(self, group):
        """Which edits of the group are refused, each by a goal of its own. The changed functions alone are checked, where the prover knows their names."""
        named = self.check_named(lambda edits, flags: self.work.check(GROUPS, edits, ["--allow-holes", *flags]), group)
        found = self.refused_of(self.named(group), named) if named else []
        others = [it for it in group if it not in self.named(group)]
        return found + (self.refused_of(others, self.work.check(GROUPS, others, ["--allow-holes"])) if others else [])

    def refused_of(self, group, ran):
        if ran.returncode not in (0, 1) or any(self.kit.unread(line, set()) for line in ran.stdout.split("\n")):
            return []
        verdict = Verdict(ran.stdout)
        return [edit for edit in group if any(verdict.refuses(function) for function in edit.functions)]

    def try_alone(self, edit):
        """Why this edit isn't refused, if it isn't, by a check of the whole crate."""
        if not self.work.is_proved_whole():
            return "the crate isn't proved as it stands"
        ran = self.work.check(ALONE, [edit])
        lines = ran.stdout.rstrip("\n").split("\n")
        unread = next((line for line in lines if self.kit.unread(line, edit.texts)), None)
        if unread:
            return f"the prover can't read it: {unread[:200]}"
        if ran.returncode == 0:
            return "NOT REFUSED: the crate is still proved with it"
        if ran.returncode != 1 or not lines[-1].startswith("logic=not-proved"):
            return f"it did not reach the prover: {' '.join(lines[:3])[:300]}"
        told = [line for line in lines if re.match(r"(note: )?\S+:\d+:\d+:", line) and (": error" in line or line.startswith("note: "))]
        if told and all(MISSING_NAME.match(line) for line in told):
            return f"it is refused only because a proof file names what it took away: {told[0][:200]}"
        return None

    def next_group(self, wanted, calls_of):
        """Edits of these of different functions, none of which calls another one, as far as their texts show."""
        group, taken, called = [], set(), set()
        for edit in wanted:
            names = {it.name for it in edit.functions}
            calls = set().union(*(calls_of[name] for name in names))
            if len(group) < MOST and not names & taken and not calls & taken and not names & called:
                group.append(edit)
                taken |= names
                called |= calls
        return group

    def try_groups(self, wanted, calls_of, led_to):
        """Tries these edits in groups; answers those which aren't refused, and may have waited for another one of their group."""
        waited = []
        while group := self.next_group(wanted, calls_of):
            found, changed = self.try_group(group), {it.name for edit in group for it in edit.functions}
            self.refused += found
            self.left = [it for it in self.left if it not in found]
            waited += [it for it in group if it not in found and any(led_to[function.name] & changed for function in it.functions)]
            wanted = [it for it in wanted if it not in group]
        return waited

    def run(self):
        """Tries all. Behind groups whose functions don't call one another come, for edits that may have waited there for a function that a call leads to, groups
        in which none leads to another one, and then lone edits."""
        if not self.is_proved():
            self.faults.append(f"{self.crate.name}: it isn't proved without an edit{self.why}, so none of its wrong bodies was tried")
            return
        was = self.kit.listing(self.work.seed)
        self.try_rights()
        direct, led_to = callees_of(self.crate.folder, self.crate.name)
        waited = self.try_groups([it for it in self.left if it.functions], direct, led_to)
        self.try_groups(waited, led_to, led_to)
        if self.kit.listing(self.work.seed) != was:
            self.faults.append(f"{self.crate.name}: a check changed the kept work that it was given a copy of, so nothing is known of its wrong bodies")
            self.refused = []
            return
        for edit in self.left:
            why = self.try_alone(edit)
            self.faults += [f"{edit.name}: {why}"] if why else []
            self.refused += [] if why else [edit]

    def compare(self, edits):
        """Has the gate's own function judge some of the refused edits too, and tells where it says otherwise; such an edit counts as refused no more."""
        judged = [it for it in edits if it in self.refused]
        if judged and not self.work.is_proved_whole():
            self.faults.append(f"{self.crate.name}: it isn't proved as it stands, so the gate's judgement wasn't asked")
            return
        found = {it: self.work.gates_judgement(it) for it in judged}
        others = [it for it, (kind, _) in found.items() if kind not in (self.kit.REFUSED, self.kit.AT_LIMIT)]
        self.faults += [f"{it.name}: the gate's own judgement DIFFERS: {found[it][1]}" for it in others]
        self.refused = [it for it in self.refused if it not in others]


class Verdict:
    """What a check says of each function."""

    def __init__(self, said):
        self.lines, self.errors = {}, {}
        for line in said.split("\n"):
            function = re.match(r"(?:fn|struct|impl) (\S+): (.*)", line)
            error = re.match(r"(?:\./)?proofs/(\S+?)\.antt:\d+:\d+: error", line)
            if function:
                self.lines[function[1]] = function[2]
            if error and not MISSING_NAME.match(line):
                self.errors[error[1].replace("/", ".")] = line

    def refuses(self, function):
        """Whether a goal of this function is open, or an answer of its own proof doesn't fit any more."""
        return any(self.is_own(name, said) for name, said in self.lines.items() if function.is_named(name))

    def is_own(self, name, said):
        if said.startswith("no proof"):
            return not said.startswith("no proof: it calls")
        own, stands_on = ".".join(name.split("::")[1:]) + ".", STANDS_ON.search(said)
        places = re.findall(r"`Rattle\.\w+\.proofs\.([^`]*)`", stands_on[1]) if stands_on else []
        return said.startswith("not proved") and any(
            place.startswith(own) and place.startswith(f"{file}.") for place in places for file in self.errors)
