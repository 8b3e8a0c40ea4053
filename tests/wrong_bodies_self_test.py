"""Shows that tests/wrong_bodies can fail: over a repository of one small crate, made for it, with wrong bodies that are none.

A body that is right, also of a function that calls a wrong one, one whose old text stands nowhere and one that can't be read are each told by name, with
status 1, beside wrong bodies that are refused; those alone pass, and so does a right body where it must be proved. Told too are a right body that is
refused, a crate that isn't proved without an edit, and each edit of which the gate's own function says otherwise. What was refused isn't tried again
until a text of the crate is another one, where the kit's gate remembers. A crate that was tried as it stands is left to its own third of the runs, and one
that changed is tried in each.
"""
import os
import shutil
import subprocess
import sys
import tempfile
from concurrent.futures import ThreadPoolExecutor

TOP = os.path.dirname(os.path.dirname(os.path.realpath(__file__)))
sys.dont_write_bytecode = True
sys.path.insert(0, f"{TOP}/tests")
from kit import gate_remembers  # noqa: E402

TOOLS = ("tests/wrong_bodies", "tests/trial.py", "tests/turns.py", "tests/functions.py", "tests/kit.py", "tests/meter.py", "tools/prove", "tools/kit.py", "tools/metered",
         "tools/costs")
SOURCE = """//! Two numbers.
#![tactic(auto)]

ghost use Rattle.std.specs.Prelude.{◌≡◌};

/// The first of them.
pub fn first(a: u64, b: u64) -> u64
    ensures { result ≡ a }
{
    let pair = (a, b);
    pair.0
}

/// The second of them.
pub fn second(a: u64, b: u64) -> u64
    ensures { result ≡ b }
{
    let both = (a, b);
    both.1
}

/// The first of them again.
pub fn first_again(a: u64, b: u64) -> u64
    ensures { result ≡ a }
{
    first(a, b)
}
"""
WRONG = {"first_is_the_second": ("pair.0", "pair.1"), "second_is_the_first": ("both.1", "both.0")}
RIGHT = {"first_behind_a_pair": ("pair.0", "(pair.0, pair.1).0")}
NOT_WRONG = {
    "a_right_body": ("pair.0", "(pair.0, pair.1).0", "NOT REFUSED"),
    "a_right_caller_of_a_wrong_body": ("    first(a, b)", "    (first(a, b), b).0", "NOT REFUSED"),
    "of_a_body_that_is_gone": ("pair.2", "pair.1", "it can't be applied"),
    "not_to_be_read": ("pair.0", "pair.0.(", "it did not reach the prover"),
}
KNOWN = gate_remembers()
AS_THE_GATE_SAYS = ""
AS_IT_NEVER_SAYS = "kit.must_fail = lambda *_: (kit.MISSED, 'still proved')\n"
CALL = """import importlib.machinery, importlib.util, sys
sys.argv = sys.argv[1:]
loader = importlib.machinery.SourceFileLoader("wrong_bodies", sys.argv[0])
tool = importlib.util.module_from_spec(importlib.util.spec_from_loader("wrong_bodies", loader))
loader.exec_module(tool)
kit = tool.load_kit()
{gate}tool.load_kit = lambda: kit
sys.exit(tool.main())
"""


class Repository:
    """A repository of the crate alone, which the tools stand in."""

    def __init__(self, folder):
        self.folder, self.crate = folder, f"{folder}/crates/two"
        for tool in TOOLS:
            os.makedirs(os.path.dirname(f"{folder}/{tool}"), exist_ok=True)
            shutil.copy(f"{TOP}/{tool}", f"{folder}/{tool}")
        os.makedirs(f"{self.crate}/src")
        with open(f"{folder}/crates.txt", "w", encoding="ascii") as file:
            file.write("two:\n")
        self.change(SOURCE)
        subprocess.run(["git", "init", "--quiet"], cwd=folder, check=True)

    def change(self, source):
        """Makes the source this one, with a line that nobody tried yet."""
        with open(f"{self.crate}/src/lib.rt", "w", encoding="utf-8") as file:
            file.write(f"{source}// {os.urandom(8).hex()}\n")

    def lay(self, kind, edits):
        """Has these edits alone stand in a folder of the crate."""
        shutil.rmtree(f"{self.crate}/{kind}", ignore_errors=True)
        os.makedirs(f"{self.crate}/{kind}")
        for name, (old, new, *_) in edits.items():
            with open(f"{self.crate}/{kind}/{name}.edit", "w", encoding="utf-8") as file:
                file.write(f"file: src/lib.rt\nold: {old}\nnew: {new}\n")

    def tries(self, *flags, wrong=WRONG, right=RIGHT, gate=AS_THE_GATE_SAYS):
        """What the tool says of these edits, and its exit status."""
        self.lay("wrong-bodies", wrong)
        self.lay("right-bodies", right)
        words = [sys.executable, "-c", CALL.format(gate=gate), f"{self.folder}/tests/wrong_bodies", *flags]
        done = subprocess.run(words, stdout=subprocess.PIPE, stderr=subprocess.STDOUT, text=True, check=False)
        return done.stdout, done.returncode


class Findings:
    """What the tool got wrong, and of how many tries."""

    def __init__(self):
        self.count, self.wrong = 0, []

    def look(self, what, said_and_status, status, *wanted, told=0):
        """Notes it where the tool ended otherwise, didn't say one of these words, or told of another number of edits or crates."""
        said, ended = said_and_status
        self.count += 1
        lines = [line for line in said.splitlines() if line.startswith("two/") or "without an edit" in line]
        if ended != status or len(lines) != told or any(it not in said for it in wanted):
            self.wrong.append(f"{what}, status {ended}, {len(lines)} told, wanted {status}, {told} and {wanted}:\n{said}")


def look_at_refused(found, repository):
    """Wrong bodies that are refused, which are remembered; one function's alone; and the gate's judgement of them, as it is and as it isn't."""
    tried, again = "two: 2 wrong bodies in 4 checks, 2 refused; 1 right bodies\n", "two: 2 wrong bodies in 0 checks, 2 refused, 2 of them by an earlier run on this machine\n"
    found.look("wrong bodies", repository.tries(), 0, tried)
    found.look("wrong bodies, again", repository.tries(), 0, again if KNOWN else tried)
    found.look("wrong bodies of a function", repository.tries("two", "--of", "first", "--anew"), 0, "two: 1 wrong bodies in 3 checks, 1 refused\n")
    found.look("wrong bodies of no function", repository.tries("two", "--of", "third"), 2)
    found.look("the gate's judgement", repository.tries("--judged", "2"), 0, "2 refused", "; the gate judged 2\n")
    found.look("another judgement", repository.tries("--judged", "2", "--anew", gate=AS_IT_NEVER_SAYS), 1, "the gate's own judgement DIFFERS", told=2)
    repository.change(SOURCE)
    found.look("a changed crate", repository.tries("--behind-the-gate"), 0, tried)


def look_at_runs(found, repository):
    """Runs of the whole: all is tried, the file says so, and then one run of three tries the crate, and each one once it changed."""
    found.look("a run of all", repository.tries("--run", "0", "--all", "--record"), 0, "two: 2 wrong bodies")
    found.look("a run of another third", repository.tries("--run", "1"), 0, "0 of 1 crates in run 1, 0 changed", "wrong bodies: 0 of 0 crates")
    found.look("a run of its third", repository.tries("--run", "3"), 0, "1 of 1 crates in run 3, 0 changed", "two: 2 wrong bodies")
    repository.change(SOURCE)
    found.look("a run of another third behind a change", repository.tries("--run", "1"), 0, "1 of 1 crates in run 1, 1 changed", "; the gate judged 2\n")


def look_at_faults(found, repository):
    """What must be told."""
    wanted = [f"two/{name}: {why}" for name, (_, _, why) in NOT_WRONG.items()]
    found.look("bodies that aren't wrong", repository.tries("--anew", wrong={**WRONG, **NOT_WRONG}), 1, ", 2 refused", *wanted, told=len(NOT_WRONG))
    refused = {"second_is_the_first": WRONG["second_is_the_first"]}
    found.look("a right body that is refused", repository.tries(right={**RIGHT, **refused}), 1, "two/second_is_the_first: a RIGHT body is REFUSED", told=1)
    repository.change(SOURCE.replace("both.1", "both.0"))
    wrong = {"first_is_the_second": WRONG["first_is_the_second"], "second_is_a_sum": ("both.0", "both.0 + both.0")}
    found.look("a crate that isn't proved", repository.tries(wrong=wrong), 1, "two: it isn't proved without an edit", told=1)


def findings_of(look, folder):
    found = Findings()
    look(found, Repository(f"{folder}/{look.__name__}"))
    return found


def main():
    """Makes the looks side by side, each over a repository of its own."""
    looks = (look_at_refused, look_at_runs, look_at_faults)
    with tempfile.TemporaryDirectory(prefix="wrong-bodies-self-test-") as folder, ThreadPoolExecutor(len(looks)) as pool:
        found = list(pool.map(lambda look: findings_of(look, folder), looks))
    wrong = [it for look in found for it in look.wrong]
    print(*wrong, sep="\n", end="\n" if wrong else "")
    print(f"wrong bodies that aren't: {sum(look.count for look in found)} tries, of which {len(wrong)} went otherwise")
    return 1 if wrong else 0


if __name__ == "__main__":
    sys.exit(main())
