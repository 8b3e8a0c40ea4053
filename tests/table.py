"""What programs have in common that compute a table anew: the lines that a crate of tests is asked, in its file stdin, and those that it must
print, in stdout."""
import os
import sys

CRATES = os.path.join(os.path.dirname(os.path.dirname(os.path.realpath(__file__))), "crates")


class Table:
    """The table of a crate. `made` gives the lines that stand behind the hand-written ones, which it gets; the first of them is always `begins`.
    `answers` gives an answer to each line of a list."""

    def __init__(self, crate, begins, made, answers):
        self.crate, self.begins, self.made, self.answers = crate, begins, made, answers

    def read(self, name):
        with open(os.path.join(CRATES, self.crate, name), encoding="utf-8") as file:
            return [line.rstrip("\n") for line in file]

    def write(self, name, lines):
        with open(os.path.join(CRATES, self.crate, name), "w", encoding="utf-8") as file:
            file.write("\n".join(lines) + "\n")

    def write_all(self):
        """Makes the lines behind the hand-written ones anew, and all answers."""
        asked = self.read("stdin")
        hand = asked[:asked.index(self.begins)] if self.begins in asked else asked
        asked = hand + self.made(hand)
        self.write("stdin", asked)
        self.write("stdout", self.answers(asked))

    def differing(self):
        """How many lines there are, and how many answers aren't those that are computed."""
        asked, answers = self.read("stdin"), self.read("stdout")
        count = abs(len(asked) - len(answers))
        for at, (line, answer, wanted) in enumerate(zip(asked, answers, self.answers(asked)), 1):
            if answer != wanted:
                print(f"line {at}: {line}\n  wanted: {wanted}\n  stands: {answer}")
                count += 1
        return len(asked), count

    def main(self, name, usage):
        """Does what the command line says, and ends the program."""
        if sys.argv[1:] == ["--write"]:
            self.write_all()
        elif sys.argv[1:]:
            sys.exit(usage)
        lines, count = self.differing()
        print(f"{name}: {lines} lines, {count} differ")
        sys.exit(1 if count else 0)
